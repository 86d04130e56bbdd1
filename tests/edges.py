"""Inputs at the edges, for tests/cases.py: every refusal of an input alone and in pairs, and the ends of every range."""
import itertools

from floors import ONES, SIXTEENS
from reference import (COST, ESTIMATE, FACTOR, FACTORS, GOALS, LENGTH, ORDER, PLACES, SIZES, arc, default, estimate, factors, head, job, measured,
                       p16, record, wait)

# records that get a number in the map below, in every way that is tried: for 8 and 9 by an estimate of a place, and by a default; for 13 also under a
# default; for 21 two waits for one place, and one with which a lane of either kind is too dear; for 22 a second table, one factor too small or too
# large, and one smaller than the one before
BAD = {
    2: ([record(9, b'')],),
    3: ([record(3, b'\0')], [record(8, bytes(3))]),
    6: ([estimate(3, 1)],),
    8: ([estimate(0, ESTIMATE + 1)], [default(ESTIMATE + 1)]),
    9: ([estimate(1, 1)] * 2, [default(1)] * 2),
    21: ([wait(2, 5)] * 2, [wait(0, COST)], [wait(1, COST)]),
    22: ([factors(FACTORS)] * 2, [factors((0, *FACTORS[1:]))], [factors((*FACTORS[:-1], FACTOR + 1))], [factors((1, 2, 3, 4, 5, 4, 8, 16))]),
    13: ([estimate(2, 4)], [default(4), estimate(2, 4)]),
}


def broken(kinds, ways=None):
    """an input that has the conditions of these refusals, by these records where several get a number, and asks for 56 words and 16 bytes"""
    n, first, arcs, more = 3, head(3, 4), [arc(0, 1, 2), measured(1, 2, 1, 1), arc(2, 0, 2), measured(2, 0, 1, 1)], []
    for number in BAD:
        if number in kinds:
            more += (ways or {}).get(number, BAD[number][0])
    if 4 in kinds:
        more.append(first)
    if 5 in kinds:
        first = head(n, 7)
    if 7 in kinds:
        arcs[2] = arc(2, 0, 0)
    if 20 in kinds:
        arcs[3] = measured(2, 0, 0, 1)
    last = job(n if 11 in kinds else 0, 999, [2, 2] if 12 in kinds else [2])
    return b''.join([first, *arcs, *more, last, last if 10 in kinds else b'', b'\0\0' if 1 in kinds else b''])


def refused():
    """the inputs with words and bytes lent, and the number that is the first in the order"""
    alone = [number for number in ORDER if number not in (14, 15)]
    lent = (56, 16), (55, 16), (56, 15), (55, 15), (0, 0)
    for kinds in itertools.chain([()], itertools.combinations(alone, 1), itertools.combinations(alone, 2)):
        varied = [number for number in kinds if number in BAD]
        for (words, room), *ways in itertools.product(lent, *(BAD[number] for number in varied)):
            holding = {*kinds, *[14] * (words < 56), *[15] * (room < 16)}
            yield broken(kinds, dict(zip(varied, ways))), words, room, next((number for number in ORDER if number in holding), 0)


def ends_of_fields():
    """a field at the last value that is taken, and at the first that is not"""
    one = head(3, 1) + arc(0, 1, 1)
    for n in (0, 1, PLACES, PLACES + 1):
        yield head(n, 0) + job(0, 0, [0])
    for v in (0, 2, 3):
        yield from (head(3, 1) + arc(v, 0, 1) + job(0, 708, [0]), head(3, 1) + arc(0, v, 1) + job(0, 708, [2]))
        yield from (head(3, 1) + measured(v, 0, 1, 0) + job(0, 708, [0]), head(3, 1) + measured(0, v, 1, 0) + job(0, 708, [2]))
        yield from (one + estimate(v, 0) + job(0, 708, [1]), one + wait(v, 1) + job(0, 708, [1]), one + job(v, 708, [1]))
        yield from (one + job(0, 708, goals) for goals in ([v], [0, v], [v, 0]))
    for cost in (0, 1, COST):
        yield head(2, 1) + arc(0, 1, cost) + job(0, 472, [1])
    for length in (0, 1, LENGTH, LENGTH + 1, 65535):
        for class_ in (*range(len(FACTORS) + 1), 65535):
            yield head(2, 1) + measured(0, 1, length, class_) + job(0, 472, [1])
    for w in (0, 1, COST - 1, COST):  # at the start, and at a goal, which no arc leaves
        yield from (head(2, 1) + wait(v, w) + arc(0, 1, 1) + job(0, 472, [1]) for v in (0, 1))
    for w in (15, 16):
        yield head(2, 1) + measured(0, 1, LENGTH, len(FACTORS) - 1) + wait(0, w) + job(0, 472, [1])
    yield from ends_of_factors()
    for first, second in ((1, 2), (2, 1)):  # one of two arcs is too dear
        yield head(2, 2) + arc(0, 1, first) + wait(0, COST - 1) + arc(0, 1, second) + job(0, 472, [1])
    for h in (0, 1, ESTIMATE, ESTIMATE + 1, 2 ** 32 - 1):
        yield from (one + estimate(0, h) + job(0, 708, [1]), one + estimate(0, h) + job(0, 708, [2]), one + estimate(1, h) + job(0, 708, [1]))
    yield from ends_of_defaults()
    for first, second in ((0, 0), (1, 1), (1, 2), (0, 2), (2, 0)):
        yield from (one + twice(2, first) + twice(2, second) + job(0, 708, [1]) for twice in (estimate, wait))
    for v in (3, 65535):
        yield from (one + twice(v, 1) + twice(v, 1) + job(0, 708, [1]) for twice in (estimate, wait))
    for allowance in (0, 1, 2, 2 ** 32 - 1):
        yield one + job(0, allowance, [1])
    for k in (0, 1, GOALS, GOALS + 1):
        yield head(100, 1) + arc(0, 99, 3) + job(0, 23600, list(range(100 - k, 100)))
    for count in (0, 2, 65535):
        yield one + job(0, 708, [1], count)


def with_one_lane(*records, goals=(1,)):
    """these records between a lane from 0 to 1 and a job from 0"""
    return head(3, 1) + arc(0, 1, 1) + b''.join(records) + job(0, 708, goals)


def ends_of_defaults():
    """a default at the last value that is taken and at the first that is not, at the start, where all are goals, and beside another; own estimates
    under it, wherever it stands, and those of a goal, which no default makes wrong; 9 by defaults, by estimates and by both, and 8 before it"""
    for value in (0, 1, ESTIMATE, ESTIMATE + 1, 2 ** 32 - 1):
        yield from (with_one_lane(default(value), goals=goals) for goals in ([1], [2], [0, 1, 2]))
        yield from (with_one_lane(*map(default, two)) for two in ((value, value), (value, 1), (1, value)))
        yield from (with_one_lane(estimate(0, value), default(9), goals=goals) for goals in ([1], [2], [0, 1]))
        yield from (with_one_lane(*mixed) for mixed in itertools.permutations((default(value), estimate(1, 0), estimate(2, 1))))
    yield from (with_one_lane(*map(default, two)) for two in ((0, 2), (2, 0)))
    by_default, by_estimate = (default(5),) * 2, (estimate(2, 5),) * 2
    yield from (with_one_lane(*mixed) for mixed in ((default(5), estimate(2, 5)), by_estimate, (*by_default, *by_estimate)))
    for large in (default(ESTIMATE + 1), estimate(0, ESTIMATE + 1)):
        yield from (with_one_lane(*twice, large) for twice in (by_default, by_estimate))


def with_factors(*tables, class_=1, w=0):
    """a lane of this class, or one without, as long or as dear as it may be with the wait, and these tables behind it"""
    lane = arc(0, 1, COST - w) if class_ is None else measured(0, 1, LENGTH, class_)
    return head(2, 1) + lane + wait(0, w) + b''.join(map(factors, tables)) + job(0, 472, [1])


def ends_of_factors():
    """each factor at the last value that is taken and at the first that is not, also where no lane has a class; equal ones and a fall, at each place;
    two tables; and what a lane with its wait may cost, which goes by the factors that hold"""
    for class_ in (1, None):
        for i in range(8):
            low, high = ONES[:i], SIXTEENS[i + 1:]
            yield from (with_factors((*low, factor, *high), class_=class_) for factor in (0, 1, FACTOR, FACTOR + 1))
        yield from (with_factors((*ONES[:i], 256 + 1, *SIXTEENS[i + 1:]), class_=class_) for i in (0, 7))  # one byte of it would do
        for i in range(1, 8):
            yield from (with_factors((*(5,) * i, factor, *(6,) * (7 - i)), class_=class_) for factor in (4, 5, 6))
            yield with_factors((*SIXTEENS[:i], *ONES[i:]), class_=class_)
        yield from (with_factors(*tables, class_=class_) for tables in ((FACTORS, FACTORS), (ONES, ONES), (ONES, SIXTEENS), (FACTORS, ONES)))
    for w in (15, 16, COST - LENGTH, COST - LENGTH + 1):
        yield from (with_factors(*own, class_=class_, w=w) for own in ([], [ONES], [SIXTEENS], [FACTORS]) for class_ in (0, 7))
    # wherever they stand
    lane, some_wait, own, end = measured(0, 1, LENGTH, 7), wait(0, 16), factors(ONES), job(0, 472, [1])
    yield from (head(2, 1) + b''.join(mixed) + end for mixed in itertools.permutations((lane, some_wait, own)))
    # 22 before 21, also where the first of two tables makes no lane too dear
    yield from (with_factors(*tables, class_=7, w=16) for tables in ((ONES, ONES), (ONES, SIXTEENS), ((0, *ONES[1:]),), ((*ONES[1:], FACTOR + 1),)))


def ends_of_records():
    """a length or a kind around what is taken, bytes left at the end, and records missing, twice or out of order"""
    one, end = head(3, 1) + arc(0, 1, 1), job(0, 708, [1])
    yield from (b'', head(3, 0), end, one, end + one, end + head(3, 0), one + end + end, one + end + arc(0, 1, 1))
    yield from (head(3, 0) + end + arc(0, 1, 1), head(3, 1) + end, one + arc(0, 1, 1) + end)
    # arcs of both kinds count: one too many and just enough of them, before the job and behind it
    yield from (one + measured(0, 1, 1, 0) + end, head(3, 2) + arc(0, 1, 9) + measured(0, 1, 2, 3) + end)
    yield from (head(3, 0) + end + measured(0, 1, 1, 0), one + end + measured(0, 1, 0, 0), head(3, 2) + arc(0, 1, 1) + end + measured(0, 1, 0, 0))
    # a wait behind the job: 10 where nothing is wrong with it, and else what it is given before the job
    yield from (one + end + wait(*w) for w in ((0, 1), (0, COST), (3, 1)))
    yield one + wait(0, 1) + end + wait(0, 1)
    # and so are factors, which hold for 21 there too
    yield from (one + end + factors(table) for table in (FACTORS, ONES, (0, *ONES[1:])))
    yield one + factors(ONES) + end + factors(ONES)
    yield from (head(3, 1) + measured(0, 1, LENGTH, class_) + wait(0, 16) + end + factors(table) for class_, table in ((0, SIXTEENS), (7, ONES)))
    # and so is a default
    yield from (one + end + default(value) for value in (0, 5, ESTIMATE + 1))
    yield one + default(5) + end + default(5)
    yield from (default(5) + one + end, default(5) + end, default(5))
    for kind in (0, 9, 256, 263, 264, 65535):
        yield one + record(kind, b'') + end
    for kind, length in (*SIZES.items(), (4, 8), (4, 10)):
        for size in (length - 1, length, length + 1):
            yield from (one + record(kind, bytes(size)) + end, record(kind, bytes(size)) + one + end)
    for length in range(5):
        yield from (one + end + bytes(length), (one + end)[:-length - 1])
    yield one + p16(65535) + p16(3) + end
