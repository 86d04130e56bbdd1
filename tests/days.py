"""Days for the tests of program `report`: some by hand with what is printed of them, and random ones, good and damaged."""
from floors import ONES, SIXTEENS
from inputs import any_estimates, damaged, records_before_job, some_graph, with_default
from listing import records
from reference import COST, ESTIMATE, FACTORS, arc, default, estimate, factors, head, job, measured, record, route

# jobs of every kind: routes to two goals, one at cost 0, two to a goal that is not named first; no route; the allowance spent; refused by 13, 12, 11 and 3;
# records that are no jobs, and a broken tail
MIXED = records('''
    places 6
    arc from 0 to 1 cost 4
    arc from 1 to 2 cost 3
    arc from 0 to 3 cost 2
    arc from 4 to 0 cost 1
    estimate at 1 is 3
    job start 0 allowance 1416 goals 2
    job start 4 allowance 1416 goals 2 3
    job start 3 allowance 1416 goals 3
    job start 2 allowance 1416 goals 5
    job start 4 allowance 2 goals 2
    job start 0 allowance 1416 goals 1
    job start 0 allowance 1416 goals 3 2
    job start 6 allowance 1416 goals 2
    record 4 00 00
    wait at 1 is 5
    record 99 01 02
    places 6
    job start 0 allowance 1416 goals 2 3 5
    bytes 08 00 04''')
MIXED_LINES = '''0 4
1 1
3 1
10 3
11 1
12 1
13 1
16 1
17 1
12 7 27
2 1 7
3 3 5
'''


def text(lines):
    return ''.join(line + '\n' for line in lines)


def chain(places, cost, jobs):
    """as many jobs over all places of a chain"""
    arcs = b''.join(arc(v, v + 1, cost) for v in range(places - 1))
    return head(places, places - 1) + arcs + jobs * job(0, 236 * places, [places - 1])


def by_hand():
    small, goal = head(2, 1) + arc(0, 1, 3), job(0, 472, [1])
    yield MIXED, MIXED_LINES
    yield b'', '0 0 0\n'
    yield small, '0 0 0\n'
    yield small + b'\0', '1 1\n0 0 0\n'
    yield b'\0', '1 1\n0 0 0\n'
    yield small + goal[:-1], '1 1\n0 0 0\n'
    yield goal, '4 1\n0 0 0\n'
    yield goal + head(2, 1) + arc(0, 1, 3), '4 1\n10 2\n0 0 0\n'  # a map that comes too late
    yield small + 2 * goal + b'\0\0\0', '0 2\n1 1\n6 3 4\n1 2 6\n'
    yield small + arc(0, 1, 0) + 3 * goal, '5 3\n0 0 0\n'
    yield small + 1000 * goal, '0 1000\n3000 3 2000\n1 1000 3000\n'
    yield small + 999 * goal + b'\0', '0 999\n1 1\n2997 3 1998\n1 999 2997\n'
    yield small + 999 * goal + record(9, b''), '0 999\n10 1\n2997 3 1998\n1 999 2997\n'
    for last in (goal, record(9, b''), b'\0'):
        yield small + 1000 * goal + last, 'too long\n'
    yield small + record(0, bytes(65536 - len(small) - 4 - len(goal))) + goal, '2 1\n0 0 0\n'
    yield small + record(0, bytes(65536 - len(small) - 3 - len(goal))) + goal, 'too long\n'
    _, cost, _, _, expansions, _, _ = route(chain(910, COST, 1), 16384, 8202)[0]
    assert cost == 909 * COST
    yield chain(910, COST, 1000), f'0 1000\n{1000 * cost} {cost} {1000 * expansions}\n909 1000 {1000 * cost}\n'  # more than 32 bits hold
    yield head(1025, 0) + job(0, 0, [0]), '14 1\n0 0 0\n'
    # factors before the lane and behind it; behind a job they are no part of the map, whatever they say; and some that are refused
    lane = measured(0, 1, 3, 6)
    for own, cost in ((SIXTEENS, 48), (ONES, 3), (FACTORS, 36)):
        for middle in (factors(own) + lane, lane + factors(own)):
            yield head(2, 1) + middle + 2 * goal, f'0 2\n{2 * cost} {cost} 4\n1 2 {2 * cost}\n'
    yield head(2, 1) + lane + goal + factors(ONES) + goal + factors((0, *ONES[1:])) + goal, '0 3\n10 2\n108 36 6\n1 3 108\n'
    for tables in ([ONES] * 2, [(*ONES[1:], 17)], [(2, *ONES[1:])]):
        yield head(2, 1) + lane + b''.join(map(factors, tables)) + 3 * goal + b'\0', '1 1\n22 3\n0 0 0\n'
    yield from with_defaults()


def with_defaults():
    """a default before the lanes and behind them: place 1 has it, which hides the cheap way, but not where it is a goal itself; then the same with
    places that have their own; behind a job it is no part of the map; and some that are refused"""
    lanes, jobs = arc(0, 1, 1) + arc(1, 2, 1) + arc(0, 2, 5), job(0, 708, [2]) + job(0, 708, [1]) + job(0, 708, [1, 2]) + job(0, 0, [2])
    for middle in (default(20) + lanes + estimate(0, 0), lanes + estimate(0, 0) + default(20)):
        yield head(3, 3) + middle + jobs, '0 3\n16 1\n7 5 6\n1 2 2\n2 1 5\n'
    yield head(3, 3) + lanes + estimate(1, 1) + default(20) + jobs, '0 1\n13 2\n16 1\n2 2 8\n2 1 2\n'
    yield head(3, 3) + lanes + jobs + default(20) + jobs, '0 6\n10 1\n16 2\n8 2 18\n1 4 4\n2 2 4\n'
    for values, number in (([5, 5], 9), ([0, 0], 9), ([ESTIMATE + 1], 8), ([ESTIMATE + 1, 5], 8)):
        yield head(3, 3) + lanes + b''.join(map(default, values)) + jobs + b'\0', f'1 1\n{number} 4\n0 0 0\n'


def some_job(rnd, graph):
    """mostly one that can be run: some of the map's goals, from anywhere"""
    goals = sorted(rnd.sample(graph.goals, rnd.randint(1, len(graph.goals))))
    way, start, allowance = rnd.randrange(16), rnd.randrange(graph.places), rnd.choice([236 * graph.places, 236 * graph.places, rnd.randint(0, 99)])
    if way == 0:
        goals.append(rnd.randrange(graph.places + 1))
    if way == 1:
        start = graph.places
    if way == 2:
        goals = goals[:-1]
    return job(start, allowance, goals)


def some_day(rnd):
    """a map, jobs, and now and then a record that is no job"""
    graph = some_graph(rnd, rnd.choice((1, 2, 4, 9, 40, 64)))
    before = records_before_job(rnd, graph, *with_default(rnd, graph, any_estimates(rnd, graph)))
    later = [rnd.choice(before) if rnd.random() < 0.05 else some_job(rnd, graph) for _ in range(rnd.randrange(8))]
    return before + later


def some_days(rnd, count):
    """half of them damaged"""
    for _ in range(count):
        records = some_day(rnd)
        yield b''.join(records) if rnd.random() < 0.5 else damaged(rnd, records)
