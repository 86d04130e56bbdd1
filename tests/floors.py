"""Maps by hand under several tables of factors, for tests/cases.py: what their routes cost under each."""
from collections import namedtuple

from inputs import Graph
from reference import FACTOR, FACTORS, arc, factors, head, job, measured, wait
from ties import arcs_along

# an input; its graph, with the arcs at what their lanes cost under the table; cost and places of the route from 0
Factored = namedtuple('Factored', 'data graph cost places')

ONES, SIXTEENS = (1,) * 8, (FACTOR,) * 8


def under_each(ways, found, waits=(), goals=(3,)):
    """a map under each table, with cost and places; a table stands before all other records, behind the first and behind the last; the fixed one
    holds with a record and without. A lane of a way is its cost, or its length and its class."""
    lanes, places = arcs_along(ways), 9
    records = [measured(u, v, *fields) if isinstance(fields, tuple) else arc(u, v, fields) for u, v, fields in lanes] + [wait(*w) for w in waits]
    for table, (cost, route) in found.items():
        arcs = [(u, v, fields[0] * table[fields[1]] if isinstance(fields, tuple) else fields) for u, v, fields in lanes]
        graph = Graph(places, arcs, list(goals), dict(waits))
        mixed = [[*records[:at], factors(table), *records[at:]] for at in (0, 1, len(records))]
        for middle in [records, *mixed] if table == FACTORS else mixed:
            yield Factored(b''.join([head(places, len(lanes)), *middle, job(0, 236 * places, goals)]), graph, cost, route)


def floors():
    direct, low, high = [0, 3], [0, 1, 3], [0, 2, 3]
    # 40 against 60; then 60 against 50, against 60, where the lower number decides, and against 70; with all factors the same the lengths decide
    yield from under_each([(low, [(10, 1)] * 2), (high, [(5, 4)] * 2)], {
        FACTORS: (40, low), (1, 3, 3, 3, 5, 5, 5, 5): (50, high), (1, 3, 3, 3, 6, 6, 6, 6): (60, low), (1, 3, 3, 3, 7, 7, 7, 7): (60, low),
        ONES: (10, high), SIXTEENS: (160, high)})
    # one lane of each class, three times as long as the one before
    chain = [*range(9)]
    yield from under_each([(chain, [(3 ** c, c) for c in range(8)])], {
        FACTORS: (46312, chain), (1, 2, 3, 5, 7, 11, 13, 16): (47878, chain), ONES: (3280, chain), SIXTEENS: (52480, chain)}, goals=(8,))
    # three lanes and two: where they cost the same, two are first
    more, fewer, twos = [0, 1, 2, 3], [0, 4, 3], (2,) * 7
    yield from under_each([(more, [(4, 0)] * 3), (fewer, [(1, 7)] * 2)], {
        FACTORS: (12, more), (*twos, 11): (22, fewer), (*twos, 12): (24, fewer), (*twos, 13): (24, more), ONES: (2, fewer)})
    # side by side, one that costs 100 and two that are measured: the cheapest counts
    yield from under_each([(direct, [100]), (direct, [(20, 5)]), (direct, [(30, 2)])], {
        FACTORS: (90, direct), (1, 1, 4, 4, 4, 4, 4, 4): (80, direct), (1, 1, 4, 4, 4, 6, 6, 6): (100, direct)})
    # the dearest that a measured lane can be: one less than by the other way, and one more
    for last, found in ((32761, (65520, direct)), (32759, (65519, low))):
        yield from under_each([(direct, [(4095, 0)]), (low, [32760, last])], {
            FACTORS: (4095, direct), SIXTEENS: found, (15, *SIXTEENS[1:]): (61425, direct)})
    # with waits: 25 against 25, where fewer places decide, 35 against 25, and 15 against 25
    yield from under_each([(direct, [(10, 1)]), (low, [9, 9])], {
        FACTORS: (25, direct), (1, 3, 3, 4, 6, 8, 12, 16): (25, low), ONES: (15, direct)}, waits=[(0, 5), (1, 2)])
    # no lane has a class
    yield from under_each([(direct, [3]), (low, [1, 1])], dict.fromkeys([FACTORS, ONES, SIXTEENS], (2, low)))
    # 108 against 112, and 144 against 112: the other goal
    yield from under_each([([0, 2], [(9, 6)]), (direct, [(7, 7)])], {FACTORS: (108, [0, 2]), SIXTEENS: (112, direct)}, goals=(2, 3))
