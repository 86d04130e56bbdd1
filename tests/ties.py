"""Maps with cheapest routes that differ in their number of places, for tests/cases.py: small ones by hand, and random ones."""
from collections import namedtuple

from inputs import Graph, some_factors
from reference import arc, estimate, head, job

# first: the places of the first route; uncounted: of the one that would be first if places were not counted
Tie = namedtuple('Tie', 'data first uncounted')


def arcs_along(ways):
    """a way is its places, with the cost from each to the next"""
    return [a for way, costs in ways for a in zip(way, way[1:], costs)]


def joined(places, ways, goals, start=0, estimates=()):
    """an input whose arcs are those of the ways"""
    arcs = [arc(*a) for a in arcs_along(ways)]
    return b''.join([head(places, len(arcs)), *arcs, *(estimate(*e) for e in estimates), job(start, 236 * places, goals)])


def ties():
    nine = [*range(9)]
    yield Tie(joined(11, [(nine, [1] * 8), ([0, 9, 10, 8], [2, 3, 3])], [8]), [0, 9, 10, 8], nine)
    # the goal of a higher number has fewer places; and the same at a higher cost
    yield Tie(joined(5, [([0, 1, 2, 3], [1, 1, 2]), ([0, 4], [4])], [3, 4]), [0, 4], [0, 1, 2, 3])
    yield Tie(joined(5, [([0, 1, 2, 3], [1, 1, 1]), ([0, 4], [4])], [3, 4]), [0, 1, 2, 3], [0, 1, 2, 3])
    # equal counts: the lower goal, though the other's route has the lower place in it; the lower place before the goal, though the other route has
    # the lower one after the start; and the lower place one farther back
    yield Tie(joined(8, [([0, 6, 7, 3], [2, 2, 2]), ([0, 2, 4], [3, 3]), ([0, 1, 5], [3, 3])], [3, 4, 5]), [0, 2, 4], [0, 6, 7, 3])
    four = [([0, 5, 6, 8], [2, 2, 2]), ([0, 4, 7, 8], [2, 2, 2])]
    yield Tie(joined(9, [([0, 1, 2, 3, 8], [1, 1, 2, 2]), *four], [8]), [0, 5, 6, 8], [0, 1, 2, 3, 8])
    yield Tie(joined(7, [([0, 1, 2, 5, 6], [1, 1, 2, 2]), ([0, 4, 5], [2, 2]), ([0, 3, 5], [2, 2])], [6]), [0, 3, 5, 6], [0, 1, 2, 5, 6])
    # an estimate that overstates, 20 at place 1, keeps a route of three places out of the limit, one that costs the same and a cheaper one
    for cost in (3, 1):
        ways = [([0, 1, 9], [cost, cost]), ([0, 5, 6, 9], [2, 2, 2]), ([0, 2, 3, 4, 9], [1, 1, 2, 2])]
        yield Tie(joined(10, ways, [9], estimates=[(1, 20)]), [0, 5, 6, 9], [0, 2, 3, 4, 9])
    # place 4 is reached by three arcs, then at the same cost by two; by two, then by three; dearer by one, then cheaper by three
    yield Tie(joined(6, [([0, 1, 2, 4, 5], [1, 1, 3, 1]), ([0, 3, 4], [3, 2])], [5]), [0, 3, 4, 5], [0, 1, 2, 4, 5])
    yield Tie(joined(6, [([0, 1, 2, 4, 5], [2, 1, 2, 1]), ([0, 3, 4], [1, 4])], [5]), [0, 3, 4, 5], [0, 1, 2, 4, 5])
    yield Tie(joined(8, [([0, 1, 2, 4, 5], [1, 1, 1, 3]), ([0, 4], [5]), ([0, 6, 7, 5], [2, 2, 2])], [5]), [0, 6, 7, 5], [0, 1, 2, 4, 5])
    # the start is a goal
    yield Tie(joined(3, [([0, 1, 2], [1, 1]), ([2, 1, 1, 0], [1, 1, 1])], [0, 1, 2], start=1), [1], [1])
    # parallel arcs; and a dearer arc from a lower place, by which the count would be right
    longer = [0, 1, 2, 4], [1, 1, 2]
    yield Tie(joined(5, [longer, *[([0, 3, 4], [2, 2])] * 2, ([0, 3, 4], [3, 3])], [4]), [0, 3, 4], [0, 1, 2, 4])
    yield Tie(joined(5, [longer, ([0, 3, 4], [2, 2]), ([1, 4], [4])], [4]), [0, 3, 4], [0, 1, 2, 4])


def along_a_line(rnd, places):
    """a graph, and how far each place is from its goals: the places lie along a line in any order, some side by side, and an arc costs the way
    between its ends with the wait, now and then one more; so a route of many arcs costs no more than one of few"""
    at = [0, 2, *(2 * rnd.randrange(3 * places // 4) for _ in range(places - 2))]
    rnd.shuffle(at)
    waits = {v: 1 for v in range(places) if rnd.random() < 0.5} if rnd.random() < 0.5 else {}
    pairs = [(u, v) for u in range(places) for v in range(places) if at[v] - at[u] in (2, 4, 6, 12)]
    arcs = [(u, v, at[v] - at[u] - waits.get(u, 0) + (rnd.random() < 0.1)) for u, v in rnd.choices(pairs, k=3 * places)]
    goals = [v for v in range(places) if at[v] == max(at)]
    return Graph(places, arcs, goals[:2], waits, some_factors(rnd)), [max(at) - x for x in at]
