"""Maps by hand with a default estimate, for tests/cases.py: what program `route` prints of them."""
from collections import namedtuple

from inputs import Graph
from reference import ESTIMATE, arc, default, estimate, head, job, wait
from ties import arcs_along

# an input with a default; the same with an estimate of its own for every place, and no default; its graph, the estimate that holds at each place, and
# the lines that are printed, the second empty where there is no route
Ring = namedtuple('Ring', 'data spelled graph estimates line places')


def under(value, own, estimates, ways, line, places='', goals=(3,), waits=(), allowance=None):
    """from place 0, with a default of this value, which stands before all other records, behind the first and behind the last"""
    n, lanes = len(estimates), arcs_along(ways)
    first, last = head(n, len(lanes)), job(0, 236 * n if allowance is None else allowance, goals)
    records = [*(arc(*lane) for lane in lanes), *(wait(*w) for w in waits)]
    spelled = b''.join([first, *records, *(estimate(*e) for e in enumerate(estimates)), last])
    records += [estimate(*e) for e in own.items()]
    for at in sorted({0, 1, len(records)}):
        data = b''.join([first, *records[:at], default(value), *records[at:], last])
        yield Ring(data, spelled, Graph(n, lanes, list(goals), dict(waits)), estimates, line, places)


def documented():
    """document 01's runs with a default, and its own lines"""
    # P1 to P5: only place 1 has the default, since the start has an own 0, place 2 an own 1, and the goal keeps 0
    a = [([0, 1, 2, 3], [1, 1, 3]), ([0, 2], [3])]
    for allowance, *lines in ((944, '0 5 10 0 16 10', '0 1 2 3'), (16, '0 5 10 0 16 10', '0 1 2 3'), (15, '16 0 0 5 15 10'), (0, '16 0 0 0 0 1')):
        yield from under(4, {0: 0, 2: 1}, [0, 4, 1, 0], a, *lines, allowance=allowance)
    yield from under(9, {0: 0, 2: 1}, [0, 9, 1, 0], a, '0 6 8 0 7 6', '0 2 3')
    # P7 and P8: the default is the start's, low begins with it, and it is the floor of an allowance of 0; unless the start has its own
    back = [([1, 0], [1])]
    yield from under(7, {}, [7, 0], back, '17 0 14 0 1 1', goals=(1,), allowance=1)
    yield from under(7, {}, [7, 0], back, '16 0 0 7 0 1', goals=(1,), allowance=0)
    yield from under(7, {0: 0}, [0, 0], back, '17 0 0 0 1 1', goals=(1,), allowance=1)
    yield from under(ESTIMATE, {}, [ESTIMATE, 0], back, '17 0 536870910 0 1 1', goals=(1,), allowance=1)
    # P9: a default of 0 changes nothing, nor does one where all have an own 0
    nine = [([0, 1, 3], [1, 1]), ([0, 2, 3], [1, 1])]
    yield from under(0, {}, [0, 0, 0, 0], nine, '0 2 2 0 10 6', '0 1 3')
    yield from under(1, {0: 0, 1: 0, 2: 0}, [0, 0, 0, 0], nine, '0 2 2 0 10 6', '0 1 3')
    # with 1 it does not overstate; with 2 it does, and hides the way by 1, but not the one by 2, which has an own 0
    yield from under(1, {}, [1, 1, 1, 0], nine, '0 2 4 0 11 6', '0 1 3')
    yield from under(2, {0: 0, 2: 0}, [0, 2, 0, 0], nine, '0 2 2 0 5 4', '0 2 3')


def overstating():
    """the cheap way leads by place 1, and a default that overstates there may hide it"""
    # within 10 at a default of 4; no longer within 7 at 8; an own estimate lets it in
    hidden = [([0, 1, 3], [1, 1]), ([0, 3], [5])]
    yield from under(4, {0: 0}, [0, 4, 4, 0], hidden, '0 2 10 0 7 6', '0 1 3')
    yield from under(8, {0: 0}, [0, 8, 8, 0], hidden, '0 5 7 0 3 3', '0 3')
    yield from under(20, {0: 0}, [0, 20, 20, 0], hidden, '0 5 10 0 2 2', '0 3')
    yield from under(20, {}, [20, 20, 20, 0], hidden, '0 5 20 0 6 6', '0 3')
    yield from under(20, {0: 0, 1: 1}, [0, 1, 20, 0], hidden, '0 2 4 0 6 5', '0 1 3')
    yield from under(20, {0: 0, 1: 0}, [0, 0, 20, 0], hidden, '0 2 2 0 5 4', '0 1 3')
    # own estimates that say what holds without them, at a place and at the goal
    yield from under(20, {0: 0, 1: 20, 3: 0}, [0, 20, 20, 0], hidden, '0 5 10 0 2 2', '0 3')
    # goals keep 0, all of them: 1 is one, 2 is one, and the start is
    yield from under(20, {0: 0}, [0, 0, 20, 0], hidden, '0 1 2 0 2 2', '0 1', goals=(1, 3))
    yield from under(20, {0: 0}, [0, 0, 0, 0], hidden, '0 1 2 0 2 2', '0 1', goals=(1, 2, 3))
    yield from under(20, {}, [0, 20, 20, 0], hidden, '0 0 0 0 0 1', '0', goals=(0, 3))
    # lanes plus waits: with its wait it is 4 from place 1, where a default of 4 does not overstate
    doors = [([0, 1, 3], [1, 1]), ([0, 3], [7])]
    yield from under(4, {}, [4, 4, 4, 0], doors, '0 5 10 0 6 5', '0 1 3', waits=[(1, 3)])
    yield from under(20, {}, [20, 20, 20, 0], doors, '0 7 20 0 6 6', '0 3', waits=[(1, 3)])


def rings():
    yield from documented()
    yield from overstating()
    # no goal can be reached from 4 to 8, where no default overstates: with 0 they are expanded, with 20 they are not
    ends = [([0, 1, 2, 3], [2, 2, 2]), *(([0, v], [1]) for v in range(4, 9))]
    yield from under(0, {0: 6, 1: 4, 2: 2}, [6, 4, 2, 0, *[0] * 5], ends, '0 6 12 0 36 13', '0 1 2 3')
    for value in (20, ESTIMATE):
        yield from under(value, {0: 6, 1: 4, 2: 2}, [6, 4, 2, 0, *[value] * 5], ends, '0 6 12 0 15 9', '0 1 2 3')
    # a ring road, whose places are at least 8 from the goal
    ring = [([0, 1, 2, 3, 4, 5, 0], [1] * 6), ([0, 5, 4, 3, 2, 1, 0], [1] * 6), ([3, 6, 7], [4, 4])]
    yield from under(8, {6: 4}, [*[8] * 6, 4, 0], ring, '0 11 20 0 41 16', '0 1 2 3 6 7', goals=(7,))
    yield from under(8, {0: 11, 6: 4}, [11, *[8] * 5, 4, 0], ring, '0 11 22 0 42 16', '0 1 2 3 6 7', goals=(7,))
