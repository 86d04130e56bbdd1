"""Maps with waits by hand, for tests/cases.py: what their routes cost, and which routes there would be if nobody had to wait."""
from collections import namedtuple

from inputs import Graph
from ties import arcs_along

# cost and places of the route from 0; free: its places if there were no waits
Door = namedtuple('Door', 'graph cost places free')


def door(ways, waits, cost, places, free, goals=(3,)):
    return Door(Graph(5, arcs_along(ways), list(goals), waits), cost, places, free)


def doors():
    low, high, direct = ([0, 1, 3], [1, 1]), ([0, 2, 3], [2, 2]), ([0, 3], [5])
    # the wait at 1 makes the other way the cheaper one; makes both cost the same, so that the lower number decides; is too short for that
    yield door([low, high], {1: 3}, 4, [0, 2, 3], [0, 1, 3])
    yield door([low, high], {1: 2}, 4, [0, 1, 3], [0, 1, 3])
    yield door([low, high], {1: 1}, 3, [0, 1, 3], [0, 1, 3])
    # the start's wait is charged, and the goal's is not; and all of them at once
    yield door([low, high], {0: 7}, 9, [0, 1, 3], [0, 1, 3])
    yield door([low, high], {3: 7}, 2, [0, 1, 3], [0, 1, 3])
    yield door([low, high], {0: 7, 1: 3, 2: 0, 3: 9}, 11, [0, 2, 3], [0, 1, 3])
    # the waits on a way add up, to more than the direct lane; and at every place, but for the goal
    yield door([([0, 1, 2, 3], [1, 1, 1]), direct], {1: 1, 2: 2}, 5, [0, 3], [0, 1, 2, 3])
    yield door([([0, 1, 2, 3], [1, 1, 1])], {0: 10, 1: 20, 2: 40, 3: 80}, 73, [0, 1, 2, 3], [0, 1, 2, 3])
    # equal with the wait, and the way of fewer places is first, though its numbers are higher
    yield door([([0, 1, 2, 3], [1, 1, 1]), ([0, 4, 3], [2, 2])], {2: 1}, 4, [0, 4, 3], [0, 1, 2, 3])
    # the start is a goal: nothing is left; a goal on the way to another is the end, and its wait keeps nobody
    yield door([low, high], {0: 9}, 0, [0], [0], goals=(0, 3))
    yield door([low, high], {1: 9}, 1, [0, 1], [0, 1], goals=(1, 3))
    # the lower goal is behind a door
    yield door([([0, 1, 2], [1, 1]), ([0, 4, 3], [1, 2])], {1: 2}, 3, [0, 4, 3], [0, 1, 2], goals=(2, 3))
    # all lanes out of a place wait, parallel ones and a loop too; a lane and its wait cost as much as they may, and it is one less by another way
    yield door([low, low, ([1, 1, 3], [1, 2]), high], {1: 3}, 4, [0, 2, 3], [0, 1, 3])
    yield door([([0, 3], [1])], {0: 65534}, 65535, [0, 3], [0, 3])
    yield door([low, ([0, 2, 3], [1, 65534])], {1: 65534}, 65535, [0, 2, 3], [0, 1, 3])
