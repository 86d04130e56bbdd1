"""Document 01's "Runs by hand", with the paper's own lines: what tests/cases.py and tests/program.py take them from."""
from collections import namedtuple

from reference import ESTIMATE, arc, estimate, head, job, u16

# line, places: what program `route` prints; sheet: in hex; None where the paper says nothing. short: how many words of the work area are missing.
Run = namedtuple('Run', 'data line places sheet short', defaults=(None, None, None, 0))


def lines(answer, sheet):
    """the line of numbers and the line of places that program `route` prints, the second empty where there is no route"""
    return ' '.join(map(str, answer[:6])), ' '.join(str(u16(sheet, i)) for i in range(10, len(sheet), 2))


def runs():
    arcs = head(4, 4) + arc(0, 1, 1) + arc(0, 2, 3) + arc(1, 2, 1) + arc(2, 3, 3)
    a, high = (arcs + estimate(0, 0) + estimate(1, h) + estimate(2, 1) + estimate(3, 0) for h in (4, 9))
    two = head(2, 1) + arc(1, 0, 1)
    nine = head(4, 4) + arc(0, 1, 1) + arc(0, 2, 1) + arc(1, 3, 1) + arc(2, 3, 1)
    ten = head(6, 6) + arc(0, 1, 1) + arc(0, 2, 1) + arc(1, 4, 1) + arc(2, 3, 1) + arc(4, 5, 1) + arc(3, 5, 1)
    # P1 to P10
    yield Run(a + job(0, 944, [3]), '0 5 10 0 16 10', '0 1 2 3')
    yield Run(a + job(0, 16, [3]), '0 5 10 0 16 10', '0 1 2 3')
    yield Run(a + job(0, 15, [3]), '16 0 0 5 15 10')
    yield Run(a + job(0, 0, [3]), '16 0 0 0 0 1')
    yield Run(high + job(0, 944, [3]), '0 6 8 0 7 6', '0 2 3')
    yield Run(a + job(3, 944, [3]), '0 0 0 0 0 1', '3')
    yield Run(two + job(0, 1, [1]), '17 0 0 0 1 1', sheet='02 00 12 00 00 00')
    yield Run(two + estimate(0, 7) + job(0, 1, [1]), '17 0 14 0 1 1', sheet='02 00 12 00 00 00')
    yield Run(nine + job(0, 944, [3]), '0 2 2 0 10 6', '0 1 3', '0C 00 11 00 02 00 00 00 03 00 00 00 01 00 03 00')
    yield Run(ten + job(0, 1416, [5]), places='0 2 3 5')
    # Run only
    one = head(2, 1) + arc(0, 1, 1)
    yield Run(head(2, 1) + arc(0, 1, 0) + job(0, 9, [1]), '7 0 0 0 0 0')
    yield Run(one + job(0, 9, [1]), places='0 1')
    yield Run(one + estimate(0, ESTIMATE + 1) + job(0, 9, [1]), '8 0 0 0 0 0')
    yield Run(a + job(0, 944, [3]), '14 0 0 0 0 0', short=1)
    yield Run(b'', '4 0 0 0 0 0')
