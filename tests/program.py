#!/usr/bin/env python3
"""Runs program `route` on whole, piecewise, damaged and long inputs and holds what it prints against document 01; then with input and output
that fail, that are late and that are slow: program.py PROGRAM"""
import random
import sys

from by_hand import lines, runs
from inputs import damaged, some_map
from reference import arc, head, job, route
from streams import failing, report, slow, whole

WORK, SHEET, INPUT = 16384, 8202, 65536


def text(line, places):
    return line + '\n' + (places + '\n' if places else '')


def printed(data):
    if len(data) > INPUT:
        return 'too long\n'
    return text(*lines(*route(data, WORK, SHEET)))


def by_hand():
    """document 01's runs with its own lines, and what its limits for the program say"""
    for run in runs():
        if run.line is not None and run.short == 0:
            yield run.data, text(run.line, run.places)
    yield head(1024, 0) + job(0, 0, [0]), '0 0 0 0 0 1\n0\n'  # takes all 16,384 words
    yield head(1024, 1) + arc(0, 0, 1) + job(0, 0, [0]), '14 0 0 0 0 0\n'
    yield bytes(INPUT + 1), 'too long\n'


def longest(rnd):
    """an accepted input as long as an input may be"""
    arcs = b''.join(arc(rnd.randrange(205), rnd.randrange(205), rnd.randint(1, 99)) for _ in range(6551))
    data = head(205, 6551) + arcs + job(0, 236 * 205, [100, 150, 204])
    assert len(data) == INPUT
    return data


def chain(n, cost):
    """a route over all n places"""
    return head(n, n - 1) + b''.join(arc(v, v + 1, cost) for v in range(n - 1)) + job(0, 236 * n, [n - 1])


LONGEST = chain(910, 65535)  # no route that the work area has room for has more places


def around_longest(rnd):
    """inputs as long as an input may be, longer ones, and one that is cut"""
    full = longest(rnd)
    return [full, full + b'\0', full * 3, full[:-1], bytes(INPUT)]


def some_inputs(rnd, count):
    """random maps, half of them damaged"""
    for _ in range(count):
        records = some_map(rnd)
        yield b''.join(records) if rnd.random() < 0.5 else damaged(rnd, records)


def main(program):
    rnd = random.Random(3)
    samples = [*around_longest(rnd), chain(800, 7), LONGEST, *some_inputs(rnd, 150)]
    cases = [(data, (want.encode(), b'')) for data, want in [*by_hand(), *((data, printed(data)) for data in samples)]]
    out = printed(LONGEST).encode()
    trials = [*whole(program, cases, rnd), *failing(program, chain(4, 1), LONGEST, out), *slow(program, LONGEST, out)]
    return not report('program', trials)


if __name__ == '__main__':
    sys.exit(main(*sys.argv[1:]))
