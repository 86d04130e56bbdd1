#!/usr/bin/env python3
"""Runs program `write_map` on whole, piecewise, damaged and long inputs and holds what it writes against document 02, paper 3; then with input and
output that fail, that are late and that are slow: write_program.py PROGRAM"""
import os
import random
import sys

from edges import BAD, broken
from floors import ONES
from listing import records
from program import INPUT, WORK, around_longest, chain, longest, some_inputs
from reference import ESTIMATE, FACTORS, ORDER, arc, default, estimate, factors, head, job, measured, wait, write_map
from streams import ended, failing, given, report, slow, start, whole

# a map by hand and what is made of it: from before to, to before cost, cost before kind, kind 2 before 5, length before class; a repeat stays, an
# estimate or a wait of 0 goes; waits stand behind all estimates; numbers are put in order, not their first bytes
JUMBLED = records('''
    places 300
    wait at 256 is 1
    estimate at 256 is 1
    wait at 0 is 0
    arc from 256 to 1 cost 1
    arc from 1 to 256 cost 9
    arc from 1 to 2 cost 256
    arc from 1 to 2 length 96 class 0
    arc from 1 to 2 length 6 class 7
    estimate at 0 is 0
    arc from 1 to 2 length 8 class 6
    arc from 1 to 2 cost 96
    arc from 1 to 2 length 6 class 7
    arc from 1 to 2 length 4 class 1
    wait at 2 is 65535
    estimate at 2 is 268435455
    arc from 1 to 2 length 255 class 1
    wait at 1 is 65025
    job start 1 allowance 70800 goals 0 299''')
WRITTEN = records('''
    places 300
    arc from 1 to 2 length 4 class 1
    arc from 1 to 2 cost 96
    arc from 1 to 2 length 6 class 7
    arc from 1 to 2 length 6 class 7
    arc from 1 to 2 length 8 class 6
    arc from 1 to 2 length 96 class 0
    arc from 1 to 2 cost 256
    arc from 1 to 2 length 255 class 1
    arc from 1 to 256 cost 9
    arc from 256 to 1 cost 1
    estimate at 2 is 268435455
    estimate at 256 is 1
    wait at 1 is 65025
    wait at 2 is 65535
    wait at 256 is 1
    job start 1 allowance 70800 goals 0 299''')

# the same for factors of the map's own, by which lanes are in another order: class 0 at 2 a foot, 1 to 5 at 3, 6 and 7 at 16; of lanes that cost the
# same and are as long, those of the lower class stand first
FACTORED = records('''
    places 3
    arc from 0 to 1 length 6 class 7
    arc from 0 to 1 length 6 class 6
    arc from 0 to 1 cost 96
    arc from 0 to 1 length 32 class 5
    arc from 0 to 1 length 32 class 1
    arc from 0 to 1 length 48 class 0
    arc from 0 to 1 length 4 class 6
    arc from 0 to 1 length 1 class 7
    arc from 0 to 1 length 6 class 0
    arc from 0 to 1 length 3 class 2
    factors 2 3 3 3 3 3 16 16
    wait at 0 is 9
    estimate at 0 is 1
    job start 0 allowance 708 goals 1''')
FACTORED_WRITTEN = records('''
    places 3
    arc from 0 to 1 length 3 class 2
    arc from 0 to 1 length 6 class 0
    arc from 0 to 1 length 1 class 7
    arc from 0 to 1 length 4 class 6
    arc from 0 to 1 cost 96
    arc from 0 to 1 length 6 class 6
    arc from 0 to 1 length 6 class 7
    arc from 0 to 1 length 32 class 1
    arc from 0 to 1 length 32 class 5
    arc from 0 to 1 length 48 class 0
    estimate at 0 is 1
    wait at 0 is 9
    factors 2 3 3 3 3 3 16 16
    job start 0 allowance 708 goals 1''')

# the same for a default: own estimates that differ from it stay, 0 among them; one that equals it goes, and so does that of a goal; it stands behind
# waits and factors, right before the job
RINGED = records('''
    places 300
    default 65537
    estimate at 299 is 0
    estimate at 258 is 65537
    factors 1 1 1 1 1 1 1 2
    estimate at 257 is 0
    arc from 0 to 299 cost 9
    estimate at 256 is 65536
    estimate at 2 is 1
    wait at 0 is 9
    estimate at 1 is 0
    job start 0 allowance 70800 goals 1 299''')
RINGED_WRITTEN = records('''
    places 300
    arc from 0 to 299 cost 9
    estimate at 2 is 1
    estimate at 256 is 65536
    estimate at 257 is 0
    wait at 0 is 9
    factors 1 1 1 1 1 1 1 2
    default 65537
    job start 0 allowance 70800 goals 1 299''')


def printed(data):
    """standard output and standard error"""
    if len(data) > INPUT:
        return b'', b'too long\n'
    (number, *_), out = write_map(data, WORK, INPUT)
    return out, b'%d\n' % number if number else b''


def by_hand():
    full, over = head(1024, 0) + job(0, 0, [0]), head(1024, 1) + measured(0, 0, 1, 0) + job(0, 0, [0])
    yield JUMBLED, (WRITTEN, b'')
    yield WRITTEN, (WRITTEN, b'')
    yield FACTORED, (FACTORED_WRITTEN, b'')
    yield FACTORED_WRITTEN, (FACTORED_WRITTEN, b'')
    yield RINGED, (RINGED_WRITTEN, b'')
    yield RINGED_WRITTEN, (RINGED_WRITTEN, b'')
    # the fixed factors go, wherever they stand; others stay, though no lane has a class
    one, end = measured(0, 1, 9, 7), job(0, 9, [1])
    yield from ((head(2, 1) + middle + end, (head(2, 1) + one + end, b'')) for middle in (factors(FACTORS) + one, one + factors(FACTORS)))
    yield head(2, 1) + factors(ONES) + arc(0, 1, 9) + end, (head(2, 1) + arc(0, 1, 9) + factors(ONES) + end, b'')
    # a default of 0 goes; another stays, though every place has its own, and though there is none but goals
    yield head(2, 0) + default(0) + estimate(0, 5) + end, (head(2, 0) + estimate(0, 5) + end, b'')
    for own, kept in ((5, estimate(0, 5)), (0, estimate(0, 0)), (ESTIMATE, b'')):
        yield head(2, 0) + default(ESTIMATE) + estimate(0, own) + estimate(1, 0) + end, (head(2, 0) + kept + default(ESTIMATE) + end, b'')
    yield head(1, 0) + estimate(0, 0) + default(5) + job(0, 0, [0]), (head(1, 0) + default(5) + job(0, 0, [0]), b'')
    yield full, (full, b'')  # takes all 16,384 words
    yield over, (b'', b'14\n')
    yield head(2, 0) + estimate(0, 0) + wait(1, 0) + estimate(1, 0) + job(1, 0, [0]), (head(2, 0) + job(1, 0, [0]), b'')
    yield b'', (b'', b'4\n')
    yield bytes(INPUT + 1), (b'', b'too long\n')


def refused():
    """an input for every refusal that may come, but for 14, in every way that there is"""
    yield from (broken([number]) for number in ORDER if number not in (14, 15))
    yield from (broken([number], {number: way}) for number, ways in BAD.items() for way in ways[1:])


def many_records(rnd):
    """estimates and waits, most of them 0, arcs of both kinds, factors and a default, mixed"""
    values = [value(v, rnd.choice([0, 0, v])) for v in reversed(range(1, 819)) for value in (estimate, wait)]
    arcs = [rnd.choice([arc(v % 819, v % 7, 1 + v % 99), measured(v % 819, v % 7, 1 + v % 9, v % 8)]) for v in range(1600)]
    mixed = values + arcs + [factors((1, 1, 2, 2, 2, 9, 9, 16)), default(7)]
    rnd.shuffle(mixed)
    return head(819, len(arcs)) + b''.join(mixed) + job(0, 9, [0])


def refusals_apart(program):
    """a refusal has nothing to write to standard output, and so nothing that could fail"""
    null = os.open(os.devnull, os.O_RDWR)
    refused = (b'', b'4\n')
    yield 'a refusal with a closed output', ended(start(program, stdin=given(b''), stdout=null, preexec_fn=lambda: os.close(1))), refused
    yield 'a refusal with a full output', ended(start(program, stdin=given(b''), stdout=os.open('/dev/full', os.O_WRONLY))), refused


def main(program):
    rnd = random.Random(5)
    samples = [*refused(), *around_longest(rnd), many_records(rnd), chain(910, 65535), *some_inputs(rnd, 150)]
    cases = [*by_hand(), *((data, printed(data)) for data in samples)]
    assert {err for _, (_, err) in cases} == {b'', b'too long\n', *(b'%d\n' % number for number in ORDER if number != 15)}
    full = longest(rnd)
    out = printed(full)[0]
    trials = [*whole(program, cases, rnd), *failing(program, chain(4, 1), full, out), *slow(program, full, out), *refusals_apart(program)]
    return not report('write_program', trials)


if __name__ == '__main__':
    sys.exit(main(*sys.argv[1:]))
