#!/usr/bin/env python3
"""Tests the examples and tests/listing.py, and runs programs `route`, `write_map` and `report` on the examples if they are given:
examples.py [ROUTE WRITE_MAP REPORT]

An example is examples/NAME, an input, and examples/NAME.txt, its listing with a comment that says what `route` prints, and for some of them what
`write_map` makes of it; or, of a day, what `report` prints."""
import pathlib
import random
import re
import subprocess
import sys

from inputs import damaged, some_map
from listing import listing, records, statements
from program import SHEET, WORK, by_hand, printed
from report_program import printed as day_printed
from reference import Day, Problem, record, refusal
from streams import run
from write_program import printed as written

TESTS = pathlib.Path(__file__).parent
EXAMPLES = TESTS.parent / 'examples'
CLAIM = re.compile(r'Program (route|report) prints[^:]*:\n((?:#     [0-9 ]+\n)+)')
WRITTEN = re.compile(r'Program write_map makes examples/(\S+) of it')

# listings with the bytes that they give, in hex
GOOD = [
    ('', ''),
    ('# nothing\n\n', ''),
    ('places 3 arcs 7', '04000100 0300 0700'),
    ('\tplaces 3 # two arcs\r\n arc from 0 to 1 cost 0#\r\narc from 9 to 00 cost 65535\r\n',
     '04000100 0300 0200  06000200 0000 0100 0000  06000200 0900 0000 FFFF'),
    ('places 3\narc from 1 to 2 length 0 class 8\narc from 0 to 1 cost 7',
     '04000100 0300 0200  08000500 0100 0200 0000 0800  06000200 0000 0100 0700'),
    ('estimate at 1 is 4294967295', '06000300 0100 FFFFFFFF'),
    ('wait at 65535 is 0\nwait at 258 is 65535', '04000600 FFFF 0000  04000600 0201 FFFF'),
    ('factors 0 1 2 3 4 5 256 65535', '10000700 0000 0100 0200 0300 0400 0500 0001 FFFF'),
    ('record 7 0100\nrecord 7', '02000700 0100  00000700'),
    ('default 4294967295\ndefault 0\nrecord 8 000000', '04000800 FFFFFFFF  04000800 00000000  03000800 000000'),
    ('job start 1 allowance 2 goals', '08000400 0100 02000000 0000'),
    ('job start 1 allowance 2 goals 5 4', '0C000400 0100 02000000 0200 0500 0400'),
    ('record 65535\nrecord 2 aB 0102\nbytes 0A', '0000FFFF  03000200 AB0102  0A'),
]

# listings that are turned down, with the message
BAD = [
    ('places 4\n\nark from 0 to 1 cost 1', "line 3: unknown word 'ark'"),
    ('places', 'line 1: expected: places N, or places N arcs M'),
    ('places 65536', "line 1: '65536' is not a number from 0 to 65535"),
    ('# two places\nplaces two', "line 2: 'two' is not a number from 0 to 65535"),
    ('places 2 arcs -1', "line 1: '-1' is not a number from 0 to 65535"),
    ('places 9\n' + 'arc from 0 to 1 cost 1\n' * 65536, "line 1: '65536' is not a number from 0 to 65535"),
    ('places 2\narc 0 1 cost 1', 'line 2: expected: arc from PLACE to PLACE cost NUMBER, or .. length NUMBER class NUMBER'),
    ('arc from 0 to 1 cost 1 2', 'line 1: expected: arc from PLACE to PLACE cost NUMBER, or .. length NUMBER class NUMBER'),
    ('arc from 0 to 1 length 5', 'line 1: expected: arc from PLACE to PLACE cost NUMBER, or .. length NUMBER class NUMBER'),
    ('arc from 0 to 1 length 5 class 65536', "line 1: '65536' is not a number from 0 to 65535"),
    ('estimate at 0', 'line 1: expected: estimate at PLACE is NUMBER'),
    ('estimate at 0 is 4294967296', "line 1: '4294967296' is not a number from 0 to 4294967295"),
    ('default', 'line 1: expected: default NUMBER'),
    ('default at 0 is 5', 'line 1: expected: default NUMBER'),
    ('default 4294967296', "line 1: '4294967296' is not a number from 0 to 4294967295"),
    ('wait 40 at 3', 'line 1: expected: wait at PLACE is NUMBER'),
    ('wait at 3 is 65536', "line 1: '65536' is not a number from 0 to 65535"),
    ('factors 1 2 3 4 6 8 12', 'line 1: expected: factors NUMBER ..., eight of them'),
    ('factors 1 2 3 4 6 8 12 16 16', 'line 1: expected: factors NUMBER ..., eight of them'),
    ('factors 1 2 3 4 6 8 12 65536', "line 1: '65536' is not a number from 0 to 65535"),
    ('job start 0 goals 3 allowance 944', 'line 1: expected: job start PLACE allowance NUMBER goals PLACE ...'),
    ('job start 0 allowance 944 goals 3,4', "line 1: '3,4' is not a number from 0 to 65535"),
    ('job start 0 allowance 944 goals' + ' 3' * 32764, 'line 1: a body of more than 65535 bytes'),
    ('record', 'line 1: expected: record KIND HEX ...'),
    ('record 5 0', "line 1: '0' is not bytes in hex"),
    ('record 5 ' + '00' * 65536, 'line 1: a body of more than 65535 bytes'),
    ('bytes', 'line 1: expected: bytes HEX ...'),
    ('places 1\nbytes 0A 0G', "line 2: '0G' is not bytes in hex"),
]


def command(way, data):
    done = subprocess.run([sys.executable, TESTS / 'listing.py', way], input=data, capture_output=True)
    return done.returncode, done.stdout, done.stderr.decode()


def overstates(data):
    """whether some estimate is above the least cost from its place to a goal"""
    p = Problem(data)
    estimates, p.h = p.h, [0] * p.n
    for place, estimate in enumerate(estimates):
        p.start = place
        costs = p.least(65535 * p.n)
        if any(goal in costs and costs[goal][0] < estimate for goal in p.goals):
            return True
    return False


def claimed(text, data, route, report):
    """what is wrong with what an example says that a program prints"""
    found = CLAIM.search(text)
    if not found:
        yield 'the comment does not say what a program prints'
        return
    claim = found[2].replace('#     ', '')
    want, program = (printed(data), route) if found[1] == 'route' else (day_printed(data), report)
    if claim != want:
        yield f'the comment says {claim!r}, the second source {want!r}'
    if program and run(program, [data]) != (claim.encode(), b''):
        yield f'the comment says {claim!r}, the program {run(program, [data])}'


def example(path, route, write_map, report):
    """what is wrong with an example"""
    text, data = path.read_text(), path.with_suffix('').read_bytes()
    if command('records', text.encode()) != (0, data, ''):
        yield 'the bytes are not what the listing gives'
    code, back, _ = command('listing', data)
    if code != 0 or [words for _, words in statements(back.decode())] != [words for _, words in statements(text)]:
        yield 'the listing is not what the bytes give'
    yield from claimed(text, data, route, report)
    day = Day(data, WORK, SHEET)
    if any(not refusal(one, WORK, SHEET) and overstates(one) for one in (day.map + record(*r) for r in day.later)):
        yield 'an estimate overstates'
    if name := WRITTEN.search(text):
        want = (EXAMPLES / name[1]).read_bytes(), b''
        if written(data) != want or write_map and run(write_map, [data]) != want:
            yield f'{name[1]} is not what is written'
        if printed(data) != printed(want[0]):
            yield f'route prints something else for {name[1]}'


def examples(paths, *programs):
    for path in paths:
        yield from (f'{path.stem}: {fault}' for fault in example(path, *programs))
    if len(list(EXAMPLES.iterdir())) != 2 * len(paths):
        yield 'a file in examples/ is no part of an example'
    if not any(WRITTEN.search(path.read_text()) for path in paths):
        yield 'no example says what write_map makes of it'


def round_trips(samples):
    yield from (f'input {data.hex()}: its listing gives another' for data in samples if records(listing(data)) != data)


def by_command():
    wanted = [(text, (0, bytes.fromhex(data), '')) for text, data in GOOD] + [(text, (1, b'', message + '\n')) for text, message in BAD]
    for text, want in wanted:
        got = command('records', text.encode())
        if got != want:
            yield f'{text[:60]!r}: {got}, expected {want}'


def inputs(rnd):
    """document 01's runs, maps, damaged maps and any bytes"""
    yield from (data for data, _ in by_hand())
    for _ in range(300):
        whole = some_map(rnd)
        yield from (b''.join(whole), damaged(rnd, whole), rnd.randbytes(rnd.randrange(40)))


def main(route=None, write_map=None, report=None):
    paths, samples = sorted(EXAMPLES.glob('*.txt')), list(inputs(random.Random(4)))
    wrong = [*examples(paths, route, write_map, report), *round_trips(samples), *by_command()]
    print(*wrong, f'examples: {len(paths)} examples, {len(samples)} inputs, {len(GOOD) + len(BAD)} listings, {len(wrong)} wrong', sep='\n')
    return wrong != [] or not paths or not samples


if __name__ == '__main__':
    sys.exit(main(*sys.argv[1:]))
