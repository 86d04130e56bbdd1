#!/usr/bin/env python3
"""Sheets, good and damaged, and what a reader must say of them, straight from document 01.

sheets.py cases: lines for tests/guard.c
sheets.py host SHOW DIR: runs the host program SHOW on sheets, with files in DIR"""
import os
import random
import subprocess
import sys

from reference import COST, PLACES, p16, record, u16, u32


def route(cost, places, count=None):
    return record(17, cost.to_bytes(4, 'little') + p16(len(places) if count is None else count) + b''.join(map(p16, places)))


def no_route(start):
    return record(18, p16(start))


def read(b):
    """number, cost and places, by the paper's conditions 18 and 19"""
    if len(b) < 4 or len(b) != 4 + u16(b, 0):
        return 18, 0, []
    kind, body = u16(b, 2), b[4:]
    if kind == 18 and len(body) == 2:
        number, cost, places = 17, 0, [u16(body, 0)]
    elif kind == 17 and len(body) >= 6 and len(body) == 6 + 2 * u16(body, 4):
        number, cost, places = 0, u32(body, 0), [u16(body, i) for i in range(6, len(body), 2)]
    else:
        return 18, 0, []
    p = len(places)
    if p < 1 or p > PLACES or max(places) >= PLACES or len(set(places)) < p or not p - 1 <= cost <= (p - 1) * COST:
        return 19, 0, []
    return number, cost, places


def samples(rnd):
    full = list(range(PLACES))
    yield from (b'', b'\0', b'\0\0\0', b'\0\0\x11\0', record(17, b''), record(18, b''), record(18, b'\1'), record(18, b'\1\0\0'), record(19, route(1, [0, 1])[4:]))
    yield from (no_route(0), no_route(4095), no_route(4096), no_route(65535), no_route(7) + no_route(7), no_route(7) + b'\0')
    yield from (route(0, []), route(0, [0]), route(1, [0]), route(0, [4095]), route(0, [4096]))
    yield from (route(4095, full), route(4095 * COST, full), route(4094, full), route(4095 * COST + 1, full))
    yield from (route(4095, full[::-1]), route(4096, full + [0]), route(4096, full + [4096]), route(4095, full[:-1] + [0]))
    yield from (route(5, [0, 1, 2], 4), route(5, [0, 1, 2], 2), route(5, list(range(32764)), 32764))
    yield bytes(65536 + 200)
    for _ in range(400):
        p = rnd.choice([1, 2, 3, 5, 40])
        places = rnd.sample(range(PLACES), p)
        b = bytearray(route(rnd.choice([p - 1, p, (p - 1) * COST, (p - 1) * COST + 1, rnd.randrange(2 ** 32)]), places))
        for _ in range(rnd.choice([0, 0, 1, 2])):
            b[rnd.randrange(len(b))] = rnd.randrange(256)
        yield bytes(b[:rnd.choice([len(b), len(b), len(b) - 1])]) + bytes(rnd.choice([0, 0, 0, 1, 4]))
    for _ in range(400):
        yield bytes(rnd.randrange(256) for _ in range(rnd.choice([0, 1, 3, 4, 6, 20])))


def cases():
    rnd = random.Random(1)
    for b in samples(rnd):
        number, cost, places = read(b)
        asks = {0: number, 1: cost, 2: len(places), 3 + len(places): 0, 3 + PLACES: 0, 2 ** 32 - 1: 0}
        for i in {0, len(places) // 2, len(places) - 1}:
            if 0 <= i < len(places):
                asks[3 + i] = places[i]
        print(b.hex() or '-', *(f'{q}={a}' for q, a in asks.items()))


def host(show, folder):
    def run(*words, data=None):
        done = subprocess.run([show, *words], input=data, capture_output=True)
        return done.returncode, done.stdout.decode(), done.stderr.decode()

    wrong = 0
    for b in samples(random.Random(2)):
        number, cost, places = read(b)
        want = {0: (0, f'route, cost {cost}, places {len(places)}: {" ".join(map(str, places))}\n'), 17: (0, f'no route from {"".join(map(str, places))}\n')}
        code, out, err = run(data=b)
        expected = want.get(number, (1, ''))
        wrong += (code, out) != expected or (code != 0) != (err != '')
    path = os.path.join(folder, 'sheet')
    with open(path, 'wb') as f:
        f.write(route(5, [0, 1, 2, 3]))
    wrong += run(path) != (0, 'route, cost 5, places 4: 0 1 2 3\n', '')
    wrong += run(path + '.none')[0] != 2 or run(folder)[0] != 2 or run('a', 'b')[0] != 2
    print(f'host: {wrong} wrong answers')
    return wrong


if __name__ == '__main__':
    sys.exit(cases() if sys.argv[1] == 'cases' else host(*sys.argv[2:]) != 0)
