#!/usr/bin/env python3
"""Makes the stored cases, which program `cases` and tests/answers.c read. Anew, from the repository's root:

    g++ -std=c++17 -O2 -Ibench tests/least.cpp -o LEAST
    python3 tests/cases.py LEAST > crates/cases/stdin

crates/cases/stdout has the number of cases in each group.

A case is 12 numbers of 4 bytes, little-endian: its group, bytes of the input, words lent, bytes lent, the seven numbers of the answer, and how many
work words are 0 after the call; then the input; then the sheet. The answers are those of tests/reference.py. They must be what document 01 says of
its own runs, and what was found by hand for some maps with waits, with factors or with a default; number and cost must be what the Boost Graph
Library says of random maps; and where the number of places decides between cheapest routes, the route must be the first of all that there are.
Otherwise nothing is made."""
import itertools
import os
import random
import struct
import subprocess
import sys

from by_hand import lines, runs
from doors import doors
from edges import ends_of_fields, ends_of_records, refused
from floors import floors
from inputs import Graph, any_estimates, as_measured, classes, damaged, records_before_job, some_graph, some_map, with_default
from reference import ARCS, COST, ESTIMATE, GOALS, PLACES, Problem, arc, cleared, default, estimate, factors, head, job, route, u16, wait
from rings import rings
from ties import along_a_line, ties

DOCUMENT, REFUSALS, ENDS, CONSISTENT, GAPS, OVERSTATING, DAMAGED, FEWEST = range(8)
NUMBERS = struct.Struct('<12I')
STORED = os.path.join(os.path.dirname(__file__), '..', 'crates', 'cases', 'stdin')


def needs(data):
    """the words and bytes that an input asks for by its head"""
    n, m = (u16(data, 4), u16(data, 6)) if len(data) >= 8 else (1, 0)
    return 16 * n + 2 * m, 10 + 2 * n


def case(group, data, words, room):
    answer, sheet = route(data, words, room)
    return NUMBERS.pack(group, len(data), words, room, *answer, cleared(data, answer[0])) + data + sheet


def documented():
    for run in runs():
        words, room = needs(run.data)
        answer, sheet = route(run.data, words - run.short, room)
        given = *lines(answer, sheet), sheet.hex(' ').upper()
        if any(said not in (None, other) for said, other in zip((run.line, run.places, run.sheet), given)):
            sys.exit(f'not as document 01 has it: {run}, {given}')
        yield case(DOCUMENT, run.data, words - run.short, room)


def refusals():
    for data, words, room, number in refused():
        if route(data, words, room)[0][0] != number:
            sys.exit(f'not refused by {number}, with {words} words and {room} bytes lent: {data.hex()}')
        yield case(REFUSALS, data, words, room)


def whole_graph(rnd):
    """as many places, arcs, goals and waits as there may be, the goals at the far end, and factors"""
    arcs = [(u, min(max(u + rnd.randint(-20, 40), 0), PLACES - 1), rnd.randint(1, 9)) for u in list(range(PLACES)) * (ARCS // PLACES)]
    return Graph(PLACES, arcs, list(range(PLACES - GOALS, PLACES)), {v: rnd.randint(0, 9) for v in range(PLACES)}, (1, 1, 2, 3, 4, 5, 6, 7))


def largest(graph, far):
    """the longest input that is not refused; one with an arc too many; and the longest route, with the highest cost and the highest limit"""
    arcs = b''.join(as_measured(u, v, lane, classes(lane, graph.own)[-1], graph.own) for u, v, lane in graph.arcs)
    waits = b''.join(wait(*w) for w in graph.waits.items())
    estimates = b''.join(estimate(v, (d or 0) * 6 // 10) for v, d in enumerate(far))
    data = head(PLACES, ARCS) + arcs + waits + estimates + factors(graph.own) + default(ESTIMATE) + job(20, 236 * PLACES, graph.goals)
    agree(data, far[20], False)
    chain = b''.join(arc(v, v + 1, COST - v % 5) + wait(v, v % 5) for v in range(PLACES - 1)) + estimate(PLACES - 2, ESTIMATE)
    return data, head(PLACES, ARCS + 1) + arcs + arc(0, 0, 1) + job(0, 9, [1]), head(PLACES, PLACES - 1) + chain + job(0, 236 * PLACES, [PLACES - 1])


def least(program, graphs):
    """each graph with the least cost from every place to a goal by Boost, None where there is none"""
    text = []
    for g in graphs:
        text += [f'{g.places} {len(g.arcs)} {len(g.goals)}', *('%d %d %d' % a for a in g.with_waits()), *map(str, g.goals)]
    lines = subprocess.run([program], input='\n'.join(text), stdout=subprocess.PIPE, text=True, check=True).stdout.splitlines()
    return [(g, [None if word == '-' else int(word) for word in line.split()]) for g, line in zip(graphs, lines, strict=True)]


def agree(data, cheapest, overstating):
    """the answer, whose number and cost must be what Boost's least cost says"""
    answer = route(data, *needs(data))[0]
    right = answer[:2] == (17, 0) if cheapest is None else answer[0] == 0 and (answer[1] == cheapest or overstating and answer[1] > cheapest)
    if not right:
        sys.exit(f'least cost {cheapest} by Boost, {answer} by the reference: {data.hex()}')
    return answer


def some_estimates(rnd, graph, far):
    """a part of the least cost, the same per cent for every place; 0 or any number up to it, or up to twice as much; or any number at all"""
    way = rnd.randrange(4)
    if way == 0:
        part = rnd.choice([0, 50, 95, 100])
        return [ESTIMATE if d is None else d * part // 100 for d in far]
    if way == 3:
        return any_estimates(rnd, graph)
    return [rnd.choice([0, rnd.randint(0, 99 if d is None else way * d)]) for d in far]


def group_of(graph, estimates, far):
    if any(d is not None and h > d for h, d in zip(estimates, far)):
        return OVERSTATING
    return CONSISTENT if all(estimates[u] <= cost + estimates[v] for u, v, cost in graph.with_waits()) else GAPS


def some_case(rnd, graph, far):
    """a random map, most often with a route, and with an allowance around what its search needs, or far from it"""
    estimates, value = with_default(rnd, graph, some_estimates(rnd, graph, far), far)
    group, records = group_of(graph, estimates, far), b''.join(records_before_job(rnd, graph, estimates, value))
    start = rnd.choice([v for v in range(graph.places) if far[v] or rnd.random() < 0.3] or [0])
    enough = 236 * graph.places
    total = agree(records + job(start, enough, graph.goals), far[start], group == OVERSTATING)[4]
    allowance = rnd.choice([enough, enough, 2 ** 32 - 1, total, total, max(total - 1, 0), rnd.randint(0, total), 0])
    data = records + job(start, allowance, graph.goals)
    return case(group, data, *(need + rnd.choice([0, 0, 1, 30]) for need in needs(data)))


def some_damage(rnd):
    records = some_map(rnd, range(1, 15))
    return case(DAMAGED, damaged(rnd, records), *(need + rnd.choice([0, 1, -1]) for need in needs(records[0])))


def all_routes(p, limit, cost):
    """cost, number of places, and places from the goal back, of every route within the limit that costs no more"""
    ways = [(0, [p.start])] if p.h[p.start] <= limit else []
    while ways:
        so_far, back = ways.pop()
        if back[0] in p.goals:
            yield so_far, len(back), back
        ways += [(so_far + c, [v, *back]) for v, c in p.out[back[0]] if v not in back and so_far + c <= min(cost, limit - p.h[v])]


def first_routes(data):
    """the first route's places, which must be those of the first of all routes, and of the one that would be first if places were not counted"""
    answer, sheet = route(data, *needs(data))
    routes = list(all_routes(Problem(data), answer[2], answer[1]))
    first, uncounted = min(routes), min(routes, key=lambda r: (r[0], r[2]))
    places = [u16(sheet, i) for i in range(10, len(sheet), 2)]
    if first != (answer[1], len(places), places[::-1]):
        sys.exit(f'{first} is the first of all routes, {answer} {places} by the reference: {data.hex()}')
    return places, uncounted[2][::-1]


def waited(rnd, graphs):
    """the maps with waits by hand, each with its graph by Boost"""
    for door, (graph, far) in zip(doors(), graphs):
        data, free = (b''.join(records_before_job(rnd, g, [0] * g.places)) + job(0, 236 * g.places, g.goals)
                      for g in (graph, graph._replace(waits={})))
        agree(data, far[0], False)
        given = door._replace(cost=far[0], places=first_routes(data)[0], free=first_routes(free)[0])
        if given != door:
            sys.exit(f'not as by hand: {door}, {given}')
        yield case(CONSISTENT, data, *needs(data))


def factored(graphs):
    """the maps with factors by hand, each with its graph by Boost"""
    for one, (_, far) in zip(floors(), graphs, strict=True):
        agree(one.data, far[0], False)
        given = one._replace(cost=far[0], places=first_routes(one.data)[0])
        if given != one:
            sys.exit(f'not as by hand: {one}, {given}')
        yield case(CONSISTENT, one.data, *needs(one.data))


def ringed(graphs):
    """the maps with a default by hand, each with its graph by Boost"""
    for ring, (graph, far) in zip(rings(), graphs, strict=True):
        given, group = route(ring.data, *needs(ring.data)), group_of(graph, ring.estimates, far)
        if lines(*given) != (ring.line, ring.places) or route(ring.spelled, *needs(ring.spelled)) != given:
            sys.exit(f'not as by hand, or not as with estimates for all places: {ring}, {given}')
        if given[0][0] != 16:
            agree(ring.data, far[0], group == OVERSTATING)
        yield case(group, ring.data, *needs(ring.data))


def counted(rnd, count):
    """the maps by hand, and so many random ones whose first route would be another if places were not counted"""
    for tie in ties():
        if first_routes(tie.data) != (tie.first, tie.uncounted):
            sys.exit(f'not as by hand: {tie}, {first_routes(tie.data)}')
        yield case(FEWEST, tie.data, *needs(tie.data))
    while count:
        graph, far = along_a_line(rnd, rnd.randint(8, 20))
        high = rnd.choice([0, 0, 0.1])  # how many estimates keep routes out of the limit
        estimates = [9 * d if rnd.random() < high else h for h, d in zip(some_estimates(rnd, graph, far), far)]
        before = records_before_job(rnd, graph, *with_default(rnd, graph, estimates, far))
        data = b''.join(before) + job(far.index(max(far)), 236 * graph.places, graph.goals)
        if route(data, *needs(data))[0][0] == 0:
            first, uncounted = first_routes(data)
            if first != uncounted:
                count -= 1
                yield case(FEWEST, data, *needs(data))


def all_cases(program):
    rnd = random.Random(1)
    sizes = [200] * 4 + [rnd.randint(2, rnd.randint(2, 60)) for _ in range(496)]
    by_hand = [[one.graph for one in maps] for maps in (doors(), floors(), rings())]
    whole, *graphs = least(program, [whole_graph(rnd), *itertools.chain(*by_hand), *(some_graph(rnd, places) for places in sizes)])
    graphs = iter(graphs)
    waits, tables, defaults = ([*itertools.islice(graphs, len(maps))] for maps in by_hand)
    yield from documented()
    yield from refusals()
    yield from (case(ENDS, data, *needs(data)) for data in (*ends_of_fields(), *ends_of_records(), *largest(*whole)))
    yield from waited(rnd, waits)
    yield from factored(tables)
    yield from ringed(defaults)
    yield from (some_case(rnd, *graph) for graph in graphs)
    yield from (some_damage(rnd) for _ in range(80))
    yield from counted(rnd, 100)


def stored():
    """the numbers and the input of each stored case"""
    with open(STORED, 'rb') as file:
        while front := file.read(NUMBERS.size):
            numbers = NUMBERS.unpack(front)
            yield numbers, file.read(numbers[1])
            file.seek(numbers[10], os.SEEK_CUR)


if __name__ == '__main__':
    sys.stdout.buffer.write(b''.join(all_cases(sys.argv[1])))
