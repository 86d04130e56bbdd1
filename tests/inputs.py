"""Random maps, and inputs damaged at random."""
from collections import namedtuple

from reference import COST, ESTIMATE, FACTOR, FACTORS, GOALS, LENGTH, arc, default, estimate, factors, head, job, measured, record, wait


class Graph(namedtuple('Graph', 'places arcs goals waits own', defaults=[None])):
    """an arc has the cost of its lane; waits: by place, of those that have a record; own: the map's own factors, or None"""

    def table(self):
        return self.own or FACTORS

    def with_waits(self):
        """the arcs at what they cost: the lane, and the wait of the place that they leave"""
        return [(u, v, lane + self.waits.get(u, 0)) for u, v, lane in self.arcs]


def some_graph(rnd, places):
    """arcs to anywhere, or along rows and columns, where several routes are cheapest; parallel arcs, loops and goals out of reach come up by
    themselves"""
    steps, dear, own = rnd.choice([range(places), (1, 2), (1, 5), (1, -1, 5, -5)]), rnd.choice([1, 1, 2, 9, 48, COST]), some_factors(rnd)
    arcs = []
    for _ in range(rnd.randint(places, 3 * places)):
        u = rnd.randrange(places)
        arcs.append((u, (u + rnd.choice(steps)) % places, some_cost(rnd, dear, own or FACTORS)))
    goals = rnd.sample(range(places), min(rnd.choice([1, 1, 2, 5, GOALS]), (places + 2) // 3))
    return Graph(places, arcs, sorted(goals), some_waits(rnd, places, arcs), own)


def some_factors(rnd):
    """for a third of the maps; now and then those that hold without them"""
    if rnd.random() > 1 / 3:
        return None
    low, high = rnd.choice([(1, 1), (1, 2), (1, 4), (1, FACTOR), (1, FACTOR), (1, FACTOR), (9, FACTOR), (FACTOR, FACTOR)])
    return FACTORS if rnd.random() < 0.2 else tuple(sorted(rnd.randint(low, high) for _ in FACTORS))


def some_cost(rnd, dear, table):
    """up to so much, and often what a lane with a class may cost; where every factor is above that, no lane will have one"""
    factor = rnd.choice([1, *(f for f in table if f <= dear)])
    return factor * rnd.randint(1, min(dear // factor, rnd.choice([LENGTH, COST])))


def some_waits(rnd, places, arcs):
    """none in half of the maps; now and then so long that a place's dearest arc costs as much as an arc may"""
    if rnd.random() < 0.5:
        return {}
    longest, share, high = [COST] * places, rnd.choice([0.1, 0.5, 1]), rnd.choice([1, 1, 9, COST])
    for u, _, lane in arcs:
        longest[u] = min(longest[u], COST - lane)
    return {v: min(longest[v], rnd.randint(0, high) if rnd.random() < 0.9 else COST) for v in range(places) if rnd.random() < share}


def any_estimates(rnd, graph):
    high = rnd.choice([0, 3 * max(cost for _, _, cost in graph.with_waits()), ESTIMATE])
    return [0 if v in graph.goals else rnd.randint(0, high) for v in range(graph.places)]


def with_default(rnd, graph, estimates, far=None):
    """the estimates that hold, and a default, None for three maps in five; it stands in for what some places have, and mostly overstates at none of
    them. far: the least cost from each place to a goal, None where there is none; where it is not known, that of an arc, which it is at least"""
    if rnd.random() < 0.6:
        return estimates, None
    lost, far = rnd.choice([0, 0.1, 0.5, 1]), far or [min(cost for _, _, cost in graph.with_waits())] * graph.places
    bare = {v for v in range(graph.places) if v not in graph.goals and rnd.random() < lost}
    most = min((far[v] for v in bare if far[v] is not None), default=ESTIMATE)
    value = rnd.choice([most, most, rnd.randint(0, most), 0, rnd.choice(estimates), min(rnd.randint(0, 3 * most), ESTIMATE), ESTIMATE])
    return [value if v in bare else h for v, h in enumerate(estimates)], value


def classes(cost, table):
    """the classes in which a lane of some length has this cost"""
    return [c for c, factor in enumerate(table) if cost % factor == 0 and cost // factor <= LENGTH]


def as_measured(start, end, cost, class_, table):
    return measured(start, end, cost // table[class_], class_)


def lane(rnd, start, end, cost, table):
    """an arc of either kind"""
    if classes(cost, table) and rnd.random() < 0.5:
        return as_measured(start, end, cost, rnd.choice(classes(cost, table)), table)
    return arc(start, end, cost)


def records_before_job(rnd, graph, estimates, value=None):
    """arcs of both kinds, estimates, waits, factors and a default of this value mix freely; an estimate that says what holds without it has a record
    now and then"""
    mixed = [lane(rnd, *a, graph.table()) for a in graph.arcs] + [wait(*w) for w in graph.waits.items()]
    mixed += [factors(graph.own)] if graph.own else []
    mixed += [] if value is None else [default(value)]
    without = [0 if v in graph.goals else value or 0 for v in range(graph.places)]
    mixed += [estimate(v, h) for v, h in enumerate(estimates) if h != without[v] or rnd.random() < 0.2]
    rnd.shuffle(mixed)
    return [head(graph.places, len(graph.arcs)), *mixed]


def some_map(rnd, sizes=(1, 2, 3, 4, 6, 8, 9, 17, 40, 57, 64, 65, 200)):
    """the records of an input that is not refused, with any estimates, any default and any allowance"""
    graph = some_graph(rnd, rnd.choice(sizes))
    allowance = rnd.choice([236 * graph.places, rnd.randint(0, 20 * graph.places), rnd.randint(0, 9)])
    before = records_before_job(rnd, graph, *with_default(rnd, graph, any_estimates(rnd, graph)))
    return before + [job(rnd.randrange(graph.places), allowance, graph.goals)]


def some_table(rnd):
    """eight factors, of which one may be too small or too large, and one may be smaller than the one before"""
    table = sorted(rnd.randint(1, FACTOR) for _ in FACTORS)
    for _ in range(rnd.randrange(3)):
        table[rnd.randrange(len(table))] = rnd.randint(0, FACTOR + 1)
    return table


def some_value(rnd):
    """an estimate, which may be too large"""
    return rnd.choice([0, rnd.randrange(100), ESTIMATE, ESTIMATE + 1, rnd.randrange(2 ** 32)])


def damaged(rnd, records):
    """with other factors or a default put in, a map may be accepted still, at other costs or with other estimates"""
    records = list(records)
    way = rnd.randrange(7)
    if way == 0:
        return b''.join(records)[:-rnd.randint(1, 9)]
    if way == 1:
        rnd.shuffle(records)
    if way == 2:
        records.insert(rnd.randrange(len(records) + 1), rnd.choice(records))
    if way == 3:
        records.insert(rnd.randrange(len(records) + 1), record(rnd.randrange(10), bytes(rnd.randrange(10))))
    if way == 5:
        records.insert(rnd.randrange(1, len(records)), factors(some_table(rnd)))
    if way == 6:
        records.insert(rnd.randrange(1, len(records)), default(some_value(rnd)))
    data = bytearray(b''.join(records))
    if way == 4:
        for _ in range(rnd.randint(1, 3)):
            data[rnd.randrange(len(data))] = rnd.randrange(256)
    return bytes(data)
