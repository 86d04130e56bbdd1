"""Document 01 and document 02's papers 1 to 3 and 5 to 8 once more, in Python and as plainly as possible: the second source that tests hold the
answers of the router and of the map writer and the day's report against."""
import heapq

PLACES, ARCS, COST, ESTIMATE, GOALS = 4096, 16384, 65535, 268435455, 64
LENGTH, FACTOR, FACTORS = 4095, 16, (1, 2, 3, 4, 6, 8, 12, 16)

# how long a body is, by its kind; a job's depends on its goals
SIZES = {1: 4, 2: 6, 3: 6, 5: 8, 6: 4, 7: 16, 8: 4}
JOB = 4

# the refusals in the order in which they are looked for
ORDER = (*range(1, 10), 20, 22, 21, *range(10, 16))


def u16(b, i):
    return int.from_bytes(b[i:i + 2], 'little')


def u32(b, i):
    return int.from_bytes(b[i:i + 4], 'little')


def p16(n):
    return n.to_bytes(2, 'little')


def p32(n):
    return n.to_bytes(4, 'little')


def record(kind, body):
    return p16(len(body)) + p16(kind) + body


def head(places, arcs):
    return record(1, p16(places) + p16(arcs))


def arc(start, end, cost):
    return record(2, p16(start) + p16(end) + p16(cost))


def measured(start, end, length, class_):
    return record(5, p16(start) + p16(end) + p16(length) + p16(class_))


def estimate(place, value):
    return record(3, p16(place) + p32(value))


def default(value):
    """the estimate of all places that have none of their own, goals excepted"""
    return record(8, p32(value))


def wait(place, value):
    return record(6, p16(place) + p16(value))


def factors(table):
    return record(7, b''.join(map(p16, table)))


def job(start, allowance, goals, count=None):
    return record(JOB, p16(start) + p32(allowance) + p16(len(goals) if count is None else count) + b''.join(map(p16, goals)))


def frame(data):
    records, at = [], 0
    while at < len(data):
        if len(data) - at < 4 or len(data) - at - 4 < u16(data, at):
            return records, True
        end = at + 4 + u16(data, at)
        records.append((u16(data, at + 2), data[at + 4:end]))
        at = end
    return records, False


def fits(kind, body):
    if kind == JOB:
        return len(body) >= 8 and len(body) == 8 + 2 * u16(body, 6)
    return len(body) == SIZES[kind]


def is_known(kind):
    return kind == JOB or kind in SIZES


def is_arc(kind):
    return kind in (2, 5)


def values(records, kind):
    """place and value of each estimate, kind 3, or of each wait, kind 6"""
    return [(u16(b, 0), int.from_bytes(b[2:], 'little')) for k, b in records if k == kind]


def defaults(records):
    """the estimate of each record that gives a default"""
    return [u32(b, 0) for k, b in records if k == 8]


def default_of(records):
    """the default, wherever it stands, or 0"""
    return next(iter(defaults(records)), 0)


def tables(records):
    """the eight factors of each record that has them"""
    return [tuple(u16(b, i) for i in range(0, len(b), 2)) for k, b in records if k == 7]


def table_of(records):
    """the factors of the classes: the map's own, wherever they stand, or the fixed ones"""
    return next(iter(tables(records)), FACTORS)


def is_table(table):
    return all(1 <= f <= FACTOR for f in table) and all(f <= g for f, g in zip(table, table[1:]))


def lane_cost(kind, body, table):
    return u16(body, 4) if kind == 2 else u16(body, 4) * table[u16(body, 6)]


def arcs_of(records):
    """from, to and cost of each arc: its lane's, and the wait of the place that it leaves"""
    waits, table = dict(values(records, 6)), table_of(records)
    return [(u16(b, 0), u16(b, 2), lane_cost(k, b, table) + waits.get(u16(b, 0), 0)) for k, b in records if is_arc(k)]


def repeats(pairs):
    """whether a place has two values"""
    return len(dict(pairs)) < len(pairs)


def words_needed(data):
    return 16 * u16(data, 4) + 2 * u16(data, 6)


def sheet_bytes(data):
    """how long a sheet of the map may be"""
    return 10 + 2 * u16(data, 4)


def refusal(data, words, room, asked=sheet_bytes):
    """the first number in the order whose condition holds, or 0; asked: from an accepted input to the bytes that the call asks for"""
    records, broken = frame(data)
    if broken:
        return 1
    if not all(is_known(k) for k, _ in records):
        return 2
    if any(not fits(k, b) for k, b in records):
        return 3
    number = map_refusal(records) or job_refusal(records)
    if number:
        return number
    if words < words_needed(data):
        return 14
    return 15 if room < asked(data) else 0


def map_refusal(records):
    """4 to 9 or 20 to 22, or 0"""
    kinds = [k for k, _ in records]
    if kinds[:1] != [1] or kinds.count(1) > 1:
        return 4
    n, m = u16(records[0][1], 0), u16(records[0][1], 2)
    if not 1 <= n <= PLACES or m > ARCS or m != sum(map(is_arc, kinds)):
        return 5
    estimates, waits = values(records, 3), values(records, 6)
    if any(is_arc(k) and max(u16(b, 0), u16(b, 2)) >= n for k, b in records) or any(v >= n for v, _ in estimates + waits):
        return 6
    if any(k == 2 and u16(b, 4) == 0 for k, b in records):
        return 7
    if any(h > ESTIMATE for h in [h for _, h in estimates] + defaults(records)):
        return 8
    if repeats(estimates) or len(defaults(records)) > 1:
        return 9
    if any(k == 5 and not (1 <= u16(b, 4) <= LENGTH and u16(b, 6) < len(FACTORS)) for k, b in records):
        return 20
    if len(tables(records)) > 1 or not is_table(table_of(records)):
        return 22
    return 21 if repeats(waits) or any(cost > COST for _, _, cost in arcs_of(records)) else 0


def goals_of(body):
    return [u16(body, i) for i in range(8, len(body), 2)]


def job_refusal(records):
    """10 to 13, or 0, of a map that is not refused"""
    kinds, n = [k for k, _ in records], u16(records[0][1], 0)
    if kinds.count(JOB) != 1 or kinds[-1] != JOB:
        return 10
    body = records[-1][1]
    goals = goals_of(body)
    if u16(body, 0) >= n or any(g >= n for g in goals):
        return 11
    if not 1 <= len(goals) <= GOALS or any(g >= h for g, h in zip(goals, goals[1:])):
        return 12
    return 13 if any(v in goals and h != 0 for v, h in values(records, 3)) else 0


def cleared(data, number):
    """how many work words are 0 after the call; no other word changes, and no byte but those that the answer counts"""
    return 0 if number in ORDER else words_needed(data)


class Problem:
    def __init__(self, data):
        records, _ = frame(data)
        self.n = u16(records[0][1], 0)
        self.out = [[] for _ in range(self.n)]
        self.into = [[] for _ in range(self.n)]
        for u, v, c in arcs_of(records):
            self.out[u].append((v, c))
            self.into[v].append((u, c))
        body = records[-1][1]
        self.start, self.allowance = u16(body, 0), u32(body, 2)
        self.goals = set(goals_of(body))
        own, without = dict(values(records, 3)), default_of(records)
        self.h = [0 if v in self.goals else own.get(v, without) for v in range(self.n)]

    def least(self, limit):
        """D of every place within the limit, with the fewest arcs of a path at that cost"""
        done, heap = {}, [(0, 0, self.start)] if self.h[self.start] <= limit else []
        while heap:
            d, arcs, u = heapq.heappop(heap)
            if u not in done:
                done[u] = d, arcs
                for v, c in self.out[u]:
                    if d + c + self.h[v] <= limit:
                        heapq.heappush(heap, (d + c, arcs + 1, v))
        return done

    def query(self, limit, budget):
        """outcome, number, cost, least"""
        least = self.least(limit)
        order = sorted(least, key=lambda v: (least[v][0], v))
        goal = next((v for v in order if v in self.goals), None)
        length = len(order) if goal is None else order.index(goal)
        if length > budget:
            return 'over', None, budget, least
        if goal is not None:
            return 'found', None, length, least
        sums = [least[u][0] + c + self.h[v] for u in least for v, c in self.out[u] if v not in least]
        return ('ended', min(sums), length, least) if sums else ('none', None, length, least)

    def route(self, least):
        """cost and places: of the cheapest those with the fewest arcs, of these the lowest numbers from the goal back"""
        goal = min((g for g in self.goals if g in least), key=lambda g: (least[g], g))
        places = [goal]
        while places[0] != self.start:
            d, arcs = least[places[0]]
            places.insert(0, min(u for u, c in self.into[places[0]] if least.get(u) == (d - c, arcs - 1)))
        return least[goal][0], places


def route(data, words, room):
    """the seven numbers and the sheet's bytes"""
    number = refusal(data, words, room)
    if number:
        return (number, 0, 0, 0, 0, 0, 0), b''
    p = Problem(data)
    low, high, b, total, queries = p.h[p.start], None, 1, 0, 0
    while True:
        limit = 2 * low if high is None else (low + high) // 2
        queries += 1
        outcome, number, cost, least = p.query(limit, b)
        if total + cost > p.allowance:
            return (16, 0, 0, low, p.allowance, queries, 0), b''
        total += cost
        if outcome == 'none':
            s = record(18, p16(p.start))
            return (17, 0, limit, 0, total, queries, len(s)), s
        if outcome == 'found':
            cost, places = p.route(least)
            s = record(17, p32(cost) + p16(len(places)) + b''.join(map(p16, places)))
            return (0, cost, limit, 0, total, queries, len(s)), s
        if outcome == 'ended':
            low = number
        else:
            high = limit
        if low == high:
            b, high = 2 * b, None


def arc_order(kind, body, table):
    """by from, to, cost, kind and the remaining fields"""
    return u16(body, 0), u16(body, 2), lane_cost(kind, body, table), kind, [u16(body, i) for i in range(4, len(body), 2)]


def others(records, kind, without):
    """the values other than the one that holds without a record, by place"""
    return sorted((place, value) for place, value in values(records, kind) if value != without)


def write_map(data, words, room):
    """the seven numbers and the map's bytes"""
    number = refusal(data, words, room, len)
    if number:
        return (number, 0, 0, 0, 0, 0, 0), b''
    (first, *middle, last), _ = frame(data)
    table, value, goals = table_of(middle), default_of(middle), goals_of(last[1])
    arcs = sorted((r for r in middle if is_arc(r[0])), key=lambda lane: arc_order(*lane, table))
    estimates = [estimate(v, h) for v, h in others(middle, 3, value) if v not in goals]
    waits = [wait(*w) for w in others(middle, 6, 0)]
    once = [factors(table)] * (table != FACTORS) + [default(value)] * (value != 0)
    out = b''.join([record(*first), *(record(*a) for a in arcs), *estimates, *waits, *once, record(*last)])
    return (0, 0, 0, 0, 0, 0, len(out)), out


class Day:
    """what the jobs of a day come to: how many came to each number, the cost of each route, its goal, and the expansions"""

    def __init__(self, data, words, room):
        records, broken = frame(data)
        first = next((i for i, (kind, _) in enumerate(records) if kind == JOB), len(records))
        self.map, self.later = b''.join(record(*r) for r in records[:first]), records[first:]
        self.too_long = len(data) > 65536 or len(self.later) + broken > 1000
        self.counts, self.routes, self.expansions = {}, [], 0
        if self.too_long:
            return
        for kind, body in self.later:
            self.add(*(route(self.map + record(kind, body), words, room) if kind == JOB else ((10, *[0] * 6), b'')))
        if broken:
            self.add((1, *[0] * 6), b'')

    def add(self, answer, sheet):
        number, cost, _, _, expansions, _, _ = answer
        self.counts[number] = self.counts.get(number, 0) + 1
        if number in (0, 17):
            self.expansions += expansions
        if number == 0:
            self.routes.append((u16(sheet, len(sheet) - 2), cost))

    def lines(self):
        """each number and its count; total cost, largest cost, total expansions; each goal, its routes and their cost"""
        if self.too_long:
            return ['too long']
        costs = [cost for _, cost in self.routes]
        rows = sorted(self.counts.items())
        rows.append((sum(costs), max(costs, default=0), self.expansions))
        for goal in sorted({goal for goal, _ in self.routes}):
            there = [cost for g, cost in self.routes if g == goal]
            rows.append((goal, len(there), sum(there)))
        return [' '.join(map(str, row)) for row in rows]
