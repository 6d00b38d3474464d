#!/usr/bin/env python3
"""Writes the cases of the test program crates/credit_cases, and what it must print.

    python3 tools/credit_cases.py

It is written from the rules of contract tables and chain credits with exact fractions and sets, and shares no text with
the proved code. The gate does not run it: it compares with the files that are stored in the repository. How often each
refusal and each kind of figure was met goes to standard error."""
import os
import random
import sys
from collections import Counter, namedtuple
from fractions import Fraction
from math import ceil, floor

HOME = os.path.join(os.path.dirname(os.path.abspath(__file__)), "..", "crates", "credit_cases")
MOST_ROWS = 256
MOST_CAPACITY = 1_000_000
MOST_QUANTITY = 1_000_000
MOST_DEVIATION = 1_000_000
MOST_PRICE = 100_000_000
LARGEST_U32 = 2**32 - 1
LARGEST_PLACE = 2**64 - 1
LARGEST_I64 = 2**63 - 1

Row = namedtuple("Row", "party capacity receipt delivery next")
Node = namedtuple("Node", "deviations prices")
Case = namedtuple("Case", "rows nodes head demand supply day_ahead")

met = Counter()


class Refused(Exception):
    def __init__(self, number, layer, place):
        super().__init__(f"refused {number} {layer} {place}")
        self.key = f"{number} {layer} {place}" if number == 14 else f"{number} {layer}"


# The rules.


def nearest(x, what):
    """The nearest whole number, of two equally near the one farther from zero."""
    if x.denominator == 2:
        met[f"half of a {what}, " + ("below 0" if x < 0 else "above 0")] += 1
    return min({floor(x), ceil(x)}, key=lambda q: (abs(x - q), -abs(q)))


def ending_rows(rows):
    """The rows whose chain ends: the least set that has the rows without next and all that lead into the set."""
    ending = {i for i, row in enumerate(rows) if row.next is None}
    while more := {i for i, row in enumerate(rows) if row.next in ending} - ending:
        ending |= more
    return ending


def check(rows):
    if len(rows) > MOST_ROWS:
        raise Refused(1, "table", 0)
    everywhere = set(range(len(rows)))
    leading = [i for i in everywhere if rows[i].next is not None]
    tests = [
        (2, lambda: {i for i in everywhere if rows[i].capacity > MOST_CAPACITY}),
        (3, lambda: {i for i in leading if rows[i].next not in everywhere}),
        (4, lambda: {i for i in leading if rows[i].delivery != rows[rows[i].next].receipt}),
        (5, lambda: everywhere - ending_rows(rows)),
    ]
    for number, failing in tests:
        if places := failing():
            raise Refused(number, "table", min(places))
    return len(rows)


def checked(rows):
    try:
        check(rows)
        return rows
    except Refused:
        return []


def chain(rows, head):
    return [] if head is None else [head, *chain(rows, rows[head].next)]


def weighted_price(nodes, n):
    if n >= len(nodes):
        raise Refused(15, "prices", n)
    deviations, prices = nodes[n]
    if max(deviations) > MOST_DEVIATION or max(abs(p) for p in prices) > MOST_PRICE:
        raise Refused(16, "prices", n)
    if sum(deviations) < 1:
        return nearest(Fraction(sum(prices), 2), "plain mean")
    return nearest(Fraction(sum(d * p for d, p in zip(deviations, prices)), sum(deviations)), "weighted mean")


def balanced(table, case):
    if case.head >= len(table):
        raise Refused(13, "table", 0)
    for place, quantity in enumerate((case.demand, case.supply, case.day_ahead)):
        if quantity > MOST_QUANTITY:
            raise Refused(14, "book", place)
    capacities = [table[i].capacity for i in chain(table, case.head)]
    return min(case.demand, case.supply, *capacities) - case.day_ahead


def chain_credits(table, case):
    b = balanced(table, case)
    rows = [table[i] for i in chain(table, case.head)]
    ways = [[weighted_price(case.nodes, n) for n in (row.receipt, row.delivery)] for row in rows]
    legs = [[nearest(Fraction(b * price, 1_000_000), "leg") for price in way] for way in ways]
    met["b " + ("below 0" if b < 0 else "above 0" if b > 0 else "of 0")] += 1
    met["credits of a chain of " + ("1 row" if len(rows) == 1 else "2 to 12 rows" if len(rows) < 13 else "more rows")] += 1
    return [receipt - delivery for receipt, delivery in legs]


# What the program prints.


def told(name, answer):
    """A line of the output; a refusal is counted by the call that it comes from."""
    try:
        return f"{name}: {answer()}"
    except Refused as refused:
        met[f"{name} refused {refused.key}"] += 1
        return f"{name}: {refused}"


def price_told(nodes, n):
    try:
        return str(weighted_price(nodes, n))
    except Refused as refused:
        return f"({refused})"


def listed(words):
    return "".join(f" {word}" for word in words)


def output(number, case):
    table = checked(case.rows)
    places = chain(table, case.head) if case.head < len(table) else []
    return [
        f"case {number}",
        told("check", lambda: f"{check(case.rows)} rows"),
        "chain:" + listed(places),
        "prices:" + listed(price_told(case.nodes, n) for n in range(len(case.nodes))),
        told("balanced", lambda: balanced(table, case)),
        told("credits", lambda: chain_credits(table, case)),
    ]


def written(case):
    rows = (f"{r.party} {r.capacity} {r.receipt} {r.delivery} {'-' if r.next is None else r.next};" for r in case.rows)
    nodes = (f"{d[0]} {d[1]} {p[0]} {p[1]};" for d, p in case.nodes)
    return f"{''.join(rows)}|{''.join(nodes)}|{case.head} {case.demand} {case.supply} {case.day_ahead}"


# The cases.


def table_of(rng, nexts, nodes, light=False):
    """Rows with these next rows, where nodes meet: each row begins at a node, and ends where its next begins."""
    starts = [rng.randrange(nodes) for _ in nexts]
    rows = []
    for start, following in zip(starts, nexts):
        inside = following is not None and following < len(nexts)
        end = starts[following] if inside else rng.randrange(nodes)
        capacity = rng.choice([rng.randint(0, 40), rng.randint(0, MOST_CAPACITY), MOST_CAPACITY])
        rows.append(Row(rng.randrange(5), MOST_CAPACITY if light else capacity, start, end, following))
    return rows


def trees(rng, n, stop=0.25):
    """Next rows by which every chain ends: the rows stand in some order, and each leads on to one later in it."""
    order = rng.sample(range(n), n)
    nexts = [None] * n
    for k in range(n - 1):
        if rng.random() >= stop:
            nexts[order[k]] = order[rng.randint(k + 1, min(n - 1, k + 3))]
    return nexts


def one_chain(rng, n, end=None):
    """A chain over all rows in some order, which ends or leads on to the row at `end` in that order."""
    order = rng.sample(range(n), n)
    nexts = [None] * n
    for k in range(n - 1):
        nexts[order[k]] = order[k + 1]
    nexts[order[-1]] = None if end is None else order[end]
    return nexts, order[0]


def arrows(rng, n):
    """Any next rows: circles, tails into circles, rows that lead to themselves, chains that end."""
    return [None if rng.random() < 0.2 else rng.randrange(n) for _ in range(n)]


def spoil(rng, rows, faults):
    """Breaks rows in several ways at once."""
    n = len(rows)
    for fault in faults:
        leading = [i for i in range(n) if rows[i].next is not None]
        i = rng.choice(leading) if fault == "apart" and leading else rng.randrange(n)
        if fault == "capacity":
            rows[i] = rows[i]._replace(capacity=rng.choice([MOST_CAPACITY + 1, LARGEST_U32, 2_000_000]))
        elif fault == "next":
            rows[i] = rows[i]._replace(next=rng.choice([n, n, n + 1, 300, LARGEST_PLACE]))
        elif fault == "apart":
            rows[i] = rows[i]._replace(delivery=rows[i].delivery + rng.choice([1, 2, 100]))
        elif fault == "self":
            rows[i] = rows[i]._replace(next=i, delivery=rows[i].receipt)
    return rows


def some_node(rng):
    small, large = rng.randint(0, 5), rng.randint(0, MOST_DEVIATION)
    deviation = rng.choice([(0, 0), (0, small), (small, 0), (small, rng.randint(0, 5)), (large, rng.randint(0, MOST_DEVIATION))])
    size = rng.choice([9, 3_000, 3_000_000, MOST_PRICE])
    return Node(deviation, (rng.randint(-size, size), rng.randint(-size, size)))


def bad_node(rng):
    node = some_node(rng)
    first = rng.random() < 0.5
    if rng.random() < 0.5:
        over = rng.choice([MOST_DEVIATION + 1, LARGEST_U32])
        return node._replace(deviations=(over, node.deviations[1]) if first else (node.deviations[0], over))
    beyond = rng.choice([MOST_PRICE + 1, -MOST_PRICE - 1, LARGEST_I64, -LARGEST_I64 - 1])
    return node._replace(prices=(beyond, node.prices[1]) if first else (node.prices[0], beyond))


def quantities(rng):
    size = rng.choice([30, 500_000, MOST_QUANTITY])
    return rng.choice([
        [rng.randint(0, size), rng.randint(0, size), 0],
        [rng.randint(0, size), rng.randint(0, size), rng.randint(0, size)],
        [MOST_QUANTITY, MOST_QUANTITY, rng.choice([0, 1, 500_000, MOST_QUANTITY])],
    ])


def over_quantities(rng):
    some = quantities(rng)
    for place in rng.choice([(0,), (1,), (2,), (1, 2), (0, 2), (0, 1, 2)]):
        some[place] = rng.choice([MOST_QUANTITY + 1, LARGEST_U32])
    return some


def flat(*prices):
    """Nodes without deviations whose weighted prices are these."""
    return [Node((0, 0), (p, p)) for p in prices]


def line_of(prices, b, capacities=None):
    """A chain over all these prices in order, at a balanced quantity of b."""
    n = len(prices) - 1
    rows = [Row(i, MOST_CAPACITY, i, i + 1, i + 1 if i + 1 < n else None) for i in range(n)]
    for i, capacity in enumerate(capacities or []):
        rows[i] = rows[i]._replace(capacity=capacity)
    return Case(rows, flat(*prices), 0, max(b, 0), max(b, 0), max(-b, 0))


def worked():
    nodes = [Node((0, 0), (100_000, 300_000)), Node((1_000, 3_000), (400_000, 800_000)), Node((0, 0), (1_000_000, 1_000_000))]
    rows = [Row(0, 50_000, 0, 1, 1), Row(1, 40_000, 1, 2, None)]
    yield Case(rows, nodes, 0, 30_000, 35_000, 0)
    yield Case(rows, nodes, 0, 60_000, 50_000, 10_000)
    yield Case(rows, nodes, 1, 60_000, 50_000, 10_000)
    circle = [Row(0, 10, 0, 1, 1), Row(0, 10, 1, 2, 2), Row(0, 10, 2, 1, 1)]
    yield Case(circle, nodes, 0, 10, 10, 0)
    joined = [Row(0, 10, 0, 1, 2), Row(0, 10, 2, 1, 2), Row(0, 10, 1, 0, None)]
    for head in range(4):
        yield Case(joined, nodes, head, 10, 10, 0)


def halves():
    # legs of k + 1/2, with both signs of the quantity and of the price
    for b in (500_000, -500_000):
        yield line_of([1, -1, 3, -3, 2, 0, 99_999_999, -99_999_999], b)
    for b in (1, -1, 3, -3):
        yield line_of([500_000, -500_000, 499_999, 500_001, -499_999, -500_001, 1_500_000], b)
    yield line_of([5, -5, 15], 100_000)
    yield line_of([5, -5, 15], -100_000)
    # weighted means of k + 1/2, and plain means of odd sums
    pairs = [((1, 1), (2, 3)), ((1, 1), (-2, -3)), ((3, 1), (0, 2)), ((3, 1), (0, -2)), ((2, 2), (0, 1)), ((2, 2), (-1, 0)),
             ((0, 0), (0, 1)), ((0, 0), (0, -1)), ((0, 0), (-4, 7)), ((0, 0), (4, -7)), ((500_000, 500_000), (-99_999_999, -MOST_PRICE)),
             ((1, 0), (5, 8)), ((0, 1), (5, 8)), ((1, 2), (1, 2)), ((2, 1), (1, 2)), ((1, 2), (-1, -2)), ((2, 1), (-1, -2))]
    nodes = [Node(*pair) for pair in pairs]
    rows = line_of([0] * len(nodes), 0).rows
    for demand, day_ahead in ((MOST_QUANTITY, 0), (0, MOST_QUANTITY), (500_000, 0), (0, 500_000)):
        yield Case(rows, nodes, 0, demand, MOST_QUANTITY, day_ahead)


def limits():
    # the limits themselves, and the largest credits
    most = MOST_PRICE
    for b in (MOST_QUANTITY, -MOST_QUANTITY):
        yield line_of([most, -most, most], b)
    whole = Node((MOST_DEVIATION, MOST_DEVIATION), (most, most))
    both = [whole, whole._replace(prices=(-most, -most)), whole._replace(prices=(most, -most))]
    rows = line_of([0, 0, 0], 0).rows
    yield Case(rows, both, 0, MOST_QUANTITY, MOST_QUANTITY, 0)
    yield Case(rows, both, 0, 0, MOST_QUANTITY, MOST_QUANTITY)
    # each quantity at and over its limit, with the rest at it
    for place in range(3):
        for over in (MOST_QUANTITY, MOST_QUANTITY + 1, LARGEST_U32):
            some = [MOST_QUANTITY] * 3
            some[place] = over
            yield Case(rows, both, 0, *some)
    # each field of a record just beyond its limit, at the receipt and at the delivery
    for place in range(2):
        for field in range(4):
            for over in ((MOST_DEVIATION + 1, LARGEST_U32) if field < 2 else (most + 1, -most - 1, LARGEST_I64, -LARGEST_I64 - 1)):
                figures = [MOST_DEVIATION, MOST_DEVIATION, most, -most]
                figures[field] = over
                nodes = list(both)
                nodes[place] = Node(tuple(figures[:2]), tuple(figures[2:]))
                yield Case(rows, nodes, 0, 7, 7, 0)
    # the least of demand, supply and each capacity, before and after the head
    for capacities in ([5, 9, 8], [9, 5, 8], [9, 8, 5], [0, 9, 9], [9, 9, 9]):
        for head in range(4):
            base = line_of([3_000_000, 1_000_000, -2_000_000, 500_000], 7, capacities)
            yield base._replace(head=head, demand=7, supply=6 + head, day_ahead=2 * head)


def orders():
    """Several faults at once, so that the order of the tests matters."""
    good, bad = Node((1, 1), (200, 300)), Node((1, 1), (MOST_PRICE + 1, 0))
    over = MOST_CAPACITY + 1
    rows = [Row(0, 10, 0, 1, 0), Row(0, 10, 0, 2, 3), Row(0, 10, 1, 2, 9), Row(0, over, 1, 1, None)]
    yield Case(rows, [good] * 3, 0, 5, 5, 0)  # 2 at row 3, before 3 at row 2, 4 at 0 and 5 at 0
    rows[3] = rows[3]._replace(capacity=MOST_CAPACITY)
    yield Case(rows, [good] * 3, 0, 5, 5, 0)  # 3 at row 2
    rows[2] = rows[2]._replace(next=None)
    yield Case(rows, [good] * 3, 0, 5, 5, 0)  # 4 at row 0
    rows[0] = rows[0]._replace(delivery=0)
    yield Case(rows, [good] * 3, 0, 5, 5, 0)  # 4 at row 1
    rows[1] = rows[1]._replace(delivery=1)
    yield Case(rows, [good] * 3, 0, 5, 5, 0)  # 5 at row 0
    rows[0] = rows[0]._replace(next=1)
    yield Case(rows, [good] * 3, 0, 5, 5, 0)  # none
    # head, then demand, supply, day-ahead portion, then the nodes along the chain
    chain_of_3 = [Row(0, 10, 4, 2, 2), Row(0, 10, 1, 3, None), Row(0, 10, 2, 1, 1)]
    much = MOST_QUANTITY + 1
    nodes = [bad, bad, bad, bad]
    for head in (0, 3, LARGEST_PLACE):
        for quantity in ((much, much, much), (1, much, much), (1, 1, much), (1, 1, 1)):
            yield Case(chain_of_3, nodes, head, *quantity)
    for fine in ((4,), (4, 2), (4, 2, 1), (4, 2, 1, 3), (2, 1, 3)):
        yield Case(chain_of_3, [good if n in fine else bad for n in range(5)], 0, 9, 8, 1)
    # a node without record at the receipt, at the delivery, at both, at a later row
    for receipt, delivery, last in ((3, 1, 2), (1, 3, 2), (4, 3, 2), (3, 4, 2), (0, 1, 3), (0, 1, LARGEST_PLACE), (0, 3, 0), (3, 0, 0), (0, 0, 0)):
        yield Case([Row(0, 10, receipt, delivery, 1), Row(0, 10, delivery, last, None)], [bad, good, good], 0, 9, 8, 1)
        yield Case([Row(0, 10, receipt, delivery, 1), Row(0, 10, delivery, last, None)], [good, good, good], 0, 9, 8, 1)


def long_tables(rng):
    def asked(nexts, head, nodes, light=True):
        return Case(table_of(rng, nexts, nodes, light), [some_node(rng) for _ in range(nodes)], head, *quantities(rng))

    in_order = [*range(1, 256), None]
    yield asked(in_order, 0, 257)
    yield asked([None, *range(255)], 255, 6)
    for nodes in (4, 40, 257):
        yield asked(*one_chain(rng, 256), nodes)
    yield asked(*one_chain(rng, 256), 5, light=False)
    case = asked(in_order, 0, 12)
    rows = [*case.rows[:-1], case.rows[-1]._replace(delivery=12)]
    yield case._replace(rows=rows)
    yield case._replace(rows=rows, head=255)
    yield case._replace(rows=[*rows[:-1], rows[-1]._replace(delivery=3, capacity=MOST_CAPACITY + 1)])
    yield case._replace(rows=[*rows[:-1], rows[-1]._replace(next=256)])
    yield case._replace(rows=[*rows[:-1], rows[-1]._replace(next=255)])
    yield case._replace(rows=[*rows[:-1], rows[-1]._replace(next=255, delivery=rows[-1].receipt)])
    yield asked([*range(1, 256), 0], 0, 9)
    yield asked(*one_chain(rng, 256, end=0), 9)
    yield asked(*one_chain(rng, 256, end=255), 9)
    yield asked(*one_chain(rng, 256, end=128), 9)
    yield asked([None] * 255 + [254], 255, 9)
    yield asked([None] * 254 + [255, 255], 254, 9)
    yield asked([255] * 255 + [None], 17, 9)
    for n in (257, 258):
        yield asked([*range(1, n), None], 0, 9)
    yield asked([None] * 257, 0, 2)
    faulty = asked([*range(1, 257), 0], 0, 9)
    yield faulty._replace(rows=spoil(rng, faulty.rows, ["capacity", "next", "apart"]))
    yield faulty._replace(rows=spoil(rng, faulty.rows[:256], ["capacity", "next", "apart"]))


def cases():
    yield from worked()
    for head in (0, 1, LARGEST_PLACE):
        yield Case([], flat(5, 6), head, 10, 10, 0)
    yield Case([], [], 0, MOST_QUANTITY + 1, 10, 0)
    yield from halves()
    yield from limits()
    yield from orders()
    rng = random.Random(20261204)
    yield from long_tables(rng)
    # tables that pass: credits with either sign of b, from any row of the chain
    for _ in range(60):
        n = rng.randint(1, 12)
        nodes = rng.randint(1, 8)
        rows = table_of(rng, trees(rng, n, rng.choice([0, 0.25])), nodes, rng.random() < 0.4)
        yield Case(rows, [some_node(rng) for _ in range(nodes)], rng.randrange(n), *quantities(rng))
    # tables that pass, with nodes missing or beyond the limits, on the chain or off it
    for _ in range(40):
        n, nodes = rng.randint(1, 12), rng.randint(2, 10)
        nexts, head = one_chain(rng, n) if rng.random() < 0.6 else (trees(rng, n), rng.randrange(n))
        records = [bad_node(rng) if rng.random() < 0.2 else some_node(rng) for _ in range(nodes - rng.randint(0, 1))]
        yield Case(table_of(rng, nexts, nodes), records, head, *quantities(rng))
    # tables that pass, with a head that is no row or quantities over the limit, and nodes at fault too
    for _ in range(25):
        n, nodes = rng.randint(1, 6), rng.randint(1, 4)
        records = [bad_node(rng) if rng.random() < 0.3 else some_node(rng) for _ in range(nodes)]
        head = rng.choice([rng.randrange(n), rng.randrange(n), n, n + 1])
        yield Case(table_of(rng, trees(rng, n), nodes), records, head, *over_quantities(rng))
    # any next rows, where nodes meet: circles and tails into them
    for _ in range(40):
        n, nodes = rng.randint(1, 12), rng.randint(1, 4)
        yield Case(table_of(rng, arrows(rng, n), nodes), [some_node(rng) for _ in range(nodes)], rng.randrange(n), *quantities(rng))
    # a circle behind a tail, at places in any order, beside chains that end
    for _ in range(15):
        n, nodes = rng.randint(2, 9), rng.randint(1, 4)
        nexts, head = one_chain(rng, n, end=rng.randrange(n))
        nexts = [*nexts, *(None for _ in range(rng.randint(0, 3)))]
        shift = rng.randint(0, 3)
        nexts = [None] * shift + [None if k is None else k + shift for k in nexts]
        yield Case(table_of(rng, nexts, nodes), [some_node(rng) for _ in range(nodes)], head + shift, *quantities(rng))
    # several faults at once
    for _ in range(60):
        n, nodes = rng.randint(1, 12), rng.randint(1, 4)
        rows = table_of(rng, trees(rng, n) if rng.random() < 0.6 else arrows(rng, n), nodes)
        kinds = rng.choice([["capacity", "next", "apart", "self"], ["next", "apart", "self"], ["apart", "self"], ["apart"]])
        faults = rng.choices(kinds, k=rng.randint(1, 4))
        yield Case(spoil(rng, rows, faults), [some_node(rng) for _ in range(nodes)], rng.randrange(n), *quantities(rng))


def main():
    given, wanted = [], []
    for number, case in enumerate(cases()):
        given.append(written(case))
        wanted.extend(output(number, case))
    for name, lines in (("stdin", given), ("stdout", wanted)):
        with open(os.path.join(HOME, name), "w", encoding="ascii") as out:
            out.write("\n".join(lines) + "\n")
    print(f"{len(given)} cases")
    for what in sorted(met, key=lambda what: [w.zfill(2) if w.isdigit() else w for w in what.split()]):
        print(f"{met[what]:6} {what}", file=sys.stderr)


if __name__ == "__main__":
    main()
