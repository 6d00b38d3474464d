#!/usr/bin/env python3
"""Writes the cases of the test program crates/sharing_cases, and what it must print.

    python3 tools/sharing_cases.py

It is written from docs/rules.md with exact fractions and a sort, and shares no text with the proved code. The gate does
not run it: it compares with the files that are stored in the repository."""
import os
import random
from fractions import Fraction
from math import floor

HOME = os.path.join(os.path.dirname(os.path.abspath(__file__)), "..", "crates", "sharing_cases")
MOST_CENTS = 1_000_000_000
MOST_WEIGHT = 4_000_000_000
BEFORE = 777


def nearest(x):
    """The nearest whole number, a half going away from zero."""
    size = floor(abs(x) + Fraction(1, 2))
    return -size if x < 0 else size


def rate(f, ws):
    return [nearest(Fraction(f * w, sum(ws))) for w in ws]


def largest_remainder(f, ws):
    sign, size, total = (-1 if f < 0 else 1), abs(f), sum(ws)
    parts = [Fraction(size * w, total) for w in ws]
    cents = [floor(p) for p in parts]
    order = sorted(range(len(ws)), key=lambda i: (-(parts[i] - cents[i]), i))
    for i in order[: size - sum(cents)]:
        cents[i] += 1
    return [sign * c for c in cents]


def running(f, ws):
    sign, size, total, shares, so_far, given = (-1 if f < 0 else 1), abs(f), sum(ws), [], 0, 0
    for w in ws:
        so_far += w
        now = floor(Fraction(size * so_far, total))
        shares.append(sign * (now - given))
        given = now
    return shares


def use(rule, cells, f, ws):
    if abs(f) > MOST_CENTS or not 1 <= sum(ws) <= MOST_WEIGHT or cells != len(ws):
        return [BEFORE] * cells, f
    shares = rule(f, ws)
    for s, w in zip(shares, ws):
        assert abs(s * sum(ws) - f * w) < sum(ws)
    return shares, f - sum(shares)


RULES = [
    ("rate", rate),
    ("largest-remainder", largest_remainder),
    ("largest-remainder exactly", largest_remainder),
    ("running", running),
    ("running exactly", running),
]


def cases():
    # the worked figure, and both signs
    for f in (100, -100, 0, 1, -1, 2):
        yield 3, f, [1, 1, 1]
    # halves, both ways
    for f in (1, -1, 3, -3, 5):
        yield 2, f, [1, 1]
    yield 4, 2, [1, 1, 1, 1]
    yield 4, -6, [1, 1, 1, 1]
    # equal remainders, weights of 0, one weight
    yield 5, 7, [2, 0, 2, 0, 2]
    yield 5, 8, [0, 3, 0, 3, 3]
    yield 3, 10, [0, 0, 5]
    yield 1, 17, [9]
    yield 6, 10, [5, 4, 3, 2, 1, 0]
    yield 6, -10, [0, 1, 2, 3, 4, 5]
    # the bounds, and just beyond them
    for f in (MOST_CENTS, -MOST_CENTS, MOST_CENTS + 1, -MOST_CENTS - 1, 2**63 - 1, -(2**63)):
        yield 3, f, [1, 2, 4]
    yield 2, 99, [MOST_WEIGHT - 1, 1]
    yield 2, 99, [MOST_WEIGHT, 1]
    yield 2, 99, [MOST_WEIGHT, 0]
    yield 2, MOST_CENTS, [MOST_WEIGHT - 7, 7]
    yield 2, -MOST_CENTS, [7, MOST_WEIGHT - 7]
    yield 1, MOST_CENTS, [2**32 - 1]
    yield 2, 99, [2**32 - 1, 2**32 - 1]
    yield 2, 5, [0, 0]
    yield 2, 0, [0, 0]
    yield 0, 5, []
    yield 0, 0, []
    # tables of another length
    yield 4, 100, [1, 1, 1]
    yield 2, 100, [1, 1, 1]
    yield 0, 100, [1, 1, 1]
    # many weights
    yield 128, 1000, [1] * 128
    yield 128, -12345, list(range(128))
    rng = random.Random(20261117)
    for _ in range(60):
        n = rng.randint(1, 9)
        yield n, rng.randint(-60, 60), [rng.randint(0, 7) for _ in range(n)]
    for _ in range(60):
        n = rng.randint(1, 12)
        yield n, rng.randint(-MOST_CENTS, MOST_CENTS), [rng.randint(0, MOST_WEIGHT // n) for _ in range(n)]


def main():
    given, wanted = [], []
    for cells, f, ws in cases():
        given.append(" ".join(str(x) for x in [cells, f, *ws]))
        wanted.append(f"{f} into {cells} over {ws}")
        for name, rule in RULES:
            table, rest = use(rule, cells, f, ws)
            wanted.append(f"{name}: {table} rest {rest}")
    for name, lines in (("stdin", given), ("stdout", wanted)):
        with open(os.path.join(HOME, name), "w", encoding="ascii") as out:
            out.write("\n".join(lines) + "\n")
    print(f"{len(given)} cases")


if __name__ == "__main__":
    main()
