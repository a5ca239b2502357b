#!/usr/bin/env python3
"""Prints the table of small decisions that the tests of decider hold.

Each line has a model, two answers, a vector that meets them, a pair, and how every vector of numbers up to 8 that
meets the answers ranks the pair (`None` where not all rank it alike).
"""

from itertools import product
from random import Random

MODELS = [(2, 2, 2), (3, 2, 2), (2, 3, 3), (3, 3, 2)]
NAMES = {1: "Side::Left", -1: "Side::Right", 0: "Side::Equal"}
ROWS_OF_A_KIND = 5


def gain(levels, pair):
    """What the left side has more than the right one, increment by increment."""
    row = []
    for count, left, right in zip(levels, *pair):
        row += [(left > j) - (right > j) for j in range(1, count)]
    return row


def ranks(vector, row):
    lead = sum(value * step for value, step in zip(vector, row))
    return (lead > 0) - (lead < 0)


def random_pair(random, levels):
    """A written pair on which each side is higher somewhere."""
    while True:
        sides = [], []
        for count in levels:
            left, right = random.randint(1, count), random.randint(1, count)
            for side, level in zip(sides, (left, right)):
                side.append(0 if left == right else level)
        if any(a > b for a, b in zip(*sides)) and any(a < b for a, b in zip(*sides)):
            return tuple(map(tuple, sides))


def ranked(pair, side):
    return f"({list(pair[0])}, {list(pair[1])}, {NAMES[side]})"


def main():
    random = Random(5)
    rows, seen = {kind: [] for kind in (1, -1, 0, None)}, set()
    while any(len(kept) < ROWS_OF_A_KIND for kept in rows.values()):
        levels = random.choice(MODELS)
        increments = sum(levels) - 3
        point = tuple(random.randint(1, 4) for _ in range(increments))
        first, second, pair = (random_pair(random, levels) for _ in range(3))
        if len({first, second, pair}) < 3 or (levels, first, second, pair) in seen:
            continue
        seen.add((levels, first, second, pair))
        rankings = [(gain(levels, known), ranks(point, gain(levels, known))) for known in (first, second)]
        row = gain(levels, pair)
        found = {
            ranks(vector, row)
            for vector in product(range(1, 9), repeat=increments)
            if all(ranks(vector, other) == side for other, side in rankings)
        }
        kind = found.pop() if len(found) == 1 else None
        if len(rows[kind]) < ROWS_OF_A_KIND:
            rows[kind].append((levels, point, ranked(first, rankings[0][1]), ranked(second, rankings[1][1]), pair))
    for kind, kept in rows.items():
        want = "None" if kind is None else f"Some({NAMES[kind]})"
        for levels, point, first, second, pair in kept:
            padded = list(point) + [0] * (5 - len(point))
            print(
                f"Case {{ levels: {list(levels)}, known: [{first}, {second}], point: {padded},"
                f" left: {list(pair[0])}, right: {list(pair[1])}, want: {want} }},"
            )


if __name__ == "__main__":
    main()
