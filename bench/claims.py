#!/usr/bin/env python3
"""Writes a claims file over 24 criteria of two levels to standard output.

usage: claims.py answers N          N answer lines
       claims.py eliminations N     N answer lines, then N eliminations with 1 to 24 cites each

The answers and rankings are those of hidden values that fall from the first criterion to the last.
"""
import random
import sys

CRITERIA = 24


def pair(high, low):
    """The class in which the left side is higher on one criterion, the right side on another."""
    left, right = ["0"] * CRITERIA, ["0"] * CRITERIA
    left[high], right[high] = "2", "1"
    left[low], right[low] = "1", "2"
    return ",".join(left) + "/" + ",".join(right)


def answers(count, neighbours):
    """Answer lines, and for each pair of neighbours the numbers of the answers on it."""
    numbers = {step: [] for step in range(CRITERIA - 1)}
    lines = []
    for number in range(1, count + 1):
        if neighbours:
            step = number % (CRITERIA - 1)
            numbers[step].append(number)
            lines.append(f"answer {pair(step, step + 1)} left")
        else:
            high, low = sorted(random.sample(range(CRITERIA), 2))
            lines.append(f"answer {pair(high, low)} left")
    return lines, numbers


def elimination(numbers):
    """A ranking that follows along a chain of neighbours, from one or two answers on each."""
    copies = random.choice((1, 2))
    high = random.randrange(CRITERIA - 1)
    low = random.randrange(high + 1, min(CRITERIA, high + 24 // copies + 1))
    cites = sorted(number for step in range(high, low) for number in random.sample(numbers[step], copies))
    cited = ",".join(f"{number}:1" for number in cites)
    return f"eliminate 1 {pair(high, low)} left {copies} {','.join(['0'] * CRITERIA)} {cited}"


def main():
    kind, count = sys.argv[1], int(sys.argv[2])
    random.seed(1)
    lines, numbers = answers(count, kind == "eliminations")
    if kind == "eliminations":
        lines += [elimination(numbers) for _ in range(count)]
    levels = ",".join(["2"] * CRITERIA)
    print("\n".join(["paprika claims 1", f"model {levels} degree 2"] + lines + ["end"]))


if __name__ == "__main__":
    main()
