#!/usr/bin/env python3
"""How many questions surveys of some shapes take, by `paprika sample` over many seeds.

usage: question_counts.py [SEEDS]
"""
import statistics
import subprocess
import sys
from concurrent.futures import ThreadPoolExecutor

from common import PAPRIKA

LEVELS = ["3x3x3", "2x2x2x2", "3x3x3x3", "4x4x4x4", "3x3x3x3x3", "3x3x3x3x3x3", "4x4x4x4x4x4", "3x3x3x3x3x3x3x3"]


def sample(seed, shape):
    """Questions and classes of one survey."""
    line = subprocess.run([PAPRIKA, "sample", str(seed), shape], stdout=subprocess.PIPE, check=True).stdout.decode().split()
    return int(line[line.index("questions") + 1]), int(line[line.index("classes") + 1])


def row(levels, degree, seeds):
    shape = f"{levels}:{degree}"
    with ThreadPoolExecutor(2) as pool:
        runs = list(pool.map(lambda seed: sample(seed, shape), range(seeds)))
    questions, classes = [run[0] for run in runs], runs[0][1]
    tenths = statistics.quantiles(questions, n=10)
    median = statistics.median(questions)
    counts = " | ".join(f"{count:.0f}" for count in (median, tenths[0], tenths[8]))
    return f"| {levels} | {degree} | {classes:,} | {counts} | {100 * (1 - median / classes):.0f} in 100 |"


def main():
    seeds = int(sys.argv[1]) if len(sys.argv) > 1 else 200
    print("| Levels | Degree | Classes | Questions, median | 10th percentile | 90th | Classes without a question |")
    print("|---|---|---|---|---|---|---|")
    for degree in (2, 3):
        for levels in LEVELS:
            print(row(levels, degree, seeds), flush=True)


if __name__ == "__main__":
    main()
