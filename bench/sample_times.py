#!/usr/bin/env python3
"""Times sample surveys: `sample` and `run --sample` beside 0, 1, 2 and 4 eliminators, in turns: the median and the range of the
time that passes, and the processor time.

usage: sample_times.py [RUNS [PROGRAM..]]     PROGRAM, where several are compared, is one of them each
"""
import os
import statistics
import sys
import time

from common import PAPRIKA

SHAPES = ["4x4x4x4x4x4:2", "4x4x4x4x4x4x4x4:2", "4x4x4x4x4x4:3"]

SEED = "7"


def commands(shape):
    yield "sample", ["sample", SEED, shape]
    for eliminators in "0", "1", "2", "4":
        yield f"{eliminators} eliminators", ["run", "--sample", SEED, "--shape", shape, "--eliminators", eliminators]


def run(program, words):
    """Seconds that pass, and seconds of processor time."""
    began = time.perf_counter()
    child = os.posix_spawn(program, [str(program), *words], {}, file_actions=[(os.POSIX_SPAWN_OPEN, 1, os.devnull, os.O_WRONLY, 0)])
    _, status, used = os.wait4(child, 0)
    if status:
        sys.exit(f"{program} {' '.join(words)}: {status}")
    return time.perf_counter() - began, used.ru_utime + used.ru_stime


def main():
    runs = int(sys.argv[1]) if len(sys.argv) > 1 else 7
    programs = sys.argv[2:] or [PAPRIKA]
    for shape in SHAPES:
        print(shape)
        found = {}
        for _ in range(runs):
            for program in programs:
                for name, words in commands(shape):
                    found.setdefault((name, program), []).append(run(program, words))
        for (name, program), times in sorted(found.items(), key=lambda item: item[0][0]):
            passed, used = zip(*times)
            which = f"  {program}" if len(programs) > 1 else ""
            print(f"  {name:14} {statistics.median(passed) * 1000:7.1f} ms ({min(passed) * 1000:.1f} to {max(passed) * 1000:.1f}),"
                  f" processor {statistics.median(used) * 1000:7.1f} ms{which}")


if __name__ == "__main__":
    main()
