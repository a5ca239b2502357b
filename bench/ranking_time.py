#!/usr/bin/env python3
"""Times `paprika rank` on a table of 1 MB beside the same in Python, in processor time: the best of nine runs of each, in turns.

usage: ranking_time.py
"""
import random
import resource
import subprocess

from common import PAPRIKA, ROOT, want

LONGEST_TABLE = 1_048_576

IN_PYTHON = """
import csv, json, sys
criteria = json.loads(sys.stdin.readline())["criteria"]
vector = [int(text) for text in json.loads(sys.stdin.readline())["values"]["vector"]]
worths, first = [], 0
for one in criteria:
    steps = [sum(vector[first : first + level]) for level in range(len(one["levels"]))]
    worths.append(dict(zip(one["levels"], steps)))
    first += len(steps) - 1
records = list(csv.reader(sys.stdin))[1:]
rows = [(sum(worth[text] for worth, text in zip(worths, record[1:])), record[0]) for record in records]
rows.sort(key=lambda row: -row[0])
out = csv.writer(sys.stdout, lineterminator="\\n")
out.writerow(["rank", "name", "value"])
rank, last = 0, None
for place, (worth, name) in enumerate(rows, 1):
    if worth != last:
        rank, last = place, worth
    out.writerow([rank, name, worth])
"""


def table():
    """The lines of examples/projects.txt up to the header, and as many alternatives as fit."""
    lines = (ROOT / "examples/projects.txt").read_bytes().splitlines(keepends=True)[:3]
    chance, left = random.Random(1), LONGEST_TABLE - len(lines[2])
    while True:
        levels = [chance.choice(names) for names in ([b"high", b"low"], [b"slow", b"fast"], [b"few", b"many"])]
        row = b",".join([b"alternative %d" % len(lines), *levels]) + b"\n"
        left -= len(row)
        if left < 0:
            return b"".join(lines), len(lines) - 3
        lines.append(row)


def run(command, data):
    before = resource.getrusage(resource.RUSAGE_CHILDREN)
    written = subprocess.run(command, input=data, stdout=subprocess.PIPE, check=True).stdout
    after = resource.getrusage(resource.RUSAGE_CHILDREN)
    return after.ru_utime + after.ru_stime - before.ru_utime - before.ru_stime, written


def main():
    data, count = table()
    runs = [(run([PAPRIKA, "rank"], data), run(["python3", "-c", IN_PYTHON], data)) for _ in range(9)]
    (ours, written), (theirs, same) = (min(column) for column in zip(*runs))
    want(written == same, "paprika and Python write different rankings")
    print(f"{count} alternatives: paprika {ours * 1000:.1f} ms, Python {theirs * 1000:.1f} ms")


if __name__ == "__main__":
    main()
