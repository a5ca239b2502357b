#!/usr/bin/env python3
"""Compares what the proved program migrates with what the oracle says, of results and of files made of them.

usage: migrations.py FILE..
"""
import pathlib
import subprocess
import sys

import oracle
from common import PAPRIKA


def variants(data):
    """The file, and others that differ from it in one place."""
    lines = data.splitlines(keepends=True)
    middle = len(lines) // 2
    yield "whole", data
    for heading in oracle.KINDS:
        yield heading, b"".join([heading.encode() + b"\n", *lines[1:]])
    yield "last line end cut", data[:-1]
    yield "cut in the middle", data[: len(data) // 2]
    yield "middle line left out", b"".join(lines[:middle] + lines[middle + 1 :])
    yield "middle line twice", b"".join(lines[:middle] + lines[middle - 1 :])
    yield "an empty line at the end", data + b"\n"


def main():
    compared, copied, differing = 0, 0, 0
    for name in sys.argv[1:]:
        for change, data in variants(pathlib.Path(name).read_bytes()):
            wanted = oracle.migrated(data)
            run = subprocess.run([PAPRIKA, "migrate"], input=data, stdout=subprocess.PIPE)
            is_copy = wanted.startswith(b"paprika result 2")
            compared, copied = compared + 1, copied + is_copy
            if (run.stdout, run.returncode) != (wanted, 0 if is_copy else 1):
                differing += 1
                print(f"{name}, {change}: status {run.returncode}, {run.stdout[:40]}, not {wanted[:40]}")
    print(f"{compared} files, of which {copied} were copied; {differing} differ from what the oracle says")
    sys.exit(bool(differing))


if __name__ == "__main__":
    main()
