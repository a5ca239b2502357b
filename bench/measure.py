#!/usr/bin/env python3
"""Runs a command on a file several times and prints its best time and its peak memory.

usage: measure.py FILE COMMAND..
"""
import re
import subprocess
import sys
import time


def run(path, command):
    """One run: how long it took, and what it wrote."""
    with open(path, "rb") as source:
        began = time.perf_counter()
        done = subprocess.run(command, stdin=source, stdout=subprocess.PIPE, env={"LC_ALL": "C"})
        return time.perf_counter() - began, done.stdout.decode().strip()


def peak_memory(path, command):
    """The greatest resident size that is seen while it runs, in KiB."""
    peak = 0
    with open(path, "rb") as source:
        process = subprocess.Popen(command, stdin=source, stdout=subprocess.DEVNULL, env={"LC_ALL": "C"})
        while process.poll() is None:
            with open(f"/proc/{process.pid}/status") as status:
                found = re.search(r"VmHWM:\s+(\d+)", status.read())
            peak = max(peak, int(found.group(1)) if found else 0)
            time.sleep(0.001)
    return peak


def main():
    path, command = sys.argv[1], sys.argv[2:]
    runs = [run(path, command) for _ in range(5)]
    best = min(took for took, _ in runs)
    print(f"{best * 1000:9.1f} ms {peak_memory(path, command) / 1024:8.1f} MiB  {runs[-1][1]}")


if __name__ == "__main__":
    main()
