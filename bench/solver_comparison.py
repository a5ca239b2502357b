#!/usr/bin/env python3
"""Times other exact solvers on the decisions of decision_bench's run over 540 classes, beside decision_bench.

usage: solver_comparison.py [glpsol] [z3]

Writes each decision as a small linear program: each increment is at least 1, each answer's row holds, and the pair is
ranked against the hidden values. It has a point exactly where the pair is open, which is then answered by these. Takes
`glpsol --exact` (Debian: glpk-utils), a process for each program, of which the time for an empty one is taken off, and
`z3`, one process that keeps the answers from program to program. Times are processor time.
"""
import pathlib
import resource
import subprocess
import sys
import tempfile

from common import expect, generated_values, program, side_of, want
from oracle import Model

STRICT, WEAK = 1, 0
SEED = 1  # of decision_bench


def rows_of(model, pair, side):
    """The rows of a ranking, each with the least that its product with the values may be."""
    if side == "equal":
        return [(model.gain(pair, "left"), WEAK), (model.gain(pair, "right"), WEAK)]
    return [(model.gain(pair, side), STRICT)]


def children_seconds():
    used = resource.getrusage(resource.RUSAGE_CHILDREN)
    return used.ru_utime + used.ru_stime


class Glpsol:
    """A process for each program, which it reads from a file in the format of CPLEX."""

    name = "glpsol --exact"

    def __init__(self, increments):
        self.folder = tempfile.TemporaryDirectory()
        self.file = pathlib.Path(self.folder.name, "program.lp")
        self.bounds = [f" x{at} >= 1" for at in range(increments)]
        self.rows = []
        before = children_seconds()
        for _ in range(20):
            self.has_point([])
        self.empty = (children_seconds() - before) / 20

    def has_point(self, tried):
        lines = [" ".join(f"{step:+d} x{at}" for at, step in enumerate(row) if step) + f" >= {least}" for row, least in self.rows + tried]
        parts = ["Minimize", " x0", "Subject To", *(lines or [" x0 >= 1"]), "Bounds", *self.bounds, "End", ""]
        self.file.write_text("\n".join(parts))
        done = subprocess.run(["glpsol", "--exact", "--lp", self.file], capture_output=True, text=True, check=True)
        found, none = "OPTIMAL" in done.stdout, "NO PRIMAL FEASIBLE" in done.stdout or "NO FEASIBLE" in done.stdout
        want(found != none, done.stdout)
        return found

    def add(self, rows):
        self.rows += rows

    def seconds(self, decisions, before):
        return children_seconds() - before - self.empty * decisions


class Z3:
    """One process that keeps the answers, and drops what was tried."""

    name = "z3"

    def __init__(self, increments):
        self.process = subprocess.Popen(["z3", "-in"], stdin=subprocess.PIPE, stdout=subprocess.PIPE, text=True)
        self.say("(set-logic QF_LRA)")
        for at in range(increments):
            self.say(f"(declare-const x{at} Real) (assert (>= x{at} 1))")

    def say(self, text):
        print(text, file=self.process.stdin, flush=True)

    def add(self, rows):
        for row, least in rows:
            terms = " ".join(f"x{at}" if step > 0 else f"(- x{at})" for at, step in enumerate(row) if step)
            self.say(f"(assert (>= (+ {terms} 0) {least}))")

    def has_point(self, tried):
        self.say("(push)")
        self.add(tried)
        self.say("(check-sat)")
        verdict = self.process.stdout.readline().strip()
        want(verdict in ("sat", "unsat"), f"z3 says {verdict}")
        self.say("(pop)")
        return verdict == "sat"

    def seconds(self, decisions, before):
        self.process.communicate()
        return children_seconds() - before


def run(model, solver):
    """How many classes are open in a run by the solver, and the time of a decision."""
    hidden = generated_values(SEED, len(model.increments))
    before, answered = children_seconds(), 0
    for pair in model.classes:
        side = side_of(model, hidden, pair)
        against = "left" if side == "right" else "right"
        if solver.has_point(rows_of(model, pair, against)):
            solver.add(rows_of(model, pair, side))
            answered += 1
    return answered, solver.seconds(len(model.classes), before) / len(model.classes)


def ours():
    """For each start at degree 2, how many classes are open and the time of a decision."""
    lines = subprocess.run([program("decision_bench"), "time"], capture_output=True, text=True, check=True).stdout.splitlines()
    fields = [line.split() for line in lines[1:] if line.startswith("2 ")]
    return {line[1]: (int(line[3]), int(line[10]) / 1e9) for line in fields}


def main():
    wanted = sys.argv[1:] or ["glpsol", "z3"]
    model = Model([4] * 6, 2)
    starts = ours()
    for start, (answered, seconds) in starts.items():
        print(f"decision_bench, {start:<5} {answered} of {len(model.classes)} open, {seconds * 1e6:9.1f} microseconds each")
    for solver in (kind(len(model.increments)) for kind in (Glpsol, Z3) if kind.__name__.lower() in wanted):
        answered, seconds = run(model, solver)
        times = ", ".join(f"{seconds / own:.0f} times {start}" for start, (_, own) in starts.items())
        print(f"{solver.name:<21} {answered} of {len(model.classes)} open, {seconds * 1e6:9.1f} microseconds each: {times}")
        expect("classes that are open by each start", {own for own, _ in starts.values()}, {answered})


if __name__ == "__main__":
    main()
