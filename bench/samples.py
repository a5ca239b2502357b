#!/usr/bin/env python3
"""Compares what the proved program answers to `sample` with surveys that are worked out in Python.

usage: samples.py COUNT [SEED]

Each of COUNT seeds and shapes at random gives one line. The generator is written anew in common.py, and the survey is that of
survey_oracle.py, which shares no code with the program; a shape that makes no model has the line of its first fault.
"""
import random
import subprocess
import sys

from common import PAPRIKA, class_count, expect, generated_values, side_of
from oracle import MOST_CLASSES, Model
from survey_oracle import Survey

SIDES = ("left", "right", "equal")
FEW_CLASSES = 150


def fault_of(levels, degree):
    low = next((place for place, n in enumerate(levels, 1) if n < 2), None)
    if low is not None:
        return f"levels {low}"
    increments = sum(levels) - len(levels)
    if increments > 24:
        return f"increments {increments}"
    if not 1 <= degree <= len(levels):
        return "degree"
    count = class_count(levels, degree)
    return f"classes {count}" if count > MOST_CLASSES else None


def sampled(seed, levels, degree):
    """The counts of a sample survey, in the order of its line."""
    model = Model(tuple(levels), degree)
    values, survey = generated_values(seed, len(model.increments)), Survey(model)
    answers, trace = dict.fromkeys(SIDES, 0), 0
    while "question" in (reply := survey.next(None)):
        number, place = reply["question"]["number"], survey.asked[-1]
        side = side_of(model, values, model.classes[place - 1])
        expect("reply of the oracle's survey", survey.answer(None, number, side), {"accepted": number})
        answers[side] += 1
        trace = (31 * trace + 3 * place + SIDES.index(side)) % 1000000007
    expect("last reply of the oracle's survey", reply, {"complete": True})
    classes, asked = len(model.classes), len(survey.asked)
    counts = {"classes": classes, "questions": asked, **answers, "eliminated": classes - sum(answers.values()), "trace": trace}
    return " ".join(f"{name} {count}" for name, count in counts.items())


def line_of(seed, levels, degree):
    fault = fault_of(levels, degree)
    shape = "x".join(map(str, levels)) + f":{degree}"
    if fault:
        return shape, 1, f"definition {fault}\n"
    return shape, 0, f"sample {seed} {shape} {sampled(seed, levels, degree)} complete\n"


def any_shape(rng):
    if rng.random() < 0.2:
        levels = [rng.choice((0, 1, 2, 3, 9, 26, 999)) for _ in range(rng.randint(1, 4))]
        return levels, rng.randint(0, 5)
    while True:
        levels = [rng.choice((2, 2, 2, 3, 3, 4, 5)) for _ in range(rng.randint(1, 6))]
        degree = rng.randint(1, len(levels))
        if class_count(levels, degree) <= FEW_CLASSES:
            return levels, degree


def main():
    count, seed = int(sys.argv[1]), int(sys.argv[2]) if len(sys.argv) > 2 else 1
    rng, refused = random.Random(seed), 0
    for _ in range(count):
        draw, (levels, degree) = rng.choice((rng.randrange(20), rng.randrange(2**31))), any_shape(rng)
        shape, status, line = line_of(draw, levels, degree)
        ran = subprocess.run([PAPRIKA, "sample", str(draw), shape], stdin=subprocess.DEVNULL, capture_output=True, text=True)
        if (ran.returncode, ran.stdout, ran.stderr) != (status, line, ""):
            sys.exit(f"sample {draw} {shape}: {ran.returncode} {ran.stdout!r} and not {status} {line!r}")
        refused += status
    print(f"{count} lines are right, {refused} of them of shapes that make no model")


if __name__ == "__main__":
    main()
