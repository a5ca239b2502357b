#!/usr/bin/env python3
"""How many classes of degree 3 and 4 a survey of degree 2 ranks: those that its answers imply, by survey_oracle.py.

usage: higher_degrees.py [SEEDS]

Each seed draws hidden values, and the survey is answered by them up to its end. Of each degree 300 classes at random are looked at, or
all where there are fewer. Degree 4 is left out where it has too many classes for a model.
"""
import random
import statistics
import sys

from common import side_of
from oracle import Model, Wrong
from survey_oracle import Survey

SHAPES = [(3, 3, 3), (4, 4, 4), (2, 2, 2, 2), (3, 3, 3, 3), (4, 4, 4, 4), (3, 3, 3, 3, 3), (3, 3, 3, 3, 3, 3), (4, 4, 4, 4, 4, 4)]
LOOKED_AT = 300


def largest(levels):
    """The model with the highest degree up to 4."""
    try:
        return Model(levels, min(4, len(levels)))
    except Wrong:
        return Model(levels, 3)


def degree_of(pair):
    return sum(map(bool, pair[0]))


def answered(model, draws):
    """A survey that hidden values answered."""
    survey, values = Survey(model), [draws.randint(1, 1000) for _ in model.increments]
    while "question" in (reply := survey.next(None)):
        survey.answer(None, reply["question"]["number"], side_of(model, values, model.classes[survey.asked[-1] - 1]))
    return survey


def ranked_share(survey, pairs, draws):
    chosen = draws.sample(pairs, min(LOOKED_AT, len(pairs)))
    return sum(survey.cone.verdict(pair)[0] != "open" for pair in chosen) / len(chosen)


def main(seeds=30):
    print("| Levels | Questions of degree 2, median | Ranked of degree 3: median | 10th percentile | 90th"
          " | Of degree 4: median | 10th percentile | 90th |")
    print("|" + "---|" * 8)
    for levels in SHAPES:
        model, all_degrees = Model(levels, 2), largest(levels)
        of_degree = {degree: [pair for pair in all_degrees.classes if degree_of(pair) == degree] for degree in (3, 4)}
        questions, shares = [], {3: [], 4: []}
        for seed in range(seeds):
            draws = random.Random(seed)
            survey = answered(model, draws)
            questions.append(len(survey.asked))
            for degree, pairs in of_degree.items():
                if pairs:
                    shares[degree].append(100 * ranked_share(survey, pairs, draws))
        cells = [f"{statistics.median(questions):.0f}"]
        for found in shares.values():
            tenths = statistics.quantiles(found, n=10) if found else []
            cells += [f"{value:.0f} in 100" for value in (statistics.median(found), tenths[0], tenths[8])] if found else [""] * 3
        print("| " + " | ".join(["x".join(map(str, levels)), *cells]) + " |", flush=True)


if __name__ == "__main__":
    main(*map(int, sys.argv[1:]))
