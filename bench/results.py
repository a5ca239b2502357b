#!/usr/bin/env python3
"""Writes a legal and complete result file to standard output, with about as many events as EVENTS says.

usage: results.py LEVELS DEGREE EVENTS        as in: results.py 4,4,4,4,4,4 3 30000

LEVELS are 3 to 5 levels for each of two or more criteria. By the hidden values each increment of a criterion is
worth as much as all increments of the next criterion together. So a few answers that compare one increment with
a later criterion rank every class, by sums that can be written down at once. One pass over the classes ranks
each; where it has fewer events than are asked for, answers are withdrawn and what they ranked is ranked again.
Each certificate is tested before it is written.
"""
import itertools
import sys

MOST_EVENTS, UNIT = 131072, 2


def classes_of(levels, degree):
    """All classes in order, each as two lists of levels with 0 where they agree."""
    found = []
    for chosen in (c for d in range(2, degree + 1) for c in itertools.combinations(range(len(levels)), d)):
        for steps in itertools.product(*(itertools.permutations(range(1, levels[c] + 1), 2) for c in chosen)):
            if steps[0][0] > steps[0][1] and any(left < right for left, right in steps):
                at = dict(zip(chosen, steps))
                found.append(tuple(zip(*(at.get(c, (0, 0)) for c in range(len(levels))))))
    return sorted(found, key=lambda pair: (sum(map(bool, pair[0])), [(a or 25, b or 25) for a, b in zip(*pair)]))


def with_earlier(levels, values):
    """Values of all criteria: these for the last ones, and before them each increment as all of the next criterion."""
    for count in reversed(levels[: len(levels) - len(values)]):
        values = [[sum(values[0])] * (count - 1)] + values
    return values


def flat(values):
    return [value for criterion in values for value in criterion]


def dot(vector, row):
    return sum(map(int.__mul__, vector, row))


def side_of(worth):
    return "left" if worth > 0 else "right" if worth < 0 else "equal"


def joined(items):
    return ",".join(map(str, items))


def written(pair):
    return "/".join(map(joined, pair))


class Survey:
    def __init__(self, levels, degree):
        self.levels, self.classes = levels, classes_of(levels, degree)
        self.places = {pair: place for place, pair in enumerate(self.classes)}
        self.increments = [(c, step) for c, count in enumerate(levels) for step in range(1, count)]
        self.hidden = flat(with_earlier(levels, [[UNIT] * (levels[-1] - 1)]))
        self.lines, self.withdrawn = [], 0
        self.asked = {}  # the number of the question on a class
        self.answers = []  # class, gain and side
        self.numbers = {}  # the answer that compares an increment with all of a later criterion
        self.cited = {}  # the answers that the standing elimination of a class cites
        self.closed = {}  # how many answers there were when the question on a class was closed
        self.loose = 0  # how many events the withdrawal of the last answer would take out

    def gain(self, pair):
        return [(pair[0][c] > step) - (pair[1][c] > step) for c, step in self.increments]

    def is_ranked(self, pair):
        return pair in self.cited or any(pair == answered for answered, _, _ in self.answers)

    def question_of(self, pair):
        """The increment, the later criterion and its level, where the pair is to be asked about."""
        c, d, *more = [c for c, level in enumerate(pair[0]) if level]
        step = pair[1][c]
        is_asked = not more and pair[0][c] == step + 1 and pair[0][d] == 1 and (step == 1 or d == c + 1)
        return (c, step, d, pair[1][d]) if is_asked else None

    def pair_of(self, c, step, d, level):
        """The pair that compares an increment with the increments of a later criterion below the level."""
        left, right = [0] * len(self.levels), [0] * len(self.levels)
        left[c], right[c], left[d], right[d] = step + 1, step, 1, level
        return tuple(left), tuple(right)

    def vector(self, c, step, worth, later):
        """Later criteria as given, an increment with this worth, and else as the answers so far want it."""
        free = 1 + worth + sum(map(sum, later))
        own = [sum(later[0])] * (step - 1) + [worth] + [free] * (self.levels[c] - 1 - step)
        return flat(with_earlier(self.levels, [own] + later))

    def opening(self, c, step, d, level):
        """Two vectors that meet the answers so far, and rank the pair to the left and to the right."""
        later = with_earlier(self.levels[c + 1 :], [[UNIT] * (self.levels[-1] - 1)])
        whole = sum(later[0])
        if d == c + 1:
            worths = whole + 1, sum(later[0][: level - 2]) + 1
            plus, minus = (self.vector(c, step, worth, later) for worth in worths)
        else:
            plus = self.vector(c, step, whole, later)
            later[d - c - 1][level - 2] = whole + 1
            minus = self.vector(c, step, whole, later)
        row = self.gain(self.pair_of(c, step, d, level))
        assert self.is_met(plus) and self.is_met(minus) and dot(plus, row) > 0 > dot(minus, row)
        return f"{joined(plus)} {joined(minus)}"

    def is_met(self, vector):
        return min(vector) >= 1 and all(side_of(dot(vector, gain)) == side for _, gain, side in self.answers)

    def combination(self, pair):
        """Answers with their weights that leave the rest of the pair's row with one sign."""
        c, d, *more = [c for c, level in enumerate(pair[0]) if level]
        step = pair[1][c]
        if not more and (c, step, d) in self.numbers:
            return {self.numbers[c, step, d]: 1}
        if not more:
            signs = {(c, step, c + 1): 1, (c, 1, c + 1): -1, (c, 1, d): 1}
            return {self.numbers[key]: sign for key, sign in signs.items()}
        row, weights = dict(zip(self.increments, self.gain(pair))), {}
        for c, step in self.increments:
            if c + 1 < len(self.levels) and row[c, step]:
                weights[self.numbers[c, step, c + 1]] = row[c, step]
                for later in range(1, self.levels[c + 1]):
                    row[c + 1, later] += row[c, step]
        return weights

    def proof(self, pair):
        """The verdict, the increments' own weights and the cites, turned where the right side wins."""
        weights = self.combination(pair)
        terms = [[weight * g for g in self.answers[n - 1][1]] for n, weight in weights.items()]
        row = self.gain(pair)
        rest = [g - sum(column) for g, *column in zip(row, *terms)]
        verdict = side_of(dot(self.hidden, row))
        sign = -1 if verdict == "right" else 1
        own, cites = [sign * w for w in rest], sorted((n, sign * w) for n, w in weights.items())
        strict = [w for n, w in cites if self.answers[n - 1][2] != "equal"]
        assert min(own + strict) >= 0 and any(own + strict) == (verdict != "equal") and 1 <= len(cites) <= 24
        return verdict, own, cites

    # The events.
    def issue(self, pair, question):
        opened = [p for p in self.asked if p not in self.closed and not any(p == a for a, _, _ in self.answers)]
        assert len(opened) < 4 and pair not in self.asked and not self.is_ranked(pair)
        assert all(self.is_ranked(p) or p in self.asked for p in self.classes[: self.places[pair]])
        self.asked[pair] = len(self.asked) + 1
        self.lines.append(f"issue {self.desk(pair)} {written(pair)} {self.opening(*question)}")

    def commit(self, pair, question):
        opening, row = self.opening(*question), self.gain(pair)
        self.answers.append((pair, row, side_of(dot(self.hidden, row))))
        assert pair not in self.cited and pair not in self.closed and self.is_met(self.hidden)
        c, step, d, level = question
        if level == self.levels[d]:
            self.numbers[c, step, d] = len(self.answers)
        side = self.answers[-1][2]
        self.lines.append(f"commit {self.desk(pair)} {self.asked[pair]} {side} {opening} {joined(self.hidden)}")
        self.loose = 1

    def eliminate(self, pair):
        verdict, own, cites = self.proof(pair)
        self.cited[pair] = [n for n, _ in cites]
        self.loose += len(self.answers) in self.cited[pair]
        shown = ",".join(f"{n}:{weight}" for n, weight in cites)
        self.lines.append(f"eliminate {len(self.lines) % 3} {written(pair)} {verdict} 1 {joined(own)} {shown}")

    def close(self, pair):
        assert pair in self.cited and pair not in self.closed
        self.closed[pair] = len(self.answers)
        self.loose += 1
        self.lines.append(f"close {self.desk(pair)} {self.asked[pair]}")

    def withdraw(self):
        last = len(self.answers)
        self.lines.append(f"withdraw {last % 4 + 1} {last}")
        self.answers.pop()
        self.numbers = {key: n for key, n in self.numbers.items() if n != last}
        self.cited = {pair: cited for pair, cited in self.cited.items() if last not in cited}
        self.closed = {pair: answers for pair, answers in self.closed.items() if answers < last}
        self.withdrawn, self.loose = self.withdrawn + 1, 0

    def desk(self, pair):
        return self.asked[pair] % 4 + 1

    # The survey.
    def settle(self, pair):
        """Ranks the class, or asks about it and waits for the answer on all of the later criterion."""
        question = self.question_of(pair)
        if self.is_ranked(pair):
            return
        if question is None:
            return self.eliminate(pair)
        if pair not in self.asked:
            self.issue(pair, question)
        c, step, d, level = question
        if step == 1 or level == self.levels[d]:
            self.commit(pair, question)
        if step > 1 and level == self.levels[d]:
            for smaller in (self.pair_of(c, step, d, below) for below in range(2, level)):
                self.eliminate(smaller)
                self.close(smaller)

    def pass_over(self, enough):
        """Settles the classes in order, until each is ranked or a withdrawal would take out enough events."""
        for pair in self.classes:
            self.settle(pair)
            if self.loose >= enough:
                return

    def events_of_pass(self):
        questions = [question for question in map(self.question_of, self.classes) if question]
        closed = [d for _, step, d, level in questions if step > 1 and level < self.levels[d]]
        return len(self.classes) + len(questions) + len(closed)

    def may_withdraw(self):
        classes, more = len(self.classes), self.withdrawn + 1
        return 3 * classes + 2 * classes * more + more <= MOST_EVENTS


def main():
    levels, degree, events = [int(n) for n in sys.argv[1].split(",")], int(sys.argv[2]), int(sys.argv[3])
    assert len(levels) >= 2 <= degree and all(3 <= count <= 5 for count in levels)
    survey = Survey(levels, degree)
    more = events - survey.events_of_pass()
    while more > 1 and survey.may_withdraw():
        survey.pass_over(more - 1)
        more -= survey.loose + 1
        survey.withdraw()
    survey.pass_over(MOST_EVENTS)
    assert all(map(survey.is_ranked, survey.classes))
    heading = [f"paprika result {2 if survey.withdrawn else 1}", f"model {joined(levels)} degree {degree}"]
    print("\n".join(heading + survey.lines + ["end"]))


if __name__ == "__main__":
    main()
