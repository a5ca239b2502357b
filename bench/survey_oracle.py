#!/usr/bin/env python3
"""Says of the transcript of a survey whether each reply is the one that it has to be, by exact integers.

usage: survey_oracle.py <TRANSCRIPT

The first line is a model as in a checked file, and then each request line is followed by its reply line. It shares no
code with the program; whether answers rank a class is found by a search for weights that add up to it, and not by one
for values.
"""
import itertools
import json
import math
import sys
from fractions import Fraction

from oracle import MOST_LINES, File, Wrong, certificate, cites, dot, want

MOST_OPEN = 4


def compact(value):
    return json.dumps(value, separators=(",", ":"), sort_keys=True)


def reduced(vector):
    divisor = math.gcd(*vector)
    return [number // divisor for number in vector]


def turned(row):
    return [-number for number in row]


def product(inverse, generator):
    return [sum(row[place] * number for place, number in generator) for row in inverse]


def pivoted(rows, scale, at, by):
    """The rows over the scale, exchanged at a place; `by` has a number for each row, with the pivot at that place."""
    own = rows[at]
    others = ([(n * by[at] - by[i] * o) // scale for n, o in zip(row, own)] for i, row in enumerate(rows))
    return [own if i == at else row for i, row in enumerate(others)]


def separated(generators, target):
    """A direction whose product with each generator is at least 0 and with the target negative; or None and the places
    of generators of which the target is a sum with weights of at least 0.

    The simplex method with artificial columns, by Bland's rule. The rows are an integer inverse of the basis over a
    scale, each with its constant at the end.
    """
    signs = [-1 if number < 0 else 1 for number in target]
    columns = [[(at, number * signs[at]) for at, number in enumerate(row) if number] for row in generators]
    rows = [[int(at == row) for at in range(len(target))] + [abs(target[row])] for row in range(len(target))]
    basis, scale = [-1] * len(target), 1
    while True:
        artificial = [row for row, kind in zip(rows, basis) if kind < 0]
        prices = [sum(numbers) for numbers in zip(*artificial)]
        if not artificial or prices[-1] == 0:
            return None, [kind for kind, row in zip(basis, rows) if kind >= 0 and row[-1]]
        gains = (sum(prices[at] * number for at, number in row) for row in columns)
        entering = next((kind for kind, gain in enumerate(gains) if gain > 0), None)
        if entering is None:
            return [-price * sign for price, sign in zip(prices, signs)], None
        by = product(rows, columns[entering])
        falling = [at for at, number in enumerate(by) if number > 0]
        leaving = min(falling, key=lambda at: (Fraction(rows[at][-1], by[at]), basis[at]))
        rows, scale, basis[leaving] = pivoted(rows, scale, leaving, by), by[leaving], entering


class Cone:
    """The value vectors that meet a list of answers, of which one at least is known."""

    def __init__(self, model):
        self.model = model
        self.units = [[int(at == place) for at in range(len(model.increments))] for place in range(len(model.increments))]
        self.answers = []  # pair and side
        self.rows = []  # winner minus loser
        self.known = [[1] * len(model.increments)]  # some vectors that meet the answers

    def generators(self):
        for number, (row, (_, side)) in enumerate(zip(self.rows, self.answers), 1):
            yield number, row
            if side == "equal":
                yield number, turned(row)
        yield from ((0, unit) for unit in self.units)

    def toward(self, row):
        """A vector that meets the answers and ranks the row's right side higher; or None and by how many answers."""
        for vector in self.known:
            if dot(vector, row) < 0:
                return vector, None
        for number, other in enumerate(self.rows, 1):
            if all(o <= n for o, n in zip(other, row)):
                return None, number
        numbers, rows = zip(*self.generators())
        direction, used = separated(rows, row)
        if direction is None:
            return None, max(numbers[place] for place in used)
        far = dot(self.known[0], row) // -dot(direction, row) + 1
        self.known.append(reduced([v + far * d for v, d in zip(self.known[0], direction)]))
        return self.known[-1], None

    def verdict(self, pair):
        """How the answers rank the pair and how many of them suffice for it; or `open`."""
        worth = dot(self.known[0], self.model.gain(pair, "left"))
        side = "equal" if worth == 0 else "left" if worth > 0 else "right"
        vector, suffice = self.toward(self.model.gain(pair, side))
        return ("open", None) if vector else (side, suffice)

    def add(self, pair, side):
        """Adds an answer to an open pair."""
        row = self.model.gain(pair, side)
        (less, _), (more, _) = self.toward(row), self.toward(turned(row))
        low, high = -dot(less, row), dot(more, row)
        between = reduced([v * high + w * low for v, w in zip(less, more)])
        self.answers.append((pair, side))
        self.rows.append(row)
        found = [*self.known, between, more]
        self.known = [vector for vector in found if self.model.meets(vector, [(pair, side)])]

    def cut(self, count):
        del self.answers[count:], self.rows[count:]


class Survey:
    """The questions and answers of a survey, and what is known of its classes."""

    def __init__(self, model):
        self.model, self.cone = model, Cone(model)
        self.asked = []  # the place of each question
        self.given = []  # the question of each answer
        self.closed = {}  # for each closed question, how many answers there were
        self.withdrawals = 0
        self.ranked = {}  # for each class that is known to be ranked, how, and how many answers suffice for it

    def verdict(self, place):
        if place not in self.ranked:
            side, suffice = self.cone.verdict(self.model.classes[place - 1])
            if side == "open":
                return side
            self.ranked[place] = side, suffice
        return self.ranked[place][0]

    def first_open(self, among):
        return next((place for place in among if self.verdict(place) == "open"), None)

    def places(self):
        return range(1, len(self.model.classes) + 1)

    def is_open(self, question):
        return question not in self.given and question not in self.closed

    # The reply to each request. What it has of certificates is tested and taken from the reply that was given.
    def next(self, _):
        some = self.first_open(self.places())
        if some is None:
            return {"complete": True}
        if sum(map(self.is_open, range(1, len(self.asked) + 1))) >= MOST_OPEN:
            return {"full": True}
        asked = set(self.asked)
        due = self.first_open(place for place in self.places() if place not in asked)
        if due is None:
            return {"waiting": True}
        self.asked.append(due)
        left, right = self.model.classes[due - 1]
        return {"question": {"number": len(self.asked), "left": left, "right": right}}

    def answer(self, reply, question, side):
        if not 1 <= question <= len(self.asked):
            return {"unknown": question}
        if not self.is_open(question):
            return {"closed": question}
        place = self.asked[question - 1]
        pair, verdict = self.model.classes[place - 1], self.verdict(place)
        if verdict == "open":
            self.cone.add(pair, side)
            self.given.append(question)
            return {"accepted": question}
        self.closed[question] = len(self.given)
        combination = reply["implied"]["combination"]
        self.prove(pair, verdict, **combination)
        return {"implied": {"question": question, "verdict": verdict, "combination": combination}}

    def prove(self, pair, verdict, scale, increments, answers):
        want(all(type(number) is int for number, _ in answers), "answers")
        cited = cites(",".join(f"{number}:{weight}" for number, weight in answers) or "-")
        weights = [certificate(weight) for weight in increments]
        want(len(weights) == len(self.model.increments), "increments")
        self.model.prove(self.cone.answers, pair, verdict, certificate(scale), weights, cited)

    def values(self, reply):
        place = self.first_open(self.places())
        if place is not None:
            left, right = self.model.classes[place - 1]
            return {"incomplete": {"left": left, "right": right}}
        texts = reply["values"]["vector"]
        vector = [certificate(text) for text in texts]
        want(len(vector) == len(self.model.increments) and min(vector) >= 1, "vector")
        want(self.model.meets(vector, self.cone.answers), "answers")
        steps = [[v for v, (c, _) in zip(vector, self.model.increments) if c == at] for at in range(len(self.model.levels))]
        levels = [[0, *itertools.accumulate(of)] for of in steps]
        weights = shares([of[-1] for of in levels])
        return {"values": {"levels": [list(map(str, of)) for of in levels], "vector": texts, "weights": weights}}

    def withdraw(self, _):
        classes, more = len(self.model.classes), self.withdrawals + 1
        if not self.given:
            return {"nothing": True}
        if 3 * classes + 2 * classes * more + more > MOST_LINES:
            return {"spent": True}
        count, question = len(self.given), self.given.pop()
        self.cone.cut(count - 1)
        self.closed = {q: answers for q, answers in self.closed.items() if answers < count}
        self.ranked = {place: known for place, known in self.ranked.items() if known[1] < count}
        self.withdrawals = more
        return {"withdrawn": {"answer": count, "question": question}}

    def reply_to(self, request, reply):
        if "answer" in request:
            return self.answer(reply, **request["answer"])
        return {"next": self.next, "values": self.values, "withdraw": self.withdraw}[request["ask"]](reply)


def shares(best):
    """Each criterion's share of the total in ten-thousandths, by the largest remainders."""
    total = sum(best)
    floors = [10000 * value // total for value in best]
    order = sorted(range(len(best)), key=lambda at: (-(10000 * best[at] % total), at))
    return [floor + (at in order[: 10000 - sum(floors)]) for at, floor in enumerate(floors)]


def report_of(lines):
    file = File()
    file.read(2, next(lines))
    survey, number = Survey(file.model), 0
    for number, request in enumerate(lines, 1):
        reply = next(lines, b"").decode()
        try:
            wanted = compact(survey.reply_to(json.loads(request), json.loads(reply)))
        except (Wrong, ValueError, KeyError, TypeError) as wrong:
            wanted = f"{wrong!r}"
        if reply != wanted:
            return f"line {2 * number + 1} is {reply} and not {wanted}"
    return f"{number} replies are right"


if __name__ == "__main__":
    print(report_of(iter(sys.stdin.buffer.read().splitlines())))
