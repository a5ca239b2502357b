#!/usr/bin/env python3
"""Says of a checked file what `paprika check` or `paprika migrate` has to write, by plain lists and exact integers.

usage: oracle.py [check | migrate] <FILE

It shares no code with the program or with results.py. Whatever is asked of a history is worked out anew from the
list of its standing events, so large files take minutes.
"""
import itertools
import re
import sys

LONGEST, MOST_LINES, MOST_CLASSES, BOUND = 4096, 131072, 16384, 2**96
KINDS = {
    "paprika claims 1": ("answer", "eliminate"),
    "paprika result 1": ("eliminate", "issue", "commit", "close"),
    "paprika result 2": ("eliminate", "issue", "commit", "close", "withdraw"),
}


class Wrong(Exception):
    """The part of a line that fails."""


def want(holds, part):
    if not holds:
        raise Wrong(part)


# Fields. Each of these takes a text and gives its value.
def whole(low, high):
    def read(text):
        want(len(text) < 40 and re.fullmatch("0|-?[1-9][0-9]*", text), "form")
        want(low <= int(text) <= high, "form")
        return int(text)

    return read


def listed(item, count=None, comma=","):
    def read(text):
        items = text.split(comma)
        want(count in (None, len(items)), "form")
        return tuple(item(text) for text in items)

    return read


def side(text):
    want(text in ("left", "right", "equal"), "form")
    return text


def cites(text):
    def read(text):
        answer, colon, weight = text.partition(":")
        return whole(1, MOST_LINES)(answer), certificate(weight)

    found = () if text == "-" else listed(read)(text)
    ascending = all(a[0] < b[0] for a, b in itertools.pairwise(found))
    want(ascending and len(found) <= 24 and all(weight for _, weight in found), "form")
    return found


certificate = whole(1 - BOUND, BOUND - 1)
desk, question = whole(1, 4), whole(1, MOST_LINES)


class Model:
    """Level counts and a degree limit, with all classes in order and their places."""

    def __init__(self, levels, degree):
        self.levels, self.degree = levels, degree
        self.increments = [(c, step) for c, n in enumerate(levels) for step in range(1, n)]
        want(all(n >= 2 for n in levels) and len(self.increments) <= 24, "model")
        want(1 <= degree <= len(levels) and self.count() <= MOST_CLASSES, "model")
        self.classes = sorted(self.all_classes(), key=order)
        self.places = {pair: place for place, pair in enumerate(self.classes, 1)}
        assert len(self.places) == self.count()

    def count(self):
        total = 0
        for degree in range(2, self.degree + 1):
            for chosen in itertools.combinations(self.levels, degree):
                ways = 2 ** (degree - 1) - 1
                for n in chosen:
                    ways *= n * (n - 1) // 2
                total += ways
            if total > MOST_CLASSES:
                break
        return total

    def all_classes(self):
        for degree in range(2, self.degree + 1):
            for chosen in itertools.combinations(range(len(self.levels)), degree):
                steps = [list(itertools.permutations(range(1, self.levels[c] + 1), 2)) for c in chosen]
                for levels in itertools.product(*steps):
                    if levels[0][0] > levels[0][1] and any(left < right for left, right in levels):
                        at = dict(zip(chosen, levels))
                        yield tuple(zip(*(at.get(c, (0, 0)) for c in range(len(self.levels)))))

    def gain(self, pair, side):
        """For each increment, whether the winner has it minus whether the loser has it."""
        winner, loser = pair[::-1] if side == "right" else pair
        return [(winner[c] > step) - (loser[c] > step) for c, step in self.increments]

    def meets(self, vector, answers):
        worths = [(dot(vector, self.gain(pair, side)), side) for pair, side in answers]
        return all(worth == 0 if side == "equal" else worth > 0 for worth, side in worths)

    def prove(self, answers, pair, verdict, scale, weights, cites):
        want(scale >= 1, "scale")
        want(all(weight >= 0 for weight in weights), "increment")
        want(all(number <= len(answers) for number, _ in cites), "cite")
        strict = [weight for number, weight in cites if answers[number - 1][1] != "equal"]
        want(all(weight >= 0 for weight in strict), "weight")
        sums = list(weights)
        for number, weight in cites:
            sums = [s + weight * g for s, g in zip(sums, self.gain(*answers[number - 1]))]
        want(sums == [scale * g for g in self.gain(pair, verdict)], "sum")
        positive = any(weight > 0 for weight in (*weights, *strict))
        want(positive == (verdict != "equal"), "strict")

    def fields(self):
        pair = listed(listed(whole(0, 25), len(self.levels)), 2, "/")
        vector = listed(whole(1, BOUND - 1), len(self.increments))
        weights = listed(certificate, len(self.increments))
        return {
            "answer": (pair, side),
            "eliminate": (whole(0, 16), pair, side, certificate, weights, cites),
            "issue": (desk, pair, vector, vector),
            "commit": (desk, question, side, vector, vector, vector),
            "close": (desk, question),
            "withdraw": (desk, question),
        }


def order(pair):
    return sum(map(bool, pair[0])), [(left or 25, right or 25) for left, right in zip(*pair)]


def dot(vector, row):
    return sum(v * r for v, r in zip(vector, row))


class File:
    """What the lines of a file come to, up to some line."""

    def __init__(self):
        self.heading, self.model = None, None
        self.counted = 0  # lines with an answer or an event
        self.answers = []  # of a claims file: pair and side
        self.issued = []  # the place of each question
        self.standing = []  # kind, question or place, and side or cites
        self.withdrawn = 0

    # What a history comes to.
    def committed(self):
        places = [(self.issued[q - 1], side) for kind, q, side in self.standing if kind == "commit"]
        return [(self.model.classes[place - 1], side) for place, side in places]

    def is_open(self, question):
        ended = any(kind in ("commit", "close") and q == question for kind, q, _ in self.standing)
        return 1 <= question <= len(self.issued) and not ended

    def eliminated(self):
        return {place for kind, place, _ in self.standing if kind == "eliminate"}

    def ranked(self):
        return self.eliminated() | {self.issued[q - 1] for kind, q, _ in self.standing if kind == "commit"}

    # Parts that several kinds of lines have.
    def place(self, pair):
        want(pair in self.model.places, "class")
        return self.model.places[pair]

    def opens(self, pair, plus, minus):
        row = self.model.gain(pair, "left")
        both = self.model.meets(plus, self.committed()) and self.model.meets(minus, self.committed())
        return both and dot(plus, row) > 0 > dot(minus, row)

    # The lines, in which the form is right.
    def answer(self, pair, side):
        self.place(pair)
        self.answers.append((pair, side))

    def eliminate(self, worker, pair, verdict, scale, weights, cites):
        place = self.place(pair)
        if self.heading == "paprika claims 1":
            return self.model.prove(self.answers, pair, verdict, scale, weights, cites)
        want(place not in self.ranked(), "ranked")
        self.model.prove(self.committed(), pair, verdict, scale, weights, cites)
        self.standing.append(("eliminate", place, [number for number, _ in cites]))

    def issue(self, desk, pair, plus, minus):
        place, ranked = self.place(pair), self.ranked()
        want(place not in ranked, "ranked")
        want(place not in self.issued, "asked")
        want(sum(map(self.is_open, range(1, len(self.issued) + 1))) < 4, "full")
        want(all(earlier in ranked or earlier in self.issued for earlier in range(1, place)), "earlier")
        want(self.opens(pair, plus, minus), "vectors")
        self.issued.append(place)

    def commit(self, desk, question, side, plus, minus, point):
        want(self.is_open(question), "question")
        place = self.issued[question - 1]
        pair = self.model.classes[place - 1]
        want(place not in self.eliminated(), "ranked")
        want(self.opens(pair, plus, minus), "vectors")
        want(self.model.meets(point, self.committed() + [(pair, side)]), "point")
        self.standing.append(("commit", question, side))

    def close(self, desk, question):
        want(self.is_open(question), "question")
        want(self.issued[question - 1] in self.eliminated(), "unranked")
        self.standing.append(("close", question, None))

    def withdraw(self, desk, answer):
        want(answer == len(self.committed()), "nothing")
        classes, more = len(self.model.classes), self.withdrawn + 1
        want(3 * classes + 2 * classes * more + more <= MOST_LINES, "spent")
        last = max(at for at, (kind, _, _) in enumerate(self.standing) if kind == "commit")
        before, after = self.standing[:last], self.standing[last + 1 :]
        after = [event for event in after if event[0] != "close"]
        self.standing = [(k, at, what) for k, at, what in before + after if k != "eliminate" or answer not in what]
        self.withdrawn += 1

    def read(self, number, line):
        """Takes the next line; whether it is the end line."""
        want(len(line) <= LONGEST and line.isascii(), "form")
        text = line.decode()
        if number == 1:
            want(text in KINDS, "form")
            self.heading = text
        elif number == 2:
            found = re.fullmatch("model ([^ ]*) degree ([^ ]*)", text)
            want(found, "form")
            self.model = Model(listed(whole(0, 999))(found[1]), whole(0, 999)(found[2]))
        elif text != "end":
            kind, *fields = text.split(" ")
            readers = self.model.fields().get(kind, ())
            want(kind in KINDS[self.heading] and len(fields) == len(readers), "form")
            values = [read(field) for read, field in zip(readers, fields)]
            self.counted += 1
            want(self.counted <= MOST_LINES, "limit")
            getattr(self, kind)(*values)
        return number > 2 and text == "end"

    def accepted(self):
        complete = self.heading != "paprika claims 1" and len(self.ranked()) == len(self.model.classes)
        return "valid complete" if complete else "valid"


def verdict_of(data):
    *lines, rest = data.split(b"\n")
    file, number = File(), 0
    try:
        for number, line in enumerate(lines, 1):
            if file.read(number, line):
                return f"invalid {number + 1} form" if lines[number:] or rest else file.accepted()
        number = len(lines) + 1
        want(len(rest) <= LONGEST, "form")
    except Wrong as wrong:
        return f"invalid {number} {wrong}"
    return file.accepted() if number > 2 and rest == b"end" else f"unfinished {number}"


def migrated(data):
    heading, line_end, rest = data.partition(b"\n")
    if line_end and heading == b"paprika claims 1":
        return b"invalid 1 form\n"
    verdict = verdict_of(data)
    if not verdict.startswith("valid"):
        return f"{verdict}\n".encode()
    return b"paprika result 2\n" + rest.removesuffix(b"\n") + b"\n"


def main():
    data = sys.stdin.buffer.read()
    migrates = sys.argv[1:] == ["migrate"]
    sys.stdout.buffer.write(migrated(data) if migrates else f"{verdict_of(data)}\n".encode())


if __name__ == "__main__":
    main()
