#!/usr/bin/env python3
"""Works the rows of a dictionary out by exact fractions, through the pivots of fraction_free's test.

Prints the tables of the test, a dictionary's rows after each step, and the lines that compare with them.
"""

from fractions import Fraction


class Dictionary:
    """Each basic variable as fractions times the nonbasic variables, and a constant."""

    def __init__(self, columns):
        self.columns = columns
        self.scale = 1
        self.nonbasic = list(range(1, columns + 1))
        self.basic = []
        self.lines = []
        self.loaded = 0

    def value_of(self, variable):
        """The line of any variable, over the present nonbasic ones."""
        if variable in self.basic:
            return self.lines[self.basic.index(variable)]
        line = [Fraction(0)] * (self.columns + 1)
        line[self.nonbasic.index(variable)] = Fraction(1)
        return line

    def add_row(self, coefficients, least):
        line = [Fraction(0)] * self.columns + [Fraction(sum(coefficients) - least)]
        for variable, coefficient in enumerate(coefficients, 1):
            line = [a + coefficient * b for a, b in zip(line, self.value_of(variable))]
        self.loaded += 1
        self.basic.append(self.columns + self.loaded)
        self.lines.append(line)

    def pivot(self, row, column):
        row, column = row - 1, column - 1
        line = self.lines[row]
        entry = line[column]
        self.scale = abs(entry * self.scale)
        solved = [-x / entry for x in line]
        solved[column] = 1 / entry
        for i, other in enumerate(self.lines):
            if i != row:
                factor = other[column]
                self.lines[i] = [
                    factor * s if j == column else o + factor * s
                    for j, (o, s) in enumerate(zip(other, solved))
                ]
        self.lines[row] = solved
        self.basic[row], self.nonbasic[column] = self.nonbasic[column], self.basic[row]

    def drop_last(self):
        last = self.columns + self.loaded
        if last in self.nonbasic:
            column = self.nonbasic.index(last)
            row = next(i for i, line in enumerate(self.lines) if line[column])
            self.pivot(row + 1, column + 1)
        at = self.basic.index(last)
        for items in (self.basic, self.lines):
            items[at], items[-1] = items[-1], items[at]
            items.pop()
        self.loaded -= 1

    def rows(self):
        """The rows as they are kept, all times the scale."""
        rows = []
        for variable, line in zip(self.basic, self.lines):
            numbers = [int(x * self.scale) for x in line]
            assert all(n == x * self.scale for n, x in zip(numbers, line))
            rows.append(
                f"ExpectedRow {{ basic: {variable}, entries: {numbers[:-1]}, constant: {numbers[-1]} }}"
            )
        return rows


STEPS = [
    ("LOADED", ("add", [1, -1, 0], 1), ("add", [-1, 1, 1], 0), ("add", [1, 1, -1], 1)),
    ("FIRST_PIVOT", ("pivot", 1, 2)),
    ("SECOND_PIVOT", ("pivot", 3, 1)),
    ("ROW_ADDED", ("add", [1, 1, 1], 1)),
    ("THIRD_PIVOT", ("pivot", 4, 3)),
    ("FOURTH_PIVOT", ("pivot", 1, 1)),
    ("ROW_DROPPED", ("drop",)),
    ("LAST_PIVOT", ("pivot", 2, 1)),
]


def main():
    work = Dictionary(3)
    tables, calls = [], []
    for name, *steps in STEPS:
        for what, *numbers in steps:
            if what == "add":
                work.add_row(*numbers)
                calls.append(f"add(&rt, &mut work, &Row::of(&{numbers[0]}), {numbers[1]});")
            elif what == "pivot":
                work.pivot(*numbers)
                calls.append(f"pivot(&rt, &mut work, {numbers[0]}, {numbers[1]});")
            else:
                work.drop_last()
                calls.append("work.drop_last();")
        rows = work.rows()
        tables.append(f"const {name}: [ExpectedRow; {len(rows)}] = [{', '.join(rows)}];")
        calls.append(f"expect(&rt, &work, {work.scale}, {work.nonbasic}, &{name});")
    print("\n".join(tables + calls))


if __name__ == "__main__":
    main()
