#!/usr/bin/env python3
"""Compares what the proved program answers to `rank` with what Python's json and csv make of the same bytes.

usage: rankings.py COUNT FILE..

Each file is an input of `rank`. It is compared as it is, and COUNT times with a few changes at random.
"""
import csv
import io
import json
import pathlib
import random
import subprocess
import sys

from common import PAPRIKA, class_count

LONGEST_DEFINITION, LONGEST_VALUES, LONGEST_TABLE = 65_536, 4_096, 1_048_576
DEEPEST = 127

csv.field_size_limit(2**31 - 1)


class Refused(Exception):
    """The line that refuses the input."""


def want(holds, line):
    if not holds:
        raise Refused(line)


class NoWholeNumber(float):
    """A number that isn't spelled by digits alone, or has more than 64 bits."""


def number(text):
    if text.isdigit() and len(text) <= 20 and int(text) < 2**64:
        return int(text)
    if float(text) in (float("inf"), float("-inf")):
        raise ValueError("too large")
    return NoWholeNumber(text)


def no_constant(text):
    raise ValueError(text)


def nests_too_deep(text):
    """Whether arrays and objects nest deeper than is read, in values that are overwritten too."""
    level, deepest, quoted, escaped = 0, 0, False, False
    for c in text:
        if quoted:
            escaped, quoted = c == "\\" and not escaped, c != '"' or escaped
        else:
            quoted = c == '"'
            level += (c in "[{") - (c in "]}")
            deepest = max(deepest, level)
    return deepest > DEEPEST


def pairs(members):
    """An object; its names are text without half of a surrogate pair."""
    for name, value in members:
        whole_text(name)
        whole_text(value)
    return dict(members)


def whole_text(value):
    if isinstance(value, str):
        value.encode()
    if isinstance(value, list):
        for item in value:
            whole_text(item)


def value_of(line):
    """The JSON value that a line is, or None."""
    try:
        text = line.decode()
        if nests_too_deep(text):
            return None
        value = json.loads(
            text, parse_int=number, parse_float=number, parse_constant=no_constant, object_pairs_hook=pairs
        )
        whole_text(value)
        return value
    except (ValueError, RecursionError):
        return None


def has_members(value, *names):
    return isinstance(value, dict) and set(value) == set(names)


def are(kind, values):
    return isinstance(values, list) and all(type(value) is kind for value in values)


def has_form(value):
    return (
        has_members(value, "criteria", "degree", "respondents")
        and are(dict, value["criteria"])
        and all(
            has_members(one, "name", "levels") and type(one["name"]) is str and are(str, one["levels"])
            for one in value["criteria"]
        )
        and type(value["degree"]) is int
        and are(dict, value["respondents"])
        and all(
            has_members(one, "name", "code") and are(str, list(one.values())) for one in value["respondents"]
        )
    )


def is_name(text):
    data = text.encode()
    return 1 <= len(data) <= 64 and all(byte >= 0x20 and byte != 0x7F for byte in data)


def are_distinct(names):
    return len(set(names)) == len(names)


def definition_of(line):
    """The criteria's names and their levels' names."""
    want(len(line) <= LONGEST_DEFINITION, "definition long")
    value = value_of(line)
    want(has_form(value), "definition form")
    criteria, degree, respondents = value["criteria"], value["degree"], value["respondents"]
    levels = [len(one["levels"]) for one in criteria]
    want(levels, "definition criteria")
    for place, count in enumerate(levels, 1):
        want(count >= 2, f"definition levels {place}")
    increments = sum(count - 1 for count in levels)
    want(increments <= 24, f"definition increments {increments}")
    want(1 <= degree <= len(levels), "definition degree")
    classes = class_count(levels, degree)
    want(classes <= 16_384, f"definition classes {classes}")
    want(1 <= len(respondents) <= 16, "definition respondents")
    names = [one["name"] for one in criteria]
    people = [one["name"] for one in respondents]
    texts = names + people + [one["code"] for one in respondents]
    texts += [text for one in criteria for text in one["levels"]]
    want(all(map(is_name, texts)), "definition name")
    twice = not (are_distinct(names) and are_distinct(people))
    want(not twice and all(are_distinct(one["levels"]) for one in criteria), "definition twice")
    return names, [one["levels"] for one in criteria]


def vector_of(line, increments):
    want(len(line) <= LONGEST_VALUES, "rank values")
    value = value_of(line)
    want(isinstance(value, dict) and isinstance(value.get("values"), dict), "rank values")
    vector = value["values"].get("vector")
    want(are(str, vector) and len(vector) == increments, "rank values")
    for text in vector:
        spelled = text.isascii() and text.isdigit() and text[0] != "0" and len(text) <= 29
        want(spelled and int(text) < 2**96, "rank values")
    return [int(text) for text in vector]


def records_of(table):
    """The records of a table, each a list of texts with a character for each byte."""
    mark = b"\xef\xbb\xbf"
    text = table[len(mark) :] if table.startswith(mark) else table
    return [record for record in csv.reader(io.StringIO(text.decode("latin-1"), newline="")) if record]


def alternatives_of(records, criteria, levels, vector):
    """Each alternative's name and worth, in the table's order."""

    def as_read(text):
        return text.encode().decode("latin-1")

    header = ["name", *map(as_read, criteria)]
    want(records and records[0] == header, "rank header")
    for place, record in enumerate(records[1:], 2):
        want(len(record) == len(header), f"rank row {place}")
        worth, first = 0, 0
        for column, (text, names) in enumerate(zip(record[1:], levels), 2):
            known = [as_read(name) for name in names]
            want(text in known, f"rank level {place} {column}")
            worth += sum(vector[first : first + known.index(text)])
            first += len(names) - 1
        yield record[0], worth


def field(text):
    quoted = any(mark in text for mark in ',"\r\n')
    return '"' + text.replace('"', '""') + '"' if quoted else text


def ranking_of(data):
    """What `rank` writes, and its status."""
    first, _, after = data.partition(b"\n")
    second, _, table = after.partition(b"\n")
    try:
        criteria, levels = definition_of(first)
        vector = vector_of(second, sum(len(names) - 1 for names in levels))
        want(len(table) <= LONGEST_TABLE, "rank long")
        rows = list(alternatives_of(records_of(table), criteria, levels, vector))
    except Refused as refusal:
        return f"{refusal}\n".encode(), 1
    lines = ["rank,name,value"]
    for name, worth in sorted(rows, key=lambda row: -row[1]):
        rank = 1 + sum(other > worth for _, other in rows)
        lines.append(f"{rank},{field(name)},{worth}")
    return "".join(line + "\n" for line in lines).encode("latin-1"), 0


PIECES = [b'"', b'""', b",", b"\r", b"\r\n", b"\n", b"\n\n", b" ", b"\t", b"\\", b"\\u0061", b"\\ud800", b"{", b"}", b"[", b"]"]
PIECES += [b"0", b"1.0", b"1e0", b"-0", b"1e999", b"18446744073709551616", b"\x00", b"\x7f", b"\xff", b"\xc3\xa9", b"x" * 65]
PIECES += [b'"degree":2,', b'"extra":[[]],', b"low", b"fast", b"\xef\xbb\xbf", b'"name":"a",', b'"levels":["a","b"],']


def changed(data, chance):
    """The data with one to three changes."""
    for _ in range(chance.choice([1, 1, 1, 2, 3])):
        lines = data.splitlines(keepends=True) or [b""]
        start = chance.choice([0, len(lines[0]), sum(map(len, lines[:2]))])
        place = min(len(data), start + chance.randrange(max(1, len(data) - start)))
        length = chance.choice([0, 0, 1, 1, 2, 5])
        kind = chance.randrange(4)
        if kind == 0:
            data = data[:place] + data[place + max(1, length) :]
        elif kind == 1:
            data = data[:place] + chance.choice(PIECES) + data[place + length :]
        elif kind == 2:
            other = chance.randrange(len(data) + 1)
            data = data[:place] + data[other : other + chance.randrange(40)] + data[place:]
        else:
            data = data[:place] + bytes([chance.randrange(256)]) + data[place + 1 :]
    return data


def changed_line(line, chance):
    """A line with one to three changes, none of them a line end."""
    return changed(line, chance).replace(b"\n", b" ")


def main():
    count, names = int(sys.argv[1]), sys.argv[2:]
    chance = random.Random(7)
    compared, ranked, differing, refusals = 0, 0, 0, {}
    for name in names:
        base = pathlib.Path(name).read_bytes()
        for data in [base, *(changed(base, chance) for _ in range(count))]:
            wanted, status = ranking_of(data)
            run = subprocess.run([PAPRIKA, "rank"], input=data, stdout=subprocess.PIPE)
            compared, ranked = compared + 1, ranked + (status == 0)
            if status:
                word = " ".join(wanted.decode().split()[:2])
                refusals[word] = refusals.get(word, 0) + 1
            if (run.stdout, run.returncode) != (wanted, status):
                differing += 1
                print(f"{data!r}: status {run.returncode}, {run.stdout[:60]!r}, not {wanted[:60]!r}")
    print(f"{compared} inputs, of which {ranked} were ranked; {differing} differ from what Python makes of them")
    print(", ".join(f"{word}: {times}" for word, times in sorted(refusals.items())))
    sys.exit(bool(differing))


if __name__ == "__main__":
    main()
