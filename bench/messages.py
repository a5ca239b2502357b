#!/usr/bin/env python3
"""Compares which lines a session takes as which messages with what Python's json makes of the same bytes, by the kind of reply.

usage: messages.py COUNT

Runs sessions of the proved `session_bench talk`, each with COUNT lines: messages, and messages with a few changes at random.
"""
import random
import subprocess
import sys

from common import expect, program
from rankings import changed_line, has_members, value_of

PROGRAM = program("session_bench")

SESSIONS = 20

MESSAGES = [
    b'{"ask":"next"}',
    b'{"ask":"values"}',
    b'{"ask":"withdraw"}',
    b'{"answer":{"question":1,"side":"left"}}',
    b'{"answer":{"side":"equal","question":4294967295}}',
    b'{"hello":{"code":"k1","desk":1,"name":"ana"}}',
    b' { "ask" : "next" } \r',
    b'{"\\u0061sk":"ne\\u0078t"}',
    b'{"ask":1,"ask":"next"}',
]

# The first words that a reply to the message may have.
REPLIES = {
    "next": {"question", "full", "waiting", "complete"},
    "answer": {"accepted", "unknown", "closed", "implied"},
    "values": {"values", "incomplete"},
    "withdraw": {"withdrawn", "nothing", "spent"},
    "refused": {"refused"},
}


def message_of(line):
    """Which message the line is; a hello inside a session is refused as a line is that is none."""
    value = value_of(line)
    if has_members(value, "ask") and type(value["ask"]) is str and value["ask"] in REPLIES.keys() - {"answer", "refused"}:
        return value["ask"]
    answer = value.get("answer") if has_members(value, "answer") else None
    if has_members(answer, "question", "side"):
        question, side = answer["question"], answer["side"]
        if type(question) is int and question < 2**32 and side in ("left", "right", "equal"):
            return "answer"
    return "refused"


def lines_of(count, chance):
    for _ in range(count):
        line = chance.choice(MESSAGES)
        yield changed_line(line, chance) if chance.random() < 0.8 else line


def main():
    count, chance, differing, kinds = int(sys.argv[1]), random.Random(7), 0, {}
    for _ in range(SESSIONS):
        lines = [line for line in lines_of(count, chance) if line.strip() not in (b'{"ask":"bye"}', b'{"ask":"result"}')]
        said = b"\n".join([*lines, b'{"ask":"bye"}', b""])
        replies = subprocess.run([PROGRAM, "talk"], input=said, stdout=subprocess.PIPE, check=True).stdout.splitlines()
        expect("number of replies", len(replies), len(lines) + 1)
        expect("last reply", replies[-1], b'{"bye":true}')
        for line, reply in zip(lines, replies):
            kind, word = message_of(line), reply.split(b'"')[1].decode()
            kinds[kind] = kinds.get(kind, 0) + 1
            if word not in REPLIES[kind]:
                differing += 1
                print(f"{line!r}: {reply!r}, not {kind}")
    print(", ".join(f"{kind}: {times}" for kind, times in sorted(kinds.items())) + f"; {differing} differ")
    sys.exit(bool(differing))


if __name__ == "__main__":
    main()
