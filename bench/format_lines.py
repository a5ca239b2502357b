#!/usr/bin/env python3
"""Runs the lines that docs/FORMATS.md shows: definitions through `paprika rank`, messages and replies through `session_bench talk`,
whose survey has three criteria of two levels.

usage: format_lines.py
"""
import json
import re
import subprocess
import sys

from common import PAPRIKA, ROOT, program

# What a session neither takes nor says, since only a server does: a hello, its welcome, and what refuses it.
OF_A_SERVER = re.compile(
    r'\{"hello":\{"code":"[^"]*","desk":\d+,"name":"[^"]*"\}\}'
    r'|\{"welcome":\{"classes":\d+,"desk":\d+\}\}'
    r'|\{"refused":"(hello|name|code|desk)"\}'
)


def ask(word):
    return json.dumps({"ask": word})


def answer(question, side):
    return json.dumps({"answer": {"question": question, "side": side}})


NEXT = ask("next")

SESSIONS = [
    [ask("values"), *[NEXT] * 5, answer(99, "left"), "hi"],
    [*[NEXT] * 3, answer(1, "left"), answer(3, "left"), answer(2, "left"), answer(1, "left"), ask("withdraw")],
    [NEXT, answer(1, "left"), NEXT, answer(2, "left"), NEXT, answer(3, "left"), NEXT, NEXT, ask("result")],
    [NEXT, NEXT, answer(1, "equal"), answer(2, "equal"), NEXT, ask("values")],
    [ask("withdraw"), NEXT, *[answer(1, "left"), ask("withdraw")] * 10_100],
    [" " * 4_097],
    ["x"] * 65_536,
]


def talk(lines):
    said = "".join(line + "\n" for line in lines).encode()
    return subprocess.run([program("session_bench"), "talk"], input=said, stdout=subprocess.PIPE, check=True).stdout.decode().splitlines()


def is_definition(line):
    """Whether `rank` finds no fault in it: then it reads on, and finds no values."""
    return subprocess.run([PAPRIKA, "rank"], input=line.encode(), stdout=subprocess.PIPE).stdout == b"rank values\n"


def is_message(line):
    return talk([line]) != ['{"refused":"message"}']


def main():
    text = (ROOT / "docs/FORMATS.md").read_text()
    shown = re.findall(r"`(\{[^`]*\})`", text) + re.findall(r"^ {4}(\{.*\})$", text, re.MULTILINE)
    said = {reply for lines in SESSIONS for reply in talk([*lines, ask("bye")])}
    passed, failed, left = 0, 0, 0
    for line in shown:
        if line in said or is_message(line) or is_definition(line):
            passed += 1
        elif OF_A_SERVER.fullmatch(line):
            left += 1
        else:
            failed += 1
            print(f"nothing says or takes {line}")
    print(f"{passed} passed, {failed} failed; {left} are of a server")
    sys.exit(bool(failed))


if __name__ == "__main__":
    main()
