#!/usr/bin/env python3
"""Gives the answers of a record to a server again, as after a crash.

    examples/again.py examples/operations/definition.json result.txt --port 7070

answers as the record does, up to the first question that it has no answer to; from there ask.py goes on, with the same port. The record
is checked by `paprika check` first.
"""
import argparse
import pathlib
import sys

from ask import Definition, Record, Session, Trouble, paprika, reach


def pair_of(question):
    return tuple(question["left"]), tuple(question["right"])


def answers_of(record):
    """The side of each pair whose answer stands."""
    standing = {number for kind, number in record.events if kind == "commit"}
    return {pair_of(asked): record.sides[asked["number"]] for _, asked in record.questions if asked["number"] in standing}


def give(session, answers):
    """How many answers were given, and the reply that came in place of a question with an answer."""
    given = 0
    while question := (reply := session.say({"ask": "next"})).get("question"):
        side = answers.get(pair_of(question))
        if not side:
            break
        session.say({"answer": {"question": question["number"], "side": side}})
        given += 1
    return given, reply


def main():
    reader = argparse.ArgumentParser(description="Gives the answers of a record to a server again.")
    reader.add_argument("definition", type=pathlib.Path, help="the definition that the server serves")
    reader.add_argument("record", type=pathlib.Path, help="the record of a survey")
    reader.add_argument("--port", type=int, required=True, help="the port of the server")
    reader.add_argument("--name", help="whose survey it is; it need not be said where the definition has one respondent")
    options = reader.parse_args()
    definition, text = Definition(options.definition), options.record.read_text(encoding="utf-8")
    status, verdict = paprika("check", text)
    record = Record(text.splitlines(keepends=True)) if status == 0 else None
    if not record or record.model != definition.model:
        raise Trouble(f"{options.record} is no record of this definition: {verdict}")
    connection = reach(options.port)
    if not connection:
        raise Trouble(f"no server runs at port {options.port}")
    name = definition.respondent(options.name)
    session = Session(connection, name, definition.codes[name], 1)
    given, reply = give(session, answers_of(record))
    session.say({"ask": "bye"})
    print(f"{given} answers were given again; " + ("all is ranked" if "complete" in reply else "ask.py goes on from there"))


if __name__ == "__main__":
    try:
        main()
    except (Trouble, OSError, UnicodeError) as trouble:
        sys.exit(f"again.py: {trouble}")
