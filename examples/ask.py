#!/usr/bin/env python3
"""Asks a person the questions of a paprika survey, in a terminal.

    examples/ask.py examples/operations/definition.json --alternatives examples/operations/patients.csv

starts `paprika serve` on this machine and shows each question as two columns, with the criteria on which its sides differ. With
`--port` it connects to the server at this port, if one runs there. At the end it shows what counts how much, ranks alternatives by
`paprika rank`, and has the record of the survey checked by `paprika check`. The record is saved after each answer.

It needs Python 3.9 or later and nothing else. None of it is proved; what the record says is, and `paprika check` tells.
"""
import argparse
import contextlib
import csv
import itertools
import json
import os
import pathlib
import random
import select
import socket
import subprocess
import sys
import time
import unicodedata

HOST = "127.0.0.1"
PROGRAM = pathlib.Path(__file__).resolve().parent.parent / "paprika"
KEYS = "1 the first   2 the second   = equally good   u take back an answer   q stop"
SIDES = {"1": "left", "2": "right", "=": "equal"}
WIDTH, NAME_WIDTH, BAR_WIDTH = 80, 24, 36
DESK_SECONDS = 3  # how long a welcome may take before the person is told that the desk is taken
PAGE = "docs/TROUBLESHOOTING.md has what that means, and what to do"
TOLD = {
    "implied": "Your other answers settle this one already.",
    "closed": "This one was answered or settled at another desk.",
    "withdrawn": "Your last answer is taken back.",
    "nothing": "There is no answer to take back.",
    "spent": "No further answer can be taken back.",
}


class Trouble(Exception):
    """What the person has to know. The program ends with it."""


class Definition:
    def __init__(self, path):
        try:
            read = json.loads(path.read_text(encoding="utf-8"))
            self.criteria = [(criterion["name"], criterion["levels"]) for criterion in read["criteria"]]
            self.codes = {respondent["name"]: respondent["code"] for respondent in read["respondents"]}
            self.line = json.dumps(read, ensure_ascii=False, separators=(",", ":")) + "\n"
            self.model = f"model {','.join(str(len(levels)) for _, levels in self.criteria)} degree {read['degree']}\n"
            self.increments = sum(len(levels) - 1 for _, levels in self.criteria)
        except (ValueError, KeyError, TypeError) as fault:
            raise Trouble(f"{path} is no definition ({fault!r}); docs/FORMATS.md has the form") from None

    def respondent(self, name):
        if name is None and len(self.codes) == 1:
            return next(iter(self.codes))
        if name not in self.codes:
            raise Trouble(f"say with --name who answers: {', '.join(self.codes)}")
        return name

    def rows(self, question):
        """Criterion, level on the left and level on the right, of those on which the sides differ."""
        both = zip(self.criteria, question["left"], question["right"])
        return [(name, levels[left - 1], levels[right - 1]) for (name, levels), left, right in both if left != right]

    def worth(self, side, values):
        """What a side of a question is worth by a value for each increment."""
        steps = iter(values)
        worths = [[0, 0, *itertools.accumulate(itertools.islice(steps, len(levels) - 1))] for _, levels in self.criteria]
        return sum(of[level] for of, level in zip(worths, side))


def free_port():
    """A port that nothing uses, below those that systems give to connections."""
    while True:
        port = random.SystemRandom().randrange(20_000, 32_000)
        with socket.socket() as probe, contextlib.suppress(OSError):
            probe.bind((HOST, port))
            return port


def reach(port):
    """A connection to the server that runs at the port. None where none does."""
    with contextlib.suppress(ConnectionRefusedError):
        return socket.create_connection((HOST, port)) if port else None


def start(definition, port, eliminators):
    """`paprika serve`, in a process that can go on when this program stops."""
    words = [str(PROGRAM), "serve", str(port), "--eliminators", str(eliminators)]
    server = subprocess.Popen(words, stdin=subprocess.PIPE, stdout=subprocess.PIPE, start_new_session=True)
    with contextlib.suppress(BrokenPipeError):
        server.stdin.write(definition.line.encode())
        server.stdin.close()
    return server


def connection_to(server, port):
    """A connection to the server, as soon as it listens."""
    while (status := server.poll()) is None:
        with contextlib.suppress(OSError):
            return socket.create_connection((HOST, port))
        time.sleep(0.05)
    if status == 6:
        raise Trouble(f"port {port} is in use by another program, or not allowed; take another")
    raise Trouble(f"paprika serve ended with status {status} and says: {server.stdout.read().decode().strip()}\n{PAGE}")


class Session:
    """A session at a desk of the server."""

    def __init__(self, connection, name, code, desk):
        self.connection, self.lines, self.desk = connection, connection.makefile("rb"), desk
        self.send({"hello": {"code": code, "desk": desk, "name": name}})
        if not select.select([connection], [], [], DESK_SECONDS)[0]:
            print(f"Another session is at desk {desk}; waiting until it ends. Ctrl-C stops; --desk takes another of 1 to 4.")
        try:
            reply = json.loads(self.line())
        except ValueError:
            raise Trouble("the port is in use by another program") from None
        if "welcome" not in reply:
            word = reply.get("refused", "hello")
            has = {"name": f"no respondent {name}", "code": f"another code for {name}", "desk": "only the desks 1 to 4"}
            raise Trouble(f"the server refused the {word}: it has {has.get(word, 'other messages')}")
        self.classes = reply["welcome"]["classes"]

    def send(self, message):
        self.connection.sendall(json.dumps(message).encode() + b"\n")

    def line(self):
        line = self.lines.readline()
        if not line.endswith(b"\n"):
            raise ConnectionError("the server is gone")
        return line.decode()

    def say(self, message):
        self.send(message)
        return json.loads(self.line())

    def record(self):
        self.send({"ask": "result"})
        return Record([*iter(self.line, "end\n"), "end\n"])


class Record:
    """A result file: its questions, and the answers and eliminations that stand."""

    def __init__(self, lines):
        self.text, self.model = "".join(lines), lines[1]
        self.questions = []  # desk and question
        self.events = []  # commits and closes with their questions, eliminations with the last answer that they cite
        self.sides = {}  # of each question the side that was answered last
        kinds = {"issue": self.issue, "commit": self.end, "close": self.end, "eliminate": self.eliminate, "withdraw": self.withdraw}
        for fields in map(str.split, lines[2:-1]):
            kinds[fields[0]](fields)

    def issue(self, fields):
        left, right = ([int(level) for level in side.split(",")] for side in fields[2].split("/"))
        self.questions.append((int(fields[1]), {"number": len(self.questions) + 1, "left": left, "right": right}))

    def end(self, fields):
        self.events.append((fields[0], int(fields[2])))
        if fields[0] == "commit":
            self.sides[int(fields[2])] = fields[3]

    def eliminate(self, fields):
        cited = [int(cite.partition(":")[0]) for cite in fields[6].split(",") if cite != "-"]
        self.events.append(("eliminate", max(cited, default=0)))

    def withdraw(self, fields):
        """Takes the last answer back, with each elimination that cites it and each close after it."""
        last = max(place for place, (kind, _) in enumerate(self.events) if kind == "commit")
        self.events[last:] = [event for event in self.events[last:] if event[0] == "eliminate" and event[1] < int(fields[2])]

    def count(self, wanted):
        return sum(kind == wanted for kind, _ in self.events)

    def waiting(self):
        """The questions that wait for an answer, each with its desk."""
        ended = {number for kind, number in self.events if kind != "eliminate"}
        return [(desk, question) for desk, question in self.questions if question["number"] not in ended]


def columns(text):
    """How many columns of a terminal the text takes."""
    return sum(0 if unicodedata.category(c) in ("Mn", "Me", "Cf") else 1 + (unicodedata.east_asian_width(c) in "WF") for c in text)


def wrapped(text, width):
    """The text in lines of at most `width` columns, broken at a space where there is one."""
    lines, line = [], ""
    for char in "".join("?" if unicodedata.category(c) == "Cc" else c for c in text):
        if columns(line + char) > width:
            head, space, tail = line.rpartition(" ")
            lines.append(head if space else line)
            line = tail if space else ""
        line += char
    return [*lines, line]


def table(rows, widths):
    """The lines of a table whose cells are wrapped in columns of these widths."""
    for row in rows:
        cells = [wrapped(cell, width) for cell, width in zip(row, widths)]
        for line in itertools.zip_longest(*cells, fillvalue=""):
            yield "  " + "  ".join(cell + " " * (width - columns(cell)) for cell, width in zip(line, widths)).rstrip()


class Screen:
    def __init__(self, colour):
        self.colour = colour

    def paint(self, text, code):
        return f"\033[{code}m{text}\033[0m" if self.colour else text

    def head(self, text):
        print("\n" + self.paint(text, 1) + "\n")

    def question(self, rows, number):
        first = min(NAME_WIDTH, max(columns(name) for name, _, _ in rows))
        side = (WIDTH - first - 6) // 2
        self.head(f"Question {number}: which is better, if all else is equal?")
        print(self.paint(next(table([("", "1", "2")], (first, side, side))), "1;36"))
        print(*table(rows, (first, side, side)), "", "  " + KEYS, sep="\n")

    def progress(self, record, classes):
        answered, settled = record.count("commit"), record.count("eliminate")
        print(self.paint(f"  {answered} of {classes} answered, {settled} settled without an answer", 2))

    def values(self, criteria, levels, weights, **_):
        self.head("What counts how much, in 100")
        shares = sorted(zip(weights, criteria), key=lambda row: -row[0])
        bars = [(name, f"{share / 100:6.2f}", "#" * max(1, share * BAR_WIDTH // max(weights))) for share, (name, _) in shares]
        print(*table(bars, (NAME_WIDTH, 6, BAR_WIDTH)), sep="\n")
        self.head("What each level is worth; the best of all together are 100")
        total = sum(int(worths[-1]) for worths in levels)
        for (name, names), worths in zip(criteria, levels):
            rows = zip([name, *[""] * len(names)], names, [f"{100 * int(worth) / total:6.2f}" for worth in worths])
            print(*table(rows, (NAME_WIDTH, BAR_WIDTH, 6)), sep="\n")

    def ranking(self, text):
        self.head("The ranking")
        rows = [(rank.rjust(4), value.rjust(8), name) for rank, name, value in csv.reader(text.splitlines())]
        print(*table(rows, (4, 8, 60)), sep="\n")


def by_person(screen, definition):
    def choose(question):
        screen.question(definition.rows(question), question["number"])
        while True:
            try:
                word = input("> ").strip()
            except (EOFError, KeyboardInterrupt):
                print()
                return "q"
            if word in (*SIDES, "u", "q"):
                return word
            print("  " + KEYS)

    return choose


def by_values(definition, text):
    """Answers by hidden values: those that the text lists, or drawn from it as a seed."""
    try:
        numbers = [int(number) for number in text.split(",")]
    except ValueError:
        raise Trouble(f"--hidden takes a seed or a list of numbers, and not {text}") from None
    if len(numbers) == 1:
        draws = random.Random(numbers[0])
        numbers = [draws.randint(1, 1000) for _ in range(definition.increments)]
    if len(numbers) != definition.increments or min(numbers) < 1:
        raise Trouble(f"--hidden takes a positive number for each of the {definition.increments} steps between levels")

    def choose(question):
        lead = definition.worth(question["left"], numbers) - definition.worth(question["right"], numbers)
        return "=" if lead == 0 else "1" if lead > 0 else "2"

    return choose


def due(session, waiting):
    """The question to show: one that waits for an answer, or the next. None where all is ranked."""
    while not waiting:
        reply = session.say({"ask": "next"})
        if "question" in reply:
            return reply["question"]
        if "complete" in reply:
            return None
        waiting.extend(question for _, question in session.record().waiting())
    return waiting.pop(0)


def hold(session, choose, after):
    """Asks until all is ranked or the person stops; `after` is called after each change. Whether all is ranked."""
    waiting = [question for desk, question in session.record().waiting() if desk == session.desk]
    while question := due(session, waiting):
        word = choose(question)
        if word == "q":
            return False
        answer = {"answer": {"question": question["number"], "side": SIDES.get(word)}}
        reply = session.say({"ask": "withdraw"} if word == "u" else answer)
        print(*("  " + TOLD[kind] + "\n" for kind in reply if kind in TOLD), sep="", end="")
        if "withdrawn" in reply:
            again = reply["withdrawn"]["question"]
            waiting = [asked for desk, asked in session.record().waiting() if desk == session.desk or asked["number"] == again]
        elif word == "u":
            waiting.insert(0, question)
        after()
    return True


def paprika(word, text):
    """The program's status on a text, and what it writes."""
    run = subprocess.run([str(PROGRAM), word], input=text.encode(), stdout=subprocess.PIPE)
    return run.returncode, run.stdout.decode().rstrip("\n")


def rank(definition, reply, path):
    """The ranking of the alternatives by the values of a reply."""
    status, ranking = paprika("rank", f"{definition.line}{json.dumps(reply)}\n{path.read_text(encoding='utf-8')}")
    if status != 0:
        raise Trouble(f"{path}: paprika rank says {ranking}\n{PAGE}")
    return ranking


def survey(session, definition, screen, options):
    """Holds the survey at a session, and shows what came of it. Whether all is ranked."""
    if session.record().model != definition.model:
        raise Trouble("the server at this port serves another definition")

    def save():
        record = session.record()
        options.save.write_text(record.text, encoding="utf-8")
        return record

    if options.hidden:
        complete = hold(session, by_values(definition, options.hidden), lambda: None)
    else:
        complete = hold(session, by_person(screen, definition), lambda: screen.progress(save(), session.classes))
    if complete:
        reply = session.say({"ask": "values"})
        screen.values(definition.criteria, **reply["values"])
        if options.alternatives:
            screen.ranking(rank(definition, reply, options.alternatives))
    screen.head("The record")
    screen.progress(record := save(), session.classes)
    print(f"  It is kept in {options.save}; paprika check says: {paprika('check', record.text)[1]}")
    session.say({"ask": "bye"})
    return complete


def options_of(words):
    reader = argparse.ArgumentParser(description="Asks the questions of a paprika survey.")
    reader.add_argument("definition", type=pathlib.Path, help="the definition: criteria, degree and respondents, in JSON")
    reader.add_argument("--alternatives", type=pathlib.Path, help="a table of alternatives, which is ranked at the end")
    reader.add_argument("--save", type=pathlib.Path, default=pathlib.Path("result.txt"), help="the file for the record; else result.txt")
    reader.add_argument("--name", help="who answers; it need not be said where the definition has one respondent")
    reader.add_argument("--code", help="the code of the respondent; else that of the definition")
    reader.add_argument("--desk", type=int, default=1, help="1 to 4; one session at a time answers from each. Else 1")
    reader.add_argument("--port", type=int, help="the server's port; where none runs there, one is started. Else any that is free")
    reader.add_argument("--eliminators", type=int, default=2, help="of a server that is started, 0 to 16; else 2")
    reader.add_argument("--hidden", metavar="SEED", help="answer by itself: by values drawn from a seed, or by V,V,.., one a step")
    return reader.parse_args(words)


def main(words):
    options = options_of(words)
    definition = Definition(options.definition)
    name = definition.respondent(options.name)
    if options.alternatives:
        rank(definition, {"values": {"vector": ["1"] * definition.increments}}, options.alternatives)
    colour = sys.stdout.isatty() and not os.environ.get("NO_COLOR") and os.environ.get("TERM") != "dumb"
    server, connection, port = None, reach(options.port), options.port or free_port()
    with contextlib.ExitStack() as ends:
        if not connection:
            server = start(definition, port, options.eliminators)
            ends.callback(server.terminate)
            connection = connection_to(server, port)
        session = Session(connection, name, options.code or definition.codes[name], options.desk)
        if not survey(session, definition, Screen(colour), options):
            print(f"  The survey goes on at the server. To continue, say the same with --port {port}")
            ends.pop_all()
            if server:
                print(f"  To end the server and its surveys: kill {server.pid}")


if __name__ == "__main__":
    sys.stdout.reconfigure(errors="replace")
    try:
        main(sys.argv[1:])
    except KeyboardInterrupt:
        sys.exit("\nask.py: stopped")
    except ConnectionError:
        sys.exit("ask.py: the server is gone, and its surveys with it; the record that was saved last has the answers up to it")
    except (Trouble, OSError, UnicodeError) as trouble:
        sys.exit(f"ask.py: {trouble}")
