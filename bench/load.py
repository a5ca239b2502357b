#!/usr/bin/env python3
"""Loads `paprika serve` by many clients at once, over real sockets.

usage: load.py surveys [SEED]    16 respondents with 4 desks each answer by hidden values, some withdraw, some vanish in the middle of a
                                 line or before a reply and come back, beside clients that say nothing, send no messages or never read;
                                 each record has to be `valid complete`, and the values have to rank all classes as the hidden ones do
       load.py speed [RUNS]      replies a second, and how long each takes, of desks that answer at once and of desks that think for
                                 0.1 s, and of 64 that think for 1 s; a plain echo server beside it
       load.py memory            the memory of 16 surveys, before the first connection and after all were answered from 64 desks
"""
import contextlib
import functools
import heapq
import itertools
import json
import multiprocessing
import os
import pathlib
import random
import selectors
import socket
import subprocess
import sys
import threading
import time

from common import HOST, PAPRIKA, Connection, Unexpected, expect, first_connection, serving, side_of, want
from oracle import Model

RESPONDENTS, DESKS, PROCESSES = 16, 4, 4
HELD = ((3, 3, 3, 3, 3), 2)  # the model of `surveys`: 90 classes
LARGEST = ((2, 2, 2, 2, 3, 3, 5, 5, 5), 3)
SPEED = [((4,) * 8, 2), ((4,) * 6, 3)]  # 1,008 and 13,500 classes
MOST_MESSAGES = 60_000  # of a session; a server takes 65,536


@functools.cache
def model_of(levels, degree):
    return Model(levels, degree)


def line_of(message):
    return json.dumps(message, separators=(",", ":")).encode() + b"\n"


def definition_of(levels, degree):
    criteria = [{"levels": [f"level {n}" for n in range(1, count + 1)], "name": f"criterion {c}"} for c, count in enumerate(levels, 1)]
    respondents = [{"code": f"code {r}", "name": f"name {r}"} for r in range(RESPONDENTS)]
    return line_of({"criteria": criteria, "degree": degree, "respondents": respondents})


def hello_of(respondent, desk):
    return line_of({"hello": {"code": f"code {respondent}", "desk": desk, "name": f"name {respondent}"}})


def hidden_values(levels, seed):
    draws = random.Random(seed)
    return [draws.randint(1, 1000) for count in levels for _ in range(1, count)]


def answer_line(model, values, question):
    side = side_of(model, values, (question["left"], question["right"]))
    return line_of({"answer": {"question": question["number"], "side": side}})


def free_port():
    while True:
        port = random.SystemRandom().randrange(20_000, 32_000)
        with socket.socket() as probe, contextlib.suppress(OSError):
            probe.bind((HOST, port))
            return port


@contextlib.contextmanager
def server(levels, degree, eliminators, **settings):
    """A server with the model, as its port and its process. Settings are variables of its environment."""
    port = free_port()
    with serving(port, definition_of(levels, degree), "--eliminators", str(eliminators), **settings) as process:
        first_connection(process, port).close()
        yield port, process
        expect("status of the server", process.poll(), None)


class Session(Connection):
    """A session at a desk; it waits for each reply."""

    def __init__(self, port, respondent, desk):
        super().__init__(port)
        expect("reply to a hello", list(self.say(hello_of(respondent, desk))), ["welcome"])

    def ask(self, word):
        return self.say(line_of({"ask": word}))

    def result(self):
        self.socket.sendall(line_of({"ask": "result"}))
        return b"".join([*iter(self.lines.readline, b"end\n"), b"end\n"])


def waiting_in(result):
    """The open questions of a result file. Closes and withdrawals are read as the formats say."""
    asked, ended = [], []
    for fields in (line.split() for line in result.decode().splitlines()):
        if fields[0] == "issue":
            left, right = ([int(level) for level in side.split(",")] for side in fields[2].split("/"))
            asked.append({"number": len(asked) + 1, "left": left, "right": right})
        elif fields[0] in ("commit", "close"):
            ended.append((fields[0], int(fields[2])))
        elif fields[0] == "withdraw":
            del ended[max(place for place, (kind, _) in enumerate(ended) if kind == "commit"):]
    return [question for question in asked if question["number"] not in {number for _, number in ended}]


# ---- surveys under load


def hold_desk(port, respondent, desk, model, values, rng, tally):
    """Answers at a desk up to the end, in bad manners now and then."""
    session, due = Session(port, respondent, desk), []
    while True:
        manners = rng.random()
        if manners < 0.04:
            session.vanish(rng.choice((b'{"ask":"ne', b'{"answer":{"question":1', line_of({"ask": "next"}), line_of({"ask": "result"}))))
            session = Session(port, respondent, desk)
            due, tally["vanished"] = waiting_in(session.result()), tally["vanished"] + 1
        elif manners < 0.06:
            expect("reply to no message", session.say(b"no message\n"), {"refused": "message"})
        elif manners < 0.08:
            if "withdrawn" in session.ask("withdraw"):
                due, tally["withdrawn"] = waiting_in(session.result()), tally["withdrawn"] + 1
        if due:
            reply = session.say(answer_line(model, values, due.pop(0)))
            want(reply.keys() <= {"accepted", "closed", "implied"}, f"reply to an answer: {reply}")
            tally["accepted"] += "accepted" in reply
            continue
        reply = session.ask("next")
        if "complete" in reply:
            expect("reply to a bye", session.ask("bye"), {"bye": True})
            return
        due = [reply["question"]] if "question" in reply else waiting_in(session.result())


def hold_surveys(work):
    """The surveys of some respondents, at all their desks at once."""
    port, respondents, seed = work
    model, tally, faults = model_of(*HELD), dict.fromkeys(("accepted", "withdrawn", "vanished"), 0), []

    def run(respondent, desk):
        rng = random.Random(f"{seed} {respondent} {desk}")
        try:
            hold_desk(port, respondent, desk, model, hidden_values(HELD[0], respondent + 100 * seed), rng, tally)
        except (Unexpected, OSError, ValueError) as fault:
            faults.append(f"respondent {respondent} desk {desk}: {fault!r}")

    threads = [threading.Thread(target=run, args=(r, d)) for r in respondents for d in range(1, DESKS + 1)]
    for thread in threads:
        thread.start()
    for thread in threads:
        thread.join()
    return tally, faults


def be_rude(port):
    """Clients that say nothing, send no messages, or never read; those that say nothing are given back."""
    silent = [socket.create_connection((HOST, port)) for _ in range(64)]
    floods = [b"x" * 1_000_000, b"x\n" * 500_000, hello_of(0, 1) + line_of({"ask": "result"}) * 50_000]
    for flood in floods:
        client = socket.create_connection((HOST, port), timeout=1)
        with contextlib.suppress(OSError):
            client.sendall(flood)
        client.close()
    return silent


def survey_faults(port, respondent, seed):
    """What is wrong with a respondent's survey at its end."""
    session = Session(port, respondent, 1)
    result, vector = session.result(), [int(value) for value in session.ask("values")["values"]["vector"]]
    verdict = subprocess.run([PAPRIKA, "check"], input=result, stdout=subprocess.PIPE).stdout
    if verdict != b"valid complete\n":
        yield f"respondent {respondent}: {verdict}"
    model, values = model_of(*HELD), hidden_values(HELD[0], respondent + 100 * seed)
    wrong = sum(side_of(model, vector, pair) != side_of(model, values, pair) for pair in model.classes)
    if wrong:
        yield f"respondent {respondent}: {wrong} classes are ranked otherwise than by the hidden values"


def surveys(seed=1):
    with server(*HELD, 2) as (port, _), multiprocessing.Pool(PROCESSES) as pool:
        silent = be_rude(port)
        work = [(port, range(first, RESPONDENTS, PROCESSES), seed) for first in range(PROCESSES)]
        ends = pool.map(hold_surveys, work)
        faults = [fault for _, found in ends for fault in found]
        faults += [fault for respondent in range(RESPONDENTS) for fault in survey_faults(port, respondent, seed)]
        for client in silent:
            client.close()
    print(*faults, sep="\n", end="\n" if faults else "")
    counts = {word: sum(tally[word] for tally, _ in ends) for word in ends[0][0]}
    print(f"{RESPONDENTS} surveys from {RESPONDENTS * DESKS} desks, {counts}: {len(faults)} faults")
    return bool(faults)


# ---- how fast replies are


class Answering:
    """What a desk says, up to the end of its survey. It thinks before each answer, on average for the seconds given."""

    def __init__(self, model, values, respondent, desk, thinks):
        self.model, self.values, self.first, self.kind = model, values, hello_of(respondent, desk), None
        self.thinks, self.draws = thinks, random.Random(f"{respondent} {desk}")

    def pause(self):
        return self.draws.expovariate(1 / self.thinks) if self.thinks and self.kind == "answer" else 0

    def after(self, reply):
        read = json.loads(reply)
        if "complete" in read or "waiting" in read or "full" in read:
            return None
        self.kind = "answer" if "question" in read else "next"
        return answer_line(self.model, self.values, read["question"]) if "question" in read else line_of({"ask": "next"})


class Repeating:
    """The same lines again and again, each time when all their replies have come; after a hello, if there is one."""

    def __init__(self, message, count, hello):
        self.message, self.left = message, count
        self.first = hello or message
        self.kind = None if hello else "reply"

    def pause(self):
        return 0

    def after(self, reply):
        self.left, self.kind = self.left - (self.kind is not None), "reply"
        return self.message if self.left > 0 else None


class Client:
    """A connection for a talk, which sends without waiting for replies."""

    def __init__(self, port, talk):
        self.talk, self.socket = talk, socket.create_connection((HOST, port))
        self.socket.setsockopt(socket.IPPROTO_TCP, socket.TCP_NODELAY, 1)
        self.say(talk.first)

    def say(self, message):
        """Sends a message, and notes when, and how many lines its replies have."""
        self.got, self.sent, self.lines = b"", time.perf_counter(), message.count(b"\n")
        self.socket.sendall(message)

    def has_all(self):
        """Whether all replies have come, with what comes now."""
        more = self.socket.recv(1 << 16)
        want(more, "the connection ended")
        self.got += more
        return self.got.count(b"\n") >= self.lines


def drive(port, talks):
    """Has all talks at once; the times of each kind of message, and when the first began and the last ended."""
    times, ready, paused, live = {}, selectors.DefaultSelector(), [], len(talks)
    for client in [Client(port, talk) for talk in talks]:
        ready.register(client.socket, selectors.EVENT_READ, client)
    began, turns = time.perf_counter(), itertools.count()
    while live:
        while paused and paused[0][0] <= time.perf_counter():
            _, _, client, message = heapq.heappop(paused)
            client.say(message)
        for key, _ in ready.select(max(0, paused[0][0] - time.perf_counter()) if paused else None):
            client, talk = key.data, key.data.talk
            if not client.has_all():
                continue
            if talk.kind:
                times.setdefault(talk.kind, []).append(time.perf_counter() - client.sent)
            message = talk.after(client.got)
            if message is None:
                ready.unregister(client.socket)
                client.socket.close()
                live -= 1
            elif pause := talk.pause():
                heapq.heappush(paused, (time.perf_counter() + pause, next(turns), client, message))
            else:
                client.say(message)
    return times, began, time.perf_counter()


def drive_share(work):
    port, share, make, arguments = work
    return drive(port, [make(place, *arguments) for place in share])


def place_of(place, desks):
    """The respondent and the desk of a place. Up to 16 desks are those of as many respondents."""
    return (place, 1) if desks <= RESPONDENTS else (place // DESKS, place % DESKS + 1)


def answering(place, desks, shape, seed, thinks):
    respondent, desk = place_of(place, desks)
    return Answering(model_of(*shape), hidden_values(shape[0], seed * 100 + respondent), respondent, desk, thinks)


def repeating(place, desks, message, count, greets):
    return Repeating(message, count, hello_of(*place_of(place, desks)) if greets else None)


def measured(port, connections, make, arguments):
    """The times of all talks, shared by some processes, and how long all took together."""
    processes = min(PROCESSES, connections)
    shares = [(port, range(first, connections, processes), make, arguments) for first in range(processes)]
    with multiprocessing.Pool(processes) as pool:
        ends = pool.map(drive_share, shares, chunksize=1)
    times = {}
    for found, _, _ in ends:
        for kind, values in found.items():
            times.setdefault(kind, []).extend(values)
    return times, max(end for _, _, end in ends) - min(began for _, began, _ in ends)


def milliseconds(times, part):
    return f"{1000 * sorted(times)[min(len(times) - 1, int(part * len(times)))]:.2f}"


def row(*cells):
    print("| " + " | ".join(map(str, cells)) + " |", flush=True)


def echo(listener):
    """Sends back what comes, a process for each connection."""
    while True:
        client, _ = listener.accept()
        if os.fork() == 0:
            client.setsockopt(socket.IPPROTO_TCP, socket.TCP_NODELAY, 1)
            while got := client.recv(1 << 16):
                client.sendall(got)
            os._exit(0)
        client.close()


@contextlib.contextmanager
def echo_server():
    listener = socket.create_server((HOST, 0), backlog=128)
    process = multiprocessing.Process(target=echo, args=(listener,))
    process.start()
    try:
        yield listener.getsockname()[1]
    finally:
        process.terminate()


def survey_speed(runs, thinks, shapes=SPEED, numbers=(1, RESPONDENTS, RESPONDENTS * DESKS)):
    """Of these numbers of desks, which think before each answer, on average for the seconds given."""
    row("Classes", "Eliminators", "Desks", "Replies a second", "`next`: 50th", "99th", "longest", "`answer`: 50th", "99th", "longest")
    row(*["---"] * 10)
    for shape, eliminators, desks in itertools.product(shapes, (0, 2), numbers):
        times, taken = {"next": [], "answer": []}, 0
        for seed in range(runs):
            with server(*shape, eliminators) as (port, _):
                found, seconds = measured(port, desks, answering, (desks, shape, seed, thinks))
            taken += seconds
            for kind, values in found.items():
                times[kind] += values
        parts = [milliseconds(times[kind], part) for kind in times for part in (0.5, 0.99, 1)]
        classes = len(model_of(*shape).classes)
        row(f"{classes:,}", eliminators, desks, f"{sum(map(len, times.values())) / taken:,.0f}", *parts)


def plain_speed(runs):
    """Replies that need no decision, one by one and many at once, and those of an echo server."""
    row("Server", "Connections", "Messages sent at once", "Replies a second", "50th", "99th", "longest")
    row(*["---"] * 7)
    message = line_of({"answer": {"question": 4_000_000_000, "side": "left"}})
    for connections in (1, 16, 64):
        for batch in (1, 64):
            count = min(MOST_MESSAGES, runs * (20_000 if batch == 1 else 200_000) // connections) // batch
            with server(*SPEED[0], 0) as (port, _), echo_server() as echo_port:
                for name, at, greets in (("paprika", port, True), ("echo", echo_port, False)):
                    found, seconds = measured(at, connections, repeating, (connections, message * batch, count, greets))
                    parts = [milliseconds(found["reply"], part) for part in (0.5, 0.99, 1)]
                    row(name, connections, batch, f"{batch * len(found['reply']) / seconds:,.0f}", *parts)


def speed(runs=3):
    for thinks in (0, 0.1):
        survey_speed(runs, thinks)
        print()
    survey_speed(runs, 1, SPEED[:1], [RESPONDENTS * DESKS])
    print()
    plain_speed(runs)


# ---- memory


def memory_of(process):
    """What the process has of the machine's memory, and all that it has asked for, each at most so far."""
    status = pathlib.Path(f"/proc/{process.pid}/status").read_text().split()
    return [f"{int(status[status.index(word) + 1]) // 1024:,} MiB" for word in ("VmHWM:", "VmPeak:")]


def memory():
    row("Classes", "Eliminators", "Listens after", "Asked for then", "Asked for then in one arena", "In use then",
        "In use after all surveys")
    row(*["---"] * 7)
    for shape, eliminators in [(HELD, 2), (SPEED[0], 2), (SPEED[1], 2), (LARGEST, 16)]:
        with server(*shape, eliminators, MALLOC_ARENA_MAX="1") as (port, process):
            _, in_one = memory_of(process)
        begun = time.perf_counter()
        with server(*shape, eliminators) as (port, process):
            listens, (used, asked) = f"{time.perf_counter() - begun:.2f} s", memory_of(process)
            measured(port, RESPONDENTS * DESKS, answering, (RESPONDENTS * DESKS, shape, 1, 0))
            row(f"{len(model_of(*shape).classes):,}", eliminators, listens, asked, in_one, used, memory_of(process)[0])


def main():
    modes = {"surveys": surveys, "speed": speed, "memory": memory}
    sys.exit(modes[sys.argv[1]](*map(int, sys.argv[2:])))


if __name__ == "__main__":
    main()
