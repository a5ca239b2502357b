#!/usr/bin/env python3
"""Talks to the proved `paprika serve` at a port: two desks at once, a refused hello, half a line, a client that vanishes, a port in use.

usage: connections.py [PORT]
"""
import json
import socket
import subprocess
import sys

from common import ROOT, SECONDS, Connection, Unexpected, expect, first_connection, serving

DEFINITION = (ROOT / "examples/grants/definition.json").read_bytes().splitlines()[0] + b"\n"

CONNECTIONS = 6

NEXT = b'{"ask":"next"}\n'

BYE = b'{"ask":"bye"}\n'


def hello(desk, code=None):
    one = json.loads(DEFINITION)["respondents"][0]
    return json.dumps({"hello": {"code": code or one["code"], "desk": desk, "name": one["name"]}}).encode() + b"\n"


def answer(number, side):
    return json.dumps({"answer": {"question": number, "side": side}}).encode() + b"\n"


def two_desks(one, two):
    """Both are asked, and what one answers is closed for the other."""
    classes = one.say(hello(1))["welcome"]["classes"]
    expect("second desk", two.say(hello(2)), {"welcome": {"classes": classes, "desk": 2}})
    asked = {desk.say(NEXT)["question"]["number"] for desk in (one, two)}
    expect("questions", asked, {1, 2})
    expect("answer", one.say(answer(1, "left")), {"accepted": 1})
    expect("answer of the other desk", two.say(answer(1, "right")), {"closed": 1})


def odd_clients(port):
    refused = Connection(port)
    expect("refused hello", refused.say(hello(3, "another code")), {"refused": "code"})
    expect("after a refused hello", refused.lines.read(), b"")
    half = Connection(port)
    half.socket.sendall(hello(3)[:10])
    half.socket.shutdown(socket.SHUT_WR)
    expect("half a line", half.lines.read(), b"")
    Connection(port).vanish(hello(3) + NEXT)
    after = Connection(port)
    expect("the desk of a client that vanished", list(after.say(hello(3))), ["welcome"])
    expect("bye", after.say(BYE), {"bye": True})


def main():
    port = int(sys.argv[1]) if len(sys.argv) > 1 else 7878
    with serving(port, DEFINITION, "--connections", str(CONNECTIONS)) as server:
        one, two = first_connection(server, port), Connection(port)
        two_desks(one, two)
        odd_clients(port)
        other = subprocess.run(server.args, input=DEFINITION, stdout=subprocess.PIPE)
        expect("port in use", (other.returncode, other.stdout), (6, b""))
        for desk in (one, two):
            expect("bye", desk.say(BYE), {"bye": True})
            expect("after bye", desk.lines.read(), b"")
        expect("line at the end", server.stdout.read(), f"served {CONNECTIONS}\n".encode())
        expect("status", server.wait(SECONDS), 0)
    print("all as wanted")


if __name__ == "__main__":
    try:
        main()
    except Unexpected as fault:
        sys.exit(f"connections.py: {fault}")
