"""What benches have in common: where the programs are, checks, hidden values, and a server with its clients."""
import contextlib
import json
import math
import os
import pathlib
import socket
import struct
import subprocess
import time

from oracle import dot

ROOT = pathlib.Path(__file__).resolve().parent.parent
HOST = "127.0.0.1"
SECONDS = 60  # how long a server may take to listen, to reply and to end


def program(name):
    """The program of a crate, where all checks leave it."""
    return ROOT / "crates" / name / "out" / name


PAPRIKA = program("paprika")


# ---- checks
class Unexpected(Exception):
    """What isn't as it has to be."""


def want(holds, fault):
    if not holds:
        raise Unexpected(fault)


def expect(what, found, wanted):
    want(found == wanted, f"{what}: {found}, not {wanted}")


# ---- models and hidden values
def class_count(levels, degree):
    """By the elementary symmetric sums of the numbers of two levels."""
    sums = [1] + [0] * len(levels)
    for n in levels:
        for d in range(len(levels), 0, -1):
            sums[d] += math.comb(n, 2) * sums[d - 1]
    return sum((2 ** (d - 1) - 1) * sums[d] for d in range(2, degree + 1))


def generated_values(seed, count):
    """Those of `paprika sample` and decision_bench: a linear congruential generator of 31 bits."""
    values = []
    for _ in range(count):
        seed = (1103515245 * seed + 12345) % 2**31
        values.append(1 + seed // 65536 % 1000)
    return values


def side_of(model, values, pair):
    """The side of the pair that is worth more by the values, or `equal`."""
    lead = dot(values, model.gain(pair, "left"))
    return "equal" if lead == 0 else "left" if lead > 0 else "right"


# ---- a server and its clients
@contextlib.contextmanager
def serving(port, definition, *words, **settings):
    """`paprika serve` as a process, which is ended at last. Settings are variables of its environment."""
    command = [PAPRIKA, "serve", str(port), *words]
    with subprocess.Popen(command, stdin=subprocess.PIPE, stdout=subprocess.PIPE, env=os.environ | settings) as server:
        try:
            # Standard input stays open: only its first line is waited for.
            server.stdin.write(definition)
            server.stdin.flush()
            yield server
        finally:
            server.terminate()


class Connection:
    """A client's connection to a server."""

    def __init__(self, port):
        self.socket = socket.create_connection((HOST, port), SECONDS)
        self.lines = self.socket.makefile("rb")

    def say(self, line):
        """The reply to the line."""
        self.socket.sendall(line)
        return json.loads(self.lines.readline())

    def close(self):
        self.lines.close()
        self.socket.close()

    def vanish(self, last):
        """Ends the connection after these bytes at once, by a reset, with replies on their way."""
        self.socket.sendall(last)
        self.socket.setsockopt(socket.SOL_SOCKET, socket.SO_LINGER, struct.pack("ii", 1, 0))
        self.close()


def first_connection(server, port):
    """A connection, as soon as the server listens."""
    until = time.monotonic() + SECONDS
    while server.poll() is None and time.monotonic() < until:
        with contextlib.suppress(ConnectionRefusedError):
            return Connection(port)
        time.sleep(0.01)
    raise Unexpected(f"nothing listens at port {port}; the status of the server is {server.poll()}")
