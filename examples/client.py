"""Asks at a server, line by line: client.py PORT NAME CODE"""
import json
import socket
import sys

port, name, code = sys.argv[1:]
lines = socket.create_connection(("127.0.0.1", int(port))).makefile("rw")


def say(message):
    print(json.dumps(message), file=lines, flush=True)
    return json.loads(lines.readline())


say({"hello": {"name": name, "code": code, "desk": 1}})
while question := say({"ask": "next"}).get("question"):
    side = input(f"left {question['left']} or right {question['right']}? ")
    print(say({"answer": {"question": question["number"], "side": side}}))
print(say({"ask": "values"}), say({"ask": "bye"}))
