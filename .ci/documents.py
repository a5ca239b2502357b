#!/usr/bin/env python3
"""Runs each command that a document shows, and compares what it writes with what the document shows. Looks that
docs/TROUBLESHOOTING.md has each refusal of the program once.

A command stands in a block of ```console, after `$ `; the lines up to the next command or the end of the block are what it writes,
standard output and then standard error. Commands of one document run in order in one scratch copy of the repository's top, with the
proved program and, in the variable PORT, a port that nothing uses; what they leave running is ended with the document. A command that
needs a tool which isn't installed is counted as skipped, by name, and so is one that needs a file which such a command writes.

usage: documents.py [DOCUMENT..]
"""
import contextlib
import os
import pathlib
import re
import shutil
import signal
import socket
import subprocess
import sys
import tempfile

ROOT = pathlib.Path(__file__).resolve().parent.parent

# The proved program, which all checks leave here.
PROGRAM = ROOT / "crates/paprika/out/paprika"

# Tools that a document may use, and a reader may have to install.
TOOLS = ["nc", "curl", "git", "tmux"]

SECONDS = 60

# How each refusal begins: the source that writes it, where its word stands there, and the line that has the word.
REFUSALS = [
    ("survey_server/src/rank_texts.rt", r'b"((?:definition|rank) [a-z]+)', "%s"),
    ("survey_server/src/commands.rt", r'ScriptPart::\w+ => b"(\w+)"', "script LINE %s"),
    ("result_file/src/verdicts.rt", r'Part::\w+ => b"(\w+)"', "invalid LINE %s"),
    ("survey_server/src/plain_commands.rt", r'b"(unfinished) "', "%s"),
    ("survey_server/src/plain_commands.rt", r'b"(usage:) ', "%s"),
    ("json_forms/src/replies.rt", r'Word::\w+ => "(\w+)"', '{"refused":"%s"}'),
]


def commands_of(text):
    """The commands of a document, each with what it writes."""
    for block in re.findall(r"^```console\n(.*?)^```$", text, re.MULTILINE | re.DOTALL):
        for part in re.split(r"^\$ ", block, flags=re.MULTILINE)[1:]:
            command, _, shown = part.partition("\n")
            while command.endswith("\\"):
                line, _, shown = shown.partition("\n")
                command += "\n" + line
            yield command, shown


def missing(command, unwritten):
    """The first tool of a command that isn't installed, or file that wasn't written."""
    words = re.findall(r"[\w./-]+", command)
    tools = [tool for tool in TOOLS if not shutil.which(tool)]
    return next((word for word in words if word in tools or word in unwritten), None)


def free_port():
    """A port that nothing uses, below those that systems give to connections."""
    for port in range(20_000 + os.getpid() % 10_000, 32_000):
        with socket.socket() as probe, contextlib.suppress(OSError):
            probe.bind(("127.0.0.1", port))
            return port
    sys.exit("no port below 32,000 is free")


def end(group):
    """Ends what runs of a process group."""
    with contextlib.suppress(ProcessLookupError):
        os.killpg(group, signal.SIGTERM)


def run(command, folder, port, groups):
    """What the command writes, or that it took too long. Its process group is added to the groups."""
    process = subprocess.Popen(["sh", "-c", command], cwd=folder, env={**os.environ, "PORT": str(port)}, stdin=subprocess.DEVNULL,
                               stdout=subprocess.PIPE, stderr=subprocess.PIPE, start_new_session=True)
    groups.append(process.pid)
    try:
        written, errors = process.communicate(timeout=SECONDS)
    except subprocess.TimeoutExpired:
        return f"(nothing after {SECONDS} seconds)\n"
    return written.decode() + errors.decode()


def scratch(folder):
    """A copy of what commands may read or write; the program stands in it as it was built."""
    shutil.copytree(ROOT / "examples", folder / "examples")
    os.symlink(ROOT / "crates", folder / "crates")
    (folder / "paprika").write_text(f'#!/bin/sh\nexec "{PROGRAM}" "$@"\n')
    (folder / "paprika").chmod(0o755)


def name_of(document):
    return os.path.relpath(document, ROOT)


def check(document, tally):
    groups, unwritten, port = [], set(), free_port()
    with tempfile.TemporaryDirectory() as made, contextlib.ExitStack() as ends:
        ends.callback(lambda: [end(group) for group in groups])
        folder = pathlib.Path(made)
        scratch(folder)
        for command, shown in commands_of(document.read_text()):
            if lack := missing(command, unwritten):
                print(f"{name_of(document)}: skipped, since {lack} is missing: {command}")
                unwritten.update(re.findall(r"> *([\w./-]+)", command))
                tally["skipped"] += 1
                continue
            written = run(command, folder, port, groups)
            if written == shown:
                tally["passed"] += 1
            else:
                print(f"{name_of(document)}: $ {command}\nshows:\n{shown}writes:\n{written}")
                tally["failed"] += 1


def check_refusals(tally):
    rows = re.findall(r"^\| `([^`]*)`", (ROOT / "docs/TROUBLESHOOTING.md").read_text(), re.MULTILINE)
    for file, pattern, line in REFUSALS:
        words = re.findall(pattern, (ROOT / "crates" / file).read_text())
        if not words:
            print(f"crates/{file} has nothing of the form {pattern}")
            tally["failed"] += 1
        for refusal in (line % word for word in words):
            count = sum(row == refusal or row.startswith(refusal + " ") for row in rows)
            tally["passed" if count == 1 else "failed"] += 1
            if count != 1:
                print(f"docs/TROUBLESHOOTING.md has {count} rows for {refusal}")


def build():
    """Has the program proved and built, which tells of itself on standard error."""
    with open(ROOT / "examples/claims.txt", "rb") as claims:
        built = subprocess.run([ROOT / "paprika", "check"], stdin=claims, stdout=subprocess.PIPE, text=True)
    if built.returncode:
        sys.exit(f"paprika check ended with status {built.returncode}: {built.stdout}")


def main():
    ours = [ROOT / "README.md", *sorted((ROOT / "docs").glob("*.md")), *sorted((ROOT / "examples").glob("*/README.md"))]
    documents = [pathlib.Path(name) for name in sys.argv[1:]] or ours
    tally = {"passed": 0, "failed": 0, "skipped": 0}
    if not PROGRAM.exists():
        build()
    for document in documents:
        check(document, tally)
    check_refusals(tally)
    print(f"{tally['passed']} passed, {tally['failed']} failed, {tally['skipped']} skipped")
    sys.exit(bool(tally["failed"]))


if __name__ == "__main__":
    main()
