#!/usr/bin/env python3
"""Compares what the proved program writes for scripts at random with what survey_oracle.py says, beside 0 to 4 eliminators.

usage: scripts.py COUNT [SEED]

A script has one to three respondents and up to eight sessions, each at some desk, of messages in any order: questions, answers of
any number, values, withdrawals, results, and lines that are no messages; one in six is broken in one line. The replies of a
respondent who sits at one desk are those of the oracle's survey, certificates apart, which are tested. Of any respondent each
result is valid by the checker and by oracle.py; they are beginnings of one journal; and this has the events of each desk's
replies in their order.
"""
import collections
import json
import pathlib
import random
import subprocess
import sys

from common import PAPRIKA, expect, want
from oracle import Model, verdict_of
from survey_oracle import Survey, compact

ELIMINATORS = range(5)
SHAPES = [((2, 2), 2), ((3, 2), 2), ((2, 2, 2), 3), ((3, 3), 2), ((3, 2, 2), 2), ((3, 3, 2), 3), ((2, 2, 2, 2), 3), ((4, 3, 2), 2)]
WRONG = [
    "hi",
    "{}",
    '{"ask":"nothing"}',
    '{"answer":{"question":1,"side":"both"}}',
    '{"answer":{"question":4294967296,"side":"left"}}',
]
RESULT, BYE = '{"ask":"result"}', '{"ask":"bye"}'

Session = collections.namedtuple("Session", "respondent desk messages")


# ---- scripts
def definition(shape, respondents):
    levels, degree = shape
    criteria = [{"name": f"c{at}", "levels": [f"l{level}" for level in range(n)]} for at, n in enumerate(levels)]
    people = [{"name": f"n{at}", "code": f"k{at}"} for at in range(respondents)]
    return compact({"criteria": criteria, "degree": degree, "respondents": people})


def hello(respondent, desk):
    return compact({"hello": {"name": f"n{respondent}", "code": f"k{respondent}", "desk": desk}})


def message(rng):
    kind = rng.random()
    if kind < 0.35:
        return '{"ask":"next"}'
    if kind < 0.8:
        number = rng.choice((0, 99, 2**32 - 1)) if rng.random() < 0.05 else rng.randint(1, 9)
        return compact({"answer": {"question": number, "side": rng.choice(("left", "right", "left", "right", "equal"))}})
    if kind < 0.85:
        return rng.choice(WRONG)
    return rng.choice(('{"ask":"values"}', '{"ask":"withdraw"}', RESULT))


def sessions_of(rng, respondents):
    homes = [rng.randint(1, 4) if rng.random() < 0.6 else None for _ in range(respondents)]
    for _ in range(rng.randint(0, 8)):
        respondent = rng.randrange(respondents)
        lines = [message(rng) for _ in range(rng.randint(0, 40))]
        yield Session(respondent, homes[respondent] or rng.randint(1, 4), [*lines, RESULT])


def broken(rng, lines):
    """The lines with one changed, and what is said of the first that fails."""
    at = rng.choice([at for at, line in enumerate(lines) if line.startswith('{"hello"')])
    end = lines.index(BYE, at)
    names = json.loads(lines[at])["hello"]
    ways = {
        "hello": '{"ask":"next"}',
        "name": compact({"hello": {**names, "name": "nobody"}}),
        "code": compact({"hello": {**names, "code": "k"}}),
        "desk": compact({"hello": {**names, "desk": rng.choice((0, 5, 2**63))}}),
    }
    part = rng.choice(("end", "bye", *ways))
    if part == "end":
        return lines[:end], f"script {end + 1} bye"
    if part == "bye":
        return [*lines[:end], lines[at], *lines[end:]], f"script {end + 1} bye"
    return [*lines[:at], ways[part], *lines[at + 1 :]], f"script {at + 1} {part}"


# ---- what is written
def run(text, *words):
    ran = subprocess.run([PAPRIKA, *words], input=text.encode(), capture_output=True)
    expect("standard error", ran.stderr, b"")
    return ran.returncode, ran.stdout.decode()


def replies_of(sessions, text):
    """The replies of each session, without welcome and bye, which are compared; a result is its whole text."""
    lines = iter(text.splitlines(keepends=True))
    for session in sessions:
        welcome = json.loads(next(lines))["welcome"]
        expect("desk of the welcome", welcome["desk"], session.desk)
        replies = []
        for said in session.messages:
            reply = next(lines)
            while said == RESULT and not reply.endswith("\nend\n"):
                reply += next(lines)
            replies.append(reply)
        expect("reply to a bye", next(lines), '{"bye":true}\n')
        yield welcome["classes"], replies
    expect("lines after the last bye", list(lines), [])


def compare(survey, said, reply):
    if said != RESULT:
        wanted = {"refused": "message"} if said in WRONG else survey.reply_to(json.loads(said), json.loads(reply))
        expect(f"reply to {said}", reply, compact(wanted) + "\n")


def event_of(desk, said, reply):
    """How the line of the event begins that the reply tells of, if it tells of one; for a question the whole pair."""
    (word, what), *_ = [*json.loads(reply).items(), (None, None)]
    if word == "question":
        sides = (",".join(map(str, what[side])) for side in ("left", "right"))
        return f"issue {desk} {'/'.join(sides)}"
    if word == "accepted":
        return f"commit {desk} {what} {json.loads(said)['answer']['side']}"
    if word == "implied":
        return f"close {desk} {what['question']}"
    return f"withdraw {desk} {what['answer']}" if word == "withdrawn" else None


def judged(result):
    """The verdict on a result, which is that of oracle.py."""
    status, line = run(result, "check")
    verdict = line.strip()
    expect(f"status and verdict of {result}", (status, verdict), (0, verdict_of(result.encode())))
    return verdict


def judge_journal(shape, told, results):
    """The results of a respondent are beginnings of one journal, and the longest has what each desk was told, in order."""
    levels, degree = shape
    head = f"paprika result 2\nmodel {','.join(map(str, levels))} degree {degree}\n"
    expect("results with another head", [result for result in results if not result.startswith(head)], [])
    journals = sorted((result.removeprefix(head).split("\n")[:-2] for result in results), key=len)
    longest = journals[-1]
    expect("journals that don't begin the longest", [journal for journal in journals if journal != longest[: len(journal)]], [])
    for desk, wanted in told.items():
        events = [line for line in longest if line.split(" ")[1] == str(desk) and not line.startswith("eliminate")]
        begin = (line == begun or line.startswith(begun + " ") for line, begun in zip(events, wanted))
        want(len(events) <= len(wanted) and all(begin), f"events of desk {desk}: {events}, not {wanted}")


def judge(shape, sessions, text, counts):
    model = Model(*shape)
    surveys, told, results = {}, {}, {}
    for session, (classes, replies) in zip(sessions, replies_of(sessions, text)):
        expect("classes of the welcome", classes, len(model.classes))
        who = session.respondent
        alone = all(other.desk == session.desk for other in sessions if other.respondent == who)
        for said, reply in zip(session.messages, replies):
            if said == RESULT:
                results.setdefault(who, []).append(reply)
            elif event := event_of(session.desk, said, reply):
                told.setdefault(who, {}).setdefault(session.desk, []).append(event)
            if alone:
                compare(surveys.setdefault(who, Survey(model)), said, reply)
        counts["replies"] += len(replies)
        counts["compared"] += len(replies) if alone else 0
    for who, texts in results.items():
        counts.update(map(judged, texts))
        judge_journal(shape, told.get(who, {}), texts)


def any_script(rng):
    """A shape, sessions, the script's text, and what is said of the first line that fails, if one does."""
    shape, respondents = rng.choice(SHAPES), rng.randint(1, 3)
    sessions, refused = list(sessions_of(rng, respondents)), None
    lines = [definition(shape, respondents)]
    for session in sessions:
        lines += [hello(session.respondent, session.desk), *session.messages, BYE]
    if sessions and rng.random() < 1 / 6:
        lines, refused = broken(rng, lines)
    return shape, sessions, "\n".join(lines) + "\n", refused


def main():
    count, seed = int(sys.argv[1]), int(sys.argv[2]) if len(sys.argv) > 2 else 1
    rng, counts = random.Random(seed), collections.Counter()
    for number in range(count):
        shape, sessions, script, refused = any_script(rng)
        counts["refused"] += refused is not None
        for eliminators in ELIMINATORS:
            status, text = run(script, "run", "--eliminators", str(eliminators))
            try:
                if refused:
                    expect("status and refusal", (status, text), (1, f"{refused}\n"))
                else:
                    expect("status", status, 0)
                    judge(shape, sessions, text, counts)
            except Exception as wrong:
                pathlib.Path("wrong_script.txt").write_text(script)
                sys.exit(f"script {number} of seed {seed}, {eliminators} eliminators, kept as wrong_script.txt: {wrong!r}")
    valid = counts["valid"] + counts["valid complete"]
    print(f"{count} scripts, {counts['refused']} refused, each run {len(ELIMINATORS)} times")
    print(f"{counts['replies']} replies, {counts['compared']} compared with the oracle's")
    print(f"{valid} results are valid, {counts['valid complete']} of them complete")


if __name__ == "__main__":
    main()
