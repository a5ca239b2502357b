#!/usr/bin/env python3
"""Runs tests on wrong programs that no contract refuses, since none speaks of waiting or says that there is memory.

usage: refused_by_tests.py [NAME..]

Each wrong program is a patch in refused_by_tests/, put on a copy of the crates. `rt try --test` runs the tests of a crate there, from the
sources; nothing is proved. The tests that are named beside it have to fail, and without a patch all have to pass. With names, of
patches or `as_it_is`, it runs these alone. A crate takes two to three minutes. The exit status is 1 where anything isn't as wanted.
"""
import collections
import pathlib
import re
import shutil
import subprocess
import sys
import tempfile

from common import ROOT

PATCHES = ROOT / "bench/refused_by_tests"

AS_IT_IS = "as_it_is"

# A patch, the crate whose tests are run, and the tests that have to fail.
Row = collections.namedtuple("Row", "patch crate tests")

ROWS = [
    Row(AS_IT_IS, "survey_script", ()),
    Row(AS_IT_IS, "survey_run", ()),
    Row(AS_IT_IS, "survey_hall", ()),
    Row("no_eliminator_runs_worker", "survey_run", ("session_waits_for_hand_in", "sample_waits_for_hand_in")),
    Row("no_eliminator_runs_worker", "survey_hall", ("connection_waits_for_hand_in",)),
    Row("no_eliminator_runs_bench", "survey_run", ("session_waits_for_hand_in", "sample_waits_for_hand_in")),
    Row("no_eliminator_runs_bench", "survey_hall", ("connection_waits_for_hand_in",)),
    Row("no_eliminator_runs_sample", "survey_run", ("sample_waits_for_hand_in",)),
    Row("solves_inside_turn", "survey_run", ("solve_outside_turn",)),
    Row("solves_inside_turn", "survey_hall", ("solve_outside_turn",)),
    Row("no_stop_marks_hall", "survey_hall", ("connection_waits_for_hand_in",)),
    Row("two_stop_marks_hall", "survey_hall", ("hall_served_twice",)),
    Row("eliminators_not_put_back_hall", "survey_hall", ("hall_served_twice",)),
    Row("desks_in_turn", "survey_run", ("desks_at_once",)),
    Row("connections_in_turn", "survey_hall", ("connections_at_once",)),
    Row("survey_per_connection", "survey_hall", ("connections_share_survey",)),
    Row("always_out_of_memory_run", "survey_run", ("session_of_one_desk", "sessions_of_two_respondents")),
    Row("always_out_of_memory_connection", "survey_hall", ("connections_share_survey", "cut_message", "door_fault")),
    Row("always_out_of_memory_hall", "survey_hall", ("connections_share_survey", "cut_message", "door_fault")),
    Row("always_out_of_memory_script", "survey_script", ("limits", "sessions_are_read")),
]


def copy_sources(folder):
    for name in ("crates.txt", "HANDLES"):
        shutil.copy(ROOT / name, folder)
    shutil.copytree(ROOT / "crates", folder / "crates", ignore=shutil.ignore_patterns("out"))


def put_on(patch, folder):
    """Puts a patch on the sources; it has to fit."""
    text = (PATCHES / f"{patch}.patch").read_bytes()
    ran = subprocess.run(["patch", "-s", "-p1"], cwd=folder, input=text, capture_output=True)
    if ran.returncode:
        sys.exit(f"{patch} doesn't fit: {ran.stdout.decode()}")


def try_tests(folder, crate):
    """What `rt try --test` says of each test of the crate, by its last name."""
    ran = subprocess.run(["rt", "try", "--test"], cwd=folder / "crates" / crate, capture_output=True, text=True)
    said = re.findall(r"^test (?:\S+::)?(\w+) \.\.\. (ok|FAILED)$", ran.stdout + ran.stderr, re.MULTILINE)
    if not said:
        print(ran.stdout + ran.stderr)
    return dict(said)


def judge(row, said):
    """What is reported, and whether it is as wanted."""
    failed = sorted(test for test, how in said.items() if how != "ok")
    if not said:
        return "NO TESTS RAN", False
    if row.patch == AS_IT_IS:
        return (f"FAILED: {' '.join(failed)}", False) if failed else (f"all {len(said)} tests pass", True)
    passed = [test for test in row.tests if test not in failed]
    if passed:
        return f"PASSED: not refused by {' '.join(passed)}", False
    return f"refused by {' '.join(failed)}", True


def run(row):
    with tempfile.TemporaryDirectory() as name:
        folder = pathlib.Path(name)
        copy_sources(folder)
        if row.patch != AS_IT_IS:
            put_on(row.patch, folder)
        report, is_wanted = judge(row, try_tests(folder, row.crate))
    print(f"{row.patch}, {row.crate}: {report}", flush=True)
    return is_wanted


def main():
    known = sorted({row.patch for row in ROWS})
    names = sys.argv[1:]
    if unknown := [name for name in names if name not in known]:
        sys.exit(f"no patch {' '.join(unknown)}; there are {' '.join(known)}")
    rows = [row for row in ROWS if not names or row.patch in names]
    wanted = [run(row) for row in rows]
    print(f"{sum(wanted)} of {len(rows)} as wanted")
    sys.exit(0 if all(wanted) else 1)


if __name__ == "__main__":
    main()
