#!/usr/bin/env python3
"""Compares the logs and reports that the proved program prints of random scenarios with those of the plain model, byte
for byte.

    python3 bench/logs.py MODEL [FIRST COUNT [PROFILE [PROGRAM]]]

MODEL is a folder with the plain model of the engine. The seeds are 1 to 300, or COUNT from FIRST on. PROFILE
is `one_document`, `frames` for a tab of frames, `loads` for loads between sites, or `kept` for documents that are kept and evicted. The program is PROGRAM, or the proved one of this repository; each scenario is played with the words `play log`.
"""
import subprocess
import sys

from one_document import played
from timing import proved_program

FIRST = 1
COUNT = 300


def printed(program: str, text: str) -> str:
    """What the program prints of a scenario: its log, and then the report."""
    run = subprocess.run([program, "play", "log"], input=text.encode(), stdout=subprocess.PIPE, stderr=subprocess.PIPE)
    return run.stdout.decode() + run.stderr.decode()


def first_difference(got: str, wanted: str) -> str:
    """The first line at which two texts differ."""
    ours, theirs = got.splitlines() + ["(the end)"], wanted.splitlines() + ["(the end)"]
    for number, (one, other) in enumerate(zip(ours, theirs), 1):
        if one != other:
            return f"line {number}: the program has {one!r}, the model {other!r}"
    return "the lines are the same, their ends differ"


def main(model: str, first: str = str(FIRST), count: str = str(COUNT), profile: str = "one_document", program: str = "") -> int:
    program = program or proved_program([])
    agree, rows = 0, 0
    for name, text, log, report in played(model, int(first), int(count), profile):
        got = printed(program, text)
        if got != log + report:
            print(f"seed {name}: {first_difference(got, log + report)}")
        agree += got == log + report
        rows += log.count("\n")
    print(f"{agree} of {count} logs and reports agree, {rows} rows")
    return 0 if agree == int(count) else 1


if __name__ == "__main__":
    sys.exit(main(*sys.argv[1:6]))
