#!/usr/bin/env python3
"""Times the proved program on scenarios of loads, in two tables.

1. Loads back and forth between two sites, each settled, so that each makes a document in another process and leaves one
   behind, which is kept for a while and then discarded: how the time grows with the number of lines.
2. A number of frames, and so many rounds of a load in one of them and of back and forward, each settled: the time of a
   round is not to grow with the log.

`python3 bench/loads.py [PROGRAM [RIVAL]]` wants crates/tab/out/tab, or the program that it names; RIVAL is another
program for the same scenarios, which is run beside it. It fails where a time grows by more than 2.1 at double the size.
"""
import subprocess
import sys
from collections.abc import Callable

from timing import Run, best, proved_program, timed

LINES = [10_000, 20_000, 40_000]
SITED = 200
ROUNDS = [50, 100, 200]
MOST_RATIO = 2.1
RUNS = 3


def text_of(lines: list[str]) -> str:
    return "\n".join(["session 1", "site http://b.test 2", "open http://a.test/"] + lines) + "\n"


def played(program: str, lines: list[str]) -> Run:
    return timed([program, "play"], text_of(lines))


def events_of(program: str, lines: list[str]) -> int:
    """How many events the log of a scenario has."""
    run = subprocess.run([program, "play", "log"], input=text_of(lines).encode(), stdout=subprocess.PIPE, check=True)
    numbers = [line.split(b" ", 1)[0] for line in run.stdout.split(b"\n")]
    return 1 + max(int(number) for number in numbers if number.isdigit())


def between_sites(lines: int) -> list[str]:
    """Loads of the top, by turns of two sites, each settled."""
    return [line for i in range(lines // 2) for line in (f"load 0 auto http://{'ba'[i % 2]}.test/{i % 7}", "settle")]


def in_a_frame(rounds: int) -> list[str]:
    """Frames, and rounds of a load in one of them, back and forward."""
    frames = [f"frame 0 {i}" for i in range(1, SITED + 1)] + ["settle"]
    return frames + [line for i in range(rounds) for line in (f"load 1 auto http://b.test/{i % 7}", "settle", "go -1", "settle", "go 1", "settle")]


def table(program: str, rival: str, title: str, sizes: list[int], scenario: Callable[[int], list[str]]) -> bool:
    print(title)
    print("  size  seconds  microseconds an event  peak MiB")
    runs = best(sizes, lambda size: played(program, scenario(size)), RUNS)
    for size, run in zip(sizes, runs):
        print(f"{size:6}  {run.seconds:7.3f}  {run.seconds * 1e6 / events_of(program, scenario(size)):21.2f}  {run.peak:8.1f}")
    if rival:
        others = best(sizes, lambda size: played(rival, scenario(size)), RUNS)
        print("ratio to the rival: " + ", ".join(f"{run.seconds / max(other.seconds, 0.001):.1f} at {size}" for size, run, other in zip(sizes, runs, others)))
    ratios = [after.seconds / before.seconds for before, after in zip(runs, runs[1:])]
    print("ratios at double the size: " + ", ".join(f"{ratio:.2f}" for ratio in ratios))
    return max(ratios) <= MOST_RATIO


def main() -> int:
    program, rival = proved_program(), sys.argv[2] if len(sys.argv) > 2 else ""
    good = table(program, rival, "loads back and forth between two sites", LINES, between_sites)
    print()
    good = table(program, rival, f"a load, back and forward in one of {SITED} frames", ROUNDS, in_a_frame) and good
    print()
    print("ok" if good else f"too slow: a time grows by more than {MOST_RATIO} at double the size")
    return 0 if good else 1


if __name__ == "__main__":
    sys.exit(main())
