"""Times of runs of a program and how they grow, for the scripts beside this file."""
import os
import subprocess
import sys
import tempfile
from collections.abc import Callable, Iterator
from typing import NamedTuple

RUNS = 3
MOST_RATIO = 2.2


class Run(NamedTuple):
    """The processor time of a run in seconds, which other work on the machine changes little, and its peak memory in MiB."""

    seconds: float
    peak: float


def proved_program(words: list[str] | None = None) -> str:
    """The path of the proved program, or of the program that the first of the words names; they are those of the command line where none are given."""
    root = os.path.dirname(os.path.dirname(os.path.abspath(__file__)))
    words = sys.argv[1:] if words is None else words
    program = words[0] if words else os.path.join(root, "crates", "tab", "out", "tab")
    if not os.access(program, os.X_OK):
        sys.exit("no proved program: run `cd crates/tab && rt run -- play < ../../docs/examples/three_pushes.txt`")
    return program


def timed(command: list[str], text: str = "", status: int = 0, told: str = "") -> Run:
    """One run over a text, which has to end with the status, and to tell `told` on standard error.

    The memory is at least that of this script, which the run has until its program is loaded.
    """
    with tempfile.TemporaryFile("w+") as source:
        source.write(text)
        source.seek(0)
        child = subprocess.Popen(command, stdin=source, stdout=subprocess.DEVNULL, stderr=subprocess.PIPE)
        with child.stderr as errors:
            heard = errors.read().decode()
        _, ended, usage = os.wait4(child.pid, 0)
    child.returncode = os.waitstatus_to_exitcode(ended)
    if child.returncode != status or told not in heard:
        sys.exit(f"{command[0]} ended with {child.returncode}: {heard}")
    return Run(usage.ru_utime + usage.ru_stime, usage.ru_maxrss / 1024)


def best(sizes: list[int], run: Callable[[int], Run], runs: int = RUNS) -> list[Run]:
    """For each size the least time and the most memory of some runs.

    They go in rounds over all sizes, so that what else the machine does slows down a round, and no size alone.
    """
    rounds = [[run(size) for size in sizes] for _ in range(runs)]
    return [Run(min(one.seconds for one in same), max(one.peak for one in same)) for same in zip(*rounds)]


def grown(sizes: list[int], run: Callable[[int], Run], runs: int = RUNS) -> Iterator[tuple[int, Run, float | None]]:
    """Each size with its best run, and the ratio of its time to that of the size before, which the first has not."""
    before = None
    for size, one in zip(sizes, best(sizes, run, runs)):
        yield size, one, one.seconds / before if before else None
        before = one.seconds


def within(ratio: float | None) -> bool:
    return ratio is None or ratio <= MOST_RATIO


def shown(ratio: float | None) -> str:
    return "    -" if ratio is None else f"{ratio:5.2f}"
