#!/usr/bin/env python3
"""Times the proved program on scenarios of many frames, in two tables.

1. Frames of one document that are added one by one, each settled: how the time of a frame grows with how many there
   are. What the store of entries takes of it is a line of its own, by the samples of `perf`: it looks for the children of
   a document state among all entries. Without `perf` it counts as nothing.
2. A number of frames, a push above them, and so many rounds of back and forward, each settled: each traversal shows the
   top its other entry and tells every frame its new index. The time of a round is not to grow with the log.

`python3 bench/frames.py [PROGRAM [RIVAL]]` wants crates/tab/out/tab, or the program that it names; RIVAL is another
program for the same scenarios, which is run beside it. It fails where a time grows by more than 1.5, but for the store's.
"""
import os
import re
import shutil
import subprocess
import sys
import tempfile
from collections.abc import Callable

from timing import Run, best, proved_program, timed

FRAMES = [1_000, 2_000, 4_000]
TOLD = 200
ROUNDS = [50, 100, 200]
MOST_GROWTH = 1.5
RUNS = 3
STORE = re.compile(r"(?m)^\s*([\d.]+)%\s+\[\.\] (?:step_index|entry_store)::")


def text_of(lines: list[str]) -> str:
    return "\n".join(["session 1", "open http://a.test/"] + lines) + "\n"


def played(program: str, lines: list[str]) -> Run:
    return timed([program, "play"], text_of(lines))


def share_of_store(program: str, lines: list[str]) -> float:
    """The part of the program's time that its store of entries takes."""
    if not shutil.which("perf"):
        return 0
    with tempfile.TemporaryDirectory() as folder:
        data = os.path.join(folder, "perf.data")
        subprocess.run(["perf", "record", "-q", "-F", "20000", "-o", data, program, "play"], input=text_of(lines), text=True, stdout=subprocess.DEVNULL, check=True)
        told = subprocess.run(["perf", "report", "-i", data, "--no-children", "--sort", "symbol", "--stdio"], capture_output=True, text=True, check=True)
    return sum(float(part) for part in STORE.findall(told.stdout)) / 100


def one_by_one(frames: int) -> list[str]:
    """Frames of the top, each there before the next."""
    return [line for i in range(1, frames + 1) for line in (f"frame 0 {i}", "settle")]


def back_and_forward(rounds: int) -> list[str]:
    """Frames, a push above them, and rounds between its entry and the one before."""
    frames = [f"frame 0 {i}" for i in range(1, TOLD + 1)] + ["settle"]
    return frames + ["push 0 s #s", "settle"] + ["go -1", "settle", "go 1", "settle"] * rounds


def beside(rival: str, sizes: list[int], scenario: Callable[[int], list[str]], runs: list[Run]) -> None:
    if rival:
        others = best(sizes, lambda size: played(rival, scenario(size)), RUNS)
        print("ratio to the rival: " + ", ".join(f"{run.seconds / max(other.seconds, 0.001):.1f} at {size}" for size, run, other in zip(sizes, runs, others)))


def frames_table(program: str, rival: str) -> bool:
    print("frames one by one")
    print("frames  seconds  microseconds a frame: of the store  of all else  peak MiB")
    runs = best(FRAMES, lambda frames: played(program, one_by_one(frames)), RUNS)
    stored = [run.seconds * share_of_store(program, one_by_one(frames)) for frames, run in zip(FRAMES, runs)]
    more = [after - before for before, after in zip([0] + FRAMES, FRAMES)]
    of_store = [(after - before) / frames for before, after, frames in zip([0.0] + stored, stored, more)]
    others = [run.seconds - store for run, store in zip(runs, stored)]
    of_else = [(after - before) / frames for before, after, frames in zip([0.0] + others, others, more)]
    for frames, run, store, other in zip(FRAMES, runs, of_store, of_else):
        print(f"{frames:6}  {run.seconds:7.3f}  {store * 1e6:34.1f}  {other * 1e6:11.1f}  {run.peak:8.1f}")
    beside(rival, FRAMES, one_by_one, runs)
    print(f"the time of a frame without the store's grows by {of_else[-1] / of_else[0]:.2f}")
    return of_else[-1] / of_else[0] <= MOST_GROWTH


def rounds_table(program: str, rival: str) -> bool:
    print(f"back and forward above {TOLD} frames")
    print("rounds  seconds  milliseconds a round  peak MiB")
    alone = best([0], lambda rounds: played(program, back_and_forward(rounds)), RUNS)[0]
    runs = best(ROUNDS, lambda rounds: played(program, back_and_forward(rounds)), RUNS)
    times = [(run.seconds - alone.seconds) / rounds for rounds, run in zip(ROUNDS, runs)]
    for rounds, run, time in zip(ROUNDS, runs, times):
        print(f"{rounds:6}  {run.seconds:7.3f}  {time * 1e3:20.3f}  {run.peak:8.1f}")
    beside(rival, ROUNDS, back_and_forward, runs)
    print(f"the time of a round grows by {max(times) / min(times):.2f}")
    return max(times) / min(times) <= MOST_GROWTH


def main() -> int:
    program, rival = proved_program(), sys.argv[2] if len(sys.argv) > 2 else ""
    good = True
    for table in (frames_table, rounds_table):
        good = table(program, rival) and good
        print()
    print("ok" if good else f"too slow: a time grows by more than {MOST_GROWTH}")
    return 0 if good else 1


if __name__ == "__main__":
    sys.exit(main())
