#!/usr/bin/env python3
"""Times the proved program on scenarios of traversals, in three tables.

1. Turns of a push, back, forward and a settle. The traversals drop the pushes, so that the history keeps its two
   entries, and twice the lines may take at most 2.2 times as long.
2. The same turns with a settle after each line, so that each turn adds an entry; the same is asked.
3. Back and forward 5,000 times, each with a settle, over a history of 10, 100, 1,000 and 10,000 entries: the time of one
   traversal, which is that of the scenario without the time of its pushes alone. Over the whole range it may grow by
   at most 1.5.

`python3 bench/traversals.py [PROGRAM]` wants crates/tab/out/tab, or the program that it names:
`cd crates/tab && rt run -- play < ../../docs/examples/three_pushes.txt` makes it.
"""
import itertools
import sys
from collections.abc import Iterator

from timing import MOST_RATIO, Run, best, grown, proved_program, shown, timed, within

LINES = [5_000, 10_000, 20_000]
ENTRIES = [10, 100, 1_000, 10_000]
TURNS = 5_000
MOST_GROWTH = 1.5
RUNS = 7


def queued() -> Iterator[str]:
    """Turns of four lines, of which the traversals wait in the queue together."""
    for i in itertools.count(1):
        yield from (f"push 0 s{i} /{i}", "go -1", "go 1", "settle")


def settled() -> Iterator[str]:
    """Turns of six lines: a push and two traversals, each of which ends before the next begins."""
    for i in itertools.count(1):
        yield from (f"push 0 s{i} /{i}", "settle", "go -1", "settle", "go 1", "settle")


def pushed(entries: int) -> list[str]:
    """A history of so many entries, the first of which the tab opens with."""
    return [f"push 0 s{i} /{i}" for i in range(1, entries)] + ["settle"]


def played(program: str, lines: list[str]) -> Run:
    text = ["session 1", "open http://a.test/"] + lines
    return timed([program, "play"], "\n".join(text) + "\n")


def first(turns: Iterator[str], lines: int) -> list[str]:
    return list(itertools.islice(turns, lines))


def events(lines: int) -> int:
    # one event opens the tab; the first turn, with nowhere to go, makes 8, and each turn after it 11
    return 11 * (lines // 4) - 2


def queued_table(program: str) -> bool:
    good = True
    print("push, back, forward, settle")
    print(" lines  seconds  ratio  events a second  peak MiB")
    for lines, run, ratio in grown(LINES, lambda lines: played(program, first(queued(), lines)), RUNS):
        print(f"{lines:6}  {run.seconds:7.3f}  {shown(ratio)}  {events(lines) / run.seconds:15,.0f}  {run.peak:8.1f}")
        good = good and within(ratio)
    return good


def settled_table(program: str) -> bool:
    good = True
    print("the same with a settle after each line")
    print(" lines  entries  seconds  ratio  microseconds a line  peak MiB")
    for lines, run, ratio in grown(LINES, lambda lines: played(program, first(settled(), lines)), RUNS):
        entries = 1 + (lines + 5) // 6
        line = run.seconds / lines * 1e6
        print(f"{lines:6}  {entries:7}  {run.seconds:7.3f}  {shown(ratio)}  {line:19.2f}  {run.peak:8.1f}")
        good = good and within(ratio)
    return good


def entries_table(program: str) -> bool:
    print("back and forward among many entries")
    print("entries  seconds  microseconds a traversal  peak MiB")
    turns = ["go -1", "settle", "go 1", "settle"] * TURNS
    alone = best(ENTRIES, lambda entries: played(program, pushed(entries)), RUNS)
    moved = best(ENTRIES, lambda entries: played(program, pushed(entries) + turns), RUNS)
    times = [(run.seconds - before.seconds) / (2 * TURNS) * 1e6 for before, run in zip(alone, moved)]
    for entries, run, traversal in zip(ENTRIES, moved, times):
        print(f"{entries:7}  {run.seconds:7.3f}  {traversal:24.2f}  {run.peak:8.1f}")
    print(f"it grows by {max(times) / min(times):.2f} over the whole range")
    return max(times) / min(times) <= MOST_GROWTH


def main() -> int:
    program = proved_program()
    good = True
    for table in (queued_table, settled_table, entries_table):
        good = table(program) and good
        print()
    print("ok" if good else f"too slow: a ratio is above {MOST_RATIO}, or a traversal's time grows by more than {MOST_GROWTH}")
    return 0 if good else 1


if __name__ == "__main__":
    sys.exit(main())
