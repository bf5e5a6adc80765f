#!/usr/bin/env python3
"""Times the proved program on scenarios of pushes, each tenth line followed by a settle.

`python3 bench/pushes.py [PROGRAM]` wants crates/tab/out/tab, or the program that it names:
`cd crates/tab && rt run -- play < ../../docs/examples/three_pushes.txt` makes it.
"""
import sys

from timing import MOST_RATIO, grown, proved_program, shown, timed, within

SIZES = [10_000, 20_000, 40_000]
MOST_SECONDS = 1.0


def scenario(pushes: int) -> str:
    lines = ["session 1", "open http://a.test/"]
    for i in range(1, pushes + 1):
        lines.append(f"push 0 s{i} /{i}")
        if i % 10 == 0:
            lines.append("settle")
    return "\n".join(lines) + "\n"


def main() -> int:
    program = proved_program()
    good = True
    print("pushes  seconds  ratio  peak MiB")
    for size, run, ratio in grown(SIZES, lambda pushes: timed([program, "play"], scenario(pushes))):
        print(f"{size:6}  {run.seconds:7.3f}  {shown(ratio)}  {run.peak:8.1f}")
        good = good and within(ratio) and run.seconds < MOST_SECONDS
    print("ok" if good else f"too slow: a ratio is above {MOST_RATIO}, or a run took {MOST_SECONDS} seconds or more")
    return 0 if good else 1


if __name__ == "__main__":
    sys.exit(main())
