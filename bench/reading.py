#!/usr/bin/env python3
"""Times the proved program on scenarios of which it reads all lines and plays none.

Each has lines of all kinds that the program plays; on the mean they have 64 bytes, and the longest text has 65,536 of them,
which is the limit on both. The last line is faulty, so that all lines before it are
read and kept, and nothing else is done.

`python3 bench/reading.py [PROGRAM]` wants crates/tab/out/tab, or the program that it names:
`cd crates/tab && rt run -- play < ../../docs/examples/three_pushes.txt` makes it.
"""
import sys

from timing import MOST_RATIO, Run, grown, proved_program, shown, timed, within

SIZES = [16_384, 32_768, 65_536]
LINE = 64
REFUSED = 2
HEADER = ["session 1", "keep 64", "open http://a.test/"]
LONG = ["push 0 s{} /", "replace 4095 s{} ../", "fragment 0 f{}-", "push 1 - /{}", "#{} "]
SHORT = ["go -1", "act 16", "settle", "begin 1", "go 999", "finish 2", "deliver 10"]


def scenario(lines: int) -> str:
    """Long lines and short ones in turn, each two of them with the bytes of two lines."""
    text = list(HEADER)
    for i in range(len(text) + 1, lines):
        if i % 2 or i + 1 == lines:
            text.append(SHORT[i // 2 % len(SHORT)])
        else:
            line = LONG[i // 2 % len(LONG)].format(i)
            short = len(SHORT[(i + 1) // 2 % len(SHORT)])
            text.append(line + "x" * (2 * (LINE - 1) - short - len(line)))
    text.append("x")
    return "\n".join(text) + "\n"


def read(program: str, lines: int) -> Run:
    return timed([program, "play"], scenario(lines), status=REFUSED, told=f"line {lines}:")


def main() -> int:
    program = proved_program()
    good = True
    print(" lines  bytes    seconds  ratio  peak MiB")
    for size, run, ratio in grown(SIZES, lambda lines: read(program, lines)):
        print(f"{size:6}  {len(scenario(size)):7}  {run.seconds:7.3f}  {shown(ratio)}  {run.peak:8.1f}")
        good = good and within(ratio)
    print("ok" if good else f"too slow: a ratio is above {MOST_RATIO}")
    return 0 if good else 1


if __name__ == "__main__":
    sys.exit(main())
