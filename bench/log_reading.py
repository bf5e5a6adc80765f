#!/usr/bin/env python3
"""Times reading a log from its text: 100,000, 200,000 and 400,000 lines.

`python3 bench/log_reading.py` makes a program beside the crates, in a folder of its own, proves and builds it by `rt run`,
and runs it. It fails where twice the lines take more than 2.1 times as long, or where less than 20 MB are read in a second.
"""
import subprocess
import sys
import tempfile

from beside import copied, written
from timing import grown, shown, timed

CRATES = ["log_reading"]
SIZES = [100_000, 200_000, 400_000]
RUNS = 5
MOST_RATIO = 2.1
LEAST_SPEED = 20.0

LINES = """0 start opened n0 e0.1 s1 d1 p1 - http://a.test/
1 ui accepted r1 d1 push 0 s /1
2 p1 made p1 r1 d1 1 push e1.1 s http://a.test/1
3 co delivered p1
3 co applied r1 push n0 e1.1 s1 s http://a.test/1
3 co sent j1 p1 0 d1 r1 update 2 1
4 p1 taken p1 j1 live clean
5 p1 finished p1 j1 updated
6 co delivered p1
7 co sent j2 p1 0 d1 r2 activate e1.1 2 2 1 s http://a.test/1
"""

PROGRAM = """//! Reads a text of as many lines as the argument says.
#![tactic(auto)]

use log_reading::read_log;
use std::env;
use std::process::ExitCode;

const LINES: &[u8] = b"%s";

fn main(rt: HostRuntime) -> ExitCode {
    let mut many: u32 = 0;
    if let Ok(all) = env::args(&rt) {
        for (i, word) in all.enumerate() {
            if i == 1 {
                many = word.as_str().parse::<u32>().unwrap_or(0);
            }
        }
    }
    let mut text = Vec::new(rt.alloc());
    for _ in 0..many / %d {
        if text.extend_from_slice(LINES).is_err() {
            return ExitCode::from(5);
        }
    }
    match read_log(rt.alloc(), &text) {
        Ok(_) => ExitCode::from(0),
        Err(_) => ExitCode::from(6),
    }
}
""" % (LINES.replace("\n", "\\n"), LINES.count("\n"))


def built(folder: str) -> str:
    """The path of the program."""
    crate = copied(folder, CRATES, "log_reading_times")
    written(f"{crate}/src/main.rt", PROGRAM)
    subprocess.run(["rt", "run", "--", "10"], cwd=crate, check=True, stdout=subprocess.DEVNULL)
    return f"{crate}/out/log_reading_times"


def main() -> int:
    good = True
    with tempfile.TemporaryDirectory() as folder:
        program = built(folder)
        print("  lines  seconds  ratio    MB/s  peak MiB")
        for lines, run, ratio in grown(SIZES, lambda lines: timed([program, str(lines)]), RUNS):
            speed = lines // LINES.count("\n") * len(LINES) / run.seconds / 1_000_000
            print(f"{lines:7}  {run.seconds:7.3f}  {shown(ratio)}  {speed:6.1f}  {run.peak:8.1f}")
            good = good and speed >= LEAST_SPEED and (ratio is None or ratio <= MOST_RATIO)
    print("ok" if good else f"too slow: a ratio is above {MOST_RATIO}, or a speed below {LEAST_SPEED} MB a second")
    return 0 if good else 1


if __name__ == "__main__":
    sys.exit(main())
