#!/usr/bin/env python3
"""Times pushing rows on a log: 250,000, 500,000 and 1,000,000 of them.

`python3 bench/rows.py` makes a program beside the crates, in a folder of its own, proves and builds it by `rt run`,
and runs it. It fails where twice the rows take more than 2.2 times as long.
"""
import subprocess
import sys
import tempfile

from beside import copied, written
from timing import MOST_RATIO, grown, shown, timed, within

CRATES = ["history_log"]
SIZES = [250_000, 500_000, 1_000_000]
RUNS = 5

PROGRAM = """//! Pushes as many rows as the argument says.
#![tactic(auto)]

use address::Address;
use history_log::Log;
use log_model::{Actor, LogRow, RowKind};
use std::env;
use std::process::ExitCode;
use tab_ids::{DocId, EntryId, JobId, ProcId, StateId};

fn main(rt: HostRuntime) -> ExitCode {
    let mut many: u32 = 0;
    if let Ok(all) = env::args(&rt) {
        for (i, word) in all.enumerate() {
            if i == 1 {
                many = word.as_str().parse::<u32>().unwrap_or(0);
            }
        }
    }
    let Ok(address) = Address::read(rt.alloc(), b"http://a.test/") else {
        return ExitCode::from(5);
    };
    let first = LogRow {
        event: 0,
        actor: Actor::Start,
        row: RowKind::Opened {
            entry: EntryId { maker: 0, nr: 1 },
            state: StateId(1),
            doc: DocId(1),
            proc: ProcId(1),
            slot: None,
            address,
        },
    };
    let Ok(mut log) = Log::fresh(rt.alloc(), first) else {
        return ExitCode::from(5);
    };
    for event in 0..many {
        let row = RowKind::Taken {
            proc: ProcId(event % 16),
            job: JobId(1),
            live: true,
            dirty: false,
        };
        let pushed = log.push_row(LogRow {
            event,
            actor: Actor::Coord,
            row,
        });
        if pushed.is_err() {
            return ExitCode::from(5);
        }
    }
    ExitCode::from(0)
}
"""


def built(folder: str) -> str:
    """The path of the program."""
    crate = copied(folder, CRATES, "row_times")
    written(f"{crate}/src/main.rt", PROGRAM)
    subprocess.run(["rt", "run", "--", "1"], cwd=crate, check=True, stdout=subprocess.DEVNULL)
    return f"{crate}/out/row_times"


def main() -> int:
    good = True
    with tempfile.TemporaryDirectory() as folder:
        program = built(folder)
        print("   rows  seconds  ratio  peak MiB")
        for rows, run, ratio in grown(SIZES, lambda rows: timed([program, str(rows)]), RUNS):
            print(f"{rows:7}  {run.seconds:7.3f}  {shown(ratio)}  {run.peak:8.1f}")
            good = good and within(ratio)
    print("ok" if good else f"too slow: a ratio is above {MOST_RATIO}")
    return 0 if good else 1


if __name__ == "__main__":
    sys.exit(main())
