#!/usr/bin/env python3
"""Times turns of one, two and four threads, beside std's Mutex around the same value in the same run.

`python3 bench/turns.py [TURNS]` makes a program beside the crates, in a folder of its own, and proves and runs it by
`rt run`, as LLVM builds it. A line is: threads, turns a second through a Turn and through a Mutex, the best of three
runs of each, and how many times as long the Turn took.
"""
import subprocess
import sys
import tempfile

from beside import copied, written

PROGRAM = """//! Times turns.
#![tactic(auto)]
ghost use Rattle.std.specs.Prelude.{◌≡◌};
ghost use Rattle.std.specs.Thread.{IsSync};

use std::alloc::Global;
use std::process::ExitCode;
use std::rt::Clock;
use std::sync::{Mutex, Wait};
use std::thread::{Threads, join};
use std::time::Instant;
use turn_table::{Seat, Stepped, Turn};

#[derive(Drop)]
struct Count {
    count: u64,
}

impl Stepped for Count {
    type Event = u64;
    type Reply = u64;

    ghost goes = { λ old event reply new. reply ≡ new.count };

    ghost for_first = { λ event. event ≡ 0 };

    fn step(&mut self, event: u64) -> u64 {
        self.count = self.count.wrapping_add(event);
        self.count
    }
}

fn turns<R: Wait>(rt: &R, turn: &Turn<Count>, seat: &mut Seat<Count>, count: u64) -> u64
    requires { seat.old.place.table_id ≡ turn.now.board.shared.table_id }
    ensures { seat.new.place.table_id ≡ seat.old.place.table_id }
{
    let mut last = 0;
    for _ in 0..count {
        last = turn.turn(rt, seat, 1);
    }
    last
}

fn locks<R: Wait>(rt: &R, lock: &Mutex<Count>, count: u64) -> u64 {
    let mut last = 0;
    for _ in 0..count {
        last = lock.lock(rt).step(1);
    }
    last
}

fn main(rt: HostRuntime) -> ExitCode {
    match times(&rt, rt.alloc()) {
        Some(()) => ExitCode::from(0),
        None => ExitCode::from(1),
    }
}

fn seat_turns<R: Wait>(rt: &R, turn: &Turn<Count>, mut seat: Seat<Count>, count: u64) -> Seat<Count>
    requires { seat.place.table_id ≡ turn.now.board.shared.table_id }
    ensures { result.place.table_id ≡ seat.place.table_id }
{
    turns(rt, turn, &mut seat, count);
    seat
}

fn two_turns<R: Threads + Wait + Sync>(rt: &R, turn: &Turn<Count>, one: Seat<Count>, other: Seat<Count>, count: u64) -> (Seat<Count>, Seat<Count>)
    requires { (one.place.table_id ≡ turn.now.board.shared.table_id) × (other.place.table_id ≡ turn.now.board.shared.table_id) }
    ensures { (result.0.place.table_id ≡ one.place.table_id) × (result.1.place.table_id ≡ other.place.table_id) }
{
    join(
        rt,
        move || -> Seat<Count>
            requires { one.place.table_id ≡ turn.now.board.shared.table_id }
            ensures { result.place.table_id ≡ one.place.table_id }
        { seat_turns(rt, turn, one, count) },
        move || seat_turns(rt, turn, other, count),
    )
}

fn four_turns<R: Threads + Wait + Sync>(rt: &R, turn: &Turn<Count>, one: Seat<Count>, two: Seat<Count>, three: Seat<Count>, four: Seat<Count>, count: u64)
    requires ones { (one.place.table_id ≡ turn.now.board.shared.table_id) × (two.place.table_id ≡ turn.now.board.shared.table_id) }
    requires others { (three.place.table_id ≡ turn.now.board.shared.table_id) × (four.place.table_id ≡ turn.now.board.shared.table_id) }
{
    join(
        rt,
        move || -> (Seat<Count>, Seat<Count>)
            requires { IsSync R.row × (one.place.table_id ≡ turn.now.board.shared.table_id) × (two.place.table_id ≡ turn.now.board.shared.table_id) }
        { two_turns(rt, turn, one, two, count) },
        move || -> (Seat<Count>, Seat<Count>)
            requires { IsSync R.row × (three.place.table_id ≡ turn.now.board.shared.table_id) × (four.place.table_id ≡ turn.now.board.shared.table_id) }
        { two_turns(rt, turn, three, four, count) },
    );
}

fn two_locks<R: Threads + Wait + Sync>(rt: &R, lock: &Mutex<Count>, count: u64) -> u64 {
    let (one, other) = join(rt, move || locks(rt, lock, count), move || locks(rt, lock, count));
    one.wrapping_add(other)
}

fn four_locks<R: Threads + Wait + Sync>(rt: &R, lock: &Mutex<Count>, count: u64) -> u64 {
    let (one, other) = join(
        rt,
        move || -> u64
            requires { IsSync R.row }
        { two_locks(rt, lock, count) },
        move || -> u64
            requires { IsSync R.row }
        { two_locks(rt, lock, count) },
    );
    one.wrapping_add(other)
}

// A line for one, two and four threads: the times of all turns, and of as many locks.
fn round<R: Threads + Wait + Sync + Clock + Print>(rt: &R, alloc: Global) -> Option<()> {
    let lock = Mutex::new(Count { count: 0 });
    let (turn, mut first) = Turn::new(alloc, Count { count: 0 }).ok()?;
    let (one, two) = (turn.split(&mut first), turn.split(&mut first));
    let (three, four) = (turn.split(&mut first), turn.split(&mut first));
    let (five, six) = (turn.split(&mut first), turn.split(&mut first));

    let start = Instant::now(rt).ok()?;
    let last = turns(rt, &turn, &mut first, @TURNS@);
    let by_turns = start.elapsed(rt).ok()?.as_nanos();
    let start = Instant::now(rt).ok()?;
    let also = locks(rt, &lock, @TURNS@);
    let by_locks = start.elapsed(rt).ok()?.as_nanos();
    println!(rt; "1 {} {} {}", by_turns, by_locks, last.wrapping_add(also) % 10).ok()?;

    let start = Instant::now(rt).ok()?;
    two_turns(rt, &turn, one, two, @TURNS@ / 2);
    let by_turns = start.elapsed(rt).ok()?.as_nanos();
    let start = Instant::now(rt).ok()?;
    let also = two_locks(rt, &lock, @TURNS@ / 2);
    let by_locks = start.elapsed(rt).ok()?.as_nanos();
    println!(rt; "2 {} {} {}", by_turns, by_locks, also % 10).ok()?;

    let start = Instant::now(rt).ok()?;
    four_turns(rt, &turn, three, four, five, six, @TURNS@ / 4);
    let by_turns = start.elapsed(rt).ok()?.as_nanos();
    let start = Instant::now(rt).ok()?;
    let also = four_locks(rt, &lock, @TURNS@ / 4);
    let by_locks = start.elapsed(rt).ok()?.as_nanos();
    println!(rt; "4 {} {} {}", by_turns, by_locks, also % 10).ok()
}

fn times<R: Threads + Wait + Sync + Clock + Print>(rt: &R, alloc: Global) -> Option<()> {
    round(rt, alloc)?;
    round(rt, alloc)?;
    round(rt, alloc)
}
"""


KEPT = """use Rattle.std.proofs.Common.{◌≡◌}
use Rattle.turn_times.proofs.turns.Given as goal

abbrev pub invariant-loop : goal.invariant-loop
invariant-loop g l = l.seat.place.table_id ≡ l.initial.seat.place.table_id
"""

SENT = """use denote.Param.Send.{IsSend, IsSync, param_send, sendable}
use denote.Struct.Field.{u64-field}
use Rattle.std.proofs.Crossing.{crosses}
use Rattle.turn_table.specs.contracts.seat.Seat as seat
use Rattle.turn_table.specs.contracts.turn.Turn as turn
use Rattle.turn_table.proofs.Crossing.{turn_sync, seat_send}
use Rattle.turn_times.specs.contracts.Count as value
use Rattle.turn_times.specs.contracts.CountStepped.TheImpl as stepped
use Rattle.turn_times.proofs.@NAME@.Lts
use Rattle.turn_times.proofs.@NAME@.Goals as goal

pub join-requires-send-A : goal.join-requires-send-A
join-requires-send-A g c κs within = search (sendable, crosses, seat_send) depth 30

pub join-requires-send-F : goal.join-requires-send-F
join-requires-send-F g c κs within = let n : IsSend value.the_row = search (sendable, crosses) depth 20 in
    let s : IsSend (seat.the_row value.the_row u64-field.row u64-field.row stepped.ghosts) = seat_send value.the_row u64-field.row u64-field.row n stepped.ghosts in
    let t : IsSync (turn.the_row value.the_row u64-field.row u64-field.row stepped.ghosts) = turn_sync value.the_row u64-field.row u64-field.row n stepped.ghosts in
    param_send 1 (Lts.arg-0-1 g.row.R g.R.laws g.R.Threads-dict g.R.Wait-dict κs)
    (record {
      owned = λ d vs vss. (tt, ((tt, c.type_bounds.sync-R.shared d.0.now d.0.ref_ptr.0 d.0.ref_ptr.1 _), ((tt, t.shared d.1.now d.1.ref_ptr.0 d.1.ref_ptr.1 _), @SEATS@)));
      leaving = search sendable depth 30;
    })
"""
SEATS = {
    "two_turns": "(s.owned d.2 vss.1.1.0, ((tt, tt), tt))",
    "four_turns": "(s.owned d.2 vss.1.1.0, (s.owned d.3 vss.1.1.1.0, ((tt, tt), tt)))",
}


def main() -> None:
    count = int(sys.argv[1]) if len(sys.argv) > 1 else 1_000_000
    with tempfile.TemporaryDirectory() as folder:
        program = copied(folder, ["turn_table"], "turn_times")
        written(f"{program}/src/main.rt", PROGRAM.replace("@TURNS@", str(count)))
        written(f"{program}/proofs/turns/Invariants.antt", KEPT)
        for name, seats in SEATS.items():
            written(f"{program}/proofs/{name}/Answers.antt", SENT.replace("@NAME@", name).replace("@SEATS@", seats))
        run = subprocess.run(["rt", "run"], cwd=program, capture_output=True, text=True)
        words = [line.split() for line in run.stdout.splitlines()]
        lines = [[int(word) for word in line] for line in words if len(line) == 4 and all(word.isdigit() for word in line)]
        if not lines:
            sys.exit(run.stdout + run.stderr)
        for threads in (1, 2, 4):
            turns = min(line[1] for line in lines if line[0] == threads)
            locks = min(line[2] for line in lines if line[0] == threads)
            print(f"{threads} threads: {count * 10**9 // turns:,} turns a second, Mutex {count * 10**9 // locks:,}, {turns / locks:.2f} times as long")


if __name__ == "__main__":
    main()
