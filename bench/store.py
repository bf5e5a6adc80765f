#!/usr/bin/env python3
"""Times the calls of both stores of session history, EntryStore and StepIndex.

`python3 bench/store.py [ENTRIES..]` makes a program beside the crates, in a folder of its own, and proves and
runs it by `rt run`, as LLVM builds it. In the first table a line is a store, its entries (1,000, 2,000, 4,000 and
10,000, or as asked) and its navigables (1 or 100), then in nanoseconds the mean time of one call: apply of a push at
the end, of a push after a traversal back by a step, of a replace of the current entry, and of a traversal; target, row,
has_state, used_at, length_index. In the second a line is a store, a number of frames of one document, and in nanoseconds
the time of a frame as they are added one by one, and as they are removed one by one. At the end it tells how many times
as much each costs in the last line of a table as in the first.

Traversals and look-ups are timed by the thousand, between two readings of the clock. A push, a replace and a frame ask
for look-ups before them, so each is timed by itself, less what two readings take at least; the history has as many entries all
along, since a traversal back and a push clear what the pushes before have added.
"""
import subprocess
import sys
import tempfile

from beside import copied, written

CRATES = ["entry_store", "step_index"]
ENTRIES = ["1000", "2000", "4000", "10000"]
MEASURES = ["push", "push_back", "replace", "traversal", "target", "row", "has_state", "used_at", "length_index"]

PROGRAM = """//! Times the calls of the stores.
#![tactic(auto)]
ghost use Rattle.std.specs.Prelude.{◌≡◌, ◌≤◌, true, false};
ghost use Rattle.std.specs.List.{list_any};
ghost use Rattle.log_model.specs.History.{greatest_step};
ghost use Rattle.log_model.specs.Soundness.{is_entry};
ghost use Rattle.entry_store.specs.Store.{IsStateOf};

use address::Address;
use entry_store::{EntryStore, Store};
use log_model::Change;
use std::alloc::Global;
use std::process::ExitCode;
use std::time::Instant;
use step_index::StepIndex;
use tab_ids::{EntryId, NavId, StateId, Step};

fn is_new<S: Store>(store: &S, entry: EntryId) -> bool
    ensures { result ≡ true → list_any (is_entry entry) (S.history store.now).rows ≡ false }
{
    match store.row(entry) {
        Some(_) => false,
        None => true,
    }
}

fn is_free<S: Store>(store: &S, nav: NavId, state: StateId) -> bool
    ensures { result ≡ true → IsStateOf nav state (S.history store.now).rows }
{
    if store.has_state(state) { false } else { true }
}

// Whether a row stands at the step or past it.
fn is_reached<S: Store>(store: &S, goal: Step) -> bool
    ensures { result ≡ true → goal.0 ≤ greatest_step (S.history store.now).rows }
{
    goal <= store.used_at(Step(u32::MAX))
}

// A traversal to a step which is at most one where a row stands, or past which one does.
fn go<S: Store>(store: &mut S, goal: Step, most: Step) -> bool
    requires goal { goal.0 ≤ most.0 }
    requires reached { most.0 ≤ greatest_step (S.history store.old).rows }
    ensures reached { result ≡ true → most.0 ≤ greatest_step (S.history store.new).rows }
{
    if store.current().0 >= 4294967294 {
        return false;
    }
    match store.apply(&Change::Traverse { goal }) {
        Ok(()) => true,
        Err(_) => false,
    }
}

// A traversal back by some steps.
fn go_back<S: Store>(store: &mut S, steps: u32) -> Option<()> {
    let goal = Step(store.current().0.saturating_sub(steps));
    if is_reached(store, goal) && go(store, goal, goal) { Some(()) } else { None }
}

// One push, in nanoseconds.
fn push<S: Store>(rt: HostRuntime, store: &mut S, nav: u32, nr: u32) -> Option<u128> {
    let address = Address::read(rt.alloc(), b"http://a.test/some/page").ok()?;
    let nav = NavId(nav);
    let entry = EntryId { maker: 0, nr };
    let state = StateId(nr);
    if !is_new(store, entry) || !is_free(store, nav, state) || store.current().0 >= 4294967294 {
        return None;
    }
    let push = Change::Push { nav, entry, state, address, memo: None };
    let start = Instant::now(&rt).ok()?;
    let result = store.apply(&push);
    let nanos = start.elapsed(&rt).ok()?.as_nanos();
    match result {
        Ok(()) => Some(nanos),
        Err(_) => None,
    }
}

// One replace of a navigable's current entry, in nanoseconds.
fn replace<S: Store>(rt: HostRuntime, store: &mut S, nav: u32, nr: u32) -> Option<u128> {
    let address = Address::read(rt.alloc(), b"http://a.test/some/page").ok()?;
    let nav = NavId(nav);
    let over = store.target(nav, store.current())?;
    let entry = EntryId { maker: 0, nr };
    let state = StateId(nr);
    if !is_new(store, entry) || !is_free(store, nav, state) || store.current().0 >= 4294967294 {
        return None;
    }
    let replace = Change::Replace { nav, over, entry, state, address, memo: None };
    let start = Instant::now(&rt).ok()?;
    let result = store.apply(&replace);
    let nanos = start.elapsed(&rt).ok()?.as_nanos();
    match result {
        Ok(()) => Some(nanos),
        Err(_) => None,
    }
}

fn frame<S: Store>(rt: HostRuntime, store: &mut S, nav: u32) -> Option<u128> {
    let nr = nav.saturating_add(1);
    let entry = EntryId { maker: 0, nr };
    if !is_new(store, entry) || store.has_state(StateId(nr)) || store.current().0 >= 4294967294 {
        return None;
    }
    let frame = Change::AddFrame { owner: StateId(1), nav: NavId(nav), entry, state: StateId(nr) };
    let start = Instant::now(&rt).ok()?;
    let result = store.apply(&frame);
    let nanos = start.elapsed(&rt).ok()?.as_nanos();
    match result {
        Ok(()) => Some(nanos),
        Err(_) => None,
    }
}

fn removal<S: Store>(rt: HostRuntime, store: &mut S, nav: u32) -> Option<u128> {
    if store.current().0 >= 4294967294 {
        return None;
    }
    let start = Instant::now(&rt).ok()?;
    let result = store.apply(&Change::RemoveFrame { nav: NavId(nav) });
    let nanos = start.elapsed(&rt).ok()?.as_nanos();
    match result {
        Ok(()) => Some(nanos),
        Err(_) => None,
    }
}

fn fill<S: Store>(rt: HostRuntime, store: &mut S, entries: u32, navs: u32) -> Option<()> {
    for nav in 1..navs {
        frame(rt, store, nav)?;
    }
    for nr in navs..entries {
        push(rt, store, nr.checked_rem(navs)?, nr.saturating_add(1))?;
    }
    Some(())
}

// The mean time of 100 pushes at the end, from an entry's number on, ten times over.
fn push_time<S: Store>(rt: HostRuntime, store: &mut S, from: u32, navs: u32) -> Option<u128> {
    let mut sum: u128 = 0;
    for round in 0..10u32 {
        let first = from.saturating_add(round.saturating_mul(101));
        go_back(store, 101)?;
        push(rt, store, 0, first)?;
        for i in 1..101u32 {
            sum = sum.wrapping_add(push(rt, store, i.checked_rem(navs)?, first.saturating_add(i))?);
        }
    }
    Some(sum / 1000)
}

// The same of 1,000 pushes, each after a traversal back by a step.
fn push_back_time<S: Store>(rt: HostRuntime, store: &mut S, from: u32, navs: u32) -> Option<u128> {
    let mut sum: u128 = 0;
    for i in 0..1000u32 {
        go_back(store, 1)?;
        sum = sum.wrapping_add(push(rt, store, i.checked_rem(navs)?, from.saturating_add(i))?);
    }
    Some(sum / 1000)
}

fn replace_time<S: Store>(rt: HostRuntime, store: &mut S, from: u32, navs: u32) -> Option<u128> {
    let mut sum: u128 = 0;
    for i in 0..1000u32 {
        sum = sum.wrapping_add(replace(rt, store, i.checked_rem(navs)?, from.saturating_add(i))?);
    }
    Some(sum / 1000)
}

fn go_time<S: Store>(rt: HostRuntime, store: &mut S) -> Option<u128> {
    let last = store.current();
    let half = Step(last.0 / 2);
    if !is_reached(store, last) {
        return None;
    }
    let start = Instant::now(&rt).ok()?;
    for _ in 0..5000u32 {
        if !go(store, half, last) {
            return None;
        }
        if !go(store, last, last) {
            return None;
        }
    }
    Some(start.elapsed(&rt).ok()?.as_nanos() / 10000)
}

// What two readings of the clock take at least.
fn clock_time(rt: HostRuntime) -> Option<u128> {
    let mut least: u128 = 1000000;
    for _ in 0..1000u32 {
        let start = Instant::now(&rt).ok()?;
        let nanos = start.elapsed(&rt).ok()?.as_nanos();
        if nanos < least {
            least = nanos;
        }
    }
    Some(least)
}

// What the look-ups cost, and a number that is made of their answers, so that none is left out.
fn looked_up<S: Store>(rt: HostRuntime, store: &S, entries: u32, navs: u32) -> Option<([u128; 5], u64)> {
    let mut sum: u64 = 0;
    let start = Instant::now(&rt).ok()?;
    for i in 0..10000u32 {
        if let Some(entry) = store.target(NavId(i.checked_rem(navs)?), Step(entries / 2)) {
            sum = sum.wrapping_add(u64::from(entry.nr));
        }
    }
    let target = start.elapsed(&rt).ok()?.as_nanos() / 10000;
    let start = Instant::now(&rt).ok()?;
    for i in 0..10000u32 {
        let nr = entries.saturating_sub(i % 64);
        if let Some(row) = store.row(EntryId { maker: 0, nr }) {
            sum = sum.wrapping_add(u64::from(row.step.0));
        }
    }
    let row = start.elapsed(&rt).ok()?.as_nanos() / 10000;
    let start = Instant::now(&rt).ok()?;
    for i in 0..10000u32 {
        if store.has_state(StateId(entries.saturating_sub(i % 64))) {
            sum = sum.wrapping_add(1);
        }
    }
    let has_state = start.elapsed(&rt).ok()?.as_nanos() / 10000;
    let start = Instant::now(&rt).ok()?;
    for i in 0..10000u32 {
        sum = sum.wrapping_add(u64::from(store.used_at(Step(i.checked_rem(entries)?)).0));
    }
    let used_at = start.elapsed(&rt).ok()?.as_nanos() / 10000;
    let start = Instant::now(&rt).ok()?;
    for i in 0..10000u32 {
        sum = sum.wrapping_add(u64::from(store.length_index(Step(i.checked_rem(entries)?)).1));
    }
    let length_index = start.elapsed(&rt).ok()?.as_nanos() / 10000;
    Some(([target, row, has_state, used_at, length_index], sum))
}

fn times<S: Store>(rt: HostRuntime, name: &str, store: &mut S, entries: u32, navs: u32) -> Option<()> {
    fill(rt, store, entries, navs)?;
    let clock = clock_time(rt)?;
    let ([target, row, has_state, used_at, length_index], sum) = looked_up(rt, store, entries, navs)?;
    let traversal = go_time(rt, store)?;
    let at_end = push_time(rt, store, entries.saturating_add(1), navs)?.saturating_sub(clock);
    let after_back = push_back_time(rt, store, entries.saturating_add(2001), navs)?.saturating_sub(clock);
    let over = replace_time(rt, store, entries.saturating_add(4001), navs)?.saturating_sub(clock);
    println!(rt; "{} {} {} push {} {} replace {} traversal {} target {} row {} has_state {} used_at {} length_index {} ({})",
        name, entries, navs, at_end, after_back, over, traversal, target, row, has_state, used_at, length_index, sum % 10).ok()
}

fn frame_times<S: Store>(rt: HostRuntime, name: &str, store: &mut S, frames: u32) -> Option<()> {
    let clock = clock_time(rt)?;
    let mut added: u128 = 0;
    for nav in 1..frames {
        added = added.wrapping_add(frame(rt, store, nav)?);
    }
    let mut removed: u128 = 0;
    for nav in 1..frames {
        removed = removed.wrapping_add(removal(rt, store, nav)?);
    }
    let count = u128::from(frames);
    let added = added.checked_div(count)?.saturating_sub(clock);
    let removed = removed.checked_div(count)?.saturating_sub(clock);
    println!(rt; "{} {} frames added {} removed {}", name, frames, added, removed).ok()
}

fn list(alloc: Global) -> Option<EntryStore> {
    let first = Address::read(alloc, b"http://a.test/some/page").ok()?;
    EntryStore::fresh(alloc, &first).ok()
}

fn index(alloc: Global) -> Option<StepIndex> {
    let first = Address::read(alloc, b"http://a.test/some/page").ok()?;
    StepIndex::fresh(alloc, &first).ok()
}

fn all(rt: HostRuntime) -> Option<()> {
    for entries in @ENTRIES@ {
        for navs in [1u32, 100] {
            times(rt, "EntryStore", &mut list(rt.alloc())?, entries, navs)?;
            times(rt, "StepIndex", &mut index(rt.alloc())?, entries, navs)?;
        }
    }
    for frames in [1000u32, 2000, 4000] {
        frame_times(rt, "EntryStore", &mut list(rt.alloc())?, frames)?;
        frame_times(rt, "StepIndex", &mut index(rt.alloc())?, frames)?;
    }
    Some(())
}

fn main(rt: HostRuntime) -> ExitCode {
    if all(rt).is_none() { ExitCode::from(1) } else { ExitCode::from(0) }
}
"""

IS_NEW = """use Rattle.std.proofs.Common.{sym}
use Rattle.log_model.specs.Soundness.{is_entry}
use Rattle.history_laws.proofs.Members.{found_none}
use Rattle.store_times.proofs.is_new.Goals as goal

pub returns-in-None : goal.returns-in-None
returns-in-None g c = λ _. found_none (is_entry c.args.entry) (g.S.Store.history c.args.store.now).rows (sym c.in-None.ensures)
"""

IS_FREE = """use Rattle.std.proofs.Common.{◌∙◌, ◌&&◌}
use Rattle.std.proofs.lemmas.Bool.{false≢true, and_parts}
use Rattle.log_model.specs.History.{is_of}
use Rattle.log_model.specs.Soundness.{is_in_state}
use Rattle.history_laws.proofs.Members.{witness}
use Rattle.store_times.proofs.is_free.Goals as goal

pub returns-else-has_state : goal.returns-else-has_state
returns-else-has_state g c free other held =
    let w = witness (λ row. is_of other row && is_in_state c.args.state row) (g.S.Store.history c.args.store.now).rows held in
    absurd (false≢true (c.if-has_state.ensures ∙ w.is_in (is_in_state c.args.state) (and_parts (is_of other w.it) (is_in_state c.args.state w.it) w.passes).1))
"""

IS_REACHED = """use Rattle.std.proofs.Common.{◌≡◌, ℕ, ◌≤◌, Bool, true, false, cond, List, [], ◌∷◌, filter, fold, map, is_le, nat_cmp, arith}
use Rattle.std.specs.Prelude.{max, nat_le}
use Rattle.std.proofs.lemmas.Bool.Decides.{nat_tests}
use Rattle.log_model.specs.declared.row.Row.{Row}
use Rattle.log_model.specs.History.{used_step_at, greatest_step}
use Rattle.store_times.proofs.is_reached.Goals as goal

fewer_most : (p : ℕ → Bool) (a b : ℕ) (steps : List ℕ) → a ≤ b → fold max a (filter p steps) ≤ fold max b steps
fewer_most p a b [] within = within
fewer_most p a b (step ∷ steps) within =
    elim (p step) as (λ t. fold max a (cond t (step ∷ filter p steps) (filter p steps)) ≤ fold max (max b step) steps) [
      | true ↦ fewer_most p (max a step) (max b step) steps (omega (arith, within))
      | false ↦ fewer_most p a (max b step) steps (omega (arith, within))
    ]

used_most : (rows : List Row) (step : ℕ) → used_step_at rows step ≤ greatest_step rows
used_most rows step = fewer_most (λ used. nat_le used step) 0 0 (map (λ (row : Row). row.step.0) rows) (omega arith)

at_most : {result : Bool} (a b : ℕ) → result ≡ is_le (nat_cmp a b) → result ≡ true → a ≤ b
at_most {result} a b told is = grind (arith, nat_tests, told, is)

pub returns : goal.returns
returns g c = λ is.
    omega (arith, at_most c.args.goal.0 c.used_at.result.0 c.le.ensures is, c.used_at.ensures, used_most (g.S.Store.history c.args.store.now).rows 4294967295)
"""

GO = """use Rattle.std.proofs.Common.{◌≡◌, ℕ, ◌∙◌, ap, sym, List, arith}
use Rattle.std.specs.Prelude.{nat_lt}
use Rattle.std.specs.List.{list_any}
use Rattle.std.proofs.lemmas.Bool.{le-ltb, ltb-false}
use Rattle.log_model.specs.declared.row.Row.{Row}
use Rattle.log_model.specs.History.{greatest_step}
use Rattle.log_model.specs.Order.{ordered}
use Rattle.entry_store.proofs.InOrder.{ordered-any}
use Rattle.entry_store.proofs.LastStep.{greatest_step-beyond}
use Rattle.store_times.proofs.go.Goals as goal

same_beyond : (a b : ℕ) → ((beyond : ℕ) → nat_lt beyond a ≡ nat_lt beyond b) → a ≡ b
same_beyond a b same =
    omega (arith, ltb-false a b (sym (same a) ∙ le-ltb a a (omega arith)), ltb-false b a (same b ∙ le-ltb b b (omega arith)))

same_greatest : (one other : List Row) → ordered one ≡ ordered other → greatest_step one ≡ greatest_step other
same_greatest one other same =
    same_beyond (greatest_step one) (greatest_step other) (λ beyond.
    greatest_step-beyond beyond one
    ∙ sym (ordered-any (λ (row : Row). nat_lt beyond row.step.0) one)
    ∙ ap (list_any (λ (row : Row). nat_lt beyond row.step.0)) same
    ∙ ordered-any (λ (row : Row). nat_lt beyond row.step.0) other
    ∙ sym (greatest_step-beyond beyond other))

pub returns-in-Ok : goal.returns-in-Ok
returns-in-Ok g c = record {
  reached = λ _. omega (arith, c.requires.reached, same_greatest (g.S.Store.history c.apply.new.self).rows (g.S.Store.history c.args.store.now).rows c.in-Ok.ensures.ok.rows);
}
"""

GO_TIME = """use Rattle.std.proofs.Common.{◌≤◌}
use Rattle.log_model.specs.History.{greatest_step}
use Rattle.store_times.proofs.go_time.Given as goal

abbrev pub invariant-loop : goal.invariant-loop
invariant-loop g l = l.last.0 ≤ greatest_step (g.S.Store.history l.store).rows
"""


def growth(lines: list[str]) -> list[str]:
    """How many times as much each call costs in the last line of a store and a number of navigables as in the first."""
    found: dict[str, list[dict[str, int]]] = {}
    for line in lines:
        words = line.split()
        name = f"{words[0]} {words[2]}"
        names = MEASURES if words[2] != "frames" else ["added", "removed"]
        numbers = [int(word) for word in words[3:] if word.isdigit()]
        found.setdefault(name, []).append(dict(zip(names, numbers)))
    told = []
    for name, rows in found.items():
        first, last = rows[0], rows[-1]
        grown = [f"{measure} {last[measure] / max(first[measure], 1):.2f}" for measure in first]
        told.append(f"{name} grows: {', '.join(grown)}")
    return told


def main() -> int:
    entries = sys.argv[1:] or ENTRIES
    with tempfile.TemporaryDirectory() as folder:
        crate = copied(folder, CRATES, "store_times")
        written(f"{crate}/src/main.rt", PROGRAM.replace("@ENTRIES@", "[" + ", ".join(f"{n}u32" for n in entries) + "]"))
        written(f"{crate}/proofs/is_new/Answers.antt", IS_NEW)
        written(f"{crate}/proofs/is_free/Answers.antt", IS_FREE)
        written(f"{crate}/proofs/is_reached/Answers.antt", IS_REACHED)
        written(f"{crate}/proofs/go/Answers.antt", GO)
        written(f"{crate}/proofs/go_time/Invariants.antt", GO_TIME)
        done = subprocess.run(["rt", "run", "--jobs", "1"], cwd=crate, stdout=subprocess.PIPE, text=True)
    print(done.stdout, end="")
    lines = [line for line in done.stdout.splitlines() if line.startswith(("EntryStore", "StepIndex"))]
    print("\n".join(growth(lines)))
    return done.returncode


if __name__ == "__main__":
    sys.exit(main())
