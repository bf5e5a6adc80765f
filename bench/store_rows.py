#!/usr/bin/env python3
"""What a store of session history answers after a list of changes.

A plain model of the rules, one flat list of rows. It prints what the program of
crates/store_examples must print on the lines of its `stdin`:

    python3 bench/store_rows.py < crates/store_examples/stdin > crates/store_examples/stdout

A change is a letter and its numbers, each of one digit. The entry that it
makes has the number of its place in the list plus 2, so the first change makes
entry 2.

    p NAV STATE          a push
    r NAV OVER STATE     a replace over an entry
    f OWNER NAV STATE    a new frame under a document state
    x NAV                the removal of a frame
    t GOAL               a traversal
    l NAV                a reload
    e                    an edit

and a question is one, too:

    u STEP               the used step for a step
    i STEP               the length, and the index at a step
    s STATE              whether a row has the document state, and the navigables below it
    a NAV                whether the child navigable was ever added
    w ENTRY              the entry's step, address and memo
    g NAV STEP           the navigable's target at the step

The answer is the current step, length and index, then the rows by navigable
and step, each as NAV:STEP, entry, document state and owner, with a star where
it is its navigable's target, and then the refusals, each with the number of
its change, and the answers. A line that begins with # is printed as it is.
"""
import sys


class Refused(Exception):
    pass


def used(rows):
    return sorted({row["step"] for row in rows})


def used_at(rows, step):
    return max([s for s in used(rows) if s <= step], default=0)


def target(rows, nav, step):
    best = None
    for row in rows:
        if row["nav"] == nav and row["step"] <= step and (best is None or best["step"] < row["step"]):
            best = row
    return best


def tidied(rows):
    while True:
        states = {row["state"] for row in rows}
        kept = [row for row in rows if row["owner"] is None or row["owner"] in states]
        if len(kept) == len(rows):
            return kept
        rows = kept


def has(rows, nav):
    return any(row["nav"] == nav for row in rows)


def apply(history, number, change):
    rows, current, added = history
    kind, args = change[0], [int(digit) for digit in change[1:]]
    if kind == "p":
        nav, state = args
        left = tidied([row for row in rows if row["step"] <= current])
        if not has(left, nav):
            raise Refused("NoNavigable")
        owner = next(row["owner"] for row in left if row["nav"] == nav)
        new = dict(owner=owner, nav=nav, entry=number, step=current + 1, state=state,
                   address=f"http://a.test/{number}", memo="-")
        return left + [new], current + 1, added
    if kind == "r":
        nav, over, state = args
        if not has(rows, nav):
            raise Refused("NoNavigable")
        if not any(row["nav"] == nav and row["entry"] == over for row in rows):
            raise Refused("NoEntry")
        new = [dict(row, entry=number, state=state, address=f"http://a.test/{number}", memo="memo") if row["entry"] == over else row for row in rows]
        return tidied(new), current, added
    if kind == "f":
        owner, nav, state = args
        steps = [row["step"] for row in rows if row["state"] == owner]
        if not steps:
            raise Refused("NoEntry")
        if nav == 0 or nav in added:
            raise Refused("NavTaken")
        new = dict(owner=owner, nav=nav, entry=number, step=min(steps), state=state, address="about:blank", memo="-")
        return rows + [new], current, added + [nav]
    if kind == "x":
        (nav,) = args
        if nav == 0 or not has(rows, nav):
            raise Refused("NoNavigable")
        left = tidied([row for row in rows if row["nav"] != nav])
        return left, used_at(left, current), added
    if kind == "t":
        return rows, used_at(rows, args[0]), added
    if kind == "l":
        if not has(rows, args[0]):
            raise Refused("NoNavigable")
        return history
    assert kind == "e"
    return history


def told(history, question):
    """The answer to a question, or None where it is a change."""
    rows, _, added = history
    kind, args = question[0], [int(digit) for digit in question[1:]]
    if kind == "u":
        return f"used {used_at(rows, args[0])} at {args[0]}"
    if kind == "i":
        steps = used(rows)
        return f"length {len(steps)} index {steps.index(used_at(rows, args[0]))} at {args[0]}"
    if kind == "s":
        below = sorted({row["nav"] for row in rows if row["owner"] == args[0]})
        has_state = str(any(row["state"] == args[0] for row in rows)).lower()
        return f"state {args[0]} {has_state}, below it" + "".join(f" {nav}" for nav in below)
    if kind == "a":
        return f"navigable {args[0]} was added: {str(args[0] in added).lower()}"
    if kind == "w":
        for row in rows:
            if row["entry"] == args[0]:
                return f"entry {args[0]} at {row['step']} {row['address']} {row['memo']}"
        return "no entry"
    if kind == "g":
        row = target(rows, *args)
        return f"target of {args[0]} at {args[1]}: {row['entry'] if row else 'none'}"
    return None


def answer(changes):
    history = ([dict(owner=None, nav=0, entry=1, step=0, state=1, address="http://a.test/", memo="-")], 0, [])
    said = []
    for place, change in enumerate(changes.split()):
        one = told(history, change)
        if one is not None:
            said.append(one)
            continue
        try:
            history = apply(history, place + 2, change)
        except Refused as refusal:
            said.append(f"!{place + 2} {refusal}")
    rows, current, _ = history
    steps = used(rows)
    parts = [f"{current} {len(steps)} {steps.index(used_at(rows, current))}"]
    for row in sorted(rows, key=lambda row: (row["nav"], row["step"])):
        star = "*" if target(rows, row["nav"], current) is row else ""
        owner = "-" if row["owner"] is None else row["owner"]
        parts.append(f"{row['nav']}:{row['step']} {row['entry']} {row['state']} {owner}{star}")
    return "; ".join(parts + said)


def main():
    for line in sys.stdin.read().splitlines():
        print(line if line.startswith("#") else answer(line))


if __name__ == "__main__":
    main()
