"""Tries on random runs with unload prompts that what the crates of facts say of a tab in which nobody is asked holds of the
log as it would have come to had nobody been asked (the crate `unasked`): a request begins only as its check passes, no
question is on its way, no document has a handler. A load in its check is at hand.

    python3 bench/unasked.py MODEL [FIRST COUNT]

MODEL is the folder of the model. It ends with 1 where anything is false, but for `left` (the document of a ready load that
is destroyed while a check holds the queue is discarded by a later event's pass), which it only counts.
"""
import random
import sys
from types import SimpleNamespace

import facts
from facts import COUNT, FIRST, cases, logcheck, logtext, scenario, tab
from tab import World
from tries import Beside, count, seen

PROFILE = 'prompts'
ONLY_COUNTED = ('left',)


def is_order(row, kind):
    return row.kind == 'sent' and row.job.task.kind == kind


class Unasked:
    """The rows of a log that are seen, each with the requests in their check then; and, between them, the requests that begin as their checks pass."""
    def __init__(self, log):
        self.log, self.s = log, logcheck.St()
        self.questions, self.in_check, self.steps = set(), set(), []
        for i, row in enumerate(log):
            self.feed(row, log[i + 1] if i + 1 < len(log) else None)

    def passes(self, row, req):
        self.in_check.discard(req)
        self.steps.append((row, req, frozenset(self.in_check)))

    def has_passed(self, req):
        return logcheck.D12d_passed(self.s, self.s.reqs[req])

    def goes_on_with(self, row):
        """The request in its check with which a row goes on, if there is one."""
        if row.kind == 'sent' and row.job.task.kind != 'ask' and row.job.why[0] == 'r':
            return row.job.why[1]
        if row.kind == 'dropped' and row.cause[0] == 'by' and row.cause[1] != row.req:
            return row.cause[1]
        return row.req if row.kind == 'applied' else None

    def is_seen(self, row, later):
        if is_order(row, 'ask') or row.kind in ('prompted', 'answered'):
            return False
        if row.kind in ('taken', 'finished'):
            return row.job not in self.questions
        if row.kind == 'delivered':
            report = self.s.proc(row.proc).reports[0]
            return not (report[0] == 'done' and report[1] in self.questions)
        asks = later is not None and later.event == row.event and is_order(later, 'ask')
        return not (row.kind == 'started' and asks and later.job.why == ('r', row.req))

    def feed(self, row, later):
        by = self.goes_on_with(row)
        if by in self.in_check and self.has_passed(by):
            self.passes(row, by)
        is_seen = self.is_seen(row, later)
        if is_order(row, 'ask'):
            self.questions.add(row.job.nr)
        self.s.feed(row)
        if row.kind == 'started' and not is_seen:
            self.in_check.add(row.req)
        if row.kind == 'dropped':
            self.in_check.discard(row.req)
        if is_seen:
            self.steps.append((row, None, frozenset(self.in_check)))
        if later is None or later.event != row.event:
            for req in sorted(self.in_check):
                if self.has_passed(req):
                    self.passes(row, req)


class Numbers:
    """The document states that a log numbered: of each load, and how many there were after each row."""
    def __init__(self, log):
        b, self.after = Beside(log), {}
        for row in log:
            b.feed(row)
            self.after[id(row)] = b.states
        self.of = {q.nr: q.lstate for q in b.s.reqs.values() if q.kind == 'load' and q.started is not None}

    def put(self, b, row):
        b.states = self.after[id(row)]
        for q in b.s.reqs.values():
            if q.kind == 'load' and q.started is not None:
                q.lstate = self.of[q.nr]
        for d in b.s.docs.values():
            d.slot = None


def try_log(log, keep):
    b, at_hand, numbers, steps = Beside(log), facts.AtHand(), Numbers(log), Unasked(log).steps
    began = {row.req: row for row in log if row.kind == 'started'}
    for i, (row, passed, in_check) in enumerate(steps):
        later = steps[i + 1] if i + 1 < len(steps) else None
        fed = row
        if passed is not None:
            count('checks that pass')
            fed = SimpleNamespace(**vars(began[passed]))
            fed.event = row.event
        at_hand.before(b, fed)
        b.feed(fed)
        at_hand.after(b, fed)
        numbers.put(b, row)
        ends = later is None or later[0].event != row.event
        facts.try_entries(b)
        facts.try_load_documents(b)
        facts.try_kept(b, ends, keep)
        facts.try_places(b, ends)
        facts.try_load_desks(b)
        facts.try_lasting(b)
        facts.try_past(b)
        facts.try_running(b.s, ends or later[0].kind != 'made')
        if ends or later[0].kind != 'made':
            facts.try_fragments(b.s)
        # (between a check that passes and the rows that go on with it, its load has no document yet)
        if passed is None and (later is None or later[1] is None):
            facts.try_ongoing(b, ends)
            facts.try_whereabouts(b, at_hand, False, in_check)
            if ends:
                facts.try_off(b)


def main():
    seen.clear()
    for seed in range(FIRST, FIRST + COUNT):
        for turn in range(3):
            read = scenario.read(cases.text_of(seed, PROFILE).encode())
            world = World(read.header)
            if turn == 0:
                for line in read.lines:
                    tab.play_line(world, line)
            else:
                tab.run(read, world, random.Random(1000 * seed + turn))
            log = logcheck.read_log(''.join(logtext.row_line(row) + '\n' for row in world.log))
            try_log(log, read.header.keep)
    print(PROFILE + ':', ', '.join(f'{what} {total}' + (f' ({wrong} FALSE)' if wrong else '') for what, (total, wrong) in sorted(seen.items())))
    if any(wrong for what, (_, wrong) in seen.items() if what not in ONLY_COUNTED):
        sys.exit(1)


if __name__ == '__main__':
    main()
