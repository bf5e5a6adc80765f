"""What the tries of facts on random runs share: their counts, and what a log has come to beside what the model's checker
keeps of it. Whoever imports it has the model's folder on the path."""
import logcheck

SHOWS, MAKES = 'activate', 'populate'
seen = {}


def count(what, holds=True, why=None):
    total, wrong = seen.get(what, (0, 0))
    seen[what] = (total + 1, wrong + (not holds))
    if not holds and wrong < 3:
        print(what, 'is false:', why)


class Beside:
    """What a log has come to, and the checker doesn't keep: reports held back and at hand, numbers and states."""
    def __init__(self, log):
        self.s, self.log = logcheck.St(), log
        self.parked, self.hand, self.applied, self.frozen = [], [], {}, set()
        self.states = self.entries = 1
        self.initial = [1] if log[0].address == 'about:blank' else []

    def is_held_back(self, made):
        s, nav = self.s, self.s.docs[made.doc].nav
        p, run = s.place[nav], logcheck.running_traversal(self.s)
        return (made.what.kind != 'go' and p.status == 'awake' and p.epoch == made.epoch and nav in s.H.by_nav
                and run is not None and nav in s.acts_for.get(run.nr, ()))

    def feed(self, row):
        s = self.s
        made = self.made_of(s.proc(row.proc).reports[0]) if row.kind == 'delivered' else None
        if made is not None:
            if self.is_held_back(made):
                self.parked.append(made.req)
            elif made.what.kind != 'go':
                self.hand = [made]
        if row.kind in ('applied', 'refused', 'dropped'):
            self.parked = [req for req in self.parked if req != row.req]
            self.hand = [made for made in self.hand if made.req != row.req]
        if row.kind == 'applied' and row.change.kind in ('push', 'replace'):
            maker, nr = row.change.entry
            self.applied[maker] = nr
            self.entries += maker == 0
        if row.kind == 'applied' and row.change.kind == 'frame':
            self.entries, self.states = self.entries + 1, self.states + 1
            self.initial.append(row.change.state)
        if row.kind == 'started' and s.reqs[row.req].kind == 'load':
            self.states += 1
        if row.kind == 'sent' and row.job.task.kind == 'freeze':
            self.frozen.add(row.job.doc)
        if row.kind == 'sent' and row.job.task.kind == SHOWS:
            self.frozen.discard(row.job.doc)
        s.feed(row)

    def made_of(self, report):
        """What a document made, where the report tells of it."""
        return report[1] if report[0] == 'made' else self.s.jobs[report[1]].made if report[0] == 'done' else None

    def mades(self):
        """What documents made and the history doesn't have yet."""
        waiting = [self.made_of(report) for p in self.s.procs.values() for report in p.reports]
        return [self.s.reqs[req].made for req in self.parked] + self.hand + [made for made in waiting if made is not None]

    def jobs(self):
        """Orders that are unfinished, or whose report waits."""
        return [self.s.jobs[j] for p in self.s.procs.values()
                for j in ([p.hand] if p.hand is not None else []) + list(p.mail) + [r[1] for r in p.reports if r[0] == 'done']]


def entry_of(made):
    return made.what.entry if made.what.kind in ('push', 'replace') else None


def ongoing_loads(s):
    return [q for q in s.open_started if q.kind == 'load']
