"""Tries what the crates of facts take to be true between two events, on random runs of a model, by its checker: where
each awake navigable's document is, what is on its way, that what isn't shown rests, that each visited navigable is
served, that ongoing loads stand (`load_ends`); and how often all of it stands at once with nothing loaded, reloaded or
dead, in transit or not. On runs of the profile `frames` it tries, after each row, what `frame_tab` says of a tab of
frames; on those of `loads` and `kept`, what `load_facts`, `kept_facts`, `desk_facts`, `entry_facts`, `mover_facts`,
`load_whereabouts` and `running_facts` say, and what a tab of frames and loads is to keep of documents and places; and
that their rows are as `load_rows` and `leave_rows` ask.

    python3 bench/facts.py MODEL [FIRST COUNT [PROFILE ...]]

MODEL is the folder of the model. Profiles are those of its cases.py. It ends with 1 where anything is false.
"""
import random
import sys

MODEL = sys.argv[1]
sys.path.insert(0, MODEL)
import cases
import logcheck
import logtext
import scenario
import tab
from rows_due import try_ends_due, try_load_due, try_orders_due
from tab import World
from tries import MAKES, SHOWS, Beside, count, entry_of, ongoing_loads, seen

FIRST, COUNT = (int(n) for n in (sys.argv[2:4] or (1, 40)))
PROFILES = sys.argv[4:] or ['frames', 'kept', 'prompts', 'deaths']


def outstanding(s, proc, test):
    """An order of the process that is so is in the mail or in hand, or a report of it waits."""
    p = s.proc(proc)
    jobs = list(p.mail) + ([p.hand] if p.hand is not None else []) + [r[1] for r in p.reports if r[0] == 'done']
    return any(test(s.jobs[j]) for j in jobs)


def is_dead(d):
    return d.dead_by is not None


def being_made(d):
    return d.pop_delivered is None and not d.known_dead


def will_run(s, d):
    """Whether the document runs once all orders are done that come to it; None where it isn't there."""
    view, p = s.views.get(d.nr), s.proc(d.proc)
    runs = None if view is None else view.running
    for j in ([p.hand] if p.hand is not None else []) + list(p.mail):
        job = s.jobs[j]
        if job.doc == d.nr and job.inc == p.killed:
            kind = job.task.kind
            runs = {'populate': False, 'discard': None}.get(kind, runs)
            if kind in ('activate', 'freeze') and runs is not None:
                runs = kind == 'activate'
    return runs


def has_loads(s):
    return any(q.kind in ('load', 'reload') for q in s.reqs.values())


def try_homes(s):
    for n, p in s.place.items():
        if p.status != 'awake':
            continue
        d = s.docs[p.doc]
        count('home', d.nav == n and d.pop_delivered is not None and not d.discarded and not d.known_dead, (n, p.doc))
        count('last', s.last_act[n].doc == p.doc, (n, p.doc))
        for row in s.H.rows:
            if row.nav == n and row.entry == p.given:
                count('state of the given entry', row.state == d.state, (n, p.given))
        if n in s.H.parent and n != 0:
            parent = s.place[s.H.parent[n]]
            count('parent', parent.status == 'awake' and s.docs[parent.doc].state == s.H.owner[n], n)


def try_ways(s):
    for n, p in s.place.items():
        act = s.last_act.get(n)
        if p.status == 'awake' and not act.delivered:
            d = s.docs[p.doc]
            count('comes', is_dead(d) or outstanding(s, d.proc, lambda j: j.task.kind == SHOWS and j.nr == act.job), n)
    for d in s.docs.values():
        if being_made(d):
            count('made', is_dead(d) or outstanding(s, d.proc, lambda j: j.task.kind == MAKES and j.doc == d.nr), d.nr)


def try_rests(s):
    states = {row.state for row in s.H.rows}
    shown = {p.doc for p in s.place.values() if p.status == 'awake'}
    for d in s.docs.values():
        if not has_loads(s) and d.pop_delivered is not None and not d.discarded and not d.known_dead:
            count('swept', d.state in states, d.nr)
        if d.nr not in shown and (d.discarded or d.state in states):
            count('rests', not will_run(s, d), d.nr)
        if d.nr not in shown and not is_dead(d):
            count('all rest', not will_run(s, d), d.nr)
        count('whose', all(row.nav == d.nav for row in s.H.rows if row.state == d.state), d.nr)


def try_served(s):
    aim = logcheck.D12c_aim(s)
    target = {n: logcheck.D3_target(s.H, n, aim) for n in s.place}
    in_place = {n for n, p in s.place.items() if p.status == 'awake' and target[n] is not None and p.given == target[n].entry}
    for n, p in s.place.items():
        row = target[n]
        if row is None or n not in logcheck.D11_shown(s.H, aim) or not set(logcheck.above(s.H, n)) <= in_place:
            continue
        if p.status == 'asleep' or p.given != row.entry:
            count('served', any(d.state == row.state and being_made(d) for d in s.docs.values()), (n, aim))


def is_plain(s):
    begun = [q for q in s.open_started if q.kind in ('go', 'docgo', 'load', 'reload')]
    return (not any(is_dead(d) for d in s.docs.values()) and not any(p.status == 'lost' for p in s.place.values())
            and not has_loads(s)
            and all(logcheck.D12d_passed(s, q) for q in begun))


def hook(s, event, rows):
    try_homes(s)
    try_ways(s)
    try_rests(s)
    try_loads_stand(s)
    if is_plain(s):
        try_served(s)
        still = logcheck.D10_still(s)
        count('all of it, in transit' if not still else 'all of it, still')
        if still:
            settled = True
            try:
                logcheck.D13_settled(s)
            except logcheck.Fail:
                settled = False
            count('settled', settled, event)


def try_alive(b):
    s, home = b.s, b.s.docs[1].proc
    for d in s.docs.values():
        v, ready = s.views.get(d.nr), d.pop_delivered is not None
        count('alive', d.proc == home and d.inc == 0 and d.slot is None and d.nr not in b.frozen and d.dead_by is None
              and not d.known_dead and (v is None or v.doc == d.nr) and (ready or v is None or not v.running), d.nr)
        count('there', d.nav in s.place, d.nr)
        makes = [j for j in b.jobs() if j.task.kind == MAKES and j.doc == d.nr]
        count('made once', len(makes) == (0 if ready else 1), d.nr)
        count('discarded without rows', not d.discarded or d.nav not in s.H.by_nav, d.nr)


def try_numbers(b):
    s = b.s
    state = {row.nav: row.state for row in s.H.rows}
    for row in s.H.rows:
        count('one state', row.state == state[row.nav] and 1 <= row.state <= b.states, row.nav)
        count('begins', any(r.nav == row.nav and r.step == 0 for r in s.H.rows), row.nav)
        count('initial', row.nav == 0 or row.state in b.initial, row.nav)
    for d in s.docs.values():
        count('state of its rows', state.get(d.nav, d.state) == d.state and d.state <= b.states, d.nr)
    count('listed', list(s.place) == [0] + list(s.H.added))
    for step in range(max(row.step for row in s.H.rows) + 2):
        count('shown', set(logcheck.D11_shown(s.H, step)) == set(s.H.by_nav), step)


def is_begun_going(s, why):
    return why[0] == 'r' and s.reqs[why[1]].trav and s.reqs[why[1]].started is not None


def try_steady(b):
    s, run = b.s, logcheck.running_traversal(b.s)
    for n, p in s.place.items():
        has_row, awake = n in s.H.by_nav, p.status == 'awake'
        count('steady', p.status != 'lost' and (not awake or (p.epoch >= 1 and p.given is not None)), n)
        count('unshown yet', awake or not has_row or (p.epoch == 0 and p.given is None and n not in s.last_act), n)
        count('taken', has_row or s.taken_last.get(n) in s.reqs, n)
        count('mover', not awake or p.epoch < 2 or is_begun_going(s, p.why), n)
        count('added', n == 0 or s.added_by[n] in s.reqs, n)
        if awake and has_row and not (run is not None and n in s.moved.get(run.nr, ())):
            count('given', p.given == logcheck.D3_target(s.H, n, s.H.current).entry, n)


def continues_from(p, mades):
    """Whether each replace that is coming of the awake navigable's document is of the entry before it."""
    entry = p.given
    for made in mades:
        if made.doc == p.doc and made.epoch == p.epoch:
            if made.what.kind == 'replace' and made.what.over != entry:
                return False
            entry = entry_of(made) or entry
    return True


def try_entries(b):
    s, mades = b.s, b.mades()
    for d in s.docs.values():
        own = [made for made in mades if made.doc == d.nr]
        numbers = [b.applied.get(d.nr, 0)] + [entry_of(made)[1] for made in own if entry_of(made)]
        count('counted', 1 <= d.nr <= len(s.docs), d.nr)
        count('made nothing', d.pop_delivered is not None or (not own and not b.applied.get(d.nr, 0)), d.nr)
        if d.nr in s.views:
            count('ascends', sorted(set(numbers)) == numbers and numbers[-1] <= s.views[d.nr].nr, d.nr)
    entries = [row.entry for row in s.H.rows] + [e for given in s.given_ever.values() for e in given]
    for maker, nr in entries + [e for q in s.reqs.values() for e in q.took]:
        count('numbered', maker <= len(s.docs) and nr <= (b.applied.get(maker, 0) if maker else b.entries), (maker, nr))
    for made in mades:
        count('waits', made.doc in s.docs and (entry_of(made) is None or entry_of(made)[0] == made.doc), made.req)
    for n, p in s.place.items():
        if p.status == 'awake' and n in s.H.by_nav and p.given is not None:
            count('continues', continues_from(p, mades), n)


def try_asking(b, ends):
    s = b.s
    run = [q for q in s.reqs.values() if q.trav and q.started is not None and q.outcome is None]
    for q in s.reqs.values():
        count('plain', q.kind in ('go', 'docgo', 'push', 'replace', 'fragment', 'frame', 'remove') and not q.asks and q.prompted is None
              and q.frag_job is None and (q.started is None or (q.trav and q.goal is not None)), q.nr)
        count('moved', not q.trav or s.moved.get(q.nr, set()) == s.acts_for.get(q.nr, set()), q.nr)
    count('one runs', len(run) <= 1 and not s.kept)
    count('none held', not ends or bool(run) or not b.parked)


def try_desks(b):
    s, home = b.s, b.s.docs[1].proc
    for job in b.jobs():
        d, kind = s.docs[job.doc], job.task.kind
        count('order', job.proc == home and job.inc == 0 and job.made is None and (kind == MAKES or (d.pop_delivered is not None and (
            kind in ('update', 'discard') or (kind == SHOWS and 1 <= job.task.epoch <= s.place[d.nav].epoch)))), job.nr)
    for made in b.mades():
        count('made there', made.doc in s.docs and made.what.kind != 'edit' and (entry_of(made) is None or entry_of(made)[0] == made.doc), made.req)
    for proc, p in s.procs.items():
        count('desk', proc == home or not (p.input or p.mail or p.reports or p.hand), proc)
        count('pokes', all(s.reqs[req].doc in s.docs for req in p.input), proc)


def try_frames(log):
    b = Beside(log)
    for i, row in enumerate(log):
        b.feed(row)
        try_alive(b)
        try_numbers(b)
        try_entries(b)
        try_steady(b)
        try_asking(b, i + 1 == len(log) or log[i + 1].event != row.event)
        try_desks(b)


# ---- a tab of frames and loads

def ever_shown(s):
    return {doc for docs in s.awake_ever.values() for doc in docs}


def try_load_documents(b):
    s = b.s
    awake, states = {p.doc for p in s.place.values() if p.status == 'awake'}, {r.state for r in s.H.rows}
    for d in s.docs.values():
        v, ready = s.views.get(d.nr), d.pop_delivered is not None
        count('alive', d.inc == 0 and d.slot is None and d.dead_by is None and (v is None or v.doc == d.nr)
              and (ready or v is None or not v.running), d.nr)
        count('there', d.nav in s.place and 1 <= d.state <= b.states, d.nr)
        makes = [j for j in b.jobs() if j.doc == d.nr and j.task.kind == MAKES]
        count('made once', len(makes) == (0 if ready else 1), d.nr)
        count('gone', not d.discarded or (ready and d.nr not in awake and d.nr not in s.kept), d.nr)
        count('frozen', d.nr not in b.frozen or d.nr not in awake, d.nr)
        count('sole', d.discarded or not any(o is not d and o.state == d.state and not o.discarded for o in s.docs.values()), d.nr)
        count('of its state', all(r.nav == d.nav for r in s.H.rows if r.state == d.state), d.nr)
        count('viewed', d.discarded or will_run(s, d) is not None, d.nr)
        count('state of one', all(o.nav == d.nav for o in s.docs.values() if o.state == d.state), d.nr)
    count('shown are there', ever_shown(s) <= set(s.docs) and awake - {None} <= ever_shown(s))
    count('states numbered', all(1 <= state <= b.states for state in states))


def try_ongoing(b, ends):
    s, loads, shown, states = b.s, ongoing_loads(b.s), ever_shown(b.s), {r.state for r in b.s.H.rows}
    count('loads apart', len({q.lstate for q in loads}) == len({q.what.nav for q in loads}) == len(loads))
    for q in loads:
        docs = [d for d in s.docs.values() if d.state == q.lstate and not d.discarded]
        count('loading', q.made is None and q.frag_job is None and q.lstate not in states and q.lstate <= b.states, q.nr)
        count('load placed', q.what.nav in s.place, q.nr)
        count('its documents', all(d.nav == q.what.nav and d.nr not in shown for d in docs) and len(docs) <= 1, q.nr)
        count('its document', not ends or len(docs) == 1, q.nr)


def try_loads_stand(s):
    """As an event ends."""
    aim = logcheck.D12c_aim(s)
    for q in ongoing_loads(s):
        line = logcheck.way(s.H, q.nav)
        count('loads stand', all(n in logcheck.D11_shown(s.H, aim) and logcheck.D12c_stands(s, n, aim) for n in line)
              and not any(logcheck.known_lost(s, n) for n in logcheck.above(s.H, q.nav)), q.nr)


def try_kept(b, ends, keep):
    s, states, awake = b.s, {r.state for r in b.s.H.rows}, {p.doc for p in b.s.place.values() if p.status == 'awake'}
    for doc in s.kept:
        d = s.docs[doc]
        count('kept', d.pop_delivered is not None and not d.discarded and doc not in awake and s.last_act[d.nav].doc != doc, doc)
        count('kept as an event ends', not ends or (d.state in states and doc in b.frozen), doc)
    for d in s.docs.values():
        count('left', not ends or d.discarded or d.pop_delivered is None or d.state in states
              or any(q.lstate == d.state for q in ongoing_loads(s)), d.nr)
    count('kept apart', len(set(s.kept)) == len(s.kept))
    count('kept few', len(s.kept) <= keep + (not ends))


def has_moved_away(s, n, req):
    q, way = s.reqs.get(req), logcheck.way(s.H, n)
    if q is None:
        return False
    return ((q.trav and q.started is not None and logcheck.D12d_passed(s, q))
            or (q.change is not None and getattr(q.change, 'nav', None) in way)
            or any(entry in s.given_ever.get(m, ()) for m in way for entry in q.took))


def try_places(b, ends):
    s, run, aim = b.s, logcheck.running_traversal(b.s), logcheck.D12c_aim(b.s)
    for n, p in s.place.items():
        has_row, awake, act = n in s.H.by_nav, p.status == 'awake', s.last_act.get(n)
        count('steady', p.status != 'lost' and (not awake or (p.epoch >= 1 and p.given is not None)), n)
        count('shown before', (p.epoch == 0) == (act is None) == (p.given is None), n)
        count('taken', has_row or s.taken_last.get(n) in s.reqs, n)
        if p.epoch >= 2 or (p.status == 'asleep' and p.epoch >= 1):
            count('mover', p.why[0] == 'r' and has_moved_away(s, n, p.why[1]), (n, p.why))
        if act is not None:
            count('given of the last', all(r.state == s.docs[act.doc].state for r in s.H.rows if r.nav == n and r.entry == p.given), n)
        if awake and has_row and ends:
            step = aim if run is not None and n in s.moved.get(run.nr, ()) else s.H.current
            count('given', p.given == logcheck.D3_target(s.H, n, step).entry, n)
        count('awake with a row', not ends or not awake or has_row, n)


def try_load_desks(b):
    s = b.s
    for job in b.jobs():
        d, kind = s.docs[job.doc], job.task.kind
        count('order', job.proc == d.proc and job.inc == 0 and (kind == MAKES or (d.pop_delivered is not None and (
            kind in ('update', 'discard', 'freeze', 'fragment') or (kind == SHOWS and 1 <= job.task.epoch <= s.place[d.nav].epoch)))), job.nr)
    for made in b.mades():
        count('made there', made.what.kind != 'edit' and (entry_of(made) is None or entry_of(made)[0] == made.doc), made.req)
    for proc, p in s.procs.items():
        count('at home', all(s.docs[s.reqs[req].doc].proc == proc for req in p.input)
              and all(s.docs[(r[1] if r[0] == 'made' else s.jobs[r[1]]).doc].proc == proc for r in p.reports), proc)


def waits_to_fragment(q):
    return q.outcome is None and q.made is None and q.frag_job is not None


def try_lasting(b):
    """What lasts: who runs was shown, what was made has an epoch, pokes are of their documents' navigables, and so on."""
    s, bare = b.s, {r.nav for r in b.s.H.rows}
    for d in s.docs.values():
        v = s.views.get(d.nr)
        count('run shown', v is None or not v.running or v.epoch >= 1, d.nr)
    for q in s.reqs.values():
        count('made shown', q.made is None or q.made.epoch >= 1, q.nr)
        count('pokes its own', q.doc is None or (q.doc in s.docs and s.docs[q.doc].nav == q.nav), q.nr)
        count('unmoved yet', not q.trav or q.started is not None or not s.moved.get(q.nr), q.nr)
        count('moved are there', all(n in s.place for n in s.moved.get(q.nr, ())), q.nr)
    for n in s.place:
        count('taken bare', n not in s.taken_last or n not in bare, n)
    for job in b.jobs():
        count('names its state', job.task.kind != MAKES or s.docs[job.doc].state == job.task.state, job.nr)


def try_past(b):
    """A document that isn't the one that its navigable was shown last acts under no epoch of it that is now: not in its view, an order that comes to it, or what it made."""
    s = b.s
    for d in s.docs.values():
        n, act, v = s.place.get(d.nav), s.last_act.get(d.nav), s.views.get(d.nr)
        if n is None or (act is not None and act.doc == d.nr):
            continue
        epochs = [] if v is None else [v.epoch]
        epochs += [job.task.epoch for job in b.jobs() if job.doc == d.nr and job.task.kind == SHOWS]
        epochs += [made.epoch for made in b.mades() if made.doc == d.nr]
        count('past', all(e <= max(n.epoch - 1, 0) for e in epochs), (d.nr, n.epoch, epochs))


def try_off(b):
    """As an event ends: a navigable that no order showed a document, or whose first such order isn't reported, was never shown one, and isn't the top; where no traversal runs, each other one that is shown and doesn't stand is so for the last load that was applied, of it or one above, since which not all have stood."""
    s, run = b.s, logcheck.running_traversal(b.s)
    shown = logcheck.D11_shown(s.H, s.H.current)
    for n, p in s.place.items():
        act = s.last_act.get(n)
        new = p.epoch == 0 or (p.epoch == 1 and p.status == 'awake' and not act.delivered)
        count('never shown', not new or not s.act_ever.get(n), n)
        count('top was shown', n != 0 or not new, n)
        if run is None and n in shown and not new and not logcheck.D12c_stands(s, n, s.H.current):
            q = s.reqs.get(p.why[1]) if p.why[0] == 'r' else None
            count('off since a load', q is not None and q.nr == s.last_lr and not s.lr_stood and q.change.nav in logcheck.way(s.H, n), (n, p.why))


def try_fragments(s):
    """But for the load whose order was just finished, of which the next row tells what was made."""
    sent = [s.jobs[j].task.req for p in s.procs.values() for j in [*p.mail, *([] if p.hand is None else [p.hand])]
            if s.jobs[j].task.kind == 'fragment']
    for q in s.reqs.values():
        count('fragment once', sent.count(q.nr) == waits_to_fragment(q), q.nr)
        count('unsent unmade', q.kind != 'load' or q.frag_job is not None or q.made is None, q.nr)
        count('loads wait', q.kind == 'load' or not waits_to_fragment(q), q.nr)


class AtHand:
    """The loads at hand in the event, and those whose fragment order was reported in it."""
    def __init__(self):
        self.loads, self.missed = [], []

    def before(self, b, row):
        """As a report is delivered."""
        if row.kind != 'delivered':
            return
        report = b.s.proc(row.proc).reports[0]
        made = b.made_of(report)
        if report[0] == 'done' and b.s.jobs[report[1]].task.kind == 'fragment':
            self.missed.append(b.s.jobs[report[1]].task.req)
        if made is not None and b.s.reqs[made.req].kind == 'load' and not b.is_held_back(made):
            self.loads.append(made.req)

    def after(self, b, row):
        """As a load is accepted, begins, is sent to a fragment or ends."""
        order = row.job.task if row.kind == 'sent' and row.job.task.kind == 'fragment' else None
        if row.kind == 'accepted' and b.s.reqs[row.req].kind == 'load':
            self.loads.append(row.req)
        gone = order.req if order else row.req if row.kind in ('started', 'applied', 'refused', 'dropped') else None
        self.loads = [req for req in self.loads if req != gone]


def try_whereabouts(b, at_hand, ends, in_check=()):
    s = b.s
    told = [made.req for p in s.procs.values() for made in map(b.made_of, p.reports) if made is not None]
    for q in s.reqs.values():
        if q.kind == 'load' and q.nr not in in_check:
            times = sum(reqs.count(q.nr) for reqs in (told, b.parked, at_hand.loads))
            count('once', times + (q.started is not None and q.outcome is None) + waits_to_fragment(q) == (q.outcome is None), q.nr)
            if waits_to_fragment(q) and q.nr not in at_hand.missed:
                proc = s.docs[s.jobs[q.frag_job].doc].proc
                count('fragment comes', outstanding(s, proc, lambda j: j.nr == q.frag_job), q.nr)
    if ends:
        count('no load at hand', not at_hand.loads and not any(waits_to_fragment(s.reqs[req]) for req in at_hand.missed))
        at_hand.missed = []


def try_running(s, is_told):
    """Each fragment order that is on its way finds its document running as its turn comes, and who is awake runs once all orders are done; where what is made of an order is told, each report of a fragment order tells of that."""
    for p in s.procs.values():
        for r in p.reports if is_told else []:
            if r[0] == 'done' and s.jobs[r[1]].task.kind == 'fragment':
                count('fragment told', s.jobs[r[1]].made is not None, r[1])
        orders = [s.jobs[j] for j in ([p.hand] if p.hand is not None else []) + list(p.mail)]
        for i, job in enumerate(orders):
            if job.task.kind == 'fragment':
                view = s.views.get(job.doc)
                runs = None if view is None else view.running
                for ahead in orders[:i]:
                    if ahead.doc == job.doc:
                        kind = ahead.task.kind
                        runs = {MAKES: False, 'discard': None}.get(kind, runs)
                        if kind in (SHOWS, 'freeze') and runs is not None:
                            runs = kind == SHOWS
                count('finds it running', runs is True, (job.nr, job.doc, runs))
    for n, p in s.place.items():
        count('awake runs', p.status != 'awake' or will_run(s, s.docs[p.doc]) is True, (n, p.doc))


def try_loads(log, keep):
    b, at_hand = Beside(log), AtHand()
    for i, row in enumerate(log):
        if i > 0 and log[i - 1].event != row.event:
            c = logcheck.Ctx(b.s, [r for r in log[i:] if r.event == row.event])
        if i > 0:
            try_orders_due(b, c, row, c.rows[c.rows.index(row) + 1:], keep)
            try_load_due(b, c, row)
        at_hand.before(b, row)
        b.feed(row)
        at_hand.after(b, row)
        ends = i + 1 == len(log) or log[i + 1].event != row.event
        if ends and i > 0:
            try_ends_due(b, c, [r for r in c.rows if r.kind == 'dropped'])
        try_whereabouts(b, at_hand, ends)
        try_entries(b)
        try_load_documents(b)
        try_ongoing(b, ends)
        try_kept(b, ends, keep)
        try_places(b, ends)
        try_load_desks(b)
        if ends or log[i + 1].kind != 'made':
            try_fragments(b.s)
        try_running(b.s, ends or log[i + 1].kind != 'made')
        try_lasting(b)
        try_past(b)
        if ends:
            try_off(b)


def main():
    for profile in PROFILES:
        seen.clear()
        for seed in range(FIRST, FIRST + COUNT):
            for turn in range(3):
                read = scenario.read(cases.text_of(seed, profile).encode())
                world = World(read.header)
                if turn == 0:
                    for line in read.lines:
                        tab.play_line(world, line)
                else:
                    tab.run(read, world, random.Random(1000 * seed + turn))
                log = logcheck.read_log(''.join(logtext.row_line(row) + '\n' for row in world.log))
                broken, _ = logcheck.check(log, hook=hook)
                count('legal log', broken is None, broken)
                if profile == 'frames':
                    try_frames(log)
                if profile in ('loads', 'kept'):
                    try_loads(log, read.header.keep)
        print(profile + ':', ', '.join(f'{what} {total}' + (f' ({wrong} FALSE)' if wrong else '') for what, (total, wrong) in sorted(seen.items())))
        if any(wrong for _, wrong in seen.values()):
            sys.exit(1)


if __name__ == '__main__':
    main()
