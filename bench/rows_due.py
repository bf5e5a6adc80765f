"""Tries on random runs when rows of loads, of documents that are left or kept, and of fragment navigations may be logged, as
`load_rows` and `leave_rows` ask. It is part of facts.py."""
import logcheck
from tries import MAKES, SHOWS, count, ongoing_loads


def order_in(row, kind):
    return row.job if row.kind == 'sent' and row.job.task.kind == kind else None


def left_next(s, later):
    """The document that the later rows leave first, if they leave one."""
    for job in (order_in(row, SHOWS) for row in later):
        last = s.last_act.get(s.docs[job.doc].nav) if job else None
        if last is not None and last.doc != job.doc:
            return last.doc
    return None


def kept_with(s, doc):
    return s.kept if doc is None else [doc] + [other for other in s.kept if other != doc]


def may_discard(b, c, doc, later, keep):
    """The ways in which a document may be discarded."""
    s, d, shows = b.s, b.s.docs[doc], [job for job in (order_in(row, SHOWS) for row in later) if job]
    was_last = d.nav in s.last_act and s.last_act[d.nav].doc == doc
    ways, listed = set(), kept_with(s, doc)
    if was_last and any(s.docs[job.doc].nav == d.nav and job.doc != doc for job in shows):
        ways |= {'stateless left'} if d.state not in s.H.states else set()
        ways |= {'left and too many'} if listed[-1] == doc and len(listed) > keep else set()
    listed = kept_with(s, left_next(s, later))
    if doc in s.kept and not was_last and listed[-1] == doc:
        ways |= {'evicted'} if c.own.kind == 'evicted' else {'kept and too many'} if len(listed) > keep else set()
    if logcheck.below_dead_or_discarded(s, doc):
        ways.add('below')
    targets = [logcheck.D3_target(s.H, n, logcheck.D12c_aim(s)) for n in logcheck.D11_shown(s.H, logcheck.D12c_aim(s))]
    if (c.report is not None and c.report[0] == 'done' and c.report[1] == d.pop_job and not was_last and doc not in s.kept
            and not logcheck.ongoing_load_of_state(s, d.state) and not any(t.state == d.state for t in targets if t)):
        ways.add('unneeded')
    if d.state not in s.H.states and not logcheck.ongoing_load_of_state(s, d.state):
        ways.add('without rows')
    return ways


def try_orders_due(b, c, row, later, keep):
    s = b.s
    if order_in(row, 'freeze'):
        shown = {s.docs[job.doc].nav: job.doc for job in (order_in(r, SHOWS) for r in later) if job}
        n = next((n for n, doc in c.awake.items() if doc == row.job.doc), None)
        line = [] if n is None else [n] + logcheck.above(s.H, n)
        count('freeze due', row.job.doc not in b.frozen and any(m in shown and shown[m] != c.awake.get(m) for m in line), row.text)
    if order_in(row, 'discard'):
        ways = may_discard(b, c, row.job.doc, later, keep)
        count('discard due', ways, row.text)
        for way in ways:
            count('discarded: ' + way)
    if order_in(row, MAKES):
        q = next((q for q in ongoing_loads(s) if q.lstate == row.job.task.state), None)
        count('make of load due', q is None or (q.nav == row.job.task.nav and row.job.doc == len(s.docs) + 1
              and all(d.discarded for d in s.docs.values() if d.state == q.lstate)), row.text)


def try_load_due(b, c, row):
    s = b.s
    q = s.reqs[row.req] if row.kind in ('started', 'applied') else None
    if q is None or q.kind != 'load':
        return
    if row.kind == 'started':
        aim, given = logcheck.D12c_aim(s), logcheck.given_row(s, q.nav)
        placed = all(n in logcheck.D11_shown(s.H, aim) and logcheck.D12c_stands(s, n, aim) for n in logcheck.way(s.H, q.nav))
        awake = s.place[q.nav].status == 'awake' and given is not None
        count('load to begin', q.acc_ev == c.event and q.started is None and q.outcome is None and placed
              and not (awake and logcheck.rule16(given.address, q.what.address)), row.text)
    elif q.frag_job is None:
        own = [d for d in s.docs.values() if d.state == q.lstate and not d.discarded and d.pop_delivered is not None]
        count('load to apply', q.started is not None and q.made is None and own and logcheck.D5_fits(s.H, row.change)
              and logcheck.running_traversal(s) is None and q.nav in logcheck.D11_shown(s.H, s.H.current) and q.nr not in b.parked, row.text)
    else:
        present = q.made is not None and logcheck.present(s, q.made)
        count('fragment to apply', q.started is None and present and q.made.what.kind in ('push', 'replace'), row.text)


def try_ends_due(b, c, drops):
    """What rows ask of their event's end."""
    s = b.s
    for row in c.rows:
        if row.kind == 'started' and s.reqs[row.req].kind == 'load':
            nr, nav = row.req, s.reqs[row.req].nav
            count('load begins alone', not any(q.nav == nav and q.nr < nr for q in ongoing_loads(s)), row.text)
    for row in drops:
        if s.reqs[row.req].kind == 'load':
            ways = logcheck.drop_cases(s, c, row)
            count('drop due', ways, row.text)
            for way in ways:
                count('dropped: ' + way)
