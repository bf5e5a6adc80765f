"""Rows and events of a log text as terms of the definitions: `term(row)` for one row, `event(rows)` for an event."""
import os
import re

TOP = os.path.dirname(os.path.dirname(os.path.abspath(__file__)))

def option(value, form):
    return 'None' if value is None else '(Some %s)' % form(value)


def text(value):
    return '(codes "%s")' % value


def number(value):
    return '%d' % value


def entry(value):
    return '(e %d %d)' % value


def delta(value):
    return '(pos %d)' % value if value >= 0 else '(negsuc %d)' % (-value - 1)


def mode(value):
    return 'modes.' + value.capitalize()


def request(what):
    if what.kind == 'load':
        return 'requests.Load (n %d) %s %s' % (what.nav, mode(what.mode), text(what.address))
    if what.kind == 'go':
        return 'requests.Go %s' % delta(what.delta)
    if what.kind == 'reload':
        return 'requests.Reload (n %d)' % what.nav
    return 'requests.Poke (n %d) %s' % (what.nav, action(what))


def action(what):
    if what.kind in ('push', 'replace'):
        return '(actions.%s %s %s)' % (what.kind.capitalize(), option(what.memo, text), option(what.ref, text))
    if what.kind == 'fragment':
        return '(actions.Fragment %s)' % text(what.text)
    if what.kind == 'frame':
        return '(actions.AddFrame (n %d))' % what.child
    if what.kind == 'remove':
        return '(actions.RemoveFrame (n %d))' % what.child
    if what.kind == 'docgo':
        return '(actions.Go %s)' % delta(what.delta)
    return 'actions.Edit'


def change(c):
    if c.kind == 'push':
        return '(changes.Push (n %d) %s (s %d) %s %s)' % (c.nav, entry(c.entry), c.state, text(c.address), option(c.memo, text))
    if c.kind == 'replace':
        return '(changes.Replace (n %d) %s %s (s %d) %s %s)' % (c.nav, entry(c.over), entry(c.entry), c.state, text(c.address), option(c.memo, text))
    if c.kind == 'frame':
        return '(changes.AddFrame (s %d) (n %d) %s (s %d))' % (c.owner, c.nav, entry(c.entry), c.state)
    if c.kind == 'remove':
        return '(changes.RemoveFrame (n %d))' % c.nav
    if c.kind == 'traverse':
        return '(changes.Traverse (t %d))' % c.goal
    if c.kind == 'reload':
        return '(changes.Reload (n %d))' % c.nav
    return 'changes.Edit'


def task(a):
    if a.kind == 'populate':
        return '(tasks.Populate (n %d) (s %d) %s %s)' % (a.nav, a.state, text(a.address), 'true' if a.initial else 'false')
    if a.kind == 'activate':
        return '(tasks.Activate %s (epoch %d) %d %d %s %s)' % (entry(a.entry), a.epoch, a.length, a.index, option(a.memo, text), text(a.address))
    if a.kind == 'update':
        return '(tasks.Update %d %d)' % (a.length, a.index)
    if a.kind == 'ask':
        return '(tasks.Ask %d leavings.%s)' % (a.slot, a.cause.capitalize())
    if a.kind == 'fragment':
        return '(tasks.DoFragment (r %d) %s %s)' % (a.req, mode(a.mode), text(a.address))
    return 'tasks.' + a.kind.capitalize()


def what_made(w):
    if w.kind == 'push':
        return '(whats.Push %s %s %s)' % (entry(w.entry), option(w.memo, text), text(w.address))
    if w.kind == 'replace':
        return '(whats.Replace %s %s %s %s)' % (entry(w.over), entry(w.entry), option(w.memo, text), text(w.address))
    if w.kind == 'frame':
        return '(whats.AddFrame (n %d))' % w.nav
    if w.kind == 'remove':
        return '(whats.RemoveFrame (n %d))' % w.nav
    if w.kind == 'go':
        return '(whats.Go %s)' % delta(w.delta)
    return 'whats.Edit'


def why(w):
    if w[0] == 'evict':
        return 'whys.Evict'
    return '(whys.Req (r %d))' % w[1] if w[0] == 'r' else '(whys.Death (x %d))' % w[1]


DENIALS = {'no-step': 'NoStep', 'no-navigable': 'NoNavigable', 'not-shown': 'NotShown', 'no-document': 'NoDocument',
           'nav-taken': 'NavTaken', 'address': 'BadAddress'}


def cause(c):
    if c[0] == 'stay':
        return 'drops.Stay'
    if c[0] == 'gone':
        return '(drops.Gone (x %d))' % c[1]
    return '(drops.%s (r %d))' % (c[0].capitalize(), c[1])


def outcome(row):
    if row.outcome == 'populated':
        return '(outcomes.Populated %s)' % option(row.slot, number)
    if row.outcome in ('leave', 'prompt'):
        return '(outcomes.Asked verdicts.%s)' % row.outcome.capitalize()
    return 'outcomes.' + row.outcome.capitalize()


def truth(value):
    return 'true' if value else 'false'


def kind(row):
    k = row.kind
    if k == 'opened':
        return 'rows.Opened %s (s %d) (d %d) (p %d) %s %s' % (entry(row.entry), row.state, row.doc, row.proc, option(row.slot, number), text(row.address))
    if k == 'accepted':
        return 'rows.Accepted (r %d) %s (%s)' % (row.req, option(row.doc, lambda doc: '(d %d)' % doc), request(row.what))
    if k == 'started':
        return 'rows.Started (r %d) %s' % (row.req, option(row.goal, lambda goal: '(t %d)' % goal))
    if k == 'applied':
        return 'rows.Applied (r %d) %s' % (row.req, change(row.change))
    if k == 'refused':
        return 'rows.Refused (r %d) denials.%s' % (row.req, DENIALS[row.reason])
    if k == 'dropped':
        return 'rows.Dropped (r %d) %s' % (row.req, cause(row.cause))
    if k == 'prompted':
        return 'rows.Prompted (r %d) (d %d)' % (row.req, row.doc)
    if k == 'answered':
        return 'rows.Answered (r %d) %s' % (row.req, truth(row.stay))
    if k == 'sent':
        job = row.job
        return 'sent %d %d %d %d %s %s' % (job.nr, job.proc, job.inc, job.doc, why(job.why), task(job.task))
    if k == 'taken':
        return 'rows.Taken (p %d) (j %d) %s %s' % (row.proc, row.job, truth(row.live), truth(row.dirty))
    if k == 'finished':
        return 'rows.Finished (p %d) (j %d) %s' % (row.proc, row.job, outcome(row))
    if k == 'made':
        return 'made %d %d %d %d %s' % (row.proc, row.req, row.doc, row.epoch, what_made(row.what))
    if k == 'delivered':
        return 'rows.Delivered (p %d)' % row.proc
    if k == 'killed':
        return 'rows.Killed (p %d) (x %d)' % (row.proc, row.death)
    return 'rows.Evicted (s %d)' % row.state


def actor(name):
    if name[0] == 'p':
        return '(actors.Proc (p %s))' % name[1:]
    return {'start': 'actors.Start', 'ui': 'actors.Ui', 'co': 'actors.Coord'}[name]


def term(row):
    return 'at %d %s (%s)' % (row.event, actor(row.actor), kind(row))


def terms(rows):
    return '\n    ∷ '.join([term(row) for row in rows] + ['[]'])


def event(rows):
    """The event of these rows, which have one number and one actor: its own row, and those after it."""
    actor = rows[0].actor
    who = 'by_proc %s' % actor[1:] if actor[0] == 'p' else {'start': 'by_start', 'ui': 'by_ui', 'co': 'by_coord'}[actor]
    rest = '[]' if len(rows) == 1 else '(%s)' % ' ∷ '.join([kind(row) for row in rows[1:]] + ['[]'])
    return '%s (%s) %s' % (who, kind(rows[0]), rest)


# the words that a proof by computing unfolds, by the file of definitions that has them
OPAQUE = ['address/Addresses', 'log_model/Events', 'log_model/Formed', 'log_model/Legal', 'log_model/LoadsEndInTime', 'log_model/ActsAtOnce']


def opaque_words(file):
    crate, module = file.split('/')
    with open(os.path.join(TOP, 'crates', crate, 'specs', module + '.antt')) as text:
        return re.findall(r'^unfoldable pub (\w+) :', text.read(), re.M)


WORDS = {file: opaque_words(file) for file in OPAQUE}

# what a proof by computing unfolds
UNFOLDING = 'unfolding url_on_literals ' + ' '.join(word for file in OPAQUE for word in WORDS[file])


def imported(file, more=()):
    crate, module = file.split('/')
    return 'use Rattle.%s.specs.%s.{%s}\n' % (crate, module, ', '.join(list(more) + WORDS[file]))


# what a file of logs imports
HEAD = '''use Rattle.std.proofs.Common.{◌≡◌, ℕ, ℤ, pos, negsuc, Bool, true, false, List, [], ◌∷◌, ◌++◌, codes, refl, Option, Some, None}
use Rattle.std.proofs.lemmas.Bool.{false≢true}
use Rattle.url.proofs.OnLiterals.{url_on_literals}
''' + imported('address/Addresses') + '''use Rattle.log_model.specs.declared.action.Action.TheVariants as actions
use Rattle.log_model.specs.declared.change.Change.TheVariants as changes
use Rattle.log_model.specs.declared.handler.LeaveCause.TheVariants as leavings
use Rattle.log_model.specs.declared.handler.Verdict.TheVariants as verdicts
use Rattle.log_model.specs.declared.job.Task.TheVariants as tasks
use Rattle.log_model.specs.declared.job.Why.TheVariants as whys
use Rattle.log_model.specs.declared.made.What.TheVariants as whats
use Rattle.log_model.specs.declared.outcome.Cause.TheVariants as drops
use Rattle.log_model.specs.declared.outcome.Denial.TheVariants as denials
use Rattle.log_model.specs.declared.outcome.Outcome.TheVariants as outcomes
use Rattle.log_model.specs.declared.request.Mode.TheVariants as modes
use Rattle.log_model.specs.declared.request.Request.TheVariants as requests
use Rattle.log_model.specs.declared.row_kind.Actor.TheVariants as actors
use Rattle.log_model.specs.declared.row_kind.LogRow.{LogRow}
use Rattle.log_model.specs.declared.row_kind.RowKind.TheVariants as rows
''' + imported('log_model/Events', ['at_end', 'each_row']) + imported('log_model/Formed') + imported('log_model/Legal', ['IsLegal', 'IsFormed', 'EachRequestOnce', 'OutcomesAreCaused', 'KeepsQueueOrder', 'OrdersAreCaused', 'ChecksAreKept', 'QuietIsSettled']) + imported('log_model/LoadsEndInTime', ['LoadsEndInTime']) + imported('log_model/ActsAtOnce', ['ActsAtOnce']) + '''use Rattle.log_model.specs.Suits.{Suits, is_suitable_row}
use Rattle.log_model.specs.declared.header.Header.{Header}
use Rattle.log_examples.specs.Rows.{n, s, r, p, t, x, d, j, e, epoch, at, sent, made}
use Rattle.log_examples.specs.Logs.{Event, by_start, by_ui, by_coord, by_proc, log_of, before, since, between, plain_settings}
'''
