"""Tries what the walk of a coordinator asks of the log, and what it gives back, on random runs of a model: as it begins,
each navigable on the way to that of an ongoing load is shown at the aim and stands there; who is awake was so on the
same document as the event began; each navigable above another was shown a document; and who is in need, and was shown a
document before, was moved by the reason: the traversal that runs, or a change of it or of one above it. As it ends, the
loads still stand, and where all stand nobody was woken. It tries, too, what a pass asks before that: each ongoing load's
navigable stands so, or has no entry, or is in need, or below one in need, of the traversal that runs, whose loads give
way first; and once stray documents are discarded and loads of navigables without an entry dropped, each document that
is stray is of a navigable without an entry, and nobody is awake on it. It prints how many walks there were, how many
navigables in need that were shown a document before, and how many stray documents were left.

    python3 bench/walks.py MODEL [FIRST COUNT [PROFILE ...]]

MODEL is the folder of the model. Profiles are those of its cases.py. It ends with 1 where anything is false.
"""
import sys

MODEL = sys.argv[1]
sys.path.insert(0, MODEL)
import cases
import engine
from tab import World

FIRST, COUNT = (int(n) for n in (sys.argv[2:4] or (1, 100)))
PROFILES = sys.argv[4:] or ['frames', 'loads', 'kept']

Coordinator = next(it for it in vars(engine).values() if isinstance(it, type) and hasattr(it, 'c9_2'))
walk, apply, step = Coordinator.c9_2, Coordinator.apply, World.step
give_way, sweep = Coordinator.drop_moved_loads, Coordinator.c9_1
walks, needs, strays, false, run = 0, 0, 0, {}, None


def note(what):
    false.setdefault(what, []).append(run)


def navs_of(self):
    return list(self.navs.values() if isinstance(self.navs, dict) else self.navs)


def in_need(self, aim):
    """The navigables that the walk visits at the aim and finds in need."""
    found, stack = [], [0]
    while stack:
        nav = stack.pop()
        n, row = self.navs[nav], self.store.target(nav, aim)
        if n.status == 'asleep' or n.given != row.entry:
            found.append(nav)
        if n.status == 'awake' and n.given == row.entry:
            stack.extend(reversed(self.store.children(row.state)))
    return found


def try_loads(self, aim, what):
    for load in self.loads.values():
        if not all(self.is_shown(nav, aim) and self.stands_at(nav, aim) for nav in self.path(load.nav)):
            note(what)


def stands_or_goes(self, nav, aim):
    return not self.store.has_row(nav) or all(self.is_shown(m, aim) and self.stands_at(m, aim) for m in self.path(nav))


def tried_give_way(self):
    aim = self.aim()
    away = set(in_need(self, aim))
    for load in self.loads.values():
        if not stands_or_goes(self, load.nav, aim) and not away & set(self.path(load.nav)):
            note('a load neither stands nor gives way as a pass begins')
    give_way(self)


def tried_sweep(self):
    global strays
    for load in self.loads.values():
        if not stands_or_goes(self, load.nav, self.aim()):
            note('a load does not stand as documents are swept')
    sweep(self)
    going = {load.state for load in self.loads.values()}
    for d in self.live.values():
        if not self.store.has_state(d.state) and d.state not in going:
            strays += 1
            if self.store.has_row(d.nav):
                note('a stray document of a navigable with an entry is left')
            if any(n.status == 'awake' and n.doc == d.nr for n in navs_of(self)):
                note('one is awake on a stray document')


def is_woken(self):
    return any(n.status == 'awake' and self.were_awake.get(n.nr) != n.doc for n in navs_of(self))


def tried_walk(self, aim):
    global walks, needs
    walks += 1
    try_loads(self, aim, 'a load does not stand as a walk begins')
    if is_woken(self):
        note('one was woken before a walk')
    if any(n.parent is not None and not self.navs[n.parent].last_doc for n in navs_of(self)):
        note('a parent was never shown a document')
    for nav in in_need(self, aim):
        if self.navs[nav].epoch >= 1:
            needs += 1
            kind, number = self.cause or (None, None)
            if not self.traversing() and not (kind == 'r' and self.changed.get(number) in self.path(nav)):
                note('one in need was moved by nobody')
    walk(self, aim)
    try_loads(self, aim, 'a load does not stand as a walk ends')
    if self.all_stand(aim) and is_woken(self):
        note('one was woken, and all stand')


def noted_apply(self, req, change):
    self.changed[req] = getattr(change, 'nav', None)
    return apply(self, req, change)


def begun_step(self, event):
    for it in vars(self).values():
        if isinstance(it, Coordinator):
            it.were_awake = {n.nr: n.doc for n in navs_of(it) if n.status == 'awake'}
            it.changed = getattr(it, 'changed', {})
    return step(self, event)


Coordinator.c9_2, Coordinator.apply, World.step = tried_walk, noted_apply, begun_step
Coordinator.drop_moved_loads, Coordinator.c9_1 = tried_give_way, tried_sweep
Coordinator.were_awake, Coordinator.changed = {}, {}
for profile in PROFILES:
    for seed in range(FIRST, FIRST + COUNT):
        run = profile, seed
        cases.played(cases.text_of(seed, profile))
print(f'{walks} walks, {needs} navigables in need that were shown a document before, {strays} stray documents left')
for what, runs in false.items():
    print(f'false: {what}: {len(runs)} times, first in {runs[0]}')
sys.exit(bool(false))
