"""Tries the definitions of the crate apply_plan on random runs of the model: whether all stand, the documents that a
traversal leaves, what each navigable needs, and the next need after each navigable, as a plain model's own coordinator
has them at each such moment. And after each pass what plan_laws takes for granted of a history: that a navigable with a
target has no more above it than there are rows, and hangs on a document state of its parent; and that one that is shown
has a target.

    python3 bench/plans.py MODEL [FIRST COUNT [PROFILE ...]]

MODEL is the folder of the model. Profiles are those of its cases.py. It ends with 1 where anything differs.
"""
import sys

MODEL = sys.argv[1]
sys.path.insert(0, MODEL)
import cases
import engine

FIRST, COUNT = (int(n) for n in (sys.argv[2:4] or (1, 60)))
PROFILES = sys.argv[4:] or ['frames', 'loads', 'kept', 'prompts', 'deaths', 'mixed']
Tab = engine.Coordinator
seen = {}


def count(what, differs=None):
    total, wrong = seen.get(what, (0, 0))
    seen[what] = (total + 1, wrong + (differs is not None))
    if differs is not None and wrong < 5:
        print(what, 'differs:', differs)


# ---- the definitions, word for word

def has_target(c, nav, step):
    target, given = c.store.target(nav, step), c.navs[nav].given
    return target is not None and given is not None and given == target.entry


def leads_on(c, reach, nav, step):
    status = c.navs[nav].status
    return {'visited': status == 'awake' and has_target(c, nav, step), 'wanted': status != 'lost', 'shown': True}[reach]


def way_up(c, reach, nav, step):
    n = c.navs[nav]
    if n.parent is None:
        return None
    target = c.store.target(n.parent, step)
    hangs = target is not None and target.state == n.owner
    return n.parent if hangs and leads_on(c, reach, n.parent, step) else None


def is_reached(c, reach, nav, step):
    if c.store.target(nav, step) is None:
        return False
    for _ in c.navs:
        if nav == 0:
            return True
        nav = way_up(c, reach, nav, step)
        if nav is None:
            return False
    return nav == 0


def walk_of(c):
    return sorted(c.navs, key=c.path)


def stands(c, nav, step):
    n = c.navs[nav]
    arrived = n.status == 'lost' or n.status == 'awake' and n.stands
    return has_target(c, nav, step) and n.reload == 'idle' and arrived


def are_settled(c, step):
    return all(stands(c, nav, step) for nav in c.navs if is_reached(c, 'wanted', nav, step))


def stays_on(c, nav, doc, step):
    target = c.store.target(nav, step)
    return target is not None and c.placed.get(target.state) == doc and is_reached(c, 'shown', nav, step)


def leaving_in(c, step):
    awake = ((nav, c.navs[nav].doc) for nav in walk_of(c) if c.navs[nav].status == 'awake')
    return [doc for nav, doc in awake if not stays_on(c, nav, doc, step)]


def need_of(c, nav, step):
    n, target = c.navs[nav], c.store.target(nav, step)
    if target is None or not (n.status == 'asleep' or n.reload != 'idle' or not has_target(c, nav, step)):
        return None
    if not is_reached(c, 'visited', nav, step):
        return None
    has_document = {'idle': target.state in c.placed, 'due': False, 'ready': True}[n.reload]
    return ('move' if has_document else 'populate', nav, target.entry)


def planned(c, step, after):
    walk = walk_of(c)
    if after is not None:
        if not is_reached(c, 'visited', after, step):
            return None
        walk = walk[walk.index(after) + 1:]
    return next((need for need in (need_of(c, nav, step) for nav in walk) if need), None)


# ---- what the model makes of it

def walked(c, step):
    """What the model's walk visits and finds, where it does nothing."""
    visited, needs, stack = [], [], [0]
    while stack:
        nav = stack.pop()
        n, row = c.navs[nav], c.store.target(nav, step)
        visited.append(nav)
        if n.status == 'asleep' or n.given != row.entry or n.reload != 'idle':
            made = n.reload == 'due' or n.reload == 'idle' and row.state not in c.placed
            needs.append(('populate' if made else 'move', nav, row.entry))
        if n.status == 'awake' and n.given == row.entry:
            stack.extend(reversed(c.store.children(row.state)))
    return visited, needs


def unless(mine, other):
    return None if mine == other else (mine, other)


def hangs(c, nav, target):
    """The navigable, which has this target, hangs in the history as in the tree."""
    n, rows = c.navs[nav], list(c.store.rows())
    holders = [row.nav for row in rows if row.state == n.owner]
    return len(c.path(nav)) <= len(rows) + 1 and (nav == 0 or target.owner == n.owner and holders[:1] == [n.parent])


all_stand, begin_check, c9_2, settle = Tab.all_stand, Tab.begin_check, Tab.c9_2, Tab.settle


def all_stand_tried(self, step):
    answer = all_stand(self, step)
    count('all stand' if answer else 'not all stand', unless(are_settled(self, step), answer))
    return answer


def begin_check_tried(self, req, leaving, cause):
    if cause == 'traverse':
        count('leaving', unless(leaving_in(self, self.running.goal), [d.nr for d in leaving]))
    return begin_check(self, req, leaving, cause)


def c9_2_tried(self, aim):
    visited, needs = walked(self, aim)
    count('visited', unless([nav for nav in walk_of(self) if is_reached(self, 'visited', nav, aim)], visited))
    count('needs', unless([need for need in (need_of(self, nav, aim) for nav in walk_of(self)) if need], needs))
    for after in [None] + list(self.navs):
        rest = visited if after is None else visited[visited.index(after) + 1:] if after in visited else []
        count('plan', unless(planned(self, aim, after), next((need for need in needs if need[1] in rest), None)))
    return c9_2(self, aim)


def settle_tried(self):
    settle(self)
    for step in [0, *self.store.used, max(self.store.used) + 1]:
        for nav in self.navs:
            target = self.store.target(nav, step)
            if target is not None:
                count('hangs', None if hangs(self, nav, target) else (nav, step))
            if self.is_shown(nav, step):
                count('shown', (nav, step) if target is None else None)


Tab.all_stand, Tab.begin_check, Tab.c9_2, Tab.settle = all_stand_tried, begin_check_tried, c9_2_tried, settle_tried

for profile in PROFILES:
    seen.clear()
    for seed in range(FIRST, FIRST + COUNT):
        cases.played(cases.text_of(seed, profile))
    print(profile, ', '.join('%s %d' % (what, total) for what, (total, _) in sorted(seen.items())))
    if any(wrong for _, wrong in seen.values()):
        sys.exit(1)
