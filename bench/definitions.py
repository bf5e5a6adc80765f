#!/usr/bin/env python3
"""Weakens the definitions of a legal log, one part at a time, and tells which of them no example log notices.

    python3 bench/definitions.py MODEL [--word WORD] [--kept] [--hints FILE] [--table]

MODEL is the folder of the plain model, whose reading of URLs stands for that of `address`. The definitions are the files
of crates/log_model/specs, the logs and what is claimed of them the lemmas of crates/log_examples/proofs. All is computed by
`antt.py`; first each lemma, as it stands. A mutant has one part changed, which is found in the files:

    a conjunct, a premise or the test of a `holds`, `list_any`, `list_all`, `filter` or `find` is true, a disjunct is false
    an equality is turned; `nat_lt` has its sides changed, or is `nat_le`, and the other way round
    an equation of a test is true, or false where it was true
    an `if` takes one of its ways always
    a case of what is no test is left out, where a later one takes it in; a field isn't changed

It is noticed where a lemma fails. Those that aren't are listed, unless `KNOWN` says why no log can tell them. --word takes
the mutants of one definition or file, --kept prints the lemma that notices each mutant, --hints FILE keeps these in a file,
so that a later run tries them first, --table writes the table of docs/DEFINITIONS.md. Outside the gate; some minutes, or one with hints.

    python3 bench/definitions.py MODEL --prove COUNT FOLDER

tries COUNT of the mutants by the prover: FOLDER gets a copy of log_examples whose lemmas read the mutated definitions, and
`rt check` there has to refuse those that are noticed, and to pass the others.
"""
import json
import os
import random
import re
import shutil
import subprocess
import sys
import time

from antt import CONSTANTS, PRELUDE, TOP, NoMatch, Node, Reader, World, addresses, is_constructor, modules_of
from beside import listed, with_those_below

# definitions that no lemma on a log reads
APART = ('Order', 'Soundness', 'Limits', 'Entries')
TESTERS = ('holds', 'list_any', 'list_all', 'filter', 'find')

# mutants that no log tells from the definitions: the reasons, each with its mutants
REASONS = [
    ('an event has a row', ['Formed:have_one_actor: equation 1 is false']),
    ('what an opening row leads to is settled', ['Legal:opens: without conjunct `is_settled_if_quiet (after nothing row)`']),
    ('the desk of a process that no row has named is the empty one', ['After:desks_after/by_kind: equation 1 is left out']),
    ('this is read of a load alone', [
        'AfterRequests:load_replaces: equation 2 is true', 'Once:loads: equation 2 is true', 'Orders:populates_load/loads_there: equation 2 is true']),
    ('a load has no delta', ['Causes:denial_at_start: equation 1 is left out']),
    ('a reason is compared with a request or a death alone', ['Equal:same_why: equation 3 is false', 'Equal:same_why: equation 4 is false']),
    ('the two numbers differ there', ['Walk:is_way_before: `nat_lt nav.0 other.0` is nat_le']),
    ('documents of one number are the same', ['Checks:lower_doc: `nat_lt doc.0 best.0` is nat_le']),
    ('`may_follow` lets no row follow a Taken row', ['Formed:is_said_rightly/by_kind: without conjunct `length p.later == 0`']),
    ('`is_followed_duly` says which rows follow a Finished row', ['Formed:may_follow: equation 6 is true', 'Formed:is_made: equation 2 is true']),
    ('`may_follow` lets none but Made rows follow a Finished row', ['Formed:is_followed_by_made/by_kind: equation 2 is true']),
    ('`is_applied_duly` says which rows follow a Made row', ['Formed:may_follow: equation 7 is true', 'Formed:is_applied_edit: equation 2 is true']),
    ('`may_follow` lets none but an applied edit follow a Made row', ['Formed:is_applied_duly/by_kind: equation 2 is true']),
    ('`request_served` changes nothing then', ['AfterRequests:requests_sent: equation 2 is left out', 'AfterRequests:requests_sent: equation 3 is left out']),
    ('the last document of a navigable is not kept: to be shown took it out, and one joins as another one is shown', ['AfterPlaces:kept_leaving: as if not `left.0 == doc.0`']),
    ('`is_destroyed_by` asks for a navigable without a row, and the last change that met it with one is the one that took it', [
        'AfterPlaces:with_taker: without conjunct `not (has_row place.nav new.rows)`']),
    ('`change_of_made` makes a removal of a frame that has a row, and the top hangs on nothing', [
        'History:fits: equation 4 is true', 'History:fits: without conjunct `not (nav.0 == 0)` (2)', 'History:fits: without conjunct `has_row nav history.rows`']),
    ('`made_of_task` makes nothing of another order', ['Once:is_made_of_order/answers: equation 2 is true']),
    ('`is_made_of` asks for a document that runs', ['Views:made_of_task: as if `view.running`']),
]
KNOWN = {name: reason for reason, names in REASONS for name in names}


class Mutant:
    """One part of a definition changed. `when` says at which value of the part it may show: False, True or None for any."""

    def __init__(self, word, change, node, when, swap=None, leave=None):
        self.word, self.change, self.node, self.when, self.swap, self.leave = word, change, node, when, swap, leave
        self.name = '%s: %s' % (word.replace('log_model.', ''), change)


def leaves(node, sign):
    if node.kind == 'binary' and node.parts[0] == sign:
        return leaves(node.parts[1], sign) + leaves(node.parts[2], sign)
    return [node]


def head(node):
    return node.parts[0].parts[0] if node.kind == 'apply' and node.parts[0].kind == 'name' else None


def is_literal(node):
    return node.kind == 'name' and node.parts[0] in ('true', 'false')


def covers(general, special):
    """The pattern takes in all that the other one does."""
    if general.kind == 'name' and general.parts[0] not in CONSTANTS and not is_constructor(general.parts[0]):
        return True
    if general.kind != special.kind:
        return False
    if general.kind == 'name':
        return general.parts[0] == special.parts[0]
    parts = (general.parts[1:], special.parts[1:]) if general.kind == 'binary' else (general.parts[1], special.parts[1])
    return (general.kind == 'binary' or head(general) == head(special)) and all(map(covers, *parts))


def mutants_of(world, name):
    definition = world.definitions[name]
    for number, (patterns, body) in enumerate(definition.equations):
        if definition.is_test:
            if not is_literal(body):
                yield Mutant(name, 'equation %d is true' % (number + 1), body, False, {body: 'True'})
            else:
                truth = body.parts[0] == 'true'
                yield Mutant(name, 'equation %d is %s' % (number + 1, 'false' if truth else 'true'), body, truth, {body: str(not truth)})
        elif any(all(map(covers, later, patterns)) for later, _ in definition.equations[number + 1:]):
            yield Mutant(name, 'equation %d is left out' % (number + 1), body, None, leave=(name, number))
        yield from mutants_in(name, body)


def mutants_in(name, node):
    """The mutants inside a term."""
    def mutant(change, part, when, swap):
        return Mutant(name, change, part, when, swap)

    if node.kind == 'binary' and node.parts[0] in ('&&', '||'):
        sign = node.parts[0]
        for part in leaves(node, sign):
            yield mutant('without %s `%s`' % ('conjunct' if sign == '&&' else 'disjunct', part.text), part, sign == '||', {part: str(sign == '&&')})
            yield from mutants_in(name, part)
        return
    if node.kind == 'binary' and node.parts[0] == '==':
        same = Node('binary', *node.parts)
        yield mutant('`%s` is turned' % node.text, node, None, {node: Node('apply', Node('name', 'not'), [same])})
    if head(node) in ('nat_lt', 'nat_le') and len(node.parts[1]) == 2:
        other = Node('name', 'nat_le' if head(node) == 'nat_lt' else 'nat_lt')
        yield mutant('`%s` is %s' % (node.text, other.parts[0]), node, head(node) == 'nat_le', {node: Node('apply', other, node.parts[1])})
        yield mutant('`%s` has its sides changed' % node.text, node, None, {node: Node('apply', node.parts[0], node.parts[1][::-1])})
    if head(node) == 'implies':
        part = node.parts[1][0]
        yield mutant('without premise `%s`' % part.text, part, False, {part: 'True'})
    if head(node) in TESTERS and len(node.parts[1]) == 2:
        test = node.parts[1][0]
        if test.kind == 'lambda':
            body = test.parts[1]
            if not is_literal(body) and not (body.kind == 'binary' and body.parts[0] == '&&'):
                yield mutant('without test `%s`' % body.text, body, False, {body: 'True'})
        elif head(node) != 'list_all':
            yield mutant('without test `%s`' % test.text, test, None, {test: '(lambda *given: True)'})
    if node.kind == 'if':
        part = node.parts[0]
        yield mutant('as if `%s`' % part.text, part, False, {part: 'True'})
        yield mutant('as if not `%s`' % part.text, part, True, {part: 'False'})
    if node.kind == 'record' and node.parts[0] is not None:
        fields = node.parts[1]
        for field, part in fields:
            swap = {part: None} if len(fields) > 1 else {node: node.parts[0]}
            yield mutant('field %s of `%s` is not changed' % (field, node.text if len(node.text) < 60 else node.text[:57] + '..'), node, None, swap)
    for part in node.children():
        yield from mutants_in(name, part)


class Examples:
    """The definitions, and the claims on logs."""

    AFTER = 'log_model.After:after'

    def __init__(self, model):
        sys.path.insert(0, model)
        import url
        self.proofs = modules_of('log_examples', 'proofs')
        self.world = World(modules_of('log_model', 'specs', APART) + modules_of('log_examples', 'specs', ('Verdicts',)) + self.proofs,
                           {**PRELUDE, **addresses(url)})
        self.world.build()
        self.remember({})
        self.claims = [claim for module in self.proofs for lemma in module.lemmas for claim in self.claims_of(module, *lemma)]

    def claims_of(self, module, name, claim, proof):
        """What a lemma claims: its name, a test, the values that it reads, and whether it holds."""
        refuted = '⊥' in claim
        term = Reader(claim.split('→')[0]).term()
        word = self.world.resolve(head(term), module.name)
        given = [self.world.value(part, module.name) for part in term.parts[1]]
        if word not in self.world.records:
            yield name, self.test(term.parts[0], module.name, len(given)), given, not refuted
            return
        record = self.world.records[word]
        for field, part in record.fields:
            if not refuted or proof.strip().endswith('holds.' + field):
                yield '%s.%s' % (name, field), self.tests(word, field), given, not refuted

    def test(self, node, module, count):
        names = ['g%d' % i for i in range(count)]
        return compile('lambda %s: %s' % (', '.join(names), self.world.term(Node('apply', node, [Node('name', n) for n in names]), {n: n for n in names}, module, {}, None)), '<claim>', 'eval')

    def tests(self, word, field):
        """The test of a field of a sentence."""
        record = self.world.records[word]
        return compile('lambda %s: %s' % (', '.join(record.params), self.world.term(dict(record.fields)[field], {p: p for p in record.params}, word, {}, None)), '<claim>', 'eval')

    def holds(self, test, given):
        return eval(test, self.world.space)(*given)

    # -- what a log has come to is computed once

    def remember(self, memo):
        plain = self.world.space.setdefault('plain_after', self.world.space['w_log_model__After__after'])

        def after(s, row):
            key = id(s), id(row)
            found = memo.get(key)
            if found is None:
                found = memo[key] = s, row, plain(s, row)
            return found[2]
        self.memo = memo
        self.world.space['w_log_model__After__after'] = after

    def reached(self, start):
        """The words that a word's definition reads, and those that these read."""
        found, waiting = set(), [start]
        while waiting:
            name = waiting.pop()
            if name in found:
                continue
            found.add(name)
            for _, body in self.world.definitions[name].equations:
                waiting += [word for word in self.words_of(body, name) if word in self.world.definitions]
        return found

    def words_of(self, node, scope):
        if node.kind == 'name':
            parts = node.parts[0].split('.')
            return [word for word in [self.world.resolve(node.parts[0], scope), self.world.resolve(parts[0], scope)] if word]
        return [word for part in node.children() for word in self.words_of(part, scope)]


class Watch:
    """Which mutants may show in a claim: those whose part had a value there that they change."""

    def __init__(self, examples, mutants):
        self.examples, self.seen = examples, set()
        self.parts = {}
        for number, mutant in enumerate(mutants):
            self.parts.setdefault(mutant.node, []).append((number, mutant.when))

    def wrap(self, node, value):
        if node not in self.parts:
            return value
        for number, when in self.parts[node]:
            value = 'mark_%s(%d, %s)' % (when, number, value)
        return value

    def start(self):
        world, watch = self.examples.world, self

        def mark_true(number, value):
            if value:
                watch.seen.add(number)
            return value

        def mark_false(number, value):
            if not value:
                watch.seen.add(number)
            return value

        def mark(number, value):
            watch.seen.add(number)
            return value
        world.space.update(mark_True=mark_true, mark_False=mark_false, mark_None=mark)
        world.build(wrap=self.wrap)
        plain, memo = world.space['w_log_model__After__after'], {}

        def after(s, row):
            key = id(s), id(row)
            if key not in memo:
                outer, watch.seen = watch.seen, set()
                memo[key] = s, row, plain(s, row), watch.seen
                watch.seen = outer
            watch.seen |= memo[key][3]
            return memo[key][2]
        world.space['w_log_model__After__after'] = after

    def of(self, test, given):
        self.seen = set()
        return self.examples.holds(test, given), self.seen

    def stop(self):
        world = self.examples.world
        world.build()
        world.space['plain_after'] = world.space['w_log_model__After__after']
        self.examples.remember({})


class Trial:
    def __init__(self, model, word=None):
        self.examples = Examples(model)
        world = self.examples.world
        self.folding = self.examples.reached(Examples.AFTER)
        read = set()
        for record in world.records:
            if record.split(':')[1] in ('IsLegal', 'ActsAtOnce', 'Suits'):
                for _, part in world.records[record].fields:
                    for start in self.examples.words_of(part, record):
                        read |= self.examples.reached(start) if start in world.definitions else set()
        read |= self.examples.reached('log_model.LoadsEndInTime:LoadsEndInTime')
        self.unread = sorted(name for name in world.definitions if name.startswith('log_model') and name not in read)
        self.mutants = [mutant for name in world.definitions if name in read and name.startswith('log_model')
                        for mutant in mutants_of(world, name)]
        counts = {}
        for mutant in self.mutants:
            counts[mutant.name] = counts.get(mutant.name, 0) + 1
            if counts[mutant.name] > 1:
                mutant.name += ' (%d)' % counts[mutant.name]
        if word:
            self.mutants = [mutant for mutant in self.mutants if word in mutant.name]

    def put(self, mutant):
        world = self.examples.world
        world.define(mutant.word, swap=mutant.swap, leave=mutant.leave)
        self.kept = self.examples.memo
        if mutant.word in self.folding:
            if mutant.word == Examples.AFTER:
                world.space['plain_after'] = world.space['w_log_model__After__after']
            self.examples.remember({})

    def take_back(self, mutant):
        world = self.examples.world
        world.define(mutant.word)
        if mutant.word in self.folding:
            if mutant.word == Examples.AFTER:
                world.space['plain_after'] = world.space['w_log_model__After__after']
            self.examples.remember(self.kept)

    def noticed(self, mutant, claims):
        """The name of a claim that fails with the mutant, or None."""
        self.put(mutant)
        try:
            for name, test, given, wanted in claims:
                try:
                    if self.examples.holds(test, given) != wanted:
                        return name
                except (NoMatch, RecursionError, TypeError, IndexError):
                    return name + ' (no value)'
            return None
        finally:
            self.take_back(mutant)


# ---- the table of docs/DEFINITIONS.md

TABLE = '| File | An example that a weakened definition misjudges |\n|---|---|\n'


def table(found):
    """For each definition a log that notices one of its mutants: a broken one, where there is one."""
    words = {}
    for mutant, claim in found:
        module, word = mutant.word.split('.')[1].split(':')
        log = re.sub(r'_(is_refused|is_legal|acts_at_once|ends_loads|suits|keeps_[a-z_]+?)(\.\w+)?$', '', claim) if claim else None
        words.setdefault(module, {}).setdefault(word.split('/')[0], []).append((claim is None or '_is_refused' not in claim, log))
    out = TABLE
    for module, logs in words.items():
        told = ['`%s`: %s' % (word, '`%s`' % min(options)[1] if any(log for _, log in options) else 'none')
                for word, options in ((word, [option for option in options if option[1]] or options) for word, options in logs.items())]
        out += '| `%s` | %s |\n' % (module, '; '.join(told))
    return out


def write_table(found):
    path = os.path.join(TOP, 'docs', 'DEFINITIONS.md')
    with open(path) as file:
        text = file.read()
    start = text.index(TABLE)
    end = text.find('\n\n', start) + 1
    with open(path, 'w') as file:
        file.write(text[:start] + table(found) + text[end:])


# ---- a sample by the prover

def changed_file(text, mutant):
    """The text of a file with the mutant, or None where its place isn't told by its item alone."""
    if mutant.swap is None or len(mutant.swap) != 1:
        return None
    (node, other), = mutant.swap.items()
    if other is None or node.span is None or text.count(node.item) != 1:
        return None
    if isinstance(other, str):
        spelled = {'True': 'true', 'False': 'false'}.get(other)
    elif other.kind == 'apply':
        same = mutant.node
        spelled = 'not (%s)' % same.text if same.kind == 'binary' else '%s %s' % (
            other.parts[0].parts[0], ' '.join('(%s)' % part.text for part in other.parts[1]))
    else:
        spelled = '(%s)' % other.text
    if spelled is None:
        return None
    start, end = node.span
    text = text.replace(node.item, node.item[:start] + spelled + node.item[end:])
    for word in ('true', 'false', 'not', 'nat_lt', 'nat_le'):
        if not re.search(r'Prelude\.\{[^}]*\b%s\b' % word, text):
            text = re.sub(r'^(use )', 'use Rattle.std.specs.Prelude.{%s}\n\\1' % word, text, count=1, flags=re.M)
    return text


def prove(trial, found, count, folder):
    """Lets the prover judge some mutants: it has to refuse those that are noticed, and to pass the others."""
    crates = os.path.join(TOP, 'crates')
    for crate in with_those_below(['log_examples']):
        shutil.copytree(os.path.join(crates, crate), os.path.join(folder, 'crates', crate))
    with open(os.path.join(folder, 'crates.txt'), 'w') as file:
        file.write(''.join(listed()[crate] + '\n' for crate in with_those_below(['log_examples'])))
    with open(os.path.join(folder, 'HANDLES'), 'w') as file:
        file.write('Handles allowed: none.\n')
    home = os.path.join(folder, 'crates', 'log_examples')
    names = [module[:-5] for module in sorted(os.listdir(os.path.join(crates, 'log_model', 'specs'))) if module != 'Lib.antt']

    def moved(text):
        return re.sub(r'Rattle\.log_model\.specs\.(%s)\.' % '|'.join(names), r'Rattle.log_examples.specs.Def\1.', text)

    def put(path, text):
        with open(path, 'w') as file:
            file.write(text)

    files = {}
    for name in names:
        with open(os.path.join(crates, 'log_model', 'specs', name + '.antt')) as file:
            files[name] = file.read()
        put(os.path.join(home, 'specs', 'Def%s.antt' % name), moved(files[name]))
    with open(os.path.join(home, 'specs', 'Lib.antt'), 'a') as file:
        file.write(''.join('pub mod Def%s\n' % name for name in names))
    for part in ('specs', 'proofs'):
        for name in os.listdir(os.path.join(home, part)):
            if not name.startswith('Def'):
                path = os.path.join(home, part, name)
                with open(path) as file:
                    text = file.read()
                put(path, moved(text))
    tried = []
    mixed = random.Random(1).sample(found, len(found))
    noticed, others = [pair for pair in mixed if pair[1]], [pair for pair in mixed if not pair[1]]
    mixed = [pair for pairs in zip(noticed, others) for pair in pairs] + noticed[len(others):]
    for mutant, claim in mixed:
        name = mutant.word.split(':')[0].split('.')[1]
        text = changed_file(files[name], mutant)
        if text is None or len(tried) == count:
            continue
        path = os.path.join(home, 'specs', 'Def%s.antt' % name)
        put(path, moved(text))
        run = subprocess.run(['rt', 'check'], cwd=home, stdout=subprocess.PIPE, stderr=subprocess.STDOUT, text=True)
        put(path, moved(files[name]))
        refused = 'logic=proved' not in run.stdout
        wrong = [line for line in run.stdout.split('\n') if ': error:' in line]
        is_right = refused == (claim is not None) and all('/proofs/' in line for line in wrong)
        tried.append(is_right)
        print('%s\n    by computing %s; the prover: %s%s' % (mutant.name, claim or 'not noticed', (wrong or ['proved'])[0][:120], '' if is_right else ', WHICH IS ANOTHER VERDICT'), flush=True)
    print('%d mutants were tried by the prover, and %d judged so' % (len(tried), sum(tried)))


def main(model, *words):
    word = words[words.index('--word') + 1] if '--word' in words else None
    started = time.time()
    trial = Trial(model, word)
    examples = trial.examples
    wrong = [name for name, test, given, wanted in examples.claims if examples.holds(test, given) != wanted]
    print('%d claims of %d lemmas, %d of them computed otherwise' % (len(examples.claims), sum(len(m.lemmas) for m in examples.proofs), len(wrong)))
    if wrong:
        sys.exit('\n'.join(wrong))
    watch = Watch(examples, trial.mutants)
    watch.start()
    shown = {}
    for claim in examples.claims:
        _, seen = watch.of(claim[1], claim[2])
        for number in seen:
            shown.setdefault(number, []).append(claim)
    watch.stop()
    print('%d mutants, %d of parts that no claim reaches or changes by, %.0f s' % (len(trial.mutants), len(trial.mutants) - len(shown), time.time() - started))
    hints = words[words.index('--hints') + 1] if '--hints' in words else None
    told = {}
    if hints and os.path.exists(hints):
        with open(hints) as file:
            told = json.load(file)
    left, found = [], []
    for number, mutant in enumerate(trial.mutants):
        # broken logs first, and before them the one that noticed the mutant in an earlier run
        claims = sorted(shown.get(number, []), key=lambda claim: (claim[0] != told.get(mutant.name), claim[3]))
        name = trial.noticed(mutant, claims)
        found.append((mutant, name))
        if hints:
            told[mutant.name] = name
            if number % 50 == 49 or number == len(trial.mutants) - 1:
                with open(hints, 'w') as file:
                    json.dump(told, file, indent=0)
        if name is None:
            left.append(mutant)
        if '--kept' in words:
            print('%s\t%s' % (mutant.name, name))
    known = [mutant for mutant in left if mutant.name in KNOWN]
    for mutant in left:
        if mutant.name not in KNOWN:
            print(mutant.name)
    for name in KNOWN:
        if not word and name not in [mutant.name for mutant in left]:
            print('has a reason, and is noticed or gone: %s' % name)
    print('%d mutants: %d are noticed, %d are the same in meaning, %d are left; %.0f s' % (
        len(trial.mutants), len(trial.mutants) - len(left), len(known), len(left) - len(known), time.time() - started))
    if '--table' in words:
        write_table(found)
    if '--prove' in words:
        count, folder = words[words.index('--prove') + 1:][:2]
        prove(trial, found, int(count), folder)


if __name__ == '__main__':
    sys.setrecursionlimit(20000)
    main(*sys.argv[1:])
