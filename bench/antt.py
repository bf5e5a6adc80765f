"""Definitions of specs/ and logs of log_examples, read from their files and computed in Python.

It knows as much of the language as those files use: definitions by equations with patterns and `where`, records,
lambdas, `if`, `let`, and the words of the prelude below. Definitions become Python functions, lists tuples, texts strings,
`Some a` the tuple ('Some', a), records values of `Record`. A type that is a sentence, as `IsTrue test`, is read as its test.
What it computes is what the prover computes by `refl`: `bench/definitions.py` tries that on all example logs.
"""
import functools
import keyword
import os
import re

TOP = os.path.dirname(os.path.dirname(os.path.abspath(__file__)))

# ---- words


class Record:
    __slots__ = ('__dict__',)

    def __init__(self, **fields):
        self.__dict__ = fields

    def __repr__(self):
        return '{%s}' % ', '.join('%s=%r' % item for item in self.__dict__.items())


def updated(record, **fields):
    new = Record()
    new.__dict__ = {**record.__dict__, **fields}
    return new


class NoMatch(Exception):
    """No equation fits: a definition with a case too few."""


def list_all(test, items):
    for item in items:
        if not test(item):
            return False
    return True


def list_any(test, items):
    for item in items:
        if test(item):
            return True
    return False


def find(test, items):
    for item in items:
        if test(item):
            return 'Some', item
    return None


def slice_get(items, at):
    return ('Some', items[at]) if at < len(items) else None


def slice_set(items, at, item):
    return items[:at] + (item,) + items[at + 1:] if at < len(items) else items


def take_while(test, items):
    out = []
    for item in items:
        if not test(item):
            break
        out.append(item)
    return tuple(out)


def filter_map(f, items):
    found = [f(item) for item in items]
    return tuple(some[1] for some in found if some is not None)


def fold(f, start, items):
    for item in items:
        start = f(start, item)
    return start


def plus_int(a, b):
    total = (a[1] if a[0] == 'pos' else -a[1] - 1) + (b[1] if b[0] == 'pos' else -b[1] - 1)
    return ('pos', total) if total >= 0 else ('negsuc', -total - 1)


# the words of the prelude, and how many arguments they take
PRELUDE = {
    'not': (1, lambda a: not a), 'nat_lt': (2, lambda a, b: a < b), 'nat_le': (2, lambda a, b: a <= b),
    'min': (2, min), 'max': (2, max), 'bytes_eq': (2, lambda a, b: a == b), 'codes': (1, lambda text: text),
    'length': (1, len), 'list_all': (2, list_all), 'list_any': (2, list_any), 'find': (2, find),
    'filter': (2, lambda test, items: tuple(item for item in items if test(item))),
    'map': (2, lambda f, items: tuple(f(item) for item in items)), 'filter_map': (2, filter_map), 'fold': (3, fold),
    'take_while': (2, take_while), 'slice_get': (2, slice_get), 'slice_set': (3, slice_set),
    'take': (2, lambda n, items: items[:n]), 'drop': (2, lambda n, items: items[n:]),
    'is_some': (1, lambda some: some is not None), 'is_none': (1, lambda some: some is None),
    'option_map': (2, lambda f, some: None if some is None else ('Some', f(some[1]))),
    'option_and_then': (2, lambda f, some: None if some is None else f(some[1])),
    'option_map_or': (3, lambda f, some, other: other if some is None else f(some[1])),
    'option_to_list': (1, lambda some: () if some is None else (some[1],)),
    'result_ok': (1, lambda result: ('Some', result[1]) if result[0] == 'Ok' else None),
    'IsTrue': (1, lambda test: test), 'Some': (1, lambda a: ('Some', a)),
}
CONSTANTS = {'true': 'True', 'false': 'False', 'None': 'None', '[]': '()', 'zero': '0'}


def addresses(url):
    """The words of `address`, by the plain model's reading of URLs."""
    def reading(call, *texts):
        try:
            return 'Ok', call(*texts)
        except url.AddressError as error:
            return 'Err', (error.kind,)

    def fragment(text):
        found = url.fragment(text)
        return None if found is None else ('Some', found)

    cached = functools.lru_cache(maxsize=None)
    return {
        'blank_text': (0, lambda: 'about:blank'), 'base_of': (1, cached(url.base)), 'fragment_of': (1, cached(fragment)),
        'origin_of': (1, cached(lambda text: url.origin(text) or '')),
        'has_same_base': (2, cached(lambda a, b: url.base(a) == url.base(b))),
        'is_rewritable': (2, cached(url.rewritable)),
        'resolved': (2, cached(lambda text, reference: reading(url.resolve, text, reference.encode()))),
        'with_fragment': (2, cached(lambda text, fragment: reading(url.with_fragment, text, fragment))),
    }


# ---- reading

TOKEN = re.compile(r'''\s+|--[^\n]*|(?P<text>"[^"]*")|(?P<name>[A-Za-z_][\w']*(?:\.[\w']+)*)|(?P<number>\d+)|(?P<part>(?<=\))\.[\w']+)
    |(?P<sign>\+ℤ|\+\+|&&|\|\||==|≡|→|×|∷|\[\]|[-+=(){};,.:λ])|(?P<other>\S)''', re.X)


def tokens(text):
    """The tokens of a text, and where each stands."""
    found = [token for token in TOKEN.finditer(text) if token.lastgroup]
    return [(token.lastgroup, token.group()) for token in found], [token.span() for token in found]


class Node:
    """A term: its kind, its parts, the text that spells it, and where that stands in which item of a file."""
    __slots__ = ('kind', 'parts', 'text', 'item', 'span')

    def __init__(self, kind, *parts):
        self.kind, self.parts, self.text, self.item, self.span = kind, parts, '', '', None

    def children(self):
        for part in self.parts:
            for node in part if isinstance(part, (list, tuple)) else [part]:
                if isinstance(node, Node):
                    yield node
                elif isinstance(node, tuple) and isinstance(node[-1], Node):
                    yield node[-1]


LEVELS = [['≡'], ['||'], ['&&'], ['=='], ['∷', '++'], ['+', '-', '+ℤ']]


class Reader:
    def __init__(self, text):
        self.text, self.at = text, 0
        self.found, self.spans = tokens(text)

    def peek(self):
        return self.found[self.at] if self.at < len(self.found) else ('end', '')

    def next(self):
        self.at += 1
        return self.found[self.at - 1]

    def take(self, word):
        if self.next()[1] != word:
            raise SyntaxError('%r expected: %r' % (word, self.found[max(0, self.at - 12):self.at + 8]))

    def spelled(self, start, node):
        if node.span is None:
            node.item, node.span = self.text, (self.spans[start][0], self.spans[self.at - 1][1])
            node.text = ' '.join(self.text[slice(*node.span)].split())
        return node

    def term(self, level=0):
        start = self.at
        return self.spelled(start, self.operated(level))

    def operated(self, level):
        if level == len(LEVELS):
            return self.applied()
        left = self.term(level + 1)
        sign = self.peek()[1]
        if self.peek()[0] == 'sign' and sign in LEVELS[level]:
            self.next()
            return Node('binary', sign, left, self.term(level))
        return left

    def applied(self):
        head = self.atom()
        args = []
        while self.peek()[0] in ('name', 'number', 'text') and self.peek()[1] not in ('then', 'else', 'in', 'where') or self.peek()[1] in ('(', '[]', 'λ'):
            args.append(self.atom())
        return Node('apply', head, args) if args else head

    def atom(self):
        start = self.at
        return self.spelled(start, self.plain_atom())

    def plain_atom(self):
        kind, word = self.next()
        if word == 'λ':
            names = []
            while self.peek()[1] != '.':
                if self.peek()[1] == '(':
                    self.next()
                    names.append(self.next()[1])
                    depth = 1
                    while depth:
                        depth += {'(': 1, ')': -1}.get(self.next()[1], 0)
                else:
                    names.append(self.next()[1])
            self.take('.')
            return Node('lambda', names, self.term())
        if word == 'if':
            test = self.term()
            self.take('then')
            yes = self.term()
            self.take('else')
            return Node('if', test, yes, self.term())
        if word == 'let':
            name = self.next()[1]
            self.take('=')
            value = self.term()
            self.take('in')
            return Node('let', name, value, self.term())
        if word == 'record':
            base = None if self.peek()[1] == '{' else self.atom()
            self.take('{')
            fields = []
            while self.peek()[1] != '}':
                name = self.next()[1]
                self.take('=')
                fields.append((name, self.term()))
                if self.peek()[1] == ';':
                    self.next()
            self.take('}')
            return Node('record', base, fields)
        if word == '(':
            items = [self.term()]
            while self.peek()[1] == ',':
                self.next()
                items.append(self.term())
            self.take(')')
            first = items[0] if len(items) == 1 else Node('record', None, [(str(i), item) for i, item in enumerate(items)])
            while self.peek()[0] == 'part':
                first = Node('field', first, self.next()[1][1:])
            return first
        if kind == 'number':
            return Node('number', int(word))
        if kind == 'text':
            return Node('text', word[1:-1])
        if kind == 'name' or word == '[]':
            return Node('name', word)
        raise SyntaxError('%r: %r' % (word, self.found[max(0, self.at - 12):self.at + 8]))


class Definition:
    """A word: its name, its type as text, and its equations, each the patterns and the term."""

    def __init__(self, file, name, type_):
        self.file, self.name, self.type, self.equations = file, name, type_, []

    @property
    def arity(self):
        return len(self.equations[0][0])

    def arity_of_parameter(self, at):
        """How many arguments the function takes that is given there."""
        parts, depth = [''], 0
        for letter in re.sub(r'\{[^}]*\} →', '', self.type):
            depth += {'(': 1, ')': -1}.get(letter, 0)
            if letter == '→' and depth == 0:
                parts.append('')
            else:
                parts[-1] += letter
        part = parts[at].strip() if at < len(parts) else ''
        return part.count('→') if part.startswith('(') else 0

    @property
    def is_test(self):
        return self.type.rsplit('→', 1)[-1].strip() == 'Bool'


class Sentences:
    """A record type that is a sentence: its parameters, and its fields as terms."""

    def __init__(self, name, params, fields):
        self.name, self.params, self.fields = name, params, fields


def chunks(text, indent):
    """The items that begin at an indentation, each with its further lines."""
    out = []
    for line in text.split('\n'):
        if not line.strip() or line.strip().startswith('--'):
            continue
        width = len(line) - len(line.lstrip())
        if width <= indent or not out:
            out.append(line)
        else:
            out[-1] += '\n' + line
    return out


def signature(chunk):
    return re.match(r'\s*(?:(?:abbrev|unfoldable) )?(?:pub )?([A-Za-z_][\w\']*) :\s(.*)', chunk, re.S)


def read_equation(chunk):
    reader = Reader(chunk)
    left = []
    while reader.peek()[1] != '=':
        left.append(reader.atom() if left else Node('name', reader.next()[1]))
    reader.take('=')
    body = reader.term()
    if reader.peek()[0] != 'end':
        raise SyntaxError('%r' % reader.found[reader.at:reader.at + 8])
    return left[0].parts[0], left[1:], body


class Module:
    """A file of definitions."""

    # a lemma: its name, what it claims, and its proof
    LEMMA = re.compile(r'^pub (\w+) :\s(.*?)\nunfolding [^\n]*(?:\n [^\n]*)*\n\1\s(.*?)(?=\n\n|\Z)', re.S | re.M)

    def __init__(self, path, name):
        self.name, self.definitions, self.records, self.scopes, self.imports = name, {}, {}, {}, {}
        with open(path) as source:
            text = source.read()
        self.lemmas = self.LEMMA.findall(text)
        for crate, home, words in re.findall(r'^(?:pub )?use Rattle\.(\w+)\.[\w.]*?(\w+)\.\{([^}]*)\}', text, re.M):
            self.imports.update((word.strip(), '%s.%s' % (crate, home)) for word in words.split(','))
        self.read(self.LEMMA.sub('', text), 0, '')

    def read(self, text, indent, outer):
        local = {}
        for chunk in chunks(text, indent):
            word = chunk.split()[0]
            if word in ('use', 'pub') and ' use ' in ' ' + chunk.split('\n')[0] or word == 'use':
                continue
            found = re.match(r'pub (record|data) ([A-Za-z_]\w*)', chunk)
            if found:
                if found[1] == 'record':
                    self.record(chunk)
                continue
            found = signature(chunk)
            if found and '=' not in chunk.split(':')[0]:
                name = outer + '/' + found[1] if outer else '%s:%s' % (self.name, found[1])
                local[found[1]] = name
                self.definitions[name] = Definition(self.name, name, found[2])
                continue
            self.equation(chunk, indent, outer)
        scope = outer or self.name
        self.scopes[scope] = {**self.scopes.get(scope, {}), **local}

    def equation(self, chunk, indent, outer):
        if re.search(r'Unit \{0\}|⊥|\A\w+ = [^\n]* × ', chunk):
            return  # of a sentence that is no test, or of a type
        head, _, inner = chunk.partition('\n' + ' ' * (indent + 2) + 'where\n')
        name, patterns, body = read_equation(head)
        name = outer + '/' + name if outer else '%s:%s' % (self.name, name)
        self.definitions[name].equations.append((patterns, body))
        if inner:
            self.read(inner, indent + 4, name)

    def record(self, chunk):
        head, _, rest = chunk.partition('where')
        if 'Type 0' not in head:
            return
        name = head.split()[2]
        params = re.findall(r'\((\w+) :', head)
        fields = []
        for part in chunks(rest, 2):
            found = signature(part)
            if params and found:
                try:
                    fields.append((found[1], Reader(found[2]).term()))
                except SyntaxError:
                    return
        if params:
            self.records['%s:%s' % (self.name, name)] = Sentences(name, params, fields)


# ---- computing

def safe(name):
    name = name.replace("'", '_q')
    return name + '_' if keyword.iskeyword(name) or name in ('R', 'up') else name


def python_name(name):
    return 'w_' + name.replace('/', '__').replace(':', '__').replace('.', '__').replace("'", '_q')


def access(fields):
    return ''.join('._%s' % field if field[0].isdigit() else '.' + safe(field) for field in fields)


def field_label(name):
    return '_' + name if name[0].isdigit() else safe(name)


def is_constructor(word):
    last = word.split('.')[-1]
    return last[0].isupper() or last in ('awake', 'lost', 'asleep', 'pos', 'negsuc')


class World:
    """Definitions as Python functions, in one name space; `swap` puts other terms in the place of some."""

    def __init__(self, modules, words):
        self.definitions, self.records, self.scopes, self.imports = {}, {}, {}, {}
        for module in modules:
            self.imports[module.name] = module.imports
            for name, definition in module.definitions.items():
                if definition.equations:
                    self.definitions.setdefault(name, definition)
            self.records.update(module.records)
            self.scopes.update(module.scopes)
        self.words = dict(words)
        self.space = {'R': Record, 'up': updated, 'partial': functools.partial, 'NoMatch': NoMatch, 'plus_int': plus_int}
        for name, (_, f) in self.words.items():
            self.space['w_' + name] = f

        self.takes = {}
        # inner words that read what their outer ones were given stand inside these
        self.inside = {name for name in self.definitions if '/' in name and not self.stands_alone(name)}

    def holder(self, name):
        """The word whose function has that of this one inside."""
        while name in self.inside:
            name = name.rpartition('/')[0]
        return name

    def stands_alone(self, name):
        try:
            self.source(name, {}, None, None, {}, 0)
        except NameError:
            return False
        return True

    def build(self, wrap=None):
        for name in self.definitions:
            if name not in self.inside:
                self.define(name, wrap=wrap)

    def define(self, name, swap=None, leave=None, wrap=None):
        """Defines the function of a word anew; `leave` is an equation that is left out, as its word and number."""
        name = self.holder(name)
        exec('\n'.join(self.source(name, swap or {}, leave, wrap, {}, 0)), self.space)

    # -- functions

    def source(self, name, swap, leave, wrap, outer, depth):
        definition = self.definitions[name]
        params = ['a%d_%d' % (depth, i) for i in range(definition.arity)]
        self.takes = {**(self.takes if depth else {}), **{param: definition.arity_of_parameter(i) for i, param in enumerate(params)}}
        lines = ['def %s(%s):' % (python_name(name), ', '.join(params))]
        inner = [word for word in getattr(self, 'inside', ()) if word.rpartition('/')[0] == name]
        for number, (patterns, body) in enumerate(definition.equations):
            if leave == (name, number):
                continue
            tests, names = [], dict(outer)
            for param, pattern in zip(params, patterns):
                self.match(pattern, param, tests, names)
            value = self.term(body, names, name, swap, wrap)
            if wrap:
                value = wrap(('equation', name, number), value)
            block = ['return %s' % value]
            if inner and number == len(definition.equations) - 1:
                block = [line for word in inner for line in self.source(word, swap, leave, wrap, names, depth + 1)] + block
            if tests:
                lines.append('    if %s:' % ' and '.join(tests))
                lines += ['        ' + line for line in block]
            else:
                lines += ['    ' + line for line in block]
                break
        else:
            lines.append('    raise NoMatch(%r)' % name)
        return lines

    def match(self, pattern, path, tests, names):
        if pattern.kind == 'name':
            word = pattern.parts[0]
            if word == '[]':
                tests.append('not %s' % path)
            elif word == 'true':
                tests.append(path)
            elif word == 'false':
                tests.append('not %s' % path)
            elif word == 'None':
                tests.append('%s is None' % path)
            elif word == 'zero':
                tests.append('%s == 0' % path)
            elif is_constructor(word):
                tests.append('%s[0] == %r' % (path, word.split('.')[-1]))
            elif word != '_':
                names[word] = path
        elif pattern.kind == 'binary':
            tests.append(path)
            self.match(pattern.parts[1], path + '[0]', tests, names)
            self.match(pattern.parts[2], path + '[1:]', tests, names)
        elif pattern.kind == 'apply':
            word = pattern.parts[0].parts[0]
            if word == 'suc':
                tests.append('%s > 0' % path)
                self.match(pattern.parts[1][0], '(%s - 1)' % path, tests, names)
                return
            tests.append('%s is not None' % path if word == 'Some' else '%s[0] == %r' % (path, word.split('.')[-1]))
            for i, part in enumerate(pattern.parts[1]):
                self.match(part, '%s[%d]' % (path, i + 1), tests, names)
        else:
            raise SyntaxError('pattern %s' % pattern.kind)

    # -- terms

    def resolve(self, word, scope):
        """The definition or sentence that a word names: of the word's own parts, of its file, or of one that its file names."""
        while '/' in scope or ':' in scope:
            if word in self.scopes.get(scope, {}):
                return self.scopes[scope][word]
            scope = scope.rpartition('/' if '/' in scope else ':')[0]
        return self.imported(word, scope)

    def imported(self, word, module):
        name = '%s:%s' % (module, word)
        if name in self.definitions or name in self.records:
            return name
        home = self.imports.get(module, {}).get(word)
        return self.imported(word, home) if home in self.imports and home != module else None

    def term(self, node, names, scope, swap, wrap):
        if node in swap:
            node = swap[node]
            if isinstance(node, str):
                return node
        value = self.plain_term(node, names, scope, swap, wrap)
        return wrap(node, value) if wrap else value

    def plain_term(self, node, names, scope, swap, wrap):
        def sub(part, more=None):
            return self.term(part, {**names, **more} if more else names, scope, swap, wrap)
        kind = node.kind
        if kind == 'number':
            return str(node.parts[0])
        if kind == 'text':
            return repr(node.parts[0])
        if kind == 'name':
            return self.named(node.parts[0], [], names, scope)
        if kind == 'field':
            return sub(node.parts[0]) + access([node.parts[1]])
        if kind == 'lambda':
            params = node.parts[0]
            return '(lambda %s: %s)' % (', '.join(safe(p) for p in params), sub(node.parts[1], {p: safe(p) for p in params}))
        if kind == 'let':
            name = node.parts[0]
            return '(lambda %s: %s)(%s)' % (safe(name), sub(node.parts[2], {name: safe(name)}), sub(node.parts[1]))
        if kind == 'if':
            return '(%s if %s else %s)' % (sub(node.parts[1]), sub(node.parts[0]), sub(node.parts[2]))
        if kind == 'record':
            fields = ', '.join('%s=%s' % (field_label(name), sub(part)) for name, part in node.parts[1] if part not in swap or swap[part] is not None)
            return 'R(%s)' % fields if node.parts[0] is None else 'up(%s, %s)' % (sub(node.parts[0]), fields)
        if kind == 'binary':
            sign, left, right = node.parts[0], sub(node.parts[1]), sub(node.parts[2])
            if sign == '∷':
                return '((%s,) + %s)' % (left, right)
            if sign == '+ℤ':
                return 'plus_int(%s, %s)' % (left, right)
            if sign == '-':
                return 'max(0, %s - %s)' % (left, right)
            return '(%s %s %s)' % (left, {'&&': 'and', '||': 'or', '==': '==', '++': '+', '+': '+', '≡': '=='}[sign], right)
        if kind == 'apply':
            head, args = node.parts[0], [sub(arg) for arg in node.parts[1]]
            if head.kind == 'name':
                return self.named(head.parts[0], args, names, scope)
            return '%s(%s)' % (sub(head), ', '.join(args))
        raise SyntaxError(kind)

    def named(self, word, args, names, scope):
        first, *fields = word.split('.')
        if first in names:
            value = names[first] + access(fields)
            if args and len(args) < self.takes.get(value, 0):
                return 'partial(%s)' % ', '.join([value] + args)
            return '%s(%s)' % (value, ', '.join(args)) if args else value
        if word in CONSTANTS:
            return CONSTANTS[word]
        name = self.resolve(word, scope)
        if name in self.records:
            record = self.records[name]
            inner = dict(zip(record.params, args))
            return '(%s)' % ' and '.join(self.term(part, inner, name, {}, None) for _, part in record.fields)
        if name is not None:
            return self.called(python_name(name), self.definitions[name].arity, args)
        if first != word and self.resolve(first, scope) is not None:
            return self.named(first, [], names, scope) + access(fields)
        if word in self.words and not (word == 'Some' and args):
            return self.called('w_' + word, self.words[word][0], args)
        if word == 'suc':
            return '(%s + 1)' % args[0]
        if is_constructor(word):
            return '(%s,)' % ', '.join([repr(word.split('.')[-1])] + args)
        raise NameError('%s in %s' % (word, scope))

    def called(self, name, arity, args):
        if arity == 0:
            return '%s()' % name if not args else '%s()(%s)' % (name, ', '.join(args))
        if not args:
            return name
        if len(args) < arity:
            return 'partial(%s, %s)' % (name, ', '.join(args))
        if len(args) == arity:
            return '%s(%s)' % (name, ', '.join(args))
        return '%s(%s)(%s)' % (name, ', '.join(args[:arity]), ', '.join(args[arity:]))

    # -- closed terms

    def value(self, node, module, **given):
        """The value of a term that stands in a file, with the values of some names."""
        return eval(self.term(node, {name: name for name in given}, module, {}, None), {**self.space, **given})


def modules_of(crate, folder, apart=()):
    """The files of a folder of a crate, but for its table of contents and those that are set apart."""
    base = os.path.join(TOP, 'crates', crate, folder)
    names = [file.removesuffix('.antt') for file in sorted(os.listdir(base)) if file.endswith('.antt')]
    return [Module(os.path.join(base, name + '.antt'), '%s.%s' % (crate, name)) for name in names if name not in ('Lib', *apart)]
