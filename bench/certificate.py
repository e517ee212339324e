#!/usr/bin/env python3
"""Says what `affc replay` has to answer of a certificate: `valid`, or the line behind `affc: certificate: `.

    python3 certificate.py SOURCE SCHEDULE CERTIFICATE [--items]

It follows docs/FORMATS.md, shares no code with affc, and searches for nothing. SCHEDULE may be `-`, the order of
the source. `--items` also prints how many items of each kind there are. Sources are what `sources.py` reads.
"""
import json
import re
import sys

TOKEN = re.compile(r'\d+ULL|\d+|\w+|<<|>>|<=|>=|==|&&|\+\+|[-+*&|^]=|\S')
MOST_COLUMNS, MOST_ROWS, WORD = 128, 1024, 2**63


class Fault(Exception):
    """Why a certificate isn't valid, as the line says it."""


# ---- Forms over named columns


class Form:
    def __init__(self, terms=None, constant=0):
        self.terms = {c: v for c, v in (terms or {}).items() if v}
        self.constant = constant

    def __add__(self, other):
        other = form(other)
        terms = dict(self.terms)
        for c, v in other.terms.items():
            terms[c] = terms.get(c, 0) + v
        return Form(terms, self.constant + other.constant)

    def __mul__(self, other):
        other = form(other)
        one, by = (self, other) if not other.terms else (other, self)
        assert not by.terms, 'a product of two names'
        return Form({c: v * by.constant for c, v in one.terms.items()}, one.constant * by.constant)

    __radd__, __rmul__ = __add__, __mul__
    __neg__ = lambda self: self * -1
    __sub__ = lambda self, other: self + -form(other)
    __rsub__ = lambda self, other: form(other) - self

    def at(self, images):
        """The form with images in place of columns; other columns stay."""
        out = Form({}, self.constant)
        for c, v in self.terms.items():
            out = out + images.get(c, Form({c: 1})) * v
        return out

    def interval(self, ranges):
        ends = [(v * ranges[c][0], v * ranges[c][1]) for c, v in self.terms.items()]
        return self.constant + sum(map(min, ends)), self.constant + sum(map(max, ends))

    def value(self, point):
        return self.constant + sum(v * point[c] for c, v in self.terms.items())

    def row(self, columns):
        assert set(self.terms) <= set(columns)
        return [self.terms.get(c, 0) for c in columns], self.constant


def form(value):
    return value if isinstance(value, Form) else Form({}, value)


def rows_of(left, relation, right):
    """The rows of a comparison, each of which is to be at least 0."""
    return {'<=': lambda a, b: [b - a], '<': lambda a, b: [b - a - 1], '>=': lambda a, b: [a - b], '>': lambda a, b: [a - b - 1],
            '==': lambda a, b: [a - b, b - a]}[relation](form(left), form(right))


# ---- The nest of a source


class Statement:
    def __init__(self, number, loops, conditions, loads, store):
        self.number, self.loops, self.conditions, self.loads, self.store = number, loops, conditions, loads, store
        self.accesses = loads + [store]


class Nest:
    def __init__(self, text):
        text = re.sub(r'/\*.*?\*/|//[^\n]*', ' ', text, flags=re.S)
        self.ranges = {n: (int(a), int(b)) for n, a, b in re.findall(r'#pragma affc param (\w+) (-?\d+) (-?\d+)', text)}
        contexts = re.findall(r'#pragma affc context (.*)', text)
        self.tokens = TOKEN.findall(re.sub(r'#[^\n]*', '', text))
        self.params, self.arrays, self.temps, self.statements, self.loops = [], {}, [], [], 0
        self.until('(')
        self.parameters()
        names = {n: Form({n: 1}) for n in self.params}
        while self.tokens[0] == 'uint64_t':
            while self.take() != ';':
                name = self.take()
                self.arrays[name] = self.subscripts(names)
                self.temps.append(name)
        while self.tokens[0] != '}':
            self.statement(names, [], [])
        first = [r for n in self.params for r in rows_of(self.ranges[n][0], '<=', names[n]) + rows_of(names[n], '<=', self.ranges[n][1])]
        self.context = first + [r for c in contexts for r in self.conditions_of(c, names)]
        self.order = {a: k for k, a in enumerate(self.arrays)}
        for s in self.statements:
            self.bound(s)
        self.alive = [s for s in self.statements if s.alive]

    def take(self):
        return self.tokens.pop(0)

    def until(self, *ends):
        out, depth = [], 0
        while depth > 0 or self.tokens[0] not in ends:
            depth += (self.tokens[0] in '([') - (self.tokens[0] in ')]')
            out.append(self.take())
        self.take()
        return ' '.join(out)

    def affine(self, text, names):
        return form(eval(text, {}, names))

    def subscripts(self, names):
        out = []
        while self.tokens[0] == '[':
            self.take()
            out.append(self.affine(self.until(']'), names))
        return out

    def parameters(self):
        while self.tokens[0] != '{':
            words = [self.take()]
            while self.tokens[0] not in '[,)':
                words.append(self.take())
            if words[0] == 'int64_t':
                self.params.append(words[-1])
            else:
                self.arrays[words[-1]] = self.subscripts({n: Form({n: 1}) for n in self.params})
            self.take()
        self.take()

    def conditions_of(self, text, names):
        out = []
        for part in text.split('&&'):
            part = part.strip()
            while part.count('(') > part.count(')'):
                part = part.replace('(', '', 1)
            while part.count(')') > part.count('('):
                part = part[::-1].replace(')', '', 1)[::-1]
            if re.fullmatch(r'\(.*(<|>|=).*\)', part):
                part = part[1:-1]
            left, relation, right = re.split(r'(<=|>=|==|<|>)', part)
            out += rows_of(self.affine(left.strip(), names), relation, self.affine(right.strip(), names))
        return out

    def statement(self, names, loops, conditions):
        if self.tokens[0] == '{':
            self.take()
            while self.tokens[0] != '}':
                self.statement(names, loops, conditions)
            self.take()
        elif self.tokens[0] == 'for':
            self.tokens = self.tokens[3:]
            name, _, low = self.take(), self.take(), self.affine(self.until(';'), names)
            _, relation, high = self.take(), self.take(), self.affine(self.until(';'), names)
            self.until(')')
            column = f'{name} in {self.loops}'
            loop = (self.loops, column, low, relation, high)
            self.loops += 1
            self.statement(names | {name: Form({column: 1})}, loops + [loop], conditions)
        elif self.tokens[0] == 'if':
            self.tokens = self.tokens[2:]
            self.statement(names, loops, conditions + self.conditions_of(self.until(')'), names))
        else:
            name = self.take()
            store = (name, self.subscripts(names))
            sign = self.take()
            loads = [] if sign == '=' else [store]
            while self.tokens[0] != ';':
                token = self.take()
                if token in self.arrays:
                    loads.append((token, self.subscripts(names)))
                elif token == 'uint64_t':
                    self.take()
                    self.take()
                    self.until(')')
            self.take()
            self.statements.append(Statement(len(self.statements), loops, conditions, loads, store))

    def bound(self, s):
        """The ranges of its iterators, whether it can have instances, and its domain: behind the context, and whole."""
        ranges, s.alive, s.inner = dict(self.ranges), True, []
        s.iterators = [column for _, column, _, _, _ in s.loops]
        for _, column, low, relation, high in s.loops:
            ends = low.interval(ranges)[0], high.interval(ranges)[1] - (relation == '<')
            if ends[0] > ends[1]:
                s.alive = False
                return
            ranges[column] = ends
            it = Form({column: 1})
            s.inner += rows_of(low, '<=', it) + rows_of(it, relation, high) + rows_of(ends[0], '<=', it) + rows_of(it, '<=', ends[1])
        s.inner += s.conditions
        s.domain = self.context + s.inner
        s.columns = self.params + s.iterators

    def storing(self, array):
        return [s for s in self.alive if s.store[0] == array]


class Instance:
    """A statement with a form for each of its iterators."""

    def __init__(self, s, forms):
        self.s, self.forms, self.images = s, forms, dict(zip(s.iterators, forms))


def own(s, mark=''):
    """The instance whose forms are columns of its own."""
    return Instance(s, [Form({c + mark: 1}) for c in s.iterators])


def before(first, second, sides, tie):
    """The systems of one list of forms before another."""
    out = []
    equal = []
    for a, b in sides:
        out.append(equal + rows_of(a, '<', b))
        equal = equal + rows_of(a, '==', b)
    return out + [equal] if tie else out


class Orders:
    def __init__(self, nest, text):
        self.nest, self.times, self.given = nest, None, {}
        flat = ' '.join(text.split())
        if re.match(r'time\b', flat):
            self.times = {}
        names = {n: Form({n: 1}) for n in nest.params}
        for word, forms, inverse in re.findall(r'(S\d+|fold \w+) ?: ?\((.*?)\) ?;((?: ?\w+ ?= ?[^;]*;)?)', flat):
            if word.startswith('fold '):
                array = word[5:]
                ranks = len(nest.arrays[array])
                of = [self.one(f, {f'x{k}': Form({k: 1}) for k in range(ranks)}) for f in forms.split(',')]
                back = [self.one(f.split('=')[1], {f'y{k}': Form({k: 1}) for k in range(ranks)}) for f in inverse.strip(' ;').split(',')]
                self.given[array] = tuple([[f.terms.get(k, 0) for k in range(ranks)] for f in forms] for forms in (of, back))
            else:
                s = nest.statements[int(word[1:])]
                iterators = {c.split(' ')[0]: Form({c: 1}) for c in s.iterators}
                self.times[s.number] = [self.one(f, names | iterators) for f in forms.split(',')]

    def one(self, text, names):
        return form(eval(text.strip(), {}, names))

    def in_source(self, a, b):
        common = 0
        while common < min(len(a.s.loops), len(b.s.loops)) and a.s.loops[common][0] == b.s.loops[common][0]:
            common += 1
        return before(a, b, list(zip(a.forms[:common], b.forms[:common])), a.s.number < b.s.number)

    def in_schedule(self, a, b):
        if self.times is None:
            return self.in_source(a, b)
        sides = [(f.at(a.images), g.at(b.images)) for f, g in zip(self.times[a.s.number], self.times[b.s.number])]
        return before(a, b, sides, a.s.number < b.s.number)


# ---- Certificates as JSON


class Number:
    def __init__(self, text):
        self.whole = re.fullmatch(r'-?\d+', text) is not None and text != '-0' and -WORD <= int(text) < WORD
        self.value = int(text) if self.whole else None


def parsed(data):
    def number(text):
        if abs(float(text)) == float('inf'):
            raise ValueError(text)
        return Number(text)

    def none(text):
        raise ValueError(text)

    def depth(value):
        inner = value.values() if isinstance(value, dict) else value if isinstance(value, list) else ()
        return 1 + max(map(depth, inner), default=0) if isinstance(value, (dict, list)) else 0

    def look(value):
        for it in value if isinstance(value, list) else [*value, *value.values()] if isinstance(value, dict) else ():
            look(it)
        if isinstance(value, str):
            value.encode()
    try:
        value = json.loads(data.decode(), parse_int=number, parse_float=number, parse_constant=none)
        look(value)
        if depth(value) > 127:
            raise ValueError('deep')
        return value
    except (ValueError, OverflowError, RecursionError) as fault:
        raise Fault('json') from fault


def is_number(value):
    return isinstance(value, Number)


def are_numbers(value, count=None):
    return isinstance(value, list) and all(map(is_number, value)) and count in (None, len(value))


def within(numbers, most):
    return all(n.whole and abs(n.value) <= most for n in numbers)


def fits(numbers, coefficients, constant):
    return within(numbers[:-1], coefficients) and within(numbers[-1:], constant)


class Tree:
    """A tree of a load, whose columns are the iterators of its statement, the parameters and the quotients above a node."""

    def __init__(self, nodes, nest, s, load):
        self.nest, self.s, self.array = nest, s, load[0]
        self.shape, self.numbers, self.deepest, self.leaves, self.at, self.nodes = True, True, 0, [], 0, nodes
        self.shape = isinstance(nodes, list) and self.walk(0, []) and self.at == len(nodes)

    def form(self, numbers, quotients):
        columns = [*self.s.iterators, *self.nest.params, *[f'q{k}' for k in range(quotients)]]
        self.numbers &= fits(numbers, 2**24, 2**50)
        if not all(n.whole for n in numbers):
            return Form()
        return Form({c: n.value for c, n in zip(columns, numbers)}, numbers[-1].value)

    def walk(self, quotients, path):
        """Reads a tree in preorder; path is what stands above: rows, and how many inner nodes."""
        todo = [(quotients, path, 0)]
        while todo:
            quotients, path, depth = todo.pop()
            if self.at == len(self.nodes):
                return False
            node = self.nodes[self.at]
            self.at += 1
            width = len(self.s.iterators) + len(self.nest.params) + quotients + 1
            if not isinstance(node, list) or not node:
                return False
            tag = node[0]
            if tag == 't' and len(node) == 2 and are_numbers(node[1], width):
                test = self.form(node[1], quotients)
                todo += [(quotients, path + rows_of(test, '<', 0), depth + 1), (quotients, path + rows_of(test, '>=', 0), depth + 1)]
            elif tag == 'd' and len(node) == 3 and are_numbers(node[1], width) and is_number(node[2]):
                self.numbers &= node[2].whole and 1 <= node[2].value <= 2**24
                f, c, q = self.form(node[1], quotients), node[2].value or 1, Form({f'q{quotients}': 1})
                todo.append((quotients + 1, path + rows_of(q * c, '<=', f) + rows_of(f, '<', q * c + c), depth + 1))
            elif tag == 'w' and len(node) == 3 and is_number(node[1]) and isinstance(node[2], list) and all(are_numbers(f, width) for f in node[2]):
                self.numbers &= node[1].whole
                named = {s.number: s for s in self.nest.storing(self.array)}.get(node[1].value)
                if node[1].whole and (named is None or len(named.iterators) != len(node[2])):
                    return False
                forms = [self.form(f, quotients) for f in node[2]]
                self.leaves.append((quotients, path, Instance(named, forms) if named else None))
            elif tag == 'i' and len(node) == 1:
                self.leaves.append((quotients, path, 'input'))
            else:
                return False
            self.deepest = max(self.deepest, depth)
        return True

    def fits(self):
        return self.numbers and self.deepest <= 400


class Fold:
    def __init__(self, value, nest, array):
        self.nest, self.array, self.ranks, self.value = nest, array, len(nest.arrays[array]), value
        self.shape = isinstance(value, dict) and set(value) == {'array', 'inverse', 'moduli', 'rows'} and self.has_shape()

    def has_shape(self):
        v, n = self.value, self.ranks
        return (is_number(v['array']) and (not v['array'].whole or v['array'].value == self.nest.order[self.array])
                and all(isinstance(v[k], list) and len(v[k]) == n and all(are_numbers(r, n) for r in v[k]) for k in ('rows', 'inverse'))
                and isinstance(v['moduli'], list) and len(v['moduli']) == n and all(map(self.is_modulus, v['moduli'])))

    def is_modulus(self, m):
        if not isinstance(m, dict) or set(m) != {'form', 'least'} or not are_numbers(m['form'], len(self.nest.params) + 1):
            return False
        least = m['least']
        if least is None:
            return True
        return (isinstance(least, dict) and set(least) == {'p', 'clash', 'point'} and are_numbers(least['p'], len(self.nest.params))
                and (is_number(least['clash']) and are_numbers(least['point']) or least['clash'] is None and least['point'] is None))

    def fits(self):
        v = self.value
        leasts = [m['least'] for m in v['moduli'] if m['least'] is not None]
        return (v['array'].whole and all(within(r, 256) for k in ('rows', 'inverse') for r in v[k])
                and all(fits(m['form'], 2**30, 2**55) for m in v['moduli'])
                and all(within(m['p'], WORD) and (m['clash'] is None or within([m['clash'], *m['point']], WORD)) for m in leasts))

    def read(self):
        plain = lambda lists: [[n.value for n in r] for r in lists]
        self.rows, self.inverse = plain(self.value['rows']), plain(self.value['inverse'])
        self.moduli = []
        for m in self.value['moduli']:
            *coefficients, constant = [n.value for n in m['form']]
            self.moduli.append(Form(dict(zip(self.nest.params, coefficients)), constant))

    def is_inverse(self):
        n = range(self.ranks)
        return all(sum(self.rows[k][i] * self.inverse[i][j] for i in n) == (k == j) for k in n for j in n)

    def is_whole(self):
        n = range(self.ranks)
        unit = [[int(i == j) for j in n] for i in n]
        extents = self.nest.arrays[self.array]
        return self.rows == unit and self.inverse == unit and all((m - e).terms == {} and (m - e).constant == 0 for m, e in zip(self.moduli, extents))


class Proof:
    def __init__(self, nodes):
        self.nodes, self.numbers = nodes, True
        self.shape = isinstance(nodes, list) and self.has_shape()

    def has_shape(self):
        wanted = 1
        for node in self.nodes:
            if wanted == 0 or not isinstance(node, list) or not node:
                return False
            tag = node[0]
            if tag == 'f' and len(node) == 2 and self.multipliers(node[1]):
                wanted -= 1
            elif tag == 'c' and len(node) == 4 and self.multipliers(node[1]) and is_number(node[2]) and are_numbers(node[3]) and node[3]:
                self.numbers &= node[2].whole and fits(node[3], 2**40, 2**60)
            elif tag == 's' and len(node) == 3 and are_numbers(node[1]) and is_number(node[2]):
                self.numbers &= within(node[1], 2**40) and within(node[2:], 2**60)
                wanted += 1
            else:
                return False
        return wanted == 0

    def multipliers(self, value):
        if not isinstance(value, list) or len(value) > 1024 or not all(are_numbers(pair, 2) for pair in value):
            return False
        numbers = [pair[0] for pair in value]
        if all(n.whole for n in numbers) and any(a.value >= b.value for a, b in zip(numbers, numbers[1:])):
            return False
        self.numbers &= all(n.whole and 0 <= n.value < 2**32 and f.whole and 1 <= f.value <= 2**53 for n, f in value)
        return True

    def proves(self, columns, rows):
        """Whether it is a proof that these rows have no integer point, at none of whose nodes too many rows stand."""
        width, at, todo = len(columns), 0, [rows]
        while todo:
            rows = todo.pop()
            if len(rows) > MOST_ROWS:
                return False
            node = self.nodes[at]
            at += 1
            if node[0] == 's':
                coefficients, split = [n.value for n in node[1]], node[2].value
                low, high = ([-c for c in coefficients], split), (coefficients, -split - 1)
                if len(coefficients) != width or not (is_row(low) and is_row(high)):
                    return False
                todo += [rows + [high], rows + [low]]
                continue
            total, constant = [0] * width, 0
            for number, factor in node[1]:
                if number.value >= len(rows):
                    return False
                coefficients, last = rows[number.value]
                total = [t + factor.value * c for t, c in zip(total, coefficients)]
                constant += factor.value * last
            if node[0] == 'f':
                if any(total) or constant >= 0:
                    return False
                continue
            g, (*coefficients, last) = node[2].value, [n.value for n in node[3]]
            if g < 1 or len(coefficients) != width or total != [g * c for c in coefficients] or last != constant // g or not is_row((coefficients, last)):
                return False
            todo.append(rows + [(coefficients, last)])
        return True


def is_row(row):
    return all(abs(c) <= 2**40 for c in row[0]) and abs(row[1]) <= 2**60


class Certificate:
    """A certificate's text, read for a nest: the first reason why it is none, or its parts."""

    def __init__(self, data, nest):
        value = parsed(data)
        if isinstance(value, dict) and 'affc' in value:
            one = value['affc']
            if not (is_number(one) and one.whole and one.value == 1):
                raise Fault('version')
        loads = [(s, load) for s in nest.statements for load in s.loads]
        folded = [a for a in nest.temps if nest.arrays[a]]
        if not (isinstance(value, dict) and set(value) == {'affc', 'context', 'flow', 'folds', 'proofs'} and are_numbers(value['context'], len(nest.params))
                and all(isinstance(value[k], list) for k in ('flow', 'folds', 'proofs'))
                and len(value['flow']) == len(loads) and len(value['folds']) == len(folded)):
            raise Fault('shape 0')
        self.trees = [Tree(t, nest, s, load) for t, (s, load) in zip(value['flow'], loads)]
        self.folds = [Fold(f, nest, a) for f, a in zip(value['folds'], folded)]
        self.proofs = [Proof(p) for p in value['proofs']]
        parts = self.trees + self.folds + self.proofs
        for number, part in enumerate(parts, 1):
            if not part.shape:
                raise Fault(f'shape {number}')
        if not within(value['context'], WORD):
            raise Fault('number 0')
        for number, part in enumerate(parts, 1):
            if not (part.numbers if isinstance(part, Proof) else part.fits()):
                raise Fault(f'number {number}')
        self.context = [n.value for n in value['context']]
        for number, fold in enumerate(self.folds, 1 + len(self.trees)):
            fold.read()
            if not fold.is_inverse():
                raise Fault(f'shape {number}')

    def keep_bases(self, given):
        for number, fold in enumerate(self.folds, 1 + len(self.trees)):
            if fold.array in given and (fold.rows, fold.inverse) != given[fold.array] and not fold.is_whole():
                raise Fault(f'shape {number}')


# ---- Items


class Items:
    """The items of a certificate in order: ('question', columns, rows, part) and ('point', whether it is met)."""

    def __init__(self, nest, orders, certificate):
        self.nest, self.orders, self.certificate, self.all = nest, orders, certificate, []
        self.meets(certificate.context)
        for array in nest.arrays:
            for extent in nest.arrays[array]:
                self.ask(nest.params, nest.context + rows_of(extent, '<=', 0))
        for s in nest.alive:
            for array, subscripts in s.accesses:
                for x, extent in zip(subscripts, nest.arrays[array]):
                    self.ask(s.columns, s.domain + rows_of(x, '<=', -1))
                    self.ask(s.columns, s.domain + rows_of(extent, '<=', x))
        loads = [(s, load) for s in nest.statements for load in s.loads]
        for number, ((s, load), tree) in enumerate(zip(loads, certificate.trees), 1):
            for leaf in tree.leaves if s.alive else []:
                self.leaf(s, load, leaf, number)
        if orders.times is not None:
            self.legal()
        for number, fold in enumerate(certificate.folds, 1 + len(loads)):
            self.fold(fold, number)

    def ask(self, columns, rows, part=None):
        self.all.append(('question', columns, [r.row(columns) for r in rows], part))

    def show(self, met):
        self.all.append(('point', met))

    def meets(self, p):
        point = dict(zip(self.nest.params, p))
        self.show(all(r.value(point) >= 0 for r in self.nest.context))

    def others(self, s, load):
        """The storing statements of the load's array, each with columns of its own, its domain behind the context, and equal subscripts."""
        for v in self.nest.storing(load[0]):
            it = own(v, "'")
            inner = [r.at(it.images) for r in v.inner]
            equal = [r for a, b in zip(load[1], v.store[1]) for r in rows_of(a, '==', b.at(it.images))]
            yield it, [c + "'" for c in v.iterators], inner, equal

    def leaf(self, s, load, leaf, part):
        quotients, path, named = leaf
        columns = s.columns + [f'q{k}' for k in range(quotients)]
        front, reader, orders = s.domain + path, own(s), self.orders
        if named == 'input':
            if load[0] in self.nest.temps:
                self.ask(columns, front, part)
                return
            for v, more, inner, equal in self.others(s, load):
                for earlier in orders.in_source(v, reader):
                    self.ask(columns + more, front + inner + equal + earlier, part)
            return
        for row in named.s.domain:
            self.ask(columns, front + rows_of(row.at(named.images), '<', 0), part)
        for a, b in zip(load[1], named.s.store[1]):
            self.ask(columns, front + rows_of(b.at(named.images), '>', a), part)
            self.ask(columns, front + rows_of(b.at(named.images), '<', a), part)
        for later in orders.in_source(reader, named):
            self.ask(columns, front + later, part)
        if named.s is s:
            self.ask(columns, front + [r for a, b in zip(reader.forms, named.forms) for r in rows_of(a, '==', b)], part)
        for v, more, inner, equal in self.others(s, load):
            for behind in orders.in_source(named, v):
                for earlier in orders.in_source(v, reader):
                    self.ask(columns + more, front + inner + equal + behind + earlier, part)

    def legal(self):
        for a in self.nest.alive:
            for x, (array, at) in enumerate(a.accesses):
                for b in self.nest.alive:
                    for y, (other, there) in enumerate(b.accesses):
                        if array == other and (x == len(a.loads) or y == len(b.loads)):
                            first, second = own(a), own(b, "'")
                            columns = a.columns + [c + "'" for c in b.iterators]
                            inner = [r.at(second.images) for r in b.inner]
                            equal = [r for f, g in zip(at, there) for r in rows_of(f, '==', g.at(second.images))]
                            for earlier in self.orders.in_source(first, second):
                                for turned in self.orders.in_schedule(second, first):
                                    self.ask(columns, a.domain + inner + equal + earlier + turned)

    def clashes(self, array):
        """The clash systems of an array: columns, rows, and the differences of the loaded and the stored element."""
        loads = [(s, load) for s in self.nest.statements for load in s.loads]
        for (s, load), tree in zip(loads, self.certificate.trees):
            if not s.alive or load[0] != array:
                continue
            for quotients, path, named in tree.leaves:
                if named == 'input':
                    continue
                columns = s.columns + [f'q{k}' for k in range(quotients)]
                for v, more, inner, _ in self.others(s, load):
                    x, y = load[1], [f.at(v.images) for f in v.s.store[1]]
                    for behind in self.orders.in_schedule(named, v):
                        for earlier in self.orders.in_schedule(v, own(s)):
                            rows, equal = s.domain + path + inner + behind + earlier, []
                            for a, b in zip(x, y):
                                for relation in ('<', '>'):
                                    yield columns + more, rows + equal + rows_of(a, relation, b), [f - g for f, g in zip(x, y)]
                                equal = equal + rows_of(a, '==', b)

    def fold(self, fold, part):
        nest = self.nest
        clashes = list(self.clashes(fold.array))
        for columns, rows, _ in clashes if not fold.rows else []:
            self.ask(columns, rows, part)
        for k, (row, m) in enumerate(zip(fold.rows, fold.moduli)):
            self.ask(nest.params, nest.context + rows_of(m, '<=', 0), part)
            for columns, rows, differences in clashes:
                along = [sum((d * c for c, d in zip(r, differences)), Form()) for r in fold.rows[:k + 1]]
                equal = [r for d in along[:k] for r in rows_of(d, '==', 0)]
                self.ask(columns, rows + equal + rows_of(m, '<=', along[k]), part)
                self.ask(columns, rows + equal + rows_of(m, '<=', -along[k]), part)
            least = fold.value['moduli'][k]['least']
            if least is not None:
                p = [n.value for n in least['p']]
                self.meets(p)
                self.mark(fold, k, m, p, least, clashes)
                value = m.value(dict(zip(nest.params, p)))
                self.ask(nest.params, nest.context + rows_of(value, '<', m), part)

    def mark(self, fold, k, m, p, least, clashes):
        if least['clash'] is None:
            self.show(m.value(dict(zip(self.nest.params, p))) == 1)
            return
        number, point = least['clash'].value, [n.value for n in least['point']]
        if not 0 <= number < len(clashes) or len(point) != len(clashes[number][0]) or point[:len(p)] != p:
            self.show(False)
            return
        columns, rows, differences = clashes[number]
        at = dict(zip(columns, point))
        along = [sum(c * d.value(at) for c, d in zip(r, differences)) for r in fold.rows[:k + 1]]
        self.show(all(r.value(at) >= 0 for r in rows) and not any(along[:k]) and abs(along[k]) == m.value(at) - 1 and abs(along[k]) >= 1)

    def passes(self, number):
        return any(item[0] == 'question' and item[3] == number and not (len(item[1]) <= MOST_COLUMNS and len(item[2]) <= MOST_ROWS and all(map(is_row, item[2])))
                   for item in self.all)

    def check(self):
        parts = sorted({item[3] for item in self.all if item[0] == 'question' and item[3]})
        for number in parts:
            if self.passes(number):
                raise Fault(f'number {number}')
        proofs = iter(self.certificate.proofs)
        for number, item in enumerate(self.all):
            if item[0] == 'point':
                if not item[1]:
                    raise Fault(f'shown {number}')
                continue
            proof = next(proofs, None)
            if proof is None or not proof.proves(item[1], item[2]):
                raise Fault(f'proof {number}')


def verdict(source, schedule, data):
    """What is answered of a certificate's bytes, and its items, if it has any."""
    nest = Nest(source)
    orders, items = Orders(nest, schedule), None
    try:
        certificate = Certificate(data, nest)
        certificate.keep_bases(orders.given)
        items = Items(nest, orders, certificate)
        items.check()
    except Fault as fault:
        return str(fault), items
    return 'valid', items


def main(words):
    source, schedule, name = [w for w in words if w != '--items']
    with open(name, 'rb') as file:
        said, items = verdict(open(source).read(), 'source;' if schedule == '-' else open(schedule).read(), file.read())
    print(said)
    if '--items' in words and items:
        kinds = [item[0] for item in items.all]
        print(f'{kinds.count("question")} questions, {kinds.count("point")} points')
    sys.exit(said != 'valid')


if __name__ == '__main__':
    main(sys.argv[1:])
