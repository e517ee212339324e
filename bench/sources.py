"""Sources and schedules as Python can run them: what examples/ needs of the language, sharing nothing with affc."""
import itertools
import re

TOKEN = re.compile(r'\d+ULL|\d+|\w+|<<|>>|<=|>=|==|&&|\+\+|[-+*&|^]=|\S')


# The bases that are listed for a temporary of so many dimensions, in their order.
LISTED = {
    0: [()],
    1: [('x0',)],
    2: [('x0', 'x1'), ('x1', 'x0'), ('x0 + x1', 'x1'), ('x0 - x1', 'x1'),
        ('x0 + 2 * x1', 'x1'), ('x0 - 2 * x1', 'x1'), ('2 * x0 + x1', 'x0'), ('2 * x0 - x1', 'x0')],
    3: [('x0', 'x1', 'x2'), ('x0', 'x2', 'x1'), ('x1', 'x0', 'x2'), ('x1', 'x2', 'x0'), ('x2', 'x0', 'x1'), ('x2', 'x1', 'x0')],
    4: [('x0', 'x1', 'x2', 'x3')],
}


class U(int):
    """A number of uint64_t."""


for _name in ('add', 'sub', 'mul', 'and', 'or', 'xor', 'lshift', 'rshift'):
    setattr(U, f'__{_name}__', lambda a, b, f=getattr(int, f'__{_name}__'): U(f(int(a), int(b)) % 2**64))
U.__invert__ = lambda a: U(2**64 - 1 - int(a))


class Source:
    """A source as Python: `self.code` calls `emit(statement, iterators, value, store)` for each instance in order."""

    def __init__(self, text):
        text = re.sub(r'/\*.*?\*/|//[^\n]*', ' ', text, flags=re.S)
        ranges = re.findall(r'#pragma affc param (\w+) (-?\d+) (-?\d+)', text)
        self.declared = {name: (int(low), int(high)) for name, low, high in ranges}
        self.context = [c.replace('&&', ' and ') for c in re.findall(r'#pragma affc context (.*)', text)]
        self.tokens = TOKEN.findall(re.sub(r'#[^\n]*', '', text))
        self.params, self.arrays, self.outputs, self.temps = [], {}, [], []
        self.lines, self.iterators, self.statements = [], [], []
        self.until('(')
        self.parameters()
        self.declarations()
        while self.tokens[0] != '}':
            self.statement(0)
        self.code = compile('\n'.join(self.lines) or 'pass', 'source', 'exec')

    def take(self):
        return self.tokens.pop(0)

    def until(self, *ends):
        """The tokens up to an end that stands in no bracket, which is taken too."""
        out, depth = [], 0
        while depth > 0 or self.tokens[0] not in ends:
            depth += (self.tokens[0] in '([') - (self.tokens[0] in ')]')
            out.append(self.take())
        self.take()
        return ' '.join(out)

    def subscripts(self):
        out = []
        while self.tokens[0] == '[':
            self.take()
            out.append(self.until(']'))
        return out

    def parameters(self):
        while self.tokens[0] != '{':
            words = [self.take()]
            while self.tokens[0] not in '[,)':
                words.append(self.take())
            if words[0] == 'int64_t':
                self.params.append(words[-1])
            else:
                self.arrays[words[-1]] = self.subscripts()
                self.outputs += [words[-1]] * (words[0] != 'const')
            self.take()
        self.take()

    def declarations(self):
        while self.tokens[0] == 'uint64_t':
            while self.take() != ';':
                name = self.take()
                self.arrays[name] = self.subscripts()
                self.temps.append(name)

    def line(self, depth, text):
        self.lines.append('    ' * depth + text)

    def statement(self, depth):
        if self.tokens[0] == '{':
            self.take()
            while self.tokens[0] != '}':
                self.statement(depth)
            self.take()
        elif self.tokens[0] == 'for':
            self.tokens = self.tokens[3:]
            name, _, low = self.take(), self.take(), self.until(';')
            _, relation, high = self.take(), self.take(), self.until(';')
            self.until(')')
            self.line(depth, f'for {name} in range({low}, {high} + {int(relation == "<=")}):')
            self.iterators.append(name)
            self.statement(depth + 1)
            self.iterators.pop()
        elif self.tokens[0] == 'if':
            self.tokens = self.tokens[2:]
            self.line(depth, f'if {self.until(")").replace("&&", "and")}:')
            self.statement(depth + 1)
        else:
            store, sign = self.element(self.take()), self.take()
            value = self.value()
            if sign != '=':
                value = f'load({store}) {sign[0]} ({value})'
            names = ''.join(f', {i}={i}' for i in self.iterators)
            iterators = ''.join(f'{i}, ' for i in self.iterators)
            self.line(depth, f'emit({len(self.statements)}, ({iterators}), lambda load{names}: {value}, {store})')
            self.statements.append(list(self.iterators))

    def element(self, name):
        return f'("{name}", ({"".join(s + ", " for s in self.subscripts())}))'

    def value(self):
        out = []
        while self.tokens[0] != ';':
            token = self.take()
            if token in self.arrays:
                token = f'load({self.element(token)})'
            elif token.endswith('ULL'):
                token = f'U({token[:-3]})'
            elif token == 'uint64_t' and self.tokens[:2] == [')', '(']:
                out.pop()
                self.tokens = self.tokens[2:]
                token = f'U(({self.until(")")}) % 2**64)'
            out.append(token)
        self.take()
        return ' '.join(out)

    def extents(self, array, p):
        return [eval(e, {}, dict(zip(self.params, p))) for e in self.arrays[array]]

    def points(self, highs):
        """The values of the parameters up to these, in order."""
        ranges = [range(self.declared[n][0], high + 1) for n, high in zip(self.params, highs)]
        return [p for p in itertools.product(*ranges) if all(eval(c, {}, dict(zip(self.params, p))) for c in self.context)]

    def trace(self, p):
        """The instances at p: statement, iterators, value, loads, store."""
        out = []

        def emit(number, iterators, value, store):
            loads = []
            value(lambda element: loads.append(element) or U(0))
            out.append((number, iterators, value, loads, store))
        exec(self.code, dict(zip(self.params, p), emit=emit, U=U, range=range))
        return out


class Schedule:
    """An order, and the rows of the bases that are given."""

    def __init__(self, text, source):
        self.times, self.forms, self.rows = None, {}, {}
        for word, forms in re.findall(r'(?:^|;)\s*(S\d+|fold \w+):\s*\((.*?)\);', text.replace('\n', ' ').replace(';', ';;')):
            if word.startswith('fold '):
                self.rows[word[5:]] = forms.split(',')
            else:
                self.times = self.times or {}
                self.forms[int(word[1:])] = forms
                self.times[int(word[1:])] = compile(f'({forms},)', word, 'eval')

    def target(self, source, p, trace):
        """The numbers of the instances in the order in which they are to run."""
        if self.times is None:
            return list(range(len(trace)))
        at = dict(zip(source.params, p))
        return sorted(range(len(trace)), key=lambda n: (
            eval(self.times[trace[n][0]], {}, at | dict(zip(source.statements[trace[n][0]], trace[n][1]))), trace[n][0]))
