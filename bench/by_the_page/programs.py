"""Forms, and what is read before a certificate is: the source, and the schedule.

A form is a list of integers: its coefficients in column order, then its constant. A row is a form that is to be at least 0. Forms
stand over the parameters where nothing else is said. A statement's own_rows are its domain without the rows 1 and 2, and None where
it can't have instances; its width is the number of its columns. Sources are read as docs/LANGUAGE.md says, schedules as docs/GUIDE.md
does in its section 3. Both are taken to be right.
"""
import re
from collections import namedtuple

Array = namedtuple("Array", "number is_temporary extents")
Loop = namedtuple("Loop", "lower relation upper")
Access = namedtuple("Access", "array subscripts is_store")
Statement = namedtuple("Statement", "number names width loops own_rows loads store")
Schedule = namedtuple("Schedule", "times bases")


class Program(namedtuple("Program", "width ranges context arrays statements")):
    """A program; its arrays stand by their names."""

    def active(self):
        """The statements that can have instances."""
        return [statement for statement in self.statements if statement.own_rows is not None]

    def storing(self, array):
        return [statement for statement in self.active() if statement.store.array is array]

    def loads(self):
        """Each load with its statement, in the order of the trees."""
        return [(statement, load) for statement in self.statements for load in statement.loads]

    def temporaries(self):
        return [array for array in self.arrays.values() if array.is_temporary and array.extents]

    def domain_of(self, statement):
        return all_padded(self.context, statement.width) + statement.own_rows


def constant_form(value, width):
    return [0] * width + [value]


def column_form(column, width):
    return [int(column == place) for place in range(width)] + [0]


def padded(form, width):
    """The same form over more columns, with zeros in the further ones."""
    return form[:-1] + [0] * (width + 1 - len(form)) + form[-1:]


def all_padded(forms, width):
    return [padded(form, width) for form in forms]


def plus(left, right, factor=1):
    return [a + factor * b for a, b in zip(left, right)]


def scaled(form, factor):
    return [factor * entry for entry in form]


def shifted(form, constant):
    return form[:-1] + [form[-1] + constant]


def put_in(form, images, width):
    """The form with images[k], a form over width columns, for its column k."""
    result = constant_form(form[-1], width)
    for coefficient, image in zip(form, images):
        if coefficient:
            result = plus(result, image, coefficient)
    return result


def value_at(form, point):
    return sum(a * b for a, b in zip(form, point)) + form[-1]


def related(left, relation, right):
    """The rows of a relation of two forms; the right one may be a number."""
    if isinstance(right, int):
        right = constant_form(right, len(left) - 1)
    if relation == "==":
        return related(left, ">=", right) + related(left, "<=", right)
    lower, upper = {"<": (left, right), ">": (right, left)}[relation[0]]
    return [shifted(plus(upper, lower, -1), 0 if "=" in relation else -1)]


def all_equal(lefts, rights):
    return [row for left, right in zip(lefts, rights) for row in related(left, "==", right)]


COMMENT = re.compile(r"/\*.*?\*/|//[^\n]*", re.DOTALL)
HASH_LINE = re.compile(r"^[ \t\r]*#(.*)$", re.MULTILINE)
TOKEN = re.compile(r"\w+|\+\+|&&|<<|>>|[-+*&|^<>=]=|\S")


class Reader:
    """Reads tokens; the names are those of the columns at the place."""

    def __init__(self, text, names):
        self.tokens = TOKEN.findall(text)
        self.names = names
        self.place = 0

    def peek(self):
        return self.tokens[self.place] if self.place < len(self.tokens) else None

    def take(self, wanted=None):
        token = self.peek()
        if token is None or wanted not in (None, token):
            raise ValueError("%r stands where %r is wanted" % (token, wanted or "a token"))
        self.place += 1
        return token

    def takes(self, token):
        found = self.peek() == token
        self.place += found
        return found

    def integer(self):
        sign = -1 if self.takes("-") else 1
        return sign * int(self.take())

    def form(self):
        total = self.term()
        while self.peek() in ("+", "-"):
            sign = 1 if self.take() == "+" else -1
            total = plus(total, self.term(), sign)
        return total

    def term(self):
        product = self.factor()
        while self.takes("*"):
            other = self.factor()
            if any(other[:-1]):
                product, other = other, product
            product = scaled(product, other[-1])
        return product

    def factor(self):
        if self.takes("-"):
            return scaled(self.factor(), -1)
        if self.takes("("):
            inner = self.form()
            self.take(")")
            return inner
        token = self.take()
        if token.isdigit():
            return constant_form(int(token), len(self.names))
        return column_form(self.names.index(token), len(self.names))

    def subscripts(self):
        found = []
        while self.takes("["):
            found.append(self.form())
            self.take("]")
        return found

    def conditions(self):
        """The rows of conditions; those in parentheses become part of the one list."""
        rows = self.condition()
        while self.takes("&&"):
            rows += self.condition()
        return rows

    def condition(self):
        before = self.place
        try:
            return related(self.form(), self.take(), self.form())
        except (ValueError, LookupError):
            self.place = before + 1  # no comparison: behind the opening parenthesis
            rows = self.conditions()
            self.take(")")
            return rows


class SourceReader(Reader):
    """Reads a source into a Program."""

    def __init__(self, text):
        text = COMMENT.sub(" ", text)
        super().__init__(HASH_LINE.sub("", text), [])
        head = self.tokens[:self.tokens.index("{")]
        self.names = [name for kind, name in zip(head, head[1:]) if kind == "int64_t"]
        self.loops, self.rounding = [], []  # the loops, and the rows of the conditions, round the place
        ranges, context = self.read_lines(HASH_LINE.findall(text))
        self.program = Program(len(self.names), ranges, context, {}, [])

    def read_lines(self, lines):
        ranges, conditions = {}, []
        for line in lines:
            reader = Reader(line, self.names)
            words = reader.tokens[:3]
            reader.place = 3
            if words == ["pragma", "affc", "param"]:
                name = reader.take()
                ranges[name] = reader.integer(), reader.integer()
            elif words == ["pragma", "affc", "context"]:
                conditions += reader.conditions()
        ranges = [ranges[name] for name in self.names]
        ends = [within(column, *ends, len(ranges)) for column, ends in enumerate(ranges)]
        return ranges, sum(ends, []) + conditions

    def read(self):
        while not self.takes("{"):
            if self.take() == "uint64_t":
                self.declare(False)
        while self.takes("uint64_t"):
            self.declare(True)
            while self.takes(","):
                self.declare(True)
            self.take(";")
        while not self.takes("}"):
            self.statement()
        return self.program

    def declare(self, is_temporary):
        arrays = self.program.arrays
        name = self.take()
        arrays[name] = Array(len(arrays), is_temporary, self.subscripts())

    def statement(self):
        if self.takes("for"):
            self.loop()
        elif self.takes("if"):
            self.branch()
        elif self.takes("{"):
            while not self.takes("}"):
                self.statement()
        else:
            self.assignment()

    def loop(self):
        _, _, name, _ = [self.take() for _ in range(4)]  # ( int64_t NAME =
        lower = self.form()
        _, _, relation = [self.take() for _ in range(3)]  # ; NAME <
        self.loops.append(Loop(lower, relation, self.form()))
        while not self.takes(")"):
            self.take()
        self.names.append(name)
        self.statement()
        self.loops.pop()
        self.names.pop()

    def branch(self):
        before = len(self.rounding)
        self.take("(")
        self.rounding += self.conditions()
        self.take(")")
        self.statement()
        del self.rounding[before:]

    def assignment(self):
        store = self.access(True)
        loads = [] if self.take() == "=" else [store._replace(is_store=False)]
        while not self.takes(";"):
            if self.peek() in self.program.arrays:
                loads.append(self.access(False))
            else:
                self.take()
        width, statements = len(self.names), self.program.statements
        statements.append(Statement(len(statements), list(self.names), width, list(self.loops),
                                    self.own_rows(width), loads, store))

    def access(self, is_store):
        return Access(self.program.arrays[self.take()], self.subscripts(), is_store)

    def own_rows(self, width):
        columns = list(self.program.ranges)
        rows = []
        for loop in self.loops:
            low = least_value(loop.lower, columns)
            high = -least_value(scaled(loop.upper, -1), columns) - (loop.relation == "<")
            if high < low:
                return None
            iterator = column_form(len(columns), width)
            rows += related(padded(loop.lower, width), "<=", iterator)
            rows += related(iterator, loop.relation, padded(loop.upper, width))
            rows += within(len(columns), low, high, width)
            columns.append((low, high))
        return rows + all_padded(self.rounding, width)


def within(column, low, high, width):
    form = column_form(column, width)
    return related(form, ">=", low) + related(form, "<=", high)


def least_value(form, ranges):
    return sum(min(c * low, c * high) for c, (low, high) in zip(form, ranges)) + form[-1]


def read_schedule(text, program):
    """The times are None for the order of the source, else each statement's forms over its columns, by its
    number; the bases are each array's rows and inverse, by its number."""
    reader = Reader(COMMENT.sub(" ", text), [])
    schedule = Schedule(None if reader.take() == "source" else {}, {})
    while reader.take() != ";":
        pass
    while reader.peek() is not None:
        if reader.takes("fold"):
            array = program.arrays[reader.take()]
            schedule.bases[array.number] = read_basis(reader, len(array.extents))
        else:
            statement = program.statements[int(reader.take()[1:])]
            schedule.times[statement.number] = read_list(reader, statement.names)
            while statement.loops and reader.take() != ";":
                pass  # the inverse, of which nothing is asked
    return schedule


def read_list(reader, names):
    """The part `: (FORM, ..);` of a line."""
    reader.names = names
    reader.take(":")
    reader.take("(")
    forms = [reader.form()]
    while reader.takes(","):
        forms.append(reader.form())
    reader.take(")")
    reader.take(";")
    return forms


def read_basis(reader, size):
    rows = read_list(reader, ["x%d" % k for k in range(size)])
    reader.names = ["y%d" % k for k in range(size)]
    inverse = []
    for number in range(size):
        reader.take("x%d" % number)
        reader.take("=")
        inverse.append(reader.form())
        reader.take("," if number < size - 1 else ";")
    return [row[:-1] for row in rows], [row[:-1] for row in inverse]
