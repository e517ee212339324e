#!/usr/bin/env python3
"""A checker of certificates written from docs/FORMATS.md alone, sharing no code with affc.

    python3 check_certificate.py SRC SCHED CERT

SRC is a source (docs/LANGUAGE.md, without the prelude), SCHED the text of a schedule (docs/GUIDE.md, section 3)
and CERT a certificate. One line is printed: `valid`, or what the certificate is refused for, by its name in
docs/FORMATS.md: `json`, `version`, `shape PART`, `number PART`, `proof ITEM` or `shown ITEM`. The source and the
schedule are taken to be right. The status is 0 for `valid`, 1 for a refusal, and 2 where a text can't be read.
Nothing is searched for, and every number is an exact integer.

In this order stand: reading a certificate ("What is refused"), the items ("What is asked of a certificate"), proofs, and
what is answered. Sources and schedules are read by programs.py.
"""

import json
import math
import re
import sys
from collections import namedtuple

from programs import (
    SourceReader,
    all_equal,
    all_padded,
    column_form,
    constant_form,
    padded,
    plus,
    put_in,
    read_schedule,
    related,
    scaled,
    shifted,
    value_at,
)

INT64_LOW, INT64_HIGH = -2 ** 63, 2 ** 63 - 1
DEEPEST_NESTING = 127
LONGEST_PATH = 400
MOST_MULTIPLIERS = 1024
MOST_COLUMNS = 128
MOST_ROWS = 1024
COEFFICIENT_LIMIT, CONSTANT_LIMIT = 2 ** 40, 2 ** 60

# The forms of a leaf are over its columns, the parameters first; its statement is None for a leaf `i`. A question's part is the
# number of the tree or fold that it belongs to, or None; the rows of a point are None where it meets nothing.
Branch = namedtuple("Branch", "statement width depth rows")
Leaf = namedtuple("Leaf", "width rows statement iterators")
Least = namedtuple("Least", "parameters clash point")
Modulus = namedtuple("Modulus", "form least")
Fold = namedtuple("Fold", "array rows inverse moduli")
Question = namedtuple("Question", "width rows part")
Point = namedtuple("Point", "width rows values")
ClashSystem = namedtuple("ClashSystem", "width rows differences")


class Refused(Exception):
    """The certificate is refused; the argument is the line to print."""


class Misshapen(Exception):
    """A part of a certificate has another shape than it should."""


# A form is a list of integers: its coefficients in column order, then its constant. A row is a form that is to
# be at least 0.


class NotWhole:
    """A number that isn't whole."""


def number_of(text):
    if not math.isfinite(float(text)):
        raise Refused("json")
    if text == "-0" or set(text) & set(".eE") or len(text) > 20 or not INT64_LOW <= int(text) <= INT64_HIGH:
        return NotWhole()
    return int(text)


def refuse_nesting_and_surrogates(text):
    depth = 0
    for token in re.findall(r'"(?:[^"\\]|\\.)*"|[\[\]{}]', text, re.DOTALL):
        depth += {"[": 1, "{": 1, "]": -1, "}": -1}.get(token, 0)
        if depth > DEEPEST_NESTING or "\\u" in token and re.search("[\ud800-\udfff]", json.loads(token)):
            raise Refused("json")


def read_json(data):
    decoder = json.JSONDecoder(parse_float=number_of, parse_int=number_of, parse_constant=number_of)
    try:
        text = data.decode("utf-8").strip(" \t\n\r")
        refuse_nesting_and_surrogates(text)
        value, end = decoder.raw_decode(text)
    except ValueError:
        raise Refused("json") from None
    if end != len(text):
        raise Refused("json")
    return value


class PartReader:
    """Reads one part. A wrong shape is raised; that a number is wrong is kept in mind only."""

    def __init__(self):
        self.has_wrong_number = False

    def number(self, value, low=INT64_LOW, high=INT64_HIGH):
        """The number, or None where it isn't whole."""
        if isinstance(value, NotWhole):
            self.has_wrong_number = True
            return None
        if type(value) is not int:
            raise Misshapen()
        self.has_wrong_number |= not low <= value <= high
        return value

    def numbers(self, value, limit=2 ** 63, length=None):
        high = min(limit, INT64_HIGH)
        return [self.number(entry, -limit, high) or 0 for entry in self.list(value, length)]

    def list(self, value, length=None):
        if not isinstance(value, list) or length not in (None, len(value)):
            raise Misshapen()
        return value

    def object(self, value, *keys):
        if not isinstance(value, dict) or set(value) != set(keys):
            raise Misshapen()
        return [value[key] for key in keys]

    def form(self, value, coefficient_limit, constant_limit, length=None):
        if not self.list(value, length):
            raise Misshapen()
        return self.numbers(value[:-1], coefficient_limit) + self.numbers(value[-1:], constant_limit)

    def node(self, value, lengths):
        """The node; lengths has its number of entries by its tag."""
        if not self.list(value) or not isinstance(value[0], str) or len(value) != lengths.get(value[0]):
            raise Misshapen()
        return value

    def head(self, value, program):
        _, context, flow, folds, proofs = self.object(value, "affc", "context", "flow", "folds", "proofs")
        return (self.numbers(context, length=program.width), self.list(flow, len(program.loads())),
                self.list(folds, len(program.temporaries())), self.list(proofs))

    def tree(self, value, statement, storers):
        """The leaves. The rows of a branch are those of the tests and divisions above, over the columns there."""
        leaves = []
        branches = [Branch(statement, statement.width, 0, [])]
        for node in self.list(value):
            if not branches:
                raise Misshapen()
            branch = branches.pop()
            self.has_wrong_number |= branch.depth > LONGEST_PATH
            tag, *entries = self.node(node, {"t": 2, "d": 3, "w": 3, "i": 1})
            if tag == "t":
                form = self.tree_form(entries[0], branch)
                branches += [below(branch, related(form, relation, 0)) for relation in ("<", ">=")]
            elif tag == "d":
                branches.append(self.quotient(*entries, branch))
            elif tag == "w":
                leaves.append(self.named(*entries, branch, storers))
            else:
                leaves.append(Leaf(branch.width, branch.rows, None, None))
        if branches:
            raise Misshapen()
        return leaves

    def tree_form(self, value, branch):
        """A form over the columns of the systems, where the parameters stand first."""
        form = self.form(value, 2 ** 24, 2 ** 50, branch.width + 1)
        loops, width = len(branch.statement.loops), branch.statement.width
        return form[loops:width] + form[:loops] + form[width:]

    def quotient(self, value, divisor, branch):
        form = padded(self.tree_form(value, branch), branch.width + 1)
        divisor = self.number(divisor, 1, 2 ** 24) or 1
        product = scaled(column_form(branch.width, branch.width + 1), divisor)
        rows = related(product, "<=", form) + related(form, "<", shifted(product, divisor))
        return below(branch, rows)._replace(width=branch.width + 1)

    def named(self, number, forms, branch, storers):
        number = self.number(number)
        found = [storer for storer in storers if storer.number == number]
        if number is not None and not found:
            raise Misshapen()
        self.list(forms, len(found[0].loops) if found else None)
        iterators = [self.tree_form(form, branch) for form in forms]
        return Leaf(branch.width, branch.rows, found[0] if found else None, iterators)

    def fold(self, value, array, parameter_count):
        number, rows, inverse, moduli = self.object(value, "array", "rows", "inverse", "moduli")
        if self.number(number) not in (None, array.number):
            raise Misshapen()
        size = len(array.extents)
        rows, inverse = [[self.numbers(row, 256, size) for row in self.list(matrix, size)]
                         for matrix in (rows, inverse)]
        moduli = [self.modulus(modulus, parameter_count) for modulus in self.list(moduli, size)]
        return Fold(array, rows, inverse, moduli)

    def modulus(self, value, parameter_count):
        form, least = self.object(value, "form", "least")
        form = self.form(form, 2 ** 30, 2 ** 55, parameter_count + 1)
        if least is None:
            return Modulus(form, None)
        parameters, clash, point = self.object(least, "p", "clash", "point")
        parameters = self.numbers(parameters, length=parameter_count)
        if clash is not None or point is not None:
            clash, point = self.number(clash), self.numbers(point)
        return Modulus(form, Least(parameters, clash, point))

    def proof(self, value):
        """The nodes: ("f", m), ("c", m, g, form) or ("s", coefficients, at)."""
        nodes = []
        open_proofs = 1
        for node in self.list(value):
            if not open_proofs:
                raise Misshapen()
            tag, *entries = self.node(node, {"f": 2, "c": 4, "s": 3})
            open_proofs += {"f": -1, "c": 0, "s": 1}[tag]
            if tag == "s":
                nodes.append((tag, self.numbers(entries[0], COEFFICIENT_LIMIT),
                              self.number(entries[1], -CONSTANT_LIMIT, CONSTANT_LIMIT)))
            elif tag == "c":
                nodes.append((tag, self.multiples(entries[0]), self.number(entries[1]),
                              self.form(entries[2], COEFFICIENT_LIMIT, CONSTANT_LIMIT)))
            else:
                nodes.append((tag, self.multiples(entries[0])))
        if open_proofs:
            raise Misshapen()
        return nodes

    def multiples(self, value):
        if len(self.list(value)) > MOST_MULTIPLIERS:
            raise Misshapen()
        pairs = [self.list(pair, 2) for pair in value]
        found = [(self.number(row, 0, 2 ** 32 - 1), self.number(times, 1, 2 ** 53)) for row, times in pairs]
        rows = [row for row, _ in found]
        if None not in rows and any(after <= before for before, after in zip(rows, rows[1:])):
            raise Misshapen()
        return found


def below(branch, rows):
    kept = branch.rows if branch.depth < LONGEST_PATH else []  # a deeper tree is refused
    return branch._replace(depth=branch.depth + 1, rows=kept + rows)


class Certificate:
    """A certificate that was read; self.trees has the leaves of each tree."""

    def __init__(self, data, program):
        value = read_json(data)
        if isinstance(value, dict) and "affc" in value:
            if type(value["affc"]) is not int or value["affc"] != 1:
                raise Refused("version")
        self.wrong_numbers = []  # for each part that was read, whether it has one
        self.context, flow, folds, proofs = self.read_part(PartReader.head, value, program)
        self.trees = [self.read_part(PartReader.tree, tree, statement, program.storing(load.array))
                      for tree, (statement, load) in zip(flow, program.loads())]
        self.folds = [self.read_part(PartReader.fold, fold, array, program.width)
                      for fold, array in zip(folds, program.temporaries())]
        self.proofs = [self.read_part(PartReader.proof, proof) for proof in proofs]
        if True in self.wrong_numbers:
            raise Refused("number %d" % self.wrong_numbers.index(True))
        for part, fold in self.numbered_folds():
            columns = list(zip(*fold.inverse))
            if [[value_at(row + [0], column) for column in columns] for row in fold.rows] != identity(len(columns)):
                raise Refused("shape %d" % part)

    def read_part(self, read, *arguments):
        reader = PartReader()
        try:
            found = read(reader, *arguments)
        except Misshapen:
            raise Refused("shape %d" % len(self.wrong_numbers)) from None
        self.wrong_numbers.append(reader.has_wrong_number)
        return found

    def numbered_folds(self):
        """The folds with the numbers of their parts."""
        return list(enumerate(self.folds, 1 + len(self.trees)))


def identity(size):
    return [column_form(row, size)[:-1] for row in range(size)]


class Instance:
    """An instance of a statement: forms over the width columns of a system for its iterators."""

    def __init__(self, statement, iterators, width):
        self.statement = statement
        self.iterators = iterators
        self.width = width
        parameter_count = statement.width - len(iterators)
        self.images = [column_form(column, width) for column in range(parameter_count)] + iterators

    def put(self, forms):
        return [put_in(form, self.images, self.width) for form in forms]


def instance_at(statement, first_column, width):
    """The instance whose iterators are the columns from first_column on."""
    columns = range(first_column, first_column + len(statement.loops))
    return Instance(statement, [column_form(column, width) for column in columns], width)


def order_systems(firsts, seconds, tie_counts):
    """The systems of: the list of forms `firsts` comes before `seconds`."""
    systems = [all_equal(firsts[:place], seconds[:place]) + related(first, "<", second)
               for place, (first, second) in enumerate(zip(firsts, seconds))]
    return systems + [all_equal(firsts, seconds)] if tie_counts else systems


def before_in_source(first, second):
    common = sum(a is b for a, b in zip(first.statement.loops, second.statement.loops))
    return order_systems(first.iterators[:common], second.iterators[:common],
                         first.statement.number < second.statement.number)


class Asker:
    """Lists the items."""

    def __init__(self, program, schedule, certificate):
        self.program = program
        self.schedule = schedule
        self.certificate = certificate

    def before_in_schedule(self, first, second):
        times = self.schedule.times
        if times is None:
            return before_in_source(first, second)
        return order_systems(first.put(times[first.statement.number]), second.put(times[second.statement.number]),
                             first.statement.number < second.statement.number)

    def items(self):
        program = self.program
        yield Point(program.width, program.context, self.certificate.context)
        for array in program.arrays.values():
            for extent in array.extents:
                yield self.context_question(related(extent, "<=", 0))
        for statement in program.active():
            yield from self.access_questions(statement)
        for part, (statement, load) in enumerate(program.loads(), 1):
            for leaf in self.leaves_of(part, statement, load):
                yield from leaf.questions(part)
        if self.schedule.times is not None:
            yield from self.order_questions()
        for part, fold in self.certificate.numbered_folds():
            yield from self.fold_items(fold, part)

    def leaves_of(self, part, statement, load):
        leaves = self.certificate.trees[part - 1] if statement.own_rows is not None else []
        return [LeafAsker(self, statement, load, leaf) for leaf in leaves]

    def context_question(self, rows, part=None):
        return Question(self.program.width, self.program.context + rows, part)

    def access_questions(self, statement):
        width, domain = statement.width, self.program.domain_of(statement)
        for access in statement.loads + [statement.store]:
            for subscript, extent in zip(access.subscripts, access.array.extents):
                yield Question(width, domain + related(subscript, "<=", -1), None)
                yield Question(width, domain + related(padded(extent, width), "<=", subscript), None)

    def order_questions(self):
        accesses = [(statement, access) for statement in self.program.active()
                    for access in statement.loads + [statement.store]]
        for first, x in accesses:
            for second, y in accesses:
                if x.array is y.array and (x.is_store or y.is_store):
                    yield from self.turned_questions(first, x, second, y)

    def turned_questions(self, first, first_access, second, second_access):
        width = first.width + len(second.loops)
        earlier = instance_at(first, self.program.width, width)
        later = instance_at(second, first.width, width)
        rows = earlier.put(self.program.domain_of(first)) + later.put(second.own_rows)
        rows += all_equal(earlier.put(first_access.subscripts), later.put(second_access.subscripts))
        for in_source in before_in_source(earlier, later):
            for in_schedule in self.before_in_schedule(later, earlier):
                yield Question(width, rows + in_source + in_schedule, None)

    def clash_systems(self, array):
        return [system for part, (statement, load) in enumerate(self.program.loads(), 1) if load.array is array
                for leaf in self.leaves_of(part, statement, load) for system in leaf.clash_systems()]

    def fold_items(self, fold, part):
        clashes = self.clash_systems(fold.array)
        for number, (form, least) in enumerate(fold.moduli):
            yield self.context_question(related(form, "<=", 0), part)
            for clash in clashes:
                rows = clash.rows + along(clash, fold.rows[:number])
                ahead = distance(clash, fold.rows[number])
                for way in (ahead, scaled(ahead, -1)):
                    yield Question(clash.width, rows + related(padded(form, clash.width), "<=", way), part)
            if least is not None:
                yield Point(self.program.width, self.program.context, least.parameters)
                yield attained_point(fold, number, clashes)
                value = constant_form(value_at(form, least.parameters), self.program.width)
                yield self.context_question(related(value, "<", form), part)


def distance(clash, row):
    return put_in(row + [0], clash.differences, clash.width)


def along(clash, rows):
    """That the distance along each of these rows is 0."""
    return [found for row in rows for found in related(distance(clash, row), "==", 0)]


def attained_point(fold, number, clashes):
    """The point that shows that no smaller modulus will do at `p`."""
    form, least = fold.moduli[number]
    width = len(least.parameters)
    if least.clash is None:
        return Point(width, related(form, "==", 1), least.parameters)
    clash = clashes[least.clash] if 0 <= least.clash < len(clashes) else None
    if clash is None or len(least.point) != clash.width or least.point[:width] != least.parameters:
        return Point(width, None, least.point)
    ahead = distance(clash, fold.rows[number])
    if value_at(ahead, least.point) < 0:
        ahead = scaled(ahead, -1)
    rows = clash.rows + along(clash, fold.rows[:number])
    rows += related(ahead, "==", shifted(padded(form, clash.width), -1)) + related(ahead, ">=", 1)
    return Point(clash.width, rows, least.point)


class LeafAsker:
    """The questions and the clash systems of one leaf. R are the rows of the leaf behind the statement's domain."""

    def __init__(self, asker, statement, load, leaf):
        self.asker = asker
        self.program = asker.program
        self.statement = statement
        self.load = load
        self.leaf = leaf
        self.rows = all_padded(self.program.domain_of(statement) + leaf.rows, leaf.width)

    def loading(self, width):
        return instance_at(self.statement, self.program.width, width)

    def named(self, width):
        return Instance(self.leaf.statement, all_padded(self.leaf.iterators, width), width)

    def questions(self, part):
        if self.leaf.statement is not None:
            systems = self.named_systems()
        elif self.load.array.is_temporary:
            systems = [(self.leaf.width, self.rows)]
        else:
            systems = self.handed_in_systems()
        for width, rows in systems:
            yield Question(width, rows, part)

    def storing(self):
        """For each statement that stores the array: its instance over further columns, R with the statement's
        own rows, and the loaded and the stored subscripts."""
        for storer in self.program.storing(self.load.array):
            width = self.leaf.width + len(storer.loops)
            stored = instance_at(storer, self.leaf.width, width)
            yield (stored, all_padded(self.rows, width) + stored.put(storer.own_rows),
                   self.loading(width).put(self.load.subscripts), stored.put(storer.store.subscripts))

    def handed_in_systems(self):
        for stored, rows, lefts, rights in self.storing():
            for system in before_in_source(stored, self.loading(stored.width)):
                yield stored.width, rows + all_equal(lefts, rights) + system

    def named_systems(self):
        loading, named = self.loading(self.leaf.width), self.named(self.leaf.width)
        systems = [related(row, "<", 0) for row in named.put(self.program.domain_of(named.statement))]
        for stored, loaded in zip(named.put(named.statement.store.subscripts), loading.put(self.load.subscripts)):
            systems += [related(stored, ">", loaded), related(stored, "<", loaded)]
        systems += before_in_source(loading, named)
        if named.statement is self.statement:
            systems.append(all_equal(loading.iterators, named.iterators))
        for system in systems:
            yield self.leaf.width, self.rows + system
        for stored, rows, lefts, rights in self.storing():
            for system in self.between(before_in_source, stored):
                yield stored.width, rows + all_equal(lefts, rights) + system

    def between(self, before, stored):
        """The systems of: the stored instance lies between the named one and the load's."""
        return [earlier + later for earlier in before(self.named(stored.width), stored)
                for later in before(stored, self.loading(stored.width))]

    def clash_systems(self):
        if self.leaf.statement is None:
            return
        for stored, rows, lefts, rights in self.storing():
            differences = [plus(left, right, -1) for left, right in zip(lefts, rights)]
            for system in self.between(self.asker.before_in_schedule, stored):
                for place, (left, right) in enumerate(zip(lefts, rights)):
                    before = rows + system + all_equal(lefts[:place], rights[:place])
                    for relation in ("<", ">"):
                        yield ClashSystem(stored.width, before + related(left, relation, right), differences)


def is_valid_proof(nodes, question):
    """Walks the proof's nodes with the rows that stand at each."""
    rows = list(question.rows)
    high_sides = []  # of the splits above: how many rows stood there, and the row of the high side
    for tag, *entries in nodes:
        if len(rows) > MOST_ROWS:
            return False
        if tag == "f":
            total = summed(entries[0], rows, question.width)
            if total is None or any(total[:-1]) or total[-1] >= 0:
                return False
            if high_sides:
                count, row = high_sides.pop()
                rows[count:] = [row]
        elif tag == "c":
            multiples, divisor, form = entries
            if not is_cut(summed(multiples, rows, question.width), divisor, form):
                return False
            rows.append(form)
        else:
            coefficients, at = entries
            low, high = scaled(coefficients, -1) + [at], coefficients + [-at - 1]
            if len(coefficients) != question.width or not keeps_limits(low) or not keeps_limits(high):
                return False
            high_sides.append((len(rows), high))
            rows.append(low)
    return True


def is_cut(total, divisor, form):
    return (total is not None and divisor >= 1 and len(form) == len(total)
            and total[:-1] == scaled(form[:-1], divisor) and form[-1] == total[-1] // divisor)


def summed(multiples, rows, width):
    """The sum of the multiples of the rows, or None where a row isn't there."""
    total = constant_form(0, width)
    for number, multiplier in multiples:
        if number >= len(rows):
            return None
        total = plus(total, rows[number], multiplier)
    return total


def keeps_limits(row):
    return abs(row[-1]) <= CONSTANT_LIMIT and all(abs(entry) <= COEFFICIENT_LIMIT for entry in row[:-1])


def refuse_other_bases(certificate, schedule):
    for part, fold in certificate.numbered_folds():
        is_whole = (fold.rows == fold.inverse == identity(len(fold.rows))
                    and [modulus.form for modulus in fold.moduli] == fold.array.extents)
        basis = schedule.bases.get(fold.array.number)
        if basis not in (None, (fold.rows, fold.inverse)) and not is_whole:
            raise Refused("shape %d" % part)


def refuse_large_questions(items):
    for item in sorted((item for item in items if isinstance(item, Question) and item.part), key=lambda i: i.part):
        if item.width > MOST_COLUMNS or len(item.rows) > MOST_ROWS or not all(map(keeps_limits, item.rows)):
            raise Refused("number %d" % item.part)


def point_fails(point):
    return (point.rows is None or len(point.values) != point.width
            or any(value_at(row, point.values) < 0 for row in point.rows))


def refuse_unproved(certificate, items):
    proofs = iter(certificate.proofs)
    for number, item in enumerate(items):
        if isinstance(item, Point):
            if point_fails(item):
                raise Refused("shown %d" % number)
        else:
            proof = next(proofs, None)
            if proof is None or not is_valid_proof(proof, item):
                raise Refused("proof %d" % number)


def check(program, schedule, data):
    """The line to print for a certificate's bytes."""
    try:
        certificate = Certificate(data, program)
        refuse_other_bases(certificate, schedule)
        items = list(Asker(program, schedule, certificate).items())
        refuse_large_questions(items)
        refuse_unproved(certificate, items)
    except Refused as refusal:
        return str(refusal)
    return "valid"


def contents(path):
    with open(path, "rb") as file:
        return file.read()


def read_inputs(source_path, schedule_path):
    """The program and the schedule of two files."""
    program = SourceReader(contents(source_path).decode("latin-1")).read()
    return program, read_schedule(contents(schedule_path).decode("latin-1"), program)


def main(arguments):
    if len(arguments) != 3:
        print(__doc__, file=sys.stderr)
        return 2
    try:
        answer = check(*read_inputs(*arguments[:2]), contents(arguments[2]))
    except (OSError, ValueError, LookupError) as reason:
        print("can't read: %s" % reason, file=sys.stderr)
        return 2
    print(answer)
    return 0 if answer == "valid" else 1


if __name__ == "__main__":
    sys.exit(main(sys.argv[1:]))
