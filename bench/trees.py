#!/usr/bin/env python3
"""Says whether the answers that a file of rows has for `flow` and `fold` are right: last-write trees and folds followed at
all points of a program for small parameters. It shares nothing with affc.

    python3 trees.py ROWS [ROW ..] [--step=1] [NAME=HIGH ..]

Each row has the source as `a.c`, what `call flow a.c` writes and what `call fold a.c` reports; only the rows that are
named are looked at, or all. At all values of the parameters up to HIGH (or 7 above the least, and never past the declared
ranges):

- The instances run in order, and the last store to each element is remembered. For each load its tree is followed at the
  instance, through its tests and quotients, and has to name exactly that store, or `input`.
- The moduli of the report are taken at these values. Any two elements of a temporary that are live together have to lie
  at different places, and along each row, among the elements that the rows before keep together, no two may lie as far
  apart as the modulus: a smaller modulus than one more than how far they lie apart wouldn't do for the row. Where a
  modulus is called least at values that were looked at, it has to be this number there, and its pair has to be the first.

Then the whole report has to be what folds.py finds by counting and carries on to the declared ranges: at bounds that are
two of `--step` and one of it below HIGH, and at HIGH.
"""
import contextlib
import io
import os
import re
import sys

import folds
from sources import Schedule, Source


def row_texts(path):
    """For each row its source, what `flow` writes and what `fold` reports."""
    out = {}
    for row in re.split(r'^row ', open(path).read(), flags=re.M)[1:]:
        name, call, lines = row.split('\n', 1)[0], '', {}
        for line in row.split('\n')[1:]:
            if line.startswith(('file ', 'call ', 'out', 'err')):
                word, *rest = line.split(' ', 2)
                call = line if word == 'call' else call
                key = 'source' if line.startswith('file a.c') else call if word == 'call' else f'{call} {word}'
                lines.setdefault(key, [])
                line = rest[-1] if rest and word != 'call' else ''
            if line.startswith('|'):
                lines[key].append(line[1:] + '\n')
            elif line.startswith('<'):
                lines[key].append(open(os.path.join(os.path.dirname(path), line[1:])).read())
        out[name] = [''.join(lines[k]) for k in ('source', 'call flow a.c out', 'call fold a.c err')]
    return out


def compiled(form):
    return compile(form.strip(), form, 'eval')


class Trees:
    """What `flow` wrote: a tree for each load, as nested tuples."""

    def __init__(self, text):
        self.lines, self.loads = text.splitlines(), {}
        while self.lines:
            statement, number, array = re.fullmatch(r'S(\d+) load (\d+) (\w+)', self.lines.pop(0)).groups()
            assert (int(statement), int(number)) not in self.loads
            self.loads[int(statement), int(number)] = (array, self.tree(1))
        assert list(self.loads) == sorted(self.loads), 'loads out of order'

    def tree(self, depth):
        line = self.lines.pop(0)
        assert line.startswith('  ' * depth) and line[2 * depth] != ' ', line
        line = line[2 * depth:]
        if line == 'input':
            return ('input',)
        if source := re.fullmatch(r'source S(\d+)\((.*)\)', line):
            return ('source', int(source[1]), [compiled(f) for f in source[2].split(',') if f])
        if test := re.fullmatch(r'test (.*) >= 0', line):
            return ('test', compiled(test[1]), self.tree(depth + 1), self.tree(depth + 1))
        quotient = re.fullmatch(r'div (q\d+) = floor\(\((.*)\) / ([1-9]\d*)\)', line)
        return ('div', quotient[1], compiled(quotient[2]), int(quotient[3]), self.tree(depth + 1))


def followed(tree, values):
    """What the tree names where the names have these values."""
    values = dict(values)
    while True:
        if tree[0] == 'input':
            return None
        if tree[0] == 'source':
            return tree[1], tuple(eval(f, {}, values) for f in tree[2])
        if tree[0] == 'test':
            tree = tree[2] if eval(tree[1], {}, values) >= 0 else tree[3]
        else:
            _, name, form, divisor, tree = tree
            values[name] = eval(form, {}, dict(values)) // divisor


def look_at_trees(source, trees, p, used):
    """How many loads were followed at p."""
    last, count, params = {}, 0, dict(zip(source.params, p))
    for statement, iterators, _, loads, store in source.trace(p):
        values = params | dict(zip(source.statements[statement], iterators))
        for number, element in enumerate(loads):
            array, tree = trees.loads[statement, number]
            assert array == element[0], f'S{statement} load {number} is of {element[0]}'
            named, known = followed(tree, values), last.get(element)
            assert named == known, f'at {params} S{statement}{iterators} load {number} of {element}: {named}, not {known}'
            used.add((statement, number))
            count += 1
        last[store] = (statement, iterators)
    return count


def parsed(report):
    """For each temporary its basis and its moduli: form, values, pair."""
    out, array = {}, None
    for line in report.splitlines():
        if head := re.fullmatch(r'array (\w+)', line):
            array = head[1]
        elif basis := re.fullmatch(r'  basis \((.*)\)', line):
            out[array] = (tuple(r.strip() for r in basis[1].split(',') if r), [])
        elif modulus := re.fullmatch(r'  modulus (\d+): (.*) least((?: at)?)((?: \w+=-?\d+)*) (?:no pair|pair (\(.*?\)) (\(.*\)))', line):
            number, form, _, at, x, y = modulus.groups()
            assert int(number) == len(out[array][1])
            point = tuple(int(v.split('=')[1]) for v in at.split())
            pair = tuple(tuple(int(v) for v in e.strip('()').split(',')) for e in (x, y)) if x else None
            out[array][1].append((compiled(form), point, pair))
        else:
            assert re.fullmatch(r'  (cost \d+|rival \d+: \d+( \d+)* cost \d+)', line), line
    return out


def look_at_folds(source, analysis, report, points):
    """How many pairs were looked at, and at how many values a modulus is as small as it can be."""
    found, pairs_seen, tight, moduli_seen = parsed(report), 0, 0, 0
    assert list(found) == source.temps, 'other temporaries'
    for array, (rows, moduli) in found.items():
        assert len(rows) == len(moduli) == len(source.arrays[array])
        needs = {}
        for p in points:
            params = dict(zip(source.params, p))
            needs[p] = analysis.at(p, array, rows)
            values = [eval(form, {}, params) for form, _, _ in moduli]
            places = {}
            for x, y in analysis.seen[p][array]:
                at = [places.setdefault(e, tuple(v % m for v, m in zip(folds.place(rows, e), values))) for e in (x, y)]
                assert at[0] != at[1], f'at {params} {array}{x} and {y} lie at one place'
                pairs_seen += 1
            for value, (far, _) in zip(values, needs[p]):
                assert value >= 1 + far, f'at {params} a modulus of {array} is {value}, and elements lie {far} apart'
                tight += value == 1 + far
                moduli_seen += 1
        for k, (form, point, pair) in enumerate(moduli):
            if point in needs:
                value = eval(form, {}, dict(zip(source.params, point)))
                assert (value - 1, pair) == needs[point][k], f'at {point} modulus {k} of {array} is {value} {pair}, not {needs[point][k]}'
                assert all(needs[p][k][0] < value - 1 or p >= point for p in points), f'modulus {k} of {array} is reached before {point}'
    return pairs_seen, tight, moduli_seen


def look_at(name, texts, bounds, step):
    source, trees = Source(texts[0]), Trees(texts[1])
    analysis = folds.Analysis(source, Schedule('', source), step)
    highs = [min(int(bounds.get(n, source.declared[n][0] + 7)), source.declared[n][1]) for n in source.params]
    below = [h if h == source.declared[n][1] else h - 2 * step for n, h in zip(source.params, highs)]
    points, used = source.points(highs), set()
    loads = sum(look_at_trees(source, trees, p, used) for p in points)
    assert used == set(trees.loads), f'trees of loads that no instance has: {set(trees.loads) - used}'
    pairs, tight, moduli = look_at_folds(source, analysis, texts[2], points)
    told = io.StringIO()
    with contextlib.redirect_stdout(told):
        chosen = folds.report(analysis, below, folds.COSTS['words'])
    assert told.getvalue() == texts[2], f'{name}: by counting\n{told.getvalue()}'
    analysis.tried(chosen, highs)
    print(f'{name}: {len(points)} values up to {" ".join(f"{n}={h}" for n, h in zip(source.params, highs))}, {len(used)} trees right at'
          f' {loads} loads; {pairs} pairs apart, {tight} of {moduli} moduli as small as can be; the report carried on is the same')


def main(words):
    bounds = dict(w.split('=') for w in words if '=' in w and not w.startswith('--'))
    step = next((int(w[7:]) for w in words if w.startswith('--step=')), 1)
    path, *names = [w for w in words if '=' not in w]
    for name, texts in row_texts(path).items():
        if not names or name in names:
            look_at(name, texts, bounds, step)


if __name__ == '__main__':
    main(sys.argv[1:])
