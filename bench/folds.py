#!/usr/bin/env python3
"""Says by counting what `affc fold` has to report of a source and a schedule: which elements of each temporary are live
together, the least moduli along its basis and their cost, and what the other listed bases come to.

    python3 folds.py SOURCE [SCHEDULE] [--each] [--cost=words|sum|powers] [--step=1] [NAME=HIGH ..]

It runs the trace of the source for all values of the parameters up to a small bound (HIGH, or four above the least) and
looks at every pair of elements. Where the declared ranges go further, it does so for some more bounds, `--step` apart,
and carries the report on to the declared ones, if all that it has seen changes evenly with the bounds. Each fold is also
tried: the trace in the order of the schedule, over arrays of these sizes, has to leave the outputs of the source.
`--each` shows the moduli at each value it has looked at.
"""
import math
import sys

from sources import LISTED, Schedule, Source, U


def live_pairs(source, schedule, p):
    """The pairs of elements of each temporary that are live together, in both orders."""
    trace = source.trace(p)
    order = schedule.target(source, p, trace)
    when = {n: k for k, n in enumerate(order)}
    touched, written, ends = {}, {}, {}
    for n, (_, _, _, loads, store) in enumerate(trace):
        for element in {*loads, store}:
            for m, stores in touched.setdefault(element, []):
                assert not (stores or element == store) or when[m] < when[n], f'illegal at {p}: {trace[m][:2]} before {trace[n][:2]}'
            touched[element].append((n, element == store))
        for element in loads:
            assert element in written or element[0] not in source.temps, f'unwritten at {p}: {element}'
            if element in written:
                ends[written[element]] = max(ends.get(written[element], -1), when[n])
        written[store] = n
    pairs = {a: set() for a in source.temps}
    for n, end in ends.items():
        array, x = trace[n][4]
        for m in order[when[n] + 1:end] if array in pairs else []:
            other, y = trace[m][4]
            if other == array and x != y:
                pairs[array] |= {(x, y), (y, x)}
    return pairs


def greatest(pairs, places):
    """For each row how far apart two elements of the pairs lie that the rows before keep together, and the least such two."""
    if not places:
        return []
    out = []
    for k in range(len(next(iter(places.values())))):
        far = max((places[y][k] - places[x][k] for x, y in pairs), default=0)
        out.append((far, min(((x, y) for x, y in pairs if places[y][k] - places[x][k] == far), default=None) if far > 0 else None))
        pairs = [(x, y) for x, y in pairs if places[x][k] == places[y][k]]
    return out


COSTS = {
    'words': math.prod,
    'sum': sum,
    'powers': lambda values: math.prod(1 << (v - 1).bit_length() for v in values),
}


def place(rows, x):
    return tuple(eval(row, {}, {f'x{k}': v for k, v in enumerate(x)}) for row in rows)


class Analysis:
    def __init__(self, source, schedule, step=1):
        self.source, self.schedule, self.step, self.seen, self.far = source, schedule, step, {}, {}

    def at(self, p, array, rows):
        if p not in self.seen:
            self.seen[p] = live_pairs(self.source, self.schedule, p)
        if (p, array, rows) not in self.far:
            pairs = self.seen[p][array]
            places = {x: place(rows, x) for x in {x for pair in pairs for x in pair}}
            self.far[p, array, rows] = greatest(pairs, places) or [(0, None)] * len(rows)
        return self.far[p, array, rows]

    def slopes(self, array, row, dimensions):
        """How the extents of these dimensions grow with each parameter, as often as the row counts them."""
        zero = [0] * len(self.source.params)
        units = [[int(i == j) for i in range(len(zero))] for j in range(len(zero))]
        ranks = len(self.source.arrays[array])
        weights = [abs(place([row], [int(i == j) for i in range(ranks)])[0]) for j in range(ranks)]
        base = self.source.extents(array, zero)
        return [sum(weights[d] * (self.source.extents(array, u)[d] - base[d]) for d in dimensions) for u in units]

    def need(self, array, rows, k, highs):
        return 1 + max(self.at(p, array, rows)[k][0] for p in self.source.points(highs))

    def modulus(self, array, rows, k, highs):
        """The form (its slopes, its constant), the point and the pair that the report shows for these ranges."""
        points = self.source.points(highs)
        far = {p: self.at(p, array, rows)[k][0] for p in points}
        need, forms, lows = 1 + max(far.values()), [], [self.source.declared[n][0] for n in self.source.params]
        for chosen in range(2 ** len(rows)):
            slopes = self.slopes(array, rows[k], [d for d in range(len(rows)) if chosen >> d & 1])
            constant = need - max(dot(slopes, p) for p in points)
            if all(dot(slopes, p) + constant >= 1 + far[p] for p in points):
                forms.append((dot(slopes, lows) + constant, chosen, slopes, constant))
        _, _, slopes, constant = min(forms)
        p = min(p for p in points if far[p] == need - 1)
        x, y = self.at(p, array, rows)[k][1] or ((), ())
        return [slopes, [constant], list(p), list(x), list(y)]

    def carried(self, array, found, highs, wanted):
        """What is found for these ranges, for the declared ones."""
        declared = [self.source.declared[n][1] for n in self.source.params]
        if all(d <= h for d, h in zip(declared, highs)):
            return found(declared)
        steps = [[h + self.step * (i == j) for i, h in enumerate(highs)] for j in range(len(highs))]
        last = [h + 2 * self.step for h in highs]
        first, *others = [found(h) for h in [highs] + steps + [last]]

        def carry(to):
            rates = [(other, (t - h) // self.step) for other, t, h in zip(others, to, highs)]
            return [[v + sum((other[part][k] - v) * by for other, by in rates) for k, v in enumerate(values)]
                    for part, values in enumerate(first)]
        assert all((d - h) % self.step == 0 for d, h in zip(declared, highs)), f'{highs}: not a number of steps to {declared}'
        assert carry(last) == others[-1], f'{array} {wanted} changes unevenly: {first} {others}'
        return carry(declared)

    def shown(self, array, rows, k, highs):
        out = self.carried(array, lambda h: self.modulus(array, rows, k, h), highs, rows[k])
        declared = [self.source.declared[n][1] for n in self.source.params]
        assert tuple(out[2]) in self.source.points(declared), f'{array} {rows[k]}: {out[2]} lies outside the context'
        return out

    def needs(self, array, rows, highs):
        """The greatest values of the moduli over the declared ranges."""
        return [self.carried(array, lambda h: [[self.need(array, rows, k, h)]], highs, rows[k])[0][0] for k in range(len(rows))]

    def tried(self, chosen, highs):
        """Whether the folds of these ranges keep the outputs."""
        source, sizes = self.source, {}
        for array in source.temps:
            sizes[array] = [self.modulus(array, chosen[array], k, highs)[:2] for k in range(len(chosen[array]))]
        for p in source.points(highs):
            trace = source.trace(p)
            moduli = {a: [dot(s, p) + c for s, (c,) in forms] for a, forms in sizes.items()}

            def at_place(e):
                return (e[0], tuple(v % m for v, m in zip(place(chosen[e[0]], e[1]), moduli[e[0]]))) if e[0] in moduli else e
            ends = []
            for order, at in ((range(len(trace)), lambda e: e), (self.schedule.target(source, p, trace), at_place)):
                store = {}
                for n in order:
                    _, _, value, _, element = trace[n]
                    store[at(element)] = value(lambda e: store.get(at(e), U(hash(e) % 2**64)))
                ends.append({e: v for e, v in store.items() if e[0] in source.outputs})
            assert ends[0] == ends[1], f'other outputs at {p}'


def dot(slopes, p):
    return sum(s * v for s, v in zip(slopes, p))


def form(coefficients, names, constant):
    terms = [(c, n) for c, n in zip(coefficients, names) if c] + [(constant, '')] * (constant != 0)
    text = ''
    for c, name in terms:
        size = f'{abs(c)} * {name}' if name and abs(c) != 1 else name or str(abs(c))
        first = f'-({size})' if ' ' in size else f'-{size}'
        text += (f' - {size}' if c < 0 else f' + {size}') if text else (first if c < 0 else size)
    return text or '0'


def report(analysis, highs, cost):
    """Prints the report, and answers the rows that it has for each temporary."""
    source, chosen = analysis.source, {}
    for array in source.temps:
        ranks = len(source.arrays[array])
        given = analysis.schedule.rows.get(array)
        bases = [tuple(given)] if given else LISTED[ranks]
        needs = [analysis.needs(array, rows, highs) for rows in bases]
        costs = [cost(values) for values in needs]
        number = costs.index(min(costs))
        rows = chosen[array] = bases[number]
        columns = [place(rows, [int(i == j) for i in range(ranks)]) for j in range(ranks)]
        names = [form([c[k] for c in columns], [f'x{j}' for j in range(ranks)], 0) for k in range(ranks)]
        print(f'array {array}\n  basis ({", ".join(names)})')
        for k in range(ranks):
            slopes, (constant,), p, x, y = analysis.shown(array, rows, k, highs)
            at = ' at ' + ' '.join(f'{n}={v}' for n, v in zip(source.params, p)) if p else ''
            pair = ' pair ' + ' '.join(f'({", ".join(map(str, e))})' for e in (x, y)) if x else ' no pair'
            print(f'  modulus {k}: {form(slopes, source.params, constant)} least{at}{pair}')
            assert dot(slopes, p) + constant == needs[number][k], f'{array} {rows[k]}: its value is not the need'
        print(f'  cost {costs[number]}')
        for j, values in enumerate(needs):
            if j != number:
                print(f'  rival {j}: {" ".join(map(str, values))} cost {costs[j]}')
    return chosen


def main(words):
    bounds = dict(w.split('=') for w in words if '=' in w and not w.startswith('--'))
    cost = next((w[7:] for w in words if w.startswith('--cost=')), 'words')
    step = next((int(w[7:]) for w in words if w.startswith('--step=')), 1)
    files = [open(w).read() for w in words if '=' not in w and w != '--each']
    source = Source(files[0])
    analysis = Analysis(source, Schedule(files[1] if len(files) > 1 else '', source), step)
    highs = [min(int(bounds.get(n, source.declared[n][0] + 4)), source.declared[n][1]) for n in source.params]
    chosen = report(analysis, highs, COSTS[cost])
    analysis.tried(chosen, highs)
    for p in sorted(analysis.seen) if '--each' in words else []:
        at = ' '.join(f'{n}={v}' for n, v in zip(source.params, p))
        print(at, ' '.join(f'{a}: ' + ' '.join(str(1 + far) for far, _ in analysis.at(p, a, rows)) for a, rows in chosen.items()))


if __name__ == '__main__':
    main(sys.argv[1:])
