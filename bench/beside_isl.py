#!/usr/bin/env python3
"""Runs `affc fold` and isl doing the same side by side, and prints a table: processor time, the least of some runs of each in
turn, and with --count the instructions by valgrind's callgrind.

    python3 beside_isl.py AFFC [--count] [--runs=5] SOURCE[:SCHEDULE] ..

Without sources it takes those of examples/ that have temporaries, with their schedules. isl (`libisl-dev`; fold_isl.c is built
with it) gets domains, orders and accesses as its own objects, whose reading isn't counted, and has to find the same moduli.
"""
import math
import os
import re
import resource
import subprocess
import sys
import tempfile

from sources import LISTED, Schedule, Source

HERE = os.path.dirname(os.path.abspath(__file__))


class Program(Source):
    """A source with the domain, the place in the text and the accesses of each statement."""

    def __init__(self, text):
        self.around, self.places, self.domains, self.touched = [], [0], [], []
        super().__init__(text)

    def statement(self, depth):
        self.places.append(self.places.pop() + 1)
        token = self.tokens[0]
        if token == 'for':
            name, low, relation, high = self.bounds()
            self.line(depth, f'for {name} in range(0):')
            self.around.append(f'{low} <= {name} and {name} {relation} {high}')
            self.iterators.append(name)
            self.places += [name, 0]
            self.statement(depth + 1)
            del self.places[-2:]
            self.iterators.pop()
            self.around.pop()
        elif token == 'if':
            self.tokens = self.tokens[2:]
            self.line(depth, 'if True:')
            self.around.append(self.until(')').replace('&&', 'and').replace('==', '='))
            self.statement(depth + 1)
            self.around.pop()
        elif token == '{':
            super().statement(depth)
        else:
            self.here = []
            super().statement(depth)
            store, loads = self.here[0], self.here[1:]
            self.domains.append((list(self.iterators), list(self.around), list(self.places)))
            self.touched.append((store, loads + [store] * self.compound))

    def bounds(self):
        self.tokens = self.tokens[3:]
        name, _, low = self.take(), self.take(), self.until(';')
        _, relation, high = self.take(), self.take(), self.until(';')
        self.until(')')
        return name, low, relation, high

    def element(self, name):
        subs = self.subscripts()
        self.here.append((name, subs))
        if len(self.here) == 1:
            self.compound = self.tokens[0] != '='
        return f'("{name}", ({"".join(s + ", " for s in subs)}))'


def objects(source, schedule):
    """The lines that fold_isl reads."""
    over = f'[{", ".join(source.params)}] -> '
    limits = [f'{low} <= {n} <= {high}' for n, (low, high) in source.declared.items()]
    context = ' and '.join(limits + [c.replace('==', '=') for c in source.context]) or '1 = 1'
    yield f'P {over}{{ : {context} }}'
    named = [f'S{k}[{", ".join(its)}]' for k, (its, _, _) in enumerate(source.domains)]
    yield 'D ' + over + '{ ' + '; '.join(f'{s} : {" and ".join(around) or "1 = 1"}' for s, (_, around, _) in zip(named, source.domains)) + ' }'
    long = max(len(places) for _, _, places in source.domains)
    orders = [', '.join(map(str, places + [0] * (long - len(places)))) for _, _, places in source.domains]
    times = orders
    if schedule.forms:
        times = [f'{schedule.forms[k]}, {k}' for k in range(len(named))]
    yield 'S ' + over + '{ ' + '; '.join(f'{s} -> [{o}]' for s, o in zip(named, orders)) + ' }'
    yield 'T ' + over + '{ ' + '; '.join(f'{s} -> [{t}]' for s, t in zip(named, times)) + ' }'
    yield 'W ' + over + '{ ' + '; '.join(f'{s} -> {a}[{", ".join(subs)}]' for s, ((a, subs), _) in zip(named, source.touched)) + ' }'
    yield 'R ' + over + '{ ' + '; '.join(f'{s} -> {a}[{", ".join(subs)}]' for s, (_, loads) in zip(named, source.touched) for a, subs in loads) + ' }'
    for array in source.temps:
        rank = len(source.arrays[array])
        if rank == 0:
            continue
        x, z = ([f'{c}{k}' for k in range(rank)] for c in 'xz')
        yield f'A {over}{{ {array}[{", ".join(x)}] }}'
        for rows in [tuple(schedule.rows[array])] if array in schedule.rows else LISTED[rank]:
            yield 'B '
            for row in rows:
                other = re.sub(r'\bx(\d)', r'z\1', row)
                yield f'F {over}{{ [{array}[{", ".join(x)}] -> {array}[{", ".join(z)}]] -> [({other}) - ({row})] }}'


def seconds(words, **rest):
    def spent():
        usage = resource.getrusage(resource.RUSAGE_CHILDREN)
        return usage.ru_utime + usage.ru_stime
    before = spent()
    done = subprocess.run(words, capture_output=True, text=True, **rest)
    return spent() - before, done


def instructions(words, only=None, **rest):
    toggle = ['--toggle-collect=' + only] if only else []
    words = ['valgrind', '--tool=callgrind', '--callgrind-out-file=/dev/null', *toggle, *words]
    return int(re.search(r'Collected : (\d+)', subprocess.run(words, capture_output=True, text=True, **rest).stderr).group(1))


def told(report):
    """For each temporary with dimensions the values of the bases that the report lists, by their numbers, and the cost of the other."""
    return {array: ({int(n): tuple(map(int, v.split())) for n, v in re.findall(r'rival (\d+): ([\d ]+) cost', lines)},
                    int(re.search(r'^  cost (\d+)', lines, flags=re.M).group(1)))
            for array, lines in re.findall(r'^array (\w+)\n((?:  .*\n)*)', report, flags=re.M)}


def main(words):
    count, words = '--count' in words, [w for w in words if w != '--count']
    runs = next((int(w[7:]) for w in words if w.startswith('--runs=')), 5)
    affc, *named = [w for w in words if not w.startswith('--')]
    if not named:
        examples = os.path.join(HERE, '..', 'examples')
        named = [os.path.join(examples, f) for f in sorted(os.listdir(examples)) if f.endswith('.c')]
        named = [n + (':' + n[:-2] + '.s' if os.path.exists(n[:-2] + '.s') else '') for n in named]
    with tempfile.TemporaryDirectory() as folder:
        beside = os.path.join(folder, 'fold_isl')
        subprocess.run(['cc', '-O2', '-o', beside, os.path.join(HERE, 'fold_isl.c'), '-lisl'], check=True)
        ratios = []
        print('| program | affc, ms | isl, ms | affc of isl |' + (' affc, million instructions | isl, million instructions |' if count else ''))
        for name in named:
            files = name.split(':')
            texts = [open(f).read() for f in files]
            source = Program(texts[0])
            if not any(source.arrays[a] for a in source.temps):
                continue
            lines = '\n'.join(objects(source, Schedule(texts[1] if len(files) > 1 else '', source))) + '\n'
            fold, own, other = [affc, 'fold', *files], [], []
            for _ in range(runs):
                spent, done = seconds(fold)
                own.append(spent)
                answer = subprocess.run([beside], input=lines, capture_output=True, text=True)
                assert answer.returncode == 0, answer.stderr
                other.append(float(answer.stdout.split('\n')[-2].split()[0]) / 1e6)
            assert done.returncode == 0 and answer.stdout.startswith('legal'), name
            found = {}
            for line in answer.stdout.split('\n')[1:-2]:
                array, *values = line.split()
                found.setdefault(array, []).append(tuple(map(int, values)))
            for array, (rivals, cost) in told(done.stderr).items():
                values = found.get(array, [()])
                chosen, = [n for n in range(len(values)) if n not in rivals]
                assert all(values[n] == v for n, v in rivals.items()) and math.prod(values[chosen]) == cost, f'{name}: {array}: {values} {rivals} {cost}'
            a, b = min(own), min(other)
            ratios.append(a / b)
            row = f'| {" by ".join(os.path.basename(f) for f in files)} | {a * 1e3:.1f} | {b * 1e3:.1f} | {a / b:.2f} |'
            if count:
                row += f' {instructions(fold) / 1e6:.1f} | {instructions([beside], "work", input=lines) / 1e6:.0f} |'
            print(row, flush=True)
        print(f'geometric mean {math.exp(sum(map(math.log, ratios)) / len(ratios)):.2f}, greatest {max(ratios):.2f}, least {min(ratios):.2f}')


if __name__ == '__main__':
    main(sys.argv[1:])
