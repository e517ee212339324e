#!/usr/bin/env python3
"""Random programs, run by affc and by a C compiler with sanitizers, which have to agree.

    python3 conditions.py AFFC [FIRST [COUNT]]

Programs of even numbers have conditions of all forms (`||`, `!=`, remainders, parentheses) and `else`; those of odd numbers
have comparisons joined by `&&` alone, and are folded too: the printed text has to run alike. A text that passes a limit is
counted, and left.
"""
import os
import random
import subprocess
import sys
import tempfile

HERE = os.path.dirname(os.path.abspath(__file__))
RELATIONS = ['<', '<=', '>', '>=', '==']


def term(draw, names):
    factor = draw.choice(['', '', '2 * ', '3 * ', '-'])
    return factor + draw.choice(names) if draw.random() < 0.8 else str(draw.randrange(5))


def side(draw, names):
    return draw.choice(['{} + {}', '{} - {}', '{}', '{}']).format(term(draw, names), term(draw, names))


def test(draw, names, wide):
    if wide and draw.random() < 0.3:
        value = term(draw, names) if draw.random() < 0.5 else f'({side(draw, names)})'
        return f'{value} % {draw.choice([1, 2, 3, 4, 7])} {draw.choice(["==", "!="])} 0'
    relation = draw.choice(RELATIONS + ['!='] if wide else RELATIONS)
    return f'{side(draw, names)} {relation} {side(draw, names)}'


def condition(draw, names, wide, depth):
    if depth == 0 or draw.random() < 0.4:
        return test(draw, names, wide)
    mark = draw.choice([' && ', ' || ']) if wide else ' && '
    parts = [condition(draw, names, wide, depth - 1) for _ in range(draw.choice([2, 2, 3]))]
    return mark.join(f'({part})' if draw.random() < 0.6 else part for part in parts)


def assignment(draw, names, indent):
    place = ' + '.join(names[1:]) or '0'
    return f'{indent}out[{place}] {draw.choice(["=", "+=", "^="])} in[{place}] * {draw.randrange(1, 9)}ULL + {draw.randrange(9)}ULL;'


def branches(draw, names, wide, depth, indent):
    inside = indent + '  '
    lines = [f'{indent}if ({condition(draw, names, wide, 2)})']
    if draw.random() < 0.4:
        lines.append(assignment(draw, names, inside))
        behind = indent + 'else {'
    else:
        lines[0] += ' {'
        lines += statements(draw, names, wide, depth, inside) + [indent + '}']
        if not wide or draw.random() < 0.4:
            return lines
        behind = lines.pop() + ' else {'
    if wide:
        lines += [behind] + statements(draw, names, wide, depth, inside) + [indent + '}']
    return lines


def statements(draw, names, wide, depth, indent):
    lines = []
    for _ in range(draw.choice([1, 1, 2])):
        kind = draw.random()
        if depth > 0 and kind < 0.3 and len(names) < 3:
            name = 'ij'[len(names) - 1]
            lines.append(f'{indent}for (int64_t {name} = 0; {name} < {draw.choice(["N", "4", "3"])}; {name}++) {{')
            lines += statements(draw, names + [name], wide, depth - 1, indent + '  ') + [indent + '}']
        elif depth > 0 and kind < 0.8:
            lines += branches(draw, names, wide, depth - 1, indent)
        else:
            lines.append(assignment(draw, names, indent))
    return lines


def program(number):
    draw = random.Random(number)
    body = statements(draw, ['N'], number % 2 == 0, 4, '  ')
    head = ['#include <stdint.h>', '#pragma affc param N 1 9', 'void f(int64_t N, const uint64_t in[N + 9], uint64_t out[N + 9]) {']
    n = draw.randrange(1, 10)
    data = [f'param N {n}', 'array in ' + ' '.join(str(draw.randrange(100)) for _ in range(n + 9)), 'array out ' + ' '.join(['0'] * (n + 9))]
    return '\n'.join(head + body + ['}', '']), '\n'.join(data + [''])


def main(affc, first=1, count=200):
    limits = runs = folds = wrong = 0
    with tempfile.TemporaryDirectory() as folder:
        text, data, printed = (os.path.join(folder, name) for name in ('a.c', 'a.data', 'b.c'))
        for number in range(int(first), int(first) + int(count)):
            for path, held in zip((text, data), program(number)):
                with open(path, 'w') as file:
                    file.write(held)
            wanted = subprocess.run([sys.executable, f'{HERE}/by_gcc.py', text, data], capture_output=True)
            got = subprocess.run([affc, 'run', text, data], capture_output=True)
            if b': limit ' in got.stderr:
                limits += 1
                continue
            runs += 1
            alike = wanted.returncode == got.returncode == 0 and wanted.stdout == got.stdout
            if number % 2 == 1:
                with open(printed, 'wb') as file:
                    fold = subprocess.run([affc, 'fold', text], stdout=file, stderr=subprocess.PIPE)
                again = subprocess.run([affc, 'run', printed, data], capture_output=True)
                folds += 1
                alike = alike and fold.returncode == again.returncode == 0 and again.stdout == wanted.stdout
            if not alike:
                wrong += 1
                print(f'{number} differs: {got.stderr.decode().strip()}')
    print(f'{runs} runs, {folds} folds, {limits} past a limit, {wrong} not alike')
    return wrong != 0


sys.exit(main(*sys.argv[1:]))
