#!/usr/bin/env python3
"""Says what looking at a certificate costs beside making it, in instructions by callgrind.

    python3 check_cost.py AFFC [NAME ..]

For each program of the table below (or those named): the whole of `fold --cert`, the whole of `fold`, and within `replay`
the check of the certificate, that is all that is asked of its items once its text is read and its bases are looked at. Prints a
row of Markdown for each. AFFC is to be the executable that the gate builds: others have other calls within the check.
"""
import os
import re
import subprocess
import sys
import tempfile
from collections import defaultdict

TOP = os.path.dirname(os.path.dirname(os.path.abspath(__file__)))
PROGRAMS = [f'examples/{name}' for name in ('separable', 'integral', 'chain', 'jacobi2d', 'jacobi1d', 'align', 'sweep', 'stages', 'blur')]
PROGRAMS += ['bench/stages8', 'examples/triangle', 'bench/jacobi2d']
PARTS = {'clash systems': 'affc_check::list::all::systems_of', 'trees and schedule': 'affc_check::list::all::groups_of', 'listing': 'affc_check::list::all::list_all'}
CHECK = 'affc_accept::accepting::checked'


def profile(words):
    """Runs the words under callgrind, and gives the instructions of each function by itself and those of each call."""
    with tempfile.TemporaryDirectory() as folder:
        path = f'{folder}/callgrind.out'
        subprocess.run(['valgrind', '--tool=callgrind', f'--callgrind-out-file={path}', *words], check=True, capture_output=True)
        with open(path, encoding='utf-8') as file:
            lines = file.read().split('\n')
    names, alone, calls, function, called, is_call = {}, defaultdict(int), defaultdict(int), None, None, False
    for line in lines:
        if line.startswith(('fn=', 'cfn=')):
            key, name = re.fullmatch(r'c?fn=(\(\d+\)) ?(.*)', line).groups()
            names[key] = name or names[key]
            function, called = (function, names[key]) if line[0] == 'c' else (names[key], called)
        elif line.startswith('calls='):
            is_call = True
        elif re.match(r'[-+*\d]', line) and ' ' in line:
            cost = int(line.split()[-1])
            if is_call:
                calls[function, called] += cost
            else:
                alone[function] += cost
            is_call = False
    return alone, calls


def row(affc, name):
    source, schedule = f'{TOP}/{name}.c', f'{TOP}/{name}.s'
    with tempfile.TemporaryDirectory() as folder:
        certificate = f'{folder}/certificate'
        plain = sum(profile([affc, 'fold', source, schedule])[0].values())
        made = sum(profile([affc, 'fold', source, schedule, '--cert', certificate])[0].values())
        alone, calls = profile([affc, 'replay', source, schedule, certificate])
    checks = {called: cost for (caller, called), cost in calls.items() if caller == CHECK}
    parts = [checks.get(part, 0) for part in PARTS.values()]
    whole = alone[CHECK] + sum(checks.values())
    cells = [f'{part / 1e6:.1f}' for part in (*parts, whole - sum(parts))]
    of = [f'{100 * whole / it:.1f} %' for it in (made, plain)]
    return f'| `{name}` | {made / 1e6:.1f} | {whole / 1e6:.2f} | {of[0]} | {plain / 1e6:.1f} | {of[1]} | ' + ' | '.join(cells) + ' |'


def main():
    affc, *names = sys.argv[1:]
    print('| | `fold --cert` | the check | | `fold` | | ' + ' | '.join([*PARTS, 'the rest']) + ' |')
    print('|---' * 10 + '|')
    for name in PROGRAMS:
        if not names or name in names:
            print(row(affc, name), flush=True)


if __name__ == '__main__':
    main()
