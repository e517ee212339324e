#!/usr/bin/env python3
"""Counts the leaves of last-write trees that name an instance beside the pieces of isl's last writes.

    python3 leaves.py AFFC SOURCE ..

Prints a row of Markdown for each source: the leaves of the trees of all its loads (`flow`), and the pieces in which isl gives the
last writes of these loads, each load by itself and coalesced. isl (`libisl-dev`; pieces_isl.c is built with it) gets domains,
orders and accesses as beside_isl.py gives them.
"""
import os
import re
import subprocess
import sys
import tempfile
import types

from beside_isl import HERE, Program, objects


def pieces(counter, lines):
    """The pieces of the last writes of each load by itself."""
    reads, = [line for line in lines if line.startswith('R ')]
    before, loads = re.fullmatch(r'R (.*?)\{(.*)\}\s*', reads).groups()
    others = [line for line in lines if not line.startswith('R ')]
    for load in filter(None, map(str.strip, loads.split(';'))):
        text = '\n'.join([*others, f'R {before}{{ {load} }}']) + '\n'
        yield int(subprocess.run([counter], input=text, check=True, capture_output=True, text=True).stdout)


def main(affc, *sources):
    with tempfile.TemporaryDirectory() as folder:
        counter = os.path.join(folder, 'pieces_isl')
        subprocess.run(['cc', '-O2', '-o', counter, os.path.join(HERE, 'pieces_isl.c'), '-lisl'], check=True)
        for source in sources:
            with open(source, encoding='utf-8') as file:
                program = Program(file.read())
            lines = list(objects(program, types.SimpleNamespace(forms=None, rows={})))
            flow = subprocess.run([affc, 'flow', source], check=True, capture_output=True, text=True).stdout
            leaves = len(re.findall(r'^ +source ', flow, re.M))
            print(f'| {os.path.basename(source)} | {leaves} | {sum(pieces(counter, lines))} |', flush=True)


if __name__ == '__main__':
    if len(sys.argv) < 3:
        sys.exit(__doc__)
    main(*sys.argv[1:])
