#!/usr/bin/env python3
"""Runs a source, or a text that affc printed, on data by a C compiler with sanitizers, and writes the lines that
`affc run` has to write.

    python3 by_gcc.py TEXT DATA [COMPILER OPTIONS..]
"""
import os
import re
import subprocess
import sys
import tempfile

OPTIONS = '-std=c11 -O1 -g -Wall -Wno-unknown-pragmas -Wno-unused-function -fsanitize=undefined,address -fno-sanitize-recover=all'


def main_of(text, data):
    """A main function that hands over what the data hold and prints the outputs."""
    function, parameters = re.search(r'void (\w+)\((.*?)\) {', text).groups()
    outputs = re.findall(r'(?<!const )uint64_t (\w+)', parameters)
    words, out, after = [], [], []
    for line in data.splitlines():
        kind, name, *values = line.split(' ')
        if kind == 'param':
            words.append(values[0] + 'LL')
        else:
            out.append(f'  static uint64_t {name}[] = {{{", ".join(v + "ULL" for v in values)}}};')
            words.append(f'(void *){name}')
            if name in outputs:
                after += [f'  printf("array {name}");',
                          f'  for (int k = 0; k < {len(values)}; k++) printf(" %" PRIu64, {name}[k]);', '  printf("\\n");']
    called = f'  {function}({", ".join(words)});'
    return '\n'.join(['#include <inttypes.h>', '#include <stdio.h>', text, 'int main(void) {', *out, called, *after, '}', ''])


def main(words):
    text, data, *options = words
    with tempfile.TemporaryDirectory() as folder:
        program = os.path.join(folder, 'main')
        with open(program + '.c', 'w') as file:
            file.write(main_of(open(text).read(), open(data).read()))
        subprocess.run(['cc', *(options or OPTIONS.split()), '-o', program, program + '.c'], check=True)
        sys.exit(subprocess.run([program], check=False).returncode)


main(sys.argv[1:])
