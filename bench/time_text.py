#!/usr/bin/env python3
"""Times a source, or a text that affc printed, compiled by `cc -O2`, and counts the steps of its run by affc.

    python3 time_text.py AFFC TEXT N=20 T=10 ..

Arrays get the numbers 0, 1, 2, .. The line that is written has the least of five times of a call, in nanoseconds, and the steps.
"""
import os
import re
import subprocess
import sys
import tempfile
import time


def parts_of(text):
    """The function's name, its parameters in order: a number's name, or an array's name, its extents and whether it is given alone."""
    name, parameters = re.search(r'void (\w+)\((.*?)\) {', text).groups()
    parts = []
    for each in parameters.split(', '):
        array = re.fullmatch(r'(const )?uint64_t (\w+)((\[.*?\])+)', each)
        if array:
            parts.append((array[2], re.findall(r'\[(.*?)\]', array[3])))
        else:
            parts.append((each.split()[-1], None))
    return name, parts


def size_of(extents, values):
    size = 1
    for extent in extents:
        size *= eval(extent, {}, dict(values))  # (the extents of a text of the language)
    return size


def main_of(text, values, calls):
    name, parts = parts_of(text)
    words, arrays = [], []
    for each, extents in parts:
        if extents is None:
            words.append(f'{values[each]}LL')
        else:
            size = size_of(extents, values)
            arrays.append(f'  static uint64_t {each}[{size}]; for (int k = 0; k < {size}; k++) {each}[k] = k;')
            words.append(f'(void *){each}')
    call = f'{name}({", ".join(words)});'
    return '\n'.join(['#include <stdio.h>', '#include <time.h>', text, 'int main(void) {', *arrays, '  struct timespec begun, ended;',
                      '  clock_gettime(CLOCK_MONOTONIC, &begun);', f'  for (int k = 0; k < {calls}; k++) {{ {call} __asm__ volatile("" ::: "memory"); }}',
                      '  clock_gettime(CLOCK_MONOTONIC, &ended);', f'  printf("%.0f\\n", ((ended.tv_sec - begun.tv_sec) * 1e9 + (ended.tv_nsec - begun.tv_nsec)) / {calls});', '}', ''])


def time_of(text, values):
    with tempfile.TemporaryDirectory() as folder:
        program = os.path.join(folder, 'main')
        with open(program + '.c', 'w') as file:
            file.write(main_of(text, values, 2000))
        subprocess.run(['cc', '-std=gnu11', '-O2', '-w', '-o', program, program + '.c'], check=True)
        return min(int(subprocess.run([program], capture_output=True, check=True).stdout) for _ in range(5))


def steps_of(affc, path, text, values):
    """The least number of steps with which the run ends."""
    lines = []
    for each, extents in parts_of(text)[1]:
        if extents is None:
            lines.append(f'param {each} {values[each]}')
        else:
            lines.append(f'array {each} ' + ' '.join(str(k) for k in range(size_of(extents, values))))
    with tempfile.NamedTemporaryFile('w', suffix='.data') as data:
        data.write('\n'.join(lines) + '\n')
        data.flush()
        low, high = 0, 10000000
        while low < high:
            middle = (low + high) // 2
            status = subprocess.run([affc, 'run', path, data.name, '--steps', str(middle)], capture_output=True).returncode
            if status not in (0, 12):
                return None
            low, high = (low, middle) if status == 0 else (middle + 1, high)
        return low


def main(words):
    affc, path, *given = words
    values = {name: int(value) for name, value in (each.split('=') for each in given)}
    with open(path) as file:
        text = file.read()
    print(os.path.basename(path), *given, time_of(text, values), 'ns', steps_of(affc, path, text, values), 'steps')


main(sys.argv[1:])
