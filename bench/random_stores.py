#!/usr/bin/env python3
"""Writes random programs whose last writes want strides, sums, bands or divisions.

    python3 random_stores.py FOLDER [FIRST [COUNT [MOST]]]

Of each number from FIRST (1) on it writes FOLDER/NUMBER.c, COUNT (500) of them, with a parameter from 1 to MOST (1,000). The same
number gives the same program. One to three statements store elements of one temporary, with subscripts such as `2 * i + 3 * j` or
`i - j + N`, in bands of their loops, as a value or added to what stands there; all of it is set before and read behind.
"""
import os
import random
import sys

STRIDES = [(1, 1), (1, -1), (2, 1), (1, 2), (2, -1), (2, 3), (3, 2), (2, 0), (3, 0), (0, 2), (4, 1), (1, 0)]
BANDS = ["", "", "i + j <= N", "i <= j", "j <= i + 2", "j <= i + 1 && i <= j + 2", "2 * j <= i", "i + 2 * j <= N + 3", "j == 2 * i"]
VALUES = ["in[i][j]", "in[j][i]", "in[i][j] + 1ULL"]


def subscript(rng):
    """A subscript from 0 on over i and j from 0 to N, and how many times N it is at most, and a number more."""
    a, b = rng.choice(STRIDES)
    up = -min(a, 0) - min(b, 0)
    offset = rng.randint(0, 2)
    terms = [f"{c} * {x}" if c != 1 else x for c, x in ((a, "i"), (b, "j")) if c > 0]
    terms += [f"{up} * N"] if up > 1 else ["N"] if up else []
    terms += [str(offset)] if offset else []
    less = [f" - {-c} * {x}" if c != -1 else f" - {x}" for c, x in ((a, "i"), (b, "j")) if c < 0]
    return " + ".join(terms) + "".join(less), max(a, 0) + max(b, 0) + up, offset


def writer(rng):
    form, most, offset = subscript(rng)
    band = rng.choice(BANDS)
    outer, inner = rng.choice([("i", "j"), ("j", "i")])
    lines = [f"  for (int64_t {outer} = 0; {outer} <= N; {outer}++)", f"    for (int64_t {inner} = 0; {inner} <= N; {inner}++)"]
    lines += [f"      if ({band})"] if band else []
    lines += [("  " if band else "") + f"      t[{form}] {rng.choice(['=', '+='])} {rng.choice(VALUES)};"]
    return lines, most, offset


def program(number, most):
    rng = random.Random(number)
    made = [writer(rng) for _ in range(rng.randint(1, 3))]
    extent = f"{max(m for _, m, _ in made)} * N + {max(o for _, _, o in made) + 1}"
    head = [
        "#include <stdint.h>",
        f"#pragma affc param N 1 {most}",
        f"void f(int64_t N, const uint64_t in[N + 1][N + 1], uint64_t out[{extent}]) {{",
        f"  uint64_t t[{extent}];",
        f"  for (int64_t k = 0; k < {extent}; k++)",
        "    t[k] = 0ULL;",
    ]
    foot = [f"  for (int64_t k = 0; k < {extent}; k++)", "    out[k] = t[k];", "}"]
    return "\n".join(head + [line for lines, _, _ in made for line in lines] + foot) + "\n"


def main(folder, first=1, count=500, most=1000):
    os.makedirs(folder, exist_ok=True)
    for number in range(int(first), int(first) + int(count)):
        with open(f"{folder}/{number}.c", "w") as out:
            out.write(program(number, int(most)))


if __name__ == "__main__":
    if len(sys.argv) < 2:
        sys.exit(__doc__)
    main(*sys.argv[1:])
