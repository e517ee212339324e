#!/usr/bin/env python3
"""Writes random systems over boxes, in the blocks that affc_decide reads, with the answers of isl.

    python3 random_systems.py KIND [SEED [COUNT]] > FILE

KIND is equality, equalities, slab or stride. The same seed gives the same systems. `./decide_isl` finds the answers (see README.md).
"""
import random
import subprocess
import sys

DECIDE_ISL = "./decide_isl"


def value(row, point):
    return sum(c * x for c, x in zip(row, point)) + row[-1]


def both_sides(row):
    """The row and its opposite: together an equality."""
    return [row, [-c for c in row]]


def some_coefs(rng, columns, most):
    """Coefficients of which at least two aren't 0."""
    while True:
        coefs = [rng.randint(-most, most) for _ in range(columns)]
        if sum(c != 0 for c in coefs) >= 2:
            return coefs


def through(coefs, point, off=0):
    """The row with these coefficients whose value at the point is `off`."""
    return coefs + [off - sum(c * x for c, x in zip(coefs, point))]


def some_point(rng, ranges):
    return [rng.randint(low, high) for low, high in ranges]


def equality(rng):
    """One equality over four columns of 0 to 4095. The coefficients have a divisor, which in half of the systems doesn't divide the
    constant."""
    ranges = [(0, 4095)] * 4
    divisor = rng.randint(1, 12)
    coefs = [divisor * c for c in some_coefs(rng, 4, 9)]
    off = rng.randint(0, divisor - 1) if rng.random() < 0.5 else 0
    return ranges, both_sides(through(coefs, some_point(rng, ranges), off))


def equalities(rng):
    """Two equalities over four columns of 0 to 1023, coefficients within 6. The first goes through a whole point, the second
    through it or close by."""
    ranges = [(0, 1023)] * 4
    point = some_point(rng, ranges)
    off = rng.choice([0, 0, 1, 2, 3, 5])
    return ranges, both_sides(through(some_coefs(rng, 4, 6), point)) + both_sides(through(some_coefs(rng, 4, 6), point, off))


def slab(rng):
    """A slab over three columns of 0 to 1023, thinner than the step from one whole value of its form to the next one, or nearly, and
    a row through it."""
    ranges = [(0, 1023)] * 3
    divisor = rng.randint(2, 30)
    coefs = [divisor * c for c in some_coefs(rng, 3, 9)]
    if rng.random() < 0.3:
        coefs[rng.randrange(3)] += rng.choice([-1, 1])
    point = some_point(rng, ranges)
    off = rng.randint(0, divisor - 1)
    width = rng.randint(0, divisor - 1)
    low = through(coefs, point, -off)
    high = [-c for c in low]
    high[-1] += width
    return ranges, [low, high, through(some_coefs(rng, 3, 9), point, rng.randint(-3, 3))]


def stride(rng):
    """Two progressions, i = s q + a and j = t r + b with 0 <= i, j, q, r <= 1023, and j - i within two ends. The columns are i, j, q,
    r."""
    ranges = [(0, 1023)] * 4
    s, t = rng.randint(2, 24), rng.randint(2, 24)
    a, b = rng.randint(0, s - 1), rng.randint(0, t - 1)
    low = rng.randint(-40, 40)
    width = rng.choice([0, 0, 0, 1, 2, 4])
    rows = both_sides([1, 0, -s, 0, -a]) + both_sides([0, 1, 0, -t, -b])
    rows += [[-1, 1, 0, 0, -low], [1, -1, 0, 0, low + width]]
    if rng.random() < 0.5:
        rows.append([0, 0, -1, 1, rng.randint(-20, 20)])
    return ranges, rows


KINDS = {f.__name__: f for f in (equality, equalities, slab, stride)}


def block(name, ranges, rows, expected):
    ends = " ".join(f"{low} {high}" for low, high in ranges)
    lines = [f"system {name} columns {len(ranges)} rows {len(rows)}", f"ranges {ends}"]
    lines += [" ".join(map(str, row)) for row in rows]
    return "\n".join(lines + [f"expect {expected}", ""])


def answers(names, systems):
    """What isl finds, each of its points looked at again."""
    text = "\n".join(block(name, *system, "empty") for name, system in zip(names, systems))
    out = subprocess.run([DECIDE_ISL], input=text, capture_output=True, text=True, check=True).stdout.splitlines()
    for line, (ranges, rows) in zip(out, systems, strict=False):
        words = line.split()
        if words[0] == "empty":
            yield "empty"
            continue
        point = [int(x) for x in words[1 : 1 + len(ranges)]]
        assert all(low <= x <= high for x, (low, high) in zip(point, ranges)), line
        assert all(value(row, point) >= 0 for row in rows), line
        yield "point " + " ".join(map(str, point))


def main():
    kind = sys.argv[1]
    seed = int(sys.argv[2]) if len(sys.argv) > 2 else 1
    count = int(sys.argv[3]) if len(sys.argv) > 3 else 1000
    rng = random.Random(f"{kind} {seed}")
    names = [f"random/{kind}/{seed}/{i}" for i in range(count)]
    systems = [KINDS[kind](rng) for _ in names]
    for name, system, expected in zip(names, systems, answers(names, systems)):
        print(block(name, *system, expected))


if __name__ == "__main__":
    main()
