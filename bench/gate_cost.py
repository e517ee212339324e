#!/usr/bin/env python3
"""What a run of the gate costs, crate by crate: processor seconds of the processes that prove, from their own clocks.

    python3 bench/gate_cost.py OUT [FOLDER]     beside a run of `rt ci`; ends by itself, or by Ctrl-C, once no `rt ci` runs

Each process of the toolchain's prover that works below FOLDER (any, if it isn't given) is looked at twice a second, and its
last reading is added to its crate's: proofs of the crate, of its tests, and of its must-fail edits. So up to half a second of each
process is missing. OUT gets a line for each crate, with the sums at the end; several runs of the same files may be added up.
"""
import collections
import os
import sys
import time

CLOCK = os.sysconf("SC_CLK_TCK")


def processes():
    """Each running prover: what names it for good, its words, its folder and its processor seconds."""
    for number in filter(str.isdigit, os.listdir("/proc")):
        try:
            with open(f"/proc/{number}/cmdline", "rb") as it:
                words = it.read().decode(errors="replace").split("\0")
            if not words[0].endswith("/rattle") or "--crate-name" not in words:
                continue
            with open(f"/proc/{number}/stat") as it:
                fields = it.read().rpartition(")")[2].split()
            yield (number, fields[19]), words, os.readlink(f"/proc/{number}/cwd"), (int(fields[11]) + int(fields[12])) / CLOCK
        except OSError:
            continue


def gate_runs():
    """Whether some `rt ci` runs."""
    for number in filter(str.isdigit, os.listdir("/proc")):
        try:
            with open(f"/proc/{number}/cmdline", "rb") as it:
                words = it.read().decode(errors="replace").split("\0")
            if "ci" in words and any(word.endswith("/rt") for word in words):
                return True
        except OSError:
            continue
    return False


def table(seen):
    sums = collections.defaultdict(lambda: [0.0, 0.0])
    for crate, is_test, seconds in seen.values():
        sums[crate][is_test] += seconds
    lines = [f"{crate:24} {proof:8.0f} {test:8.0f}" for crate, (proof, test) in sorted(sums.items(), key=lambda it: -sum(it[1]))]
    whole = sum(sum(it) for it in sums.values())
    return "\n".join([f"{'crate':24} {'proof':>8} {'tests':>8}", *lines, f"{'all, in minutes':24} {whole / 60:8.1f}"]) + "\n"


def main(out, folder=""):
    seen, idle = {}, 0
    try:
        while idle < 20:
            for name, words, at, seconds in processes():
                if at.startswith(folder):
                    seen[name] = (words[words.index("--crate-name") + 1], "--test" in words, seconds)
            idle = 0 if gate_runs() else idle + 1
            time.sleep(0.5)
    except KeyboardInterrupt:
        pass
    with open(out, "w") as it:
        it.write(table(seen))


if __name__ == "__main__":
    if len(sys.argv) not in (2, 3):
        sys.exit(__doc__)
    main(*sys.argv[1:])
