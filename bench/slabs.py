#!/usr/bin/env python3
"""Runs affc on random programs whose stores and loads stand within thin slabs over large boxes, and says how long each takes.

    python3 slabs.py AFFC [--word=fold|flow] [--seed=1] [--count=120] [--limit=10] [--jobs=1] [--keep=FOLDER]
    python3 slabs.py --show SEED

A program has a temporary array of one to four dimensions, a nest of two to five loops that stores it within one to three slabs, and
a later nest that loads it. A slab is two conditions on one form of the iterators, whose coefficients are within 40: its value lies
between an end and that end with 0 to 2 added, and the end is a number within 40, or has a multiple of N that the form can take too.
N goes to 1,000,000. Half of the programs store the whole array before, and load it within slabs of their own; the others load it in
the slabs in which it is stored.

The program of a seed is the same each time. AFFC is run on it with `--word`, for at most `--limit` seconds of processor time;
`--jobs` run at once. Programs are numbered from `--seed` on, and `--keep` leaves their texts in a folder; `--show` writes one.
"""
import collections
import concurrent.futures
import os
import random
import resource
import signal
import subprocess
import sys
import tempfile

ITERATORS = "ijklm"
MOST = 40
HIGH = 1_000_000
SLOWEST = 10


def form_of(coefs, names):
    """The form as the language writes it: `3 * i - 7 * j`."""
    text = ""
    for c, name in zip(coefs, names):
        if c == 0:
            continue
        sign = ("-" if c < 0 else "") if not text else (" - " if c < 0 else " + ")
        text += sign + (name if abs(c) == 1 else f"{abs(c)} * {name}")
    return text


def slab(rng, names):
    """Two conditions on a form of two iterators or more."""
    while True:
        coefs = [rng.randint(-MOST, MOST) if rng.random() < 0.8 else 0 for _ in names]
        if sum(c != 0 for c in coefs) >= 2:
            break
    width = rng.randint(0, 2)
    form = form_of(coefs, names)
    times = rng.randint(sum(min(c, 0) for c in coefs), sum(max(c, 0) for c in coefs)) if rng.random() < 0.5 else 0
    end = rng.randint(-MOST, MOST)
    return [f"{form} {relation} {end_of(times, by)}" for relation, by in ((">=", end), ("<=", end + width))]


def end_of(times, by):
    """A multiple of N, with a number added."""
    if times == 0:
        return str(by)
    text = form_of([times], ["N"])
    return f"{text} {'+' if by > 0 else '-'} {abs(by)}" if by else text


def nest(names, conditions, statement):
    """The statement in a loop for each name, under the conditions."""
    lines = [f"for (int64_t {name} = 0; {name} < N; {name}++)" for name in names]
    if conditions:
        lines.append(f"if ({' && '.join(conditions)})")
    return "\n".join("  " * (depth + 1) + line for depth, line in enumerate(lines + [statement])) + "\n"


def program(seed):
    """The text of the program of a seed."""
    rng = random.Random(f"slabs {seed}")
    names = ITERATORS[: rng.randint(2, 5)]
    dimensions = rng.randint(max(1, len(names) - 1), min(4, len(names)))
    kept = rng.sample(names, dimensions)
    element = "t" + "".join(f"[{name}]" for name in kept)
    count = rng.randint(1, 3)
    conditions = [c for _ in range(count) for c in slab(rng, names)]
    text = "#include <stdint.h>\n"
    text += f"#pragma affc param N 1 {HIGH}\n"
    text += "void slabs(int64_t N, const uint64_t in[N], uint64_t out[N]) {\n"
    text += "  uint64_t t" + "[N]" * dimensions + ";\n"
    loads = conditions
    if rng.random() < 0.5:
        text += nest(kept, [], f"{element} = in[{kept[-1]}];")
        loads = [c for _ in range(count) for c in slab(rng, names)]
    text += nest(names, conditions, f"{element} = in[{names[0]}];")
    text += nest(names, loads, f"out[{names[-1]}] += {element};")
    return text + "}\n"


def run(affc, word, path, limit):
    """The status, or None where the time didn't suffice; and the seconds of processor time."""

    def limited():
        resource.setrlimit(resource.RLIMIT_CPU, (limit, limit + 1))

    process = subprocess.Popen(
        [affc, word, path], stdout=subprocess.DEVNULL, stderr=subprocess.PIPE, preexec_fn=limited)
    said = process.stderr.read().decode(errors="replace")
    process.stderr.close()
    _, status, used = os.wait4(process.pid, 0)
    process.returncode = os.waitstatus_to_exitcode(status)
    seconds = used.ru_utime + used.ru_stime
    if process.returncode in (-signal.SIGXCPU, -signal.SIGKILL):
        return None, seconds, ""
    return process.returncode, seconds, said.splitlines()[0] if said else ""


def measured(affc, word, folder, seed, limit):
    path = os.path.join(folder, f"slabs{seed}.c")
    with open(path, "w") as file:
        file.write(program(seed))
    return seed, *run(affc, word, path, limit)


def table(word, limit, results):
    statuses = collections.Counter("not ended" if status is None else f"status {status}" for _, status, _, _ in results)
    ended = [seconds for _, status, seconds, _ in results if status is not None]
    print(f"`{word}` of {len(results)} programs, {limit} s of processor time each\n")
    print("| | programs |\n|---|---|")
    for name, count in sorted(statuses.items()):
        print(f"| {name} | {count} |")
    for least in (0.1, 1, 5):
        above = sum(status is None or seconds > least for _, status, seconds, _ in results)
        print(f"| above {least} s, with those not ended | {above} |")
    if ended:
        print(f"\nOf those that ended the median is {sorted(ended)[len(ended) // 2]:.3f} s, the sum {sum(ended):.1f} s.")
    print("\n| seed | seconds | status | said first |\n|---|---|---|---|")
    for seed, status, seconds, said in sorted(results, key=lambda it: (it[1] is not None, -it[2]))[:SLOWEST]:
        print(f"| {seed} | {seconds:.2f} | {'not ended' if status is None else status} | {said} |")


def main():
    words = [w for w in sys.argv[1:] if not w.startswith("--")]
    if "--show" in sys.argv and len(words) == 1:
        print(program(int(words[0])), end="")
        return
    if len(words) != 1:
        sys.exit(__doc__)
    given = dict(w[2:].split("=", 1) for w in sys.argv[1:] if w.startswith("--") and "=" in w)
    word, limit = given.get("word", "fold"), int(given.get("limit", 10))
    first, count = int(given.get("seed", 1)), int(given.get("count", 120))
    with tempfile.TemporaryDirectory() as made:
        folder = given.get("keep", made)
        os.makedirs(folder, exist_ok=True)
        with concurrent.futures.ThreadPoolExecutor(int(given.get("jobs", 1))) as pool:
            jobs = [pool.submit(measured, words[0], word, folder, seed, limit) for seed in range(first, first + count)]
            results = [job.result() for job in jobs]
    table(word, limit, results)


if __name__ == "__main__":
    main()
