#!/usr/bin/env python3
"""Changes certificates at random and compares what affc and check_certificate.py say of them.

    python3 changed_certificates.py AFFC SEED COUNT SRC SCHED CERT [SRC SCHED CERT ..]

For each certificate, first as it is and then with COUNT changes, `AFFC replay` and the checker are to give one
answer. Each disagreement is printed with its change, and at the end how many certificates had which answer. The
status is 0 where all agree. The same arguments give the same changes.
"""

import collections
import json
import os
import random
import re
import subprocess
import sys
import tempfile

import check_certificate

TOKEN = re.compile(r'"(?:[^"\\]|\\.)*"|-?[0-9]+|null|[\[\]{}]')
LONGEST_COPY = 2000
LETTERS = '[]{}",:0123456789-.e tnfwdsci\\'
KEYS = ["affc", "context", "flow", "folds", "proofs", "array", "rows", "inverse", "moduli", "form", "least", "p",
        "clash", "point", "t", "d", "w", "i", "f", "c", "s", "", "\\u0074", "\\ud800"]
LIMITS = [2 ** 8, 2 ** 24, 2 ** 30, 2 ** 32 - 1, 2 ** 40, 2 ** 50, 2 ** 53, 2 ** 55, 2 ** 60, 2 ** 63 - 1]
NUMBERS = [str(sign * limit + further) for limit in LIMITS for sign in (1, -1) for further in (-1, 0, 1)]
NUMBERS += ["0", "1", "-1", "2", "-2", "17", "-0", "1.0", "1e0", "1E2", "1.5", "1e400", "1e-400", "01", "+1", "NaN",
            "null", "true", "[]", "{}", '"1"']


class Text:
    """A certificate's text with the spans of its values, by kinds, and of its lists' and objects' entries."""

    def __init__(self, text):
        self.text = text
        self.spans = collections.defaultdict(list)
        self.entries = []
        open_starts = []
        open_entries = [[]]
        for match in TOKEN.finditer(text):
            token = match.group()
            if token in ("[", "{"):
                open_starts.append(match.start())
                open_entries.append([])
                continue
            span = match.span()
            if token in ("]", "}"):
                span = open_starts.pop(), match.end()
                self.entries.append(self.joined(open_entries.pop()))
            self.spans[kind_of(token)].append(span)
            open_entries[-1].append(span)
        self.entries = [found for found in self.entries if found]

    def joined(self, spans):
        """An object's entries are its keys with their values."""
        if len(spans) < 2 or self.text[spans[0][1]] != ":":
            return spans
        return [(key[0], value[1]) for key, value in zip(spans[::2], spans[1::2])]

    def piece(self, span):
        return self.text[span[0]:span[1]]


def kind_of(token):
    return {'"': "string", "]": "list", "}": "object", "n": "null"}.get(token[0], "number")


# Each of these gives a change: where it begins and ends in the text, and what stands there instead.


def change_digit(text, chance):
    start, end = chance.choice(text.spans["number"])
    place = chance.choice([place for place in range(start, end) if text.text[place] != "-"])
    return place, place + 1, chance.choice("0123456789")


def change_by_one(text, chance):
    span = chance.choice(text.spans["number"])
    return *span, str(int(text.piece(span)) + chance.choice([-1, 1]))


def other_number(text, chance):
    return *chance.choice(text.spans["number"]), chance.choice(NUMBERS)


def drop_entry(text, chance):
    spans = chance.choice(text.entries)
    place = chance.randrange(len(spans))
    if place:
        return spans[place - 1][1], spans[place][1], ""
    end = spans[1][0] if len(spans) > 1 else spans[0][1]
    return spans[0][0], end, ""


def double_entry(text, chance):
    span = chance.choice(chance.choice(text.entries))
    return span[1], span[1], "," + text.piece(span)


def exchange_entries(text, chance):
    spans = chance.choice([found for found in text.entries if len(found) > 1])
    place = chance.randrange(len(spans) - 1)
    first, second = spans[place:place + 2]
    return first[0], second[1], text.piece(second) + text.text[first[1]:second[0]] + text.piece(first)


def copy_value(text, chance):
    spans = text.spans[chance.choice([kind for kind in sorted(text.spans) if text.spans[kind]])]
    return *chance.choice(spans), text.piece(chance.choice(spans))[:LONGEST_COPY]


def rename(text, chance):
    return *chance.choice(text.spans["string"]), '"%s"' % chance.choice(KEYS)


def change_letter(text, chance):
    place = chance.randrange(len(text.text))
    return place, place + 1, chance.choice(LETTERS)


CHANGES = [change_digit, change_digit, change_by_one, change_by_one, other_number, drop_entry, double_entry,
           exchange_entries, copy_value, rename, change_letter]


def answer_of_affc(affc, source, schedule, data):
    with tempfile.NamedTemporaryFile(suffix=".cert") as file:
        file.write(data)
        file.flush()
        done = subprocess.run([affc, "replay", source, schedule, file.name], stdout=subprocess.DEVNULL,
                              stderr=subprocess.PIPE, check=False)
    if done.returncode == 0:
        return "valid"
    line = done.stderr.decode().strip()
    return re.sub("^affc: certificate: ", "", line) if done.returncode == 11 else "status %d" % done.returncode


def changed_texts(text, seed, count):
    """The changes as they are told, each with the changed text; first comes the text as it is."""
    yield "as it is", text
    chance = random.Random(seed)
    found = Text(text)
    for _ in range(count):
        start, end, new = chance.choice(CHANGES)(found, chance)
        yield "%d to %d: %s" % (start, end, json.dumps(new)), text[:start] + new + text[end:]


def compare(affc, seed, count, source, schedule, path, answers):
    """Counts the answers; gives how many disagree."""
    program, plan = check_certificate.read_inputs(source, schedule)
    text = check_certificate.contents(path).decode("utf-8")
    disagreements = 0
    for change, changed in changed_texts(text, seed, count):
        data = changed.encode("utf-8")
        of_affc = answer_of_affc(affc, source, schedule, data)
        of_checker = check_certificate.check(program, plan, data)
        answers[of_affc.split()[0]] += 1
        if of_affc != of_checker:
            disagreements += 1
            print("%s, %s: affc %s, checker %s" % (path, change, of_affc, of_checker), flush=True)
    return disagreements


def main(arguments):
    if len(arguments) < 6 or len(arguments) % 3:
        print(__doc__, file=sys.stderr)
        return 2
    affc, seed, count = os.path.abspath(arguments[0]), arguments[1], int(arguments[2])
    answers = collections.Counter()
    disagreements = 0
    for place in range(3, len(arguments), 3):
        disagreements += compare(affc, seed, count, *arguments[place:place + 3], answers)
    for answer, number in sorted(answers.items()):
        print("%s %d" % (answer, number))
    print("certificates %d, disagreements %d" % (sum(answers.values()), disagreements))
    return 1 if disagreements else 0


if __name__ == "__main__":
    sys.exit(main(sys.argv[1:]))
