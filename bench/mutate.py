#!/usr/bin/env python3
"""Runs a built affc on texts of examples/ that were changed at random, and says what it answered and what it may not answer.

    python3 mutate.py AFFC SEED SECONDS [FOLDER]                   the same changes for the same seed
    python3 mutate.py AFFC prefixes [FOLDER]                       each front of each source, schedule and certificate
    python3 mutate.py AFFC certificates SEED SECONDS [FOLDER]      certificates alone

Sources, schedules and data are changed in their bytes, tokens, numbers and lines, cut, and grown past a limit by one, and
`fold` (with and without schedule and budget), `flow` and `run` are called. What may not be: an end by a signal, more than
five seconds of processor time, a status or a line that the README doesn't have, anything on the output where the status
isn't 0; and where `fold` ends with 0, a run of the source that is stuck, or of the printed text that is or gives other
outputs. Texts for which this happens are kept in FOLDER.

Certificates that `fold --cert` wrote are changed in their values and bytes, and `replay` has to answer what the checker of
`certificate.py` answers; where that is `valid`, what `replay` writes has to run as the source does.
"""
import collections
import glob
import json
import os
import random
import re
import resource
import subprocess
import sys
import tempfile
import time

import certificate

EXAMPLES = os.path.join(os.path.dirname(os.path.abspath(__file__)), '..', 'examples')
PARTS = ('c', 's', 'data')
WORD = rb'[A-Za-z_][A-Za-z_0-9]*'
AT = rb'( at( ' + WORD + rb'=-?\d+)+)?'
PLACE = rb'S\d+\((-?\d+(, -?\d+)*)?\)'
ACCESS = AT + rb' in ' + PLACE + rb' access \d+'
WHY = rb'byte|comment|number|syntax|name (unknown|twice|reserved|const|kind|range)|not affine|limit [a-z]+|printed'
FORM = rb'-?[^\n]+'
REPORT = (rb'(array ' + WORD + rb'\n(  whole budget\n|  basis \((' + FORM + rb')?\)\n(  modulus \d+: ' + FORM + rb' (bound|least' + AT
          + rb'( no pair| pair \(-?\d+(, -?\d+)*\) \(-?\d+(, -?\d+)*\)))\n)*(  cost \d+\n)?(  rival \d+: (budget|(\d+ )*cost \d+)\n)*))*'
          rb'(loose S\d+ component \d+ (made|wide|large|nine)\n)*')
STUCK = (rb'extent of ' + WORD + AT + rb'|bounds of ' + WORD + ACCESS + rb'|unwritten ' + WORD + ACCESS)
LINES = {
    4: rb'source at \d+: (' + WHY + rb')', 6: rb'schedule at \d+: (syntax|statement|length|fold|limit)|schedule: (inverse of S\d+|basis of '
    + WORD + rb') component \d+', 7: rb'illegal' + AT + rb': ' + PLACE + rb' before ' + PLACE, 8: rb'budget', 12: rb'steps', 13: rb'data line \d+'}
MEANING = rb'context is empty|iterator range of ' + WORD + rb' in S\d+|' + STUCK
ALLOWED = {'fold': {4: LINES[4], 5: MEANING, 6: LINES[6], 7: LINES[7], 8: LINES[8]}, 'flow': {4: LINES[4], 5: MEANING},
           'run': {4: LINES[4], 5: STUCK + rb'|overflow at node \d+', 12: LINES[12], 13: LINES[13]},
           'replay': {4: LINES[4], 5: rb'iterator range of ' + WORD + rb' in S\d+', 6: LINES[6], 11: rb'certificate: (json|version|(shape|number|proof|shown) \d+)'}}
NUMBERS = [b'0', b'1', b'2', b'3', b'7', b'63', b'64', b'255', b'256', b'257', b'65535', b'65536', b'65537', b'1000000', b'16777215',
           b'16777216', b'16777217', b'1073741824', b'1073741825', b'2147483648', b'4294967296', b'9223372036854775807',
           b'18446744073709551615', b'18446744073709551616', b'-1', b'00', b'3ULL', b'N', b'i', b'0ULL']
TOKENS = re.compile(rb'\s+|\w+|<<|>>|<=|>=|==|&&|\+\+|[-+*&|^]=|.', re.S)
GROWN = [  # a part, how often it may stand, what stands before and after it
    (b'for (int64_t q%d = 0; q%d < 1; q%d++) ', 6, b'', b'out[0] = 1ULL;\n'), (b'out[0] = 1ULL;\n', 60, b'', b''),
    (b' + 1ULL', 1000, b'out[0] = 1ULL', b';\n'), (b' + out[0]', 13, b'out[0] = out[0]', b';\n'), (b'(', 60, b'out[', b'0'),
    (b' && 0 < 1', 30, b'if (0 < 1', b') out[0] = 1ULL;\n'), (b'if (0 < 1) ', 250, b'', b'out[0] = 1ULL;\n')]


def class_of(token):
    """Words, numbers, values, brackets, signs between conditions and other signs."""
    return next(k for k, p in enumerate((rb'[A-Za-z_]\w*', rb'\d+', rb'\d+ULL', rb'[()\[\]{};,#]', rb'[<>]=?|==|&&', rb'.*')) if re.fullmatch(p, token, re.S))


def changed(text, other, dice):
    """The text with one change; tokens and lines may come from another text."""
    kind = dice.choice('bytes tokens like like like numbers numbers lines cut grown'.split())
    at = dice.randrange(len(text) + 1)
    if kind == 'bytes':
        piece = dice.choice([b'', bytes([dice.randrange(256)]), bytes([dice.choice(b' \n()[]{};+-*<>=&|^~%/\\#0159iN')])])
        return text[:at] + piece + text[at + dice.choice([0, 1, 1]):]
    if kind == 'cut':
        return text[:at] if dice.random() < 0.5 else text[:at] + text[min(len(text), at + dice.randrange(40)):]
    if kind == 'grown' and b'}' in text:
        part, times, before, after = dice.choice(GROWN)
        times += dice.choice([-2, -1, 0, 1, 2, 3, 4])
        run = b''.join(part.replace(b'%d', b'%d' % n) for n in range(times))
        end = text.rindex(b'}')
        return text[:end] + before + run + after + (b')' * times + b'] = 1ULL;\n' if part == b'(' else b'') + text[end:]
    if kind == 'lines':
        lines, others = text.split(b'\n'), other.split(b'\n')
        a, b = dice.randrange(len(lines)), dice.randrange(len(lines))
        way = dice.randrange(4)
        if way == 0:
            lines[a], lines[b] = lines[b], lines[a]
        elif way == 1:
            del lines[a]
        else:
            lines.insert(a, lines[b] if way == 2 else dice.choice(others))
        return b'\n'.join(lines)
    tokens, others = TOKENS.findall(text), TOKENS.findall(other or text)
    places = [k for k, t in enumerate(tokens) if t[:1].isdigit()] if kind == 'numbers' else [k for k, t in enumerate(tokens) if not t.isspace()]
    if not places:
        return text
    a, b = dice.choice(places), dice.choice(places)
    if kind == 'like':
        tokens[a] = dice.choice([tokens[k] for k in places if class_of(tokens[k]) == class_of(tokens[a])])
    elif kind == 'numbers':
        value = int(re.match(rb'\d+', tokens[a])[0])
        tokens[a] = dice.choice([dice.choice(NUMBERS), b'%d' % (value + 1), b'%d' % max(0, value - 1)]) + (b'ULL' if tokens[a][-1:] == b'L' else b'')
    else:
        way = dice.randrange(4)
        if way == 0:
            tokens[a], tokens[b] = tokens[b], tokens[a]
        elif way == 1:
            tokens[a] = b''
        else:
            tokens[a] = (tokens[a] if way == 2 else b'') + b' ' + dice.choice(others)
    return b''.join(tokens)


def places_in(value, path=()):
    """The paths of all values within a JSON value."""
    yield path
    inner = value.items() if isinstance(value, dict) else enumerate(value) if isinstance(value, list) else ()
    for key, it in inner:
        yield from places_in(it, (*path, key))


class Raw(float):
    """A number that is written in these very signs."""

    def __new__(cls, text):
        made = super().__new__(cls, 0.5)
        made.text = text
        return made

    def __repr__(self):
        return self.text


WRITTEN = ['-0', '1.0', '1e2', '0', '-1', '1', '2', '255', '256', '257', '1024', '4294967295', '4294967296', '1048576', '16777216', '16777217',
           '1099511627776', '1099511627777', '1152921504606846976', '1152921504606846977', '9007199254740992', '9007199254740993',
           '9223372036854775807', '9223372036854775808', '-9223372036854775808', '-9223372036854775809', '1e400']


def written(value):
    """The value as a certificate is written, with numbers by their own signs."""
    if isinstance(value, dict):
        return '{' + ','.join(f'{json.dumps(k)}:{written(v)}' for k, v in value.items()) + '}'
    if isinstance(value, list):
        return '[' + ','.join(map(written, value)) + ']'
    return value.text if isinstance(value, Raw) else json.dumps(value)


def changed_value(value, dice):
    """A certificate's value with one change."""
    value = json.loads(json.dumps(value))
    path = dice.choice(list(places_in(value))[1:])
    at = value
    for key in path[:-1]:
        at = at[key]
    key, old = path[-1], at[path[-1]]
    way = dice.choice('near near near edge edge out twice swap null kind key'.split())
    if way == 'near' and isinstance(old, int):
        at[key] = old + dice.choice([-2, -1, 1, 2])
    elif way in ('near', 'edge') and isinstance(old, int):
        at[key] = Raw(dice.choice(WRITTEN))
    elif way == 'out':
        del at[key]
    elif way == 'twice' and isinstance(at, list):
        at.insert(key, old)
    elif way == 'swap' and isinstance(at, list):
        other = dice.randrange(len(at))
        at[key], at[other] = at[other], old
    elif way == 'null':
        at[key] = None
    elif way == 'key' and isinstance(at, dict):
        at[dice.choice(['affc', 'folds', 'least', 'z', ''])] = old
    else:
        at[key] = dice.choice([[], {}, 'i', 'w', 'f', True, 0, [old], [[]]])
    return value


class Trial:
    def __init__(self, affc, kept):
        self.affc, self.kept, self.counts, self.wrong, self.longest = os.path.abspath(affc), kept, collections.Counter(), 0, 0
        self.room = tempfile.TemporaryDirectory()

    def write(self, **texts):
        for part, text in texts.items():
            with open(f'{self.room.name}/a.{part}', 'wb') as file:
                file.write(text)

    def call(self, *words):
        before = resource.getrusage(resource.RUSAGE_CHILDREN)
        done = subprocess.run([self.affc, *words], capture_output=True, cwd=self.room.name, check=False,
                              preexec_fn=lambda: resource.setrlimit(resource.RLIMIT_CPU, (5, 6)))
        after = resource.getrusage(resource.RUSAGE_CHILDREN)
        self.longest = max(self.longest, after.ru_utime + after.ru_stime - before.ru_utime - before.ru_stime)
        self.counts[words[0], done.returncode] += 1
        line = ALLOWED[words[0]].get(done.returncode)
        if done.returncode == 0:
            said = done.stderr == b'' or words[0] in ('fold', 'replay') and re.fullmatch(REPORT, done.stderr)
        else:
            said = line and done.stdout == b'' and re.fullmatch(rb'affc: (' + line + rb')\n', done.stderr)
        if not said:
            self.note(f'{" ".join(words)} answers {done.returncode}: {done.stderr[:200]}')
        return done

    def note(self, what):
        self.wrong += 1
        print(what, flush=True)
        if self.kept:
            os.makedirs(self.kept, exist_ok=True)
            for name in os.listdir(self.room.name):
                with open(f'{self.room.name}/{name}', 'rb') as a, open(f'{self.kept}/{self.wrong}.{name}', 'wb') as b:
                    b.write(a.read())

    def folded(self, *words):
        """Folds, and runs source and printed text where that ends with 0."""
        done = self.call('fold', *words)
        if done.returncode != 0:
            return
        self.write(t=done.stdout)
        source = self.call('run', 'a.c', 'a.data', '--steps', '1000000')
        if source.returncode not in (0, 12, 13):
            self.note(f'{" ".join(words)} is folded, and its source is stuck')
        printed = self.call('run', 'a.t', 'a.data', '--steps', '2000000')
        same = printed.stdout == source.stdout if source.returncode == printed.returncode else 12 in (source.returncode, printed.returncode)
        self.counts['compared', 'runs'] += source.returncode == printed.returncode == 0
        if not same:
            self.note(f'{" ".join(words)} is folded to what runs otherwise')

    def replayed(self, texts, data):
        """Replays a certificate, which has to be answered as the checker of its own answers it."""
        self.write(**texts, json=data)
        done = self.call('replay', 'a.c', 'a.s', 'a.json')
        said, _ = certificate.verdict(texts['c'].decode(), texts['s'].decode(), data)
        self.counts['checked', said.split(' ')[0]] += 1
        line = b'' if said == 'valid' else b'affc: certificate: ' + said.encode() + b'\n'
        if (done.returncode == 0) != (said == 'valid') or line and done.stderr != line:
            self.note(f'replay answers {done.returncode} {done.stderr[:80]} where the checker says {said}')
        if done.returncode == 0:
            self.write(t=done.stdout)
            source = self.call('run', 'a.c', 'a.data', '--steps', '1000000')
            printed = self.call('run', 'a.t', 'a.data', '--steps', '2000000')
            if source.returncode == printed.returncode == 0 and source.stdout != printed.stdout:
                self.note('what was replayed runs otherwise')

    def commands(self, schedule, dice):
        self.folded('a.c')
        if schedule:
            self.folded('a.c', 'a.s')
            self.folded('a.c', 'a.s', '--budget', str(dice.randrange(1, dice.choice([100, 1000, 10000]))))
        self.call('flow', 'a.c')
        self.call('run', 'a.c', 'a.data', '--steps', '1000000')


def examples():
    out = []
    for source in sorted(glob.glob(EXAMPLES + '/*.c')):
        texts = {}
        for part in PARTS:
            name = source[:-1] + part
            texts[part] = open(name, 'rb').read() if os.path.exists(name) else b''
        out.append(texts)
    return out


def mutate(trial, seed, seconds):
    dice, all_texts, end = random.Random(seed), examples(), time.time() + seconds
    rounds = 0
    while time.time() < end:
        texts, others = dict(dice.choice(all_texts)), dice.choice(all_texts)
        for _ in range(dice.choice([1, 1, 1, 2, 3])):
            part = dice.choice([p for p in ('c', 'c', 's', 's', 'data') if texts[p]])
            texts[part] = changed(texts[part], others[part], dice)
        trial.write(**texts)
        trial.commands(bool(texts['s']), dice)
        rounds += 1
    print(f'{rounds} texts')


def with_certificates(trial, most):
    """The examples with a schedule (that of the source where there is none) and their certificates, those of at most so many bytes."""
    for texts in examples():
        texts['s'] = texts['s'] or b'source;\n'
        trial.write(**texts)
        if trial.call('fold', 'a.c', 'a.s', '--cert', 'a.json').returncode == 0:
            with open(f'{trial.room.name}/a.json', 'rb') as file:
                data = file.read()
            if len(data) <= most:
                yield texts, data


def certificates(trial, seed, seconds):
    dice, all_texts, rounds = random.Random(seed), list(with_certificates(trial, 60000)), 0
    for texts, data in all_texts:
        trial.replayed(texts, data)
    end = time.time() + seconds
    while time.time() < end:
        texts, data = dice.choice(all_texts)
        if dice.random() < 0.1:
            data = changed(data, dice.choice(all_texts)[1], dice)
        else:
            value = json.loads(data)
            for _ in range(dice.choice([1, 1, 1, 2])):
                value = changed_value(value, dice)
            data = written(value).encode()
        trial.replayed(texts, data)
        rounds += 1
    print(f'{rounds} certificates of {len(all_texts)} examples')


def prefixes(trial):
    for texts, data in with_certificates(trial, 2**26):
        step = max(1, len(data) // 1000)
        for end in [*range(0, len(data), step), len(data) - 1]:
            trial.replayed(texts, data[:end])
    for texts in examples():
        for end in range(len(texts['c'])):
            trial.write(**dict(texts, c=texts['c'][:end]))
            trial.folded('a.c')
            if end % 10 == 0:
                trial.call('flow', 'a.c')
                trial.call('run', 'a.c', 'a.data')
        for end in range(len(texts['s'])):
            trial.write(**dict(texts, s=texts['s'][:end]))
            trial.folded('a.c', 'a.s')


def main(words):
    affc, what, *rest = words
    if what == 'prefixes':
        trial = Trial(affc, rest[0] if rest else None)
        prefixes(trial)
    elif what == 'certificates':
        trial = Trial(affc, rest[2] if len(rest) > 2 else None)
        certificates(trial, rest[0], float(rest[1]))
    else:
        trial = Trial(affc, rest[1] if len(rest) > 1 else None)
        mutate(trial, what, float(rest[0]))
    for (command, status), times in sorted(trial.counts.items(), key=str):
        print(f'{command} {status}: {times}')
    print(f'longest call {trial.longest:.2f} s of processor time; {trial.wrong} wrong')
    sys.exit(trial.wrong > 0)


main(sys.argv[1:])
