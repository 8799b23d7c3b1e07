#!/usr/bin/env python3
"""Makes, checks and upgrades certificates of random modules with a program and with the reading of its rules, and compares the answers.
Modules that are accepted are then played, and must have no fault.

    python3 tests/differential/check.py [N] [SEED] [--program PATH] [--keep FOLDER] [--plays N]
    python3 tests/differential/check.py --alone [N] [SEED]
"""
import argparse
import os
import subprocess
import tempfile
import time
from dataclasses import replace

from certificates import certificate_text
from compare import LONGEST, PROGRAM, generator_of, shown
from modules import random_module
from odd import quote, some_bytes
from reading.certificates import Refusal, answer, certify, check_texts, grow, make, show_certificate, upgrade_texts
from reading.counts import arose, table
from reading.scripts import TooBig, play
from reading.texts import FaultyText, assemble_alone, print_module


class Program:
    """A program, called with files in a folder."""

    def __init__(self, path, folder):
        if not os.access(path, os.X_OK):
            raise SystemExit('there is no program %s; ./host builds the one of this repository' % path)
        self.path, self.folder = path, folder

    def run(self, words, files=(), script=b''):
        """What it prints, its exit status, and its errors. The names of the files stand behind the words."""
        names = []
        for number, data in enumerate(files):
            names.append(os.path.join(self.folder, 'file%d' % number))
            with open(names[-1], 'wb') as file:
                file.write(data)
        try:
            done = subprocess.run([self.path, *words, *names], input=script, capture_output=True, timeout=LONGEST, close_fds=False)
        except subprocess.TimeoutExpired:
            return b'', 'none after %d seconds' % LONGEST, b''
        return done.stdout, done.returncode, done.stderr


class Reading:
    """The reading, called likewise."""

    def run(self, words, files=(), script=b''):
        if words == ['assemble']:
            return (*answer(lambda: print_module(assemble_alone(files[0]))), b'')
        if words == ['certify']:
            return (*certify(files[0]), b'')
        if words == ['certify', '--slim']:
            return (*certify(files[0], is_slim=True), b'')
        if words == ['check']:
            return (*check_texts(*files), b'')
        if words == ['upgrade']:
            return (*upgrade_texts(*files), b'')
        return (*play(script), b'')


def pieces(rng, names, often=1):
    """The pieces of a brigade in which no data follows an EOS; a file is so many times as frequent as another piece."""
    words = []
    for _ in range(rng.choice([0, 1, 1, 2, 3, 6])):
        kind = rng.choice(['heap', 'transient', 'immortal', 'pool', 'flush'] + ['file'] * (often * (len(names) > 0)))
        if kind == 'file':
            name = rng.choice(sorted(names))
            start = rng.choice([0, 0, 1, names[name] // 2])
            words.append('file %s %d %d' % (name, start, rng.randint(0, names[name] - start)))
        else:
            words.append(kind if kind == 'flush' else '%s %s' % (kind, quote(rng, some_bytes(rng))))
    if rng.random() < .3:
        words += ['eos'] + ['flush'] * (rng.random() < .2) + ['eos'] * (rng.random() < .1)
    return words


def commands(rng):
    """A random list of events for one connection."""
    names = {}
    lines = ['budget 3000']
    for name in rng.choice([[], ['a'], ['a', 'b']]):
        names[name] = rng.choice([1, 10, 7999, 8001, 16001])
        lines.append('file %s %d "x"' % (name, names[name]))
    lines += ['open', 'run 1']
    for _ in range(rng.choice([1, 2, 2, 3])):
        lines += ['begin 1', 'run 1']
        for _ in range(rng.choice([0, 1, 2, 3, 4])):
            lines += [' '.join(['bring 1'] + pieces(rng, names)), 'run 1']
        lines += ['output 1', 'end 1']
    return lines + ['pools', 'close 1']


def answers_of(players, words, files, script):
    """The answers of the players, or None where they are a matter of memory or time."""
    try:
        return [player.run(words, files, script) for player in players]
    except TooBig:
        return None


def parts_of(rng, module, plays):
    """What is asked about one module: words, files and script."""
    yield ['assemble'], [module], b''
    yield ['certify'], [module], b''
    yield ['certify', '--slim'], [module], b''
    try:
        read = assemble_alone(module)
    except FaultyText:
        yield [rng.choice(['check', 'upgrade'])], [module, b'cert 1\nidle none\nready none\nend\n'], b''
        return
    certificate = grow(read)
    yield ['check'], [module, show_certificate(certificate)], b''
    yield ['upgrade'], [module, show_certificate(replace(certificate, numbers=None))], b''
    for _ in range(5):
        text = certificate_text(rng, read, certificate)
        yield ['check'], [module, text], b''
        yield ['upgrade'], [module, text], b''
    if is_certified(read):
        arose('certified')
        for _ in range(plays):
            yield ['play'], [], module + ''.join(line + '\n' for line in commands(rng)).encode('ascii')


def is_certified(module):
    try:
        make(module)
    except Refusal:
        return False
    return True


def has_fault(answers):
    """Whether a play tells a fault."""
    return any(line.startswith(b'fault ') for line in answers[0][0].splitlines())


def report(players, path, words, files, script, answers):
    """Keeps what a difference or a fault was found on, and tells the answers."""
    for end, data in {'.module': files[:1], '.cert': files[1:], '.script': [script]}.items():
        if data:
            with open(path + end, 'wb') as file:
                file.write(data[0])
    print('%s: %s of %s.*' % ('FAULT of an accepted module' if has_fault(answers) else 'DIFFERENCE', ' '.join(words), path))
    for player, told in zip(players, answers):
        print('  %s: %s' % (type(player).__name__.lower(), shown(told)))


def compare_all(players, options):
    """Compares until there is a difference, or a fault of an accepted module; gives how many answers were compared, or None."""
    compared = number = 0
    while compared < options.n:
        rng = generator_of(options.seed, number)
        for words, files, script in parts_of(rng, random_module(rng), options.plays):
            answers = answers_of(players, words, files, script)
            compared += words != ['play']
            if answers and (answers.count(answers[0]) < len(answers) or has_fault(answers)):
                path = os.path.join(options.keep, 'difference_%s_%d' % (options.seed.replace('/', '_'), number))
                report(players, path, words, files, script, answers)
                return None
        number += 1
    return compared


def main():
    parser = argparse.ArgumentParser(description='Compares `assemble`, `certify`, `check` and `upgrade` with a reading of their rules.')
    parser.add_argument('n', nargs='?', type=int, default=20000, metavar='N', help='how many answers')
    parser.add_argument('seed', nargs='?', default='1', metavar='SEED', help='any word; the same word gives the same modules')
    parser.add_argument('--program', default=PROGRAM, help='crates/host_cli/out/host_cli where it is not given')
    parser.add_argument('--keep', default=tempfile.gettempdir(), help='the folder for what a difference is found on')
    parser.add_argument('--plays', type=int, default=10, help='how many lists of events each accepted module is played on')
    parser.add_argument('--counts', action='store_true', help='tell how often what arose')
    parser.add_argument('--alone', action='store_true', help='the reading alone, and how often what arose')
    options = parser.parse_args()
    start = time.monotonic()
    with tempfile.TemporaryDirectory() as folder:
        players = [Reading()] if options.alone else [Reading(), Program(os.path.abspath(options.program), folder)]
        compared = compare_all(players, options)
    if compared is None:
        return 1
    if options.counts or options.alone:
        print(table())
    print('%d answers of seed %s: no difference, no fault of an accepted module, %.0f s'
          % (compared, options.seed, time.monotonic() - start))
    return 0


if __name__ == '__main__':
    raise SystemExit(main())
