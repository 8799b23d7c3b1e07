#!/usr/bin/env python3
"""Plays random scripts with a program and with the reading of its rules, or with two programs, and compares the answers.

    python3 tests/differential/compare.py [N] [SEED] [--program PATH] [--with PATH] [--keep FOLDER] [--loops]
    python3 tests/differential/compare.py --alone [N] [SEED]
"""
import argparse
import os
import random
import subprocess
import tempfile
import time

import byte_loops
from generator import random_script
from reading.counts import table
from reading.scripts import TooBig, play

TOP = os.path.dirname(os.path.dirname(os.path.dirname(os.path.abspath(__file__))))
PROGRAM = os.path.join(TOP, 'crates', 'host_cli', 'out', 'host_cli')
LONGEST = 60                             # seconds for one script, and for making one smaller


def answer_of(program):
    """A function that plays a script with a program: what it prints, its exit status, and its errors."""
    if not os.access(program, os.X_OK):
        raise SystemExit('there is no program %s; ./host builds the one of this repository' % program)

    def answer(script):
        try:
            done = subprocess.run([program], input=script, capture_output=True, timeout=LONGEST, close_fds=False)
        except subprocess.TimeoutExpired:
            return b'', 'none after %d seconds' % LONGEST, b''
        return done.stdout, done.returncode, done.stderr
    return answer


def read_answer(script):
    """The answer that the reading gives. Raises TooBig where it is a matter of memory or time."""
    return (*play(script), b'')


def differs(players, script):
    """Whether two players answer a script otherwise; never where the answer is a matter of memory or time."""
    try:
        first, second = [player(script) for player in players]
    except TooBig:
        return False
    return first != second


def smaller(players, script):
    """A script with as few lines as are found in time on which the players differ too."""
    end = time.monotonic() + LONGEST
    lines = script.split(b'\n')
    size = max(1, len(lines) // 2)
    while size and time.monotonic() < end:
        place, less = 0, False
        while place < len(lines) and time.monotonic() < end:
            rest = lines[:place] + lines[place + size:]
            if differs(players, b'\n'.join(rest)):
                lines, less = rest, True
            else:
                place += size
        if size > 1 or not less:
            size //= 2
    return b'\n'.join(lines)


def shown(answer):
    """An answer on one line, shortened."""
    printed, status, errors = answer
    if len(printed) > 600:
        printed = printed[:300] + b' ... ' + printed[-250:]
    return 'status %s, %r' % (status, printed) + (', errors %r' % errors[:300] if errors else '')


def report(players, names, script, path):
    """Keeps a script with a difference and a smaller one, and tells both answers to that."""
    small = smaller(players, script)
    for end, data in (('.full', script), ('.script', small)):
        with open(path + end, 'wb') as file:
            file.write(data)
    print('DIFFERENCE: %s.script (%d bytes), made of %s.full' % (path, len(small), path))
    for name, player in zip(names, players):
        print('  %s: %s' % (name, shown(player(small))))


def generator_of(seed, number):
    """The random numbers from which the script of this number is made."""
    return random.Random('%s/%d' % (seed, number))


def count_alone(scripts):
    """Plays scripts with the reading alone, and tells how often what arose."""
    for script in scripts:
        try:
            read_answer(script)
        except TooBig:
            pass
    print(table())


def main():
    parser = argparse.ArgumentParser(description='Compares a program with a reading of its rules, or with another program.')
    parser.add_argument('n', nargs='?', type=int, default=20000, metavar='N', help='how many scripts')
    parser.add_argument('seed', nargs='?', default='1', metavar='SEED', help='any word; the same word gives the same scripts')
    parser.add_argument('--program', default=PROGRAM, help='crates/host_cli/out/host_cli where it is not given')
    parser.add_argument('--with', dest='other', help='another program, in place of the reading')
    parser.add_argument('--keep', default=tempfile.gettempdir(), help='the folder for a script with a difference')
    parser.add_argument('--counts', action='store_true', help='tell how often what arose')
    parser.add_argument('--alone', action='store_true', help='play the reading alone, and tell how often what arose')
    parser.add_argument('--loops', action='store_true', help='scripts with a loop over bytes; some are slow to play with the reading')
    options = parser.parse_args()
    script_of = byte_loops.random_script if options.loops else random_script
    if options.alone:
        return count_alone(script_of(generator_of(options.seed, number)) for number in range(options.n))
    names = (options.other or 'reading', 'program')
    players = (answer_of(options.other) if options.other else read_answer, answer_of(options.program))
    start = time.monotonic()
    for number in range(options.n):
        script = script_of(generator_of(options.seed, number))
        if differs(players, script):
            path = os.path.join(options.keep, 'difference_%s_%d' % (options.seed.replace('/', '_'), number))
            report(players, names, script, path)
            return 1
    took = time.monotonic() - start
    if options.counts and not options.other:
        print(table())
    print('%d scripts of seed %s: no difference, %.0f s, %.0f a second'
          % (options.n, options.seed, took, options.n / max(took, .001)))
    return 0


if __name__ == '__main__':
    raise SystemExit(main())
