#!/usr/bin/env python3
"""Has random programs of the language for authors compiled, plays them, and compares the answers with a reading of what they mean.

    python3 tests/differential/language.py [--programs N] [--seed SEED] [--plays N] [--program PATH] [--keep FOLDER]

Each program is compiled with what an operator might set, and certified: the answers must be a module and a certificate that the checker
accepts, or one line with the place of what is wrong, and the command ends so. Then it is played some times: before a probe, a filter that shows
each FLUSH, EOS and end of a pass as a byte; before a filter that fails each second call; and before an earlier program that goes by bytes, with
the probe behind. N counts the programs that were played.
"""
import argparse
import collections
import itertools
import os
import random
import re
import subprocess
import tempfile
import time

from directed import CASES, Directed
from programs import BYTES, FILE_COPIES, Program, requests
from reading.meaning import EOS, FLUSH, Meaning, Piece, TooLong
from reading.sources import Source

TOP = os.path.dirname(os.path.dirname(os.path.dirname(os.path.abspath(__file__))))
PROGRAM = os.path.join(TOP, 'crates', 'host_cli', 'out', 'host_cli')
LONGEST = 60                             # seconds for one call of the program
STEPS = 60000                            # what the reading does in one play of a random program at most
LONG_STEPS = 2000000                     # and in one of CASES
BUDGET = 20000000
MISTAKE = re.compile(r'line [1-9][0-9]*, column [1-9][0-9]*: .+\n')
FILE = bytes(BYTES) * FILE_COPIES
PROBE = 'filter probe\non flush { emit "\\x01" }\non eos { emit "\\x02\\x03" }\non return { emit "\\x03" }\n'
FAILING = """# every second call fails
module 1
open
  ret ok
init
  ret ok
main
  jeq n0 1 bad
  set n0 1
  jsent drop
  pass in bad
  ret ok
:drop
  bclean in
  ret ok
:bad
  set n0 0
  ret fail
end
"""


class Fault(Exception):
    """What the program should not have answered."""


class Probe:
    """The filter PROBE: what comes out of it."""

    def __init__(self):
        self.out, self.ended = bytearray(), False

    def begin(self):
        self.ended = False

    def __call__(self, items):
        for item in [] if self.ended else items + [None]:
            if item == EOS:
                self.ended = True
                self.out += b'\x02\x03'
                break
            self.out += b'\x03' if item is None else b'\x01' if item == FLUSH else item.data
        return True


class Failing:
    """The filter FAILING."""

    def __init__(self):
        self.out, self.ended, self.fails = bytearray(), False, False

    def begin(self):
        self.ended = False

    def __call__(self, items):
        self.fails = not self.fails
        if self.fails and not self.ended:
            self.out += b''.join(item.data for item in items if item not in (FLUSH, EOS))
            self.ended = EOS in items
        return self.fails


class Earlier:
    """A program that was compiled before, and the probe behind it."""

    def __init__(self, source, steps):
        self.probe = Probe()
        self.meaning = Meaning(source, self.probe, steps)

    def begin(self):
        self.meaning.begin()
        self.probe.begin()

    def __call__(self, items):
        return self.meaning.call(items)


def quoted(data):
    return '"%s"' % ''.join('\\' + chr(b) if b in b'"\\' else chr(b) if 32 <= b < 127 else '\\x%02x' % b for b in data)


def commands(played):
    """The commands of a play."""
    yield from ['file f %d %s' % (FILE_COPIES, quoted(BYTES)), 'open', 'run 1']
    for brigades in played:
        yield from ['begin 1', 'run 1']
        for pieces in brigades:
            shown = [' file f %d %d' % piece[1:] if piece[0] == 'file' else ' '.join([' ' + piece[0]] + [quoted(data) for data in piece[1:]])
                     for piece in pieces]
            yield from ['bring 1' + ''.join(shown), 'run 1', 'output 1']
        yield 'end 1'
    yield 'close 1'


def item_of(piece):
    if piece[0] == 'file':
        return Piece(FILE[piece[1]:piece[1] + piece[2]], True)
    return {'flush': FLUSH, 'eos': EOS}.get(piece[0]) or Piece(piece[1])


def answers_due(source, played, down, steps):
    """The answers that the reading gives, and how many steps it did of so many that it may do. Raises TooLong."""
    meaning, end = Meaning(source, down, steps), down
    meanings = [meaning]
    if isinstance(down, Earlier):
        meanings, end = [meaning, down.meaning], down.probe
    due = ['ok', 'conn 1', 'ended ok']
    for brigades in played:
        meaning.begin()
        down.begin()
        due += ['ok', 'ended ok']
        for pieces in brigades:
            end.out.clear()
            well = meaning.call([item_of(piece) for piece in pieces])
            due += ['ok', 'ended ok' if well else 'ended fail', 'output ' + quoted(end.out)]
        due.append('ok')
    labels = sorted(quoted(label) for each in meanings for label in each.logs)
    return due + [' '.join(['labels'] + labels)], sum(steps - each.left_steps for each in meanings)


class Compiler:
    """The program that is compared, and a folder for the texts that it is given."""

    def __init__(self, program, folder):
        self.program, self.path, self.earlier = program, os.path.join(folder, 'random.filter'), None
        self.probe = self.module(PROBE, {})

    def behind(self, number, steps):
        """What stands behind a program in its play of this number, and its modules."""
        if number % 3 == 1:
            return Failing(), FAILING
        if number % 3 == 2 and self.earlier:
            source, module = self.earlier
            return Earlier(source, steps), module + self.probe
        return Probe(), self.probe

    def asked(self, words, text=None):
        try:
            return subprocess.run([self.program] + words, input=text, capture_output=True, timeout=LONGEST, close_fds=False)
        except subprocess.TimeoutExpired:
            raise Fault('no answer after %d seconds: %s' % (LONGEST, words))

    def compiled(self, command, settings):
        """What a command prints for the text, or None where it tells a mistake."""
        done = self.asked([command, self.path] + [word for name, value in settings.items() for word in ('--set', name.encode() + b'=' + value)])
        if done.returncode and not MISTAKE.fullmatch(done.stdout.decode('latin-1')):
            raise Fault('%s answers %r %r' % (command, done.stdout[:200], done.stderr[:200]))
        return None if done.returncode else done.stdout.decode('latin-1')

    def module(self, text, settings):
        """The module of a text with its certificate, or None where the text is refused."""
        with open(self.path, 'w', encoding='latin-1') as file:
            file.write(text)
        made = [self.compiled(command, settings) for command in ('compile', 'certify')]
        if (made[0] is None) != (made[1] is None):
            raise Fault('compile and certify do not agree')
        return None if made[0] is None else ''.join(made)

    def play(self, modules, played):
        script = '%sbudget %d\nchecked\n%s\n' % (modules, BUDGET, '\n'.join(commands(played)))
        lines = self.asked([], script.encode('latin-1')).stdout.decode('latin-1').splitlines()
        if lines and lines[-1].startswith('labels'):
            lines[-1] = ' '.join(['labels'] + sorted(lines[-1].split()[1:]))
        return lines


def play_once(compiler, source, module, number, played, most):
    """Plays requests. Raises a Fault. Gives whether it was not left out."""
    down, behind = compiler.behind(number, most)
    try:
        due, steps = answers_due(source, played, down, most)
    except TooLong:
        return False
    found = compiler.play(module + behind, played)
    if steps > 3000 and any('OutOfSteps' in line for line in found):
        return False
    if found != due:
        at = next((at for at, pair in enumerate(zip(found, due)) if pair[0] != pair[1]), min(len(found), len(due)))
        raise Fault('play %d, answer %d: the program says %s, due is %s; the commands are\n%s%s' % (
            number, at + 1, found[at:at + 1], due[at:at + 1], '\n'.join(list(commands(played))[:at + 1])[:3000],
            '\nbehind it stands\n' + behind if isinstance(down, Earlier) else ''))
    return True


def compare(compiler, program, plays, most, counts):
    """Compiles a program, and plays each of these lists of requests, of so many steps at most. Raises a Fault."""
    counts['programs'] += 1
    module = compiler.module(program.text, program.settings)
    if module is None:
        counts['refused'] += 1
        return
    source = Source(program.text, program.settings)
    for number, played in enumerate(plays):
        counts['plays' if play_once(compiler, source, module, number, played, most) else 'left out'] += 1
    if source.byte or source.patterns:
        compiler.earlier = source, module


def tried(options):
    """The programs that may be compared: a name, the program, the requests of each play, and how many steps these have at most. Those of CASES
    come first."""
    for number, (text, played) in enumerate(CASES):
        yield 'directed_%d' % number, Directed(text, played), [played, played], LONG_STEPS
    for number in itertools.count():
        chance = random.Random('%s/%d' % (options.seed, number))
        yield 'language_%s_%d' % (options.seed, number), Program(chance), [requests(chance) for _ in range(options.plays)], STEPS


def run(compiler, options):
    """Compares as many programs as are asked for, and those of CASES; gives how many differ."""
    counts, begin = collections.Counter(), time.monotonic()
    for name, program, plays, most in tried(options):
        if counts['programs'] - counts['refused'] >= options.programs + len(CASES) or counts['wrong'] == 10:
            break
        refused = counts['refused']
        try:
            compare(compiler, program, plays, most, counts)
            if most == LONG_STEPS and refused < counts['refused']:
                raise Fault('refused')
        except Fault as fault:
            counts['wrong'] += 1
            path = os.path.join(options.keep, name + '.filter')
            with open(path, 'w', encoding='latin-1') as file:
                file.write(program.text)
            print('language: %s with %s: %s' % (path, program.settings, fault), flush=True)
    print('language: %d programs, %d of them refused, %d plays, %d left out, %d not as the reading says, %.0f s' % (
        counts['programs'], counts['refused'], counts['plays'], counts['left out'], counts['wrong'], time.monotonic() - begin))
    return counts['wrong']


def main():
    parser = argparse.ArgumentParser(description='Compares compiled programs with a reading of their meaning.')
    parser.add_argument('--programs', type=int, default=10000, metavar='N', help='how many programs that are compiled')
    parser.add_argument('--seed', default='1', help='any word; the same word gives the same programs')
    parser.add_argument('--plays', type=int, default=3, metavar='N', help='how often each is played')
    parser.add_argument('--program', default=PROGRAM, help='crates/host_cli/out/host_cli where it is not given')
    parser.add_argument('--keep', default=tempfile.gettempdir(), help='the folder for programs that differ')
    options = parser.parse_args()
    if not os.access(options.program, os.X_OK):
        raise SystemExit('there is no program %s; ./host builds the one of this repository' % options.program)
    with tempfile.TemporaryDirectory() as folder:
        return int(run(Compiler(options.program, folder), options) > 0)


if __name__ == '__main__':
    raise SystemExit(main())
