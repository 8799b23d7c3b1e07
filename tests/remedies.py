#!/usr/bin/env python3
"""Takes guards, cleans and asides out of the filters of filters/, one line at a time, asks `certify --explain` what to write, writes
it, and asks `certify` again.

    python3 tests/remedies.py [--program PATH] [--list]

The table tells, for each word that is taken out: how many lines of it there are, how many modules are refused without one, how many of
these are accepted with the lines that were told, and how many of those then pass the filter's own tests. Behind it stands the same of
the patterns of filters/patterns as they are refused. With --list each refused module is told whose remedy did not help.
"""
import argparse
import os
import re
import subprocess
import tempfile

import filters

TOP = os.path.dirname(os.path.dirname(os.path.abspath(__file__)))
BUILT = os.path.join(TOP, 'crates', 'host_cli', 'out', 'host_cli')
WORDS = ('jsent', 'bclean', 'aside')
BEFORE = re.compile(r'  before line (\d+) write$')
INSTEAD = re.compile(r'  in place of line (\d+), `.*`, write$')
WITHOUT = re.compile(r'  take out line (\d+), `.*`$')


def edits(told):
    """The lines to write before each line, by its number, and the numbers of those that go."""
    written, gone, number = {}, set(), None
    for line in told.splitlines():
        before, instead, without = BEFORE.match(line), INSTEAD.match(line), WITHOUT.match(line)
        found = before or instead or without
        if found:
            number = int(found.group(1))
            written.setdefault(number, [])
            if not before:
                gone.add(number)
        elif line.startswith('    ') and number:
            written[number].append(line.strip())
    return written, gone


def mended(text, told):
    """A module text with the lines that were told."""
    written, gone = edits(told)
    lines = []
    for number, line in enumerate(text.splitlines(), 1):
        lines += written.get(number, [])
        lines += [] if number in gone else [line]
    return '\n'.join(lines) + '\n'


class Asker:
    """Asks the program about module texts."""

    def __init__(self, program, folder):
        self.program, self.path = program, os.path.join(folder, 'module')

    def certify(self, text, *words):
        """The answer, the errors and the status."""
        with open(self.path, 'w', encoding='ascii') as file:
            file.write(text)
        done = subprocess.run([self.program, 'certify', *words, self.path], capture_output=True, text=True)
        return done.stdout, done.stderr, done.returncode

    def passes(self, name, text, certificate):
        """Whether a module passes the tests of a filter."""
        for commands, answers in filters.plays(name, os.path.join(TOP, 'filters', 'tests', name + '.test')):
            script = text + certificate + 'checked\n' + ''.join(c + '\n' for c in commands)
            done = subprocess.run([self.program], input=script, capture_output=True, text=True)
            if done.stdout.splitlines() != answers:
                return False
        return True

    def try_remedy(self, text):
        """Whether a module is refused; the text with the lines that were told; its certificate, or nothing."""
        answer, told, _ = self.certify(text, '--explain')
        if not answer.startswith('refused at '):
            return False, text, None
        after = mended(text, told)
        certificate, _, status = self.certify(after)
        return True, after, certificate if status == 0 else None


def without(text, word):
    """The texts without one line that begins with this word, and what the line was."""
    lines = text.splitlines()
    for index, line in enumerate(lines):
        if line.split(' ') and line.strip().split(' ')[0] == word:
            yield index + 1, '\n'.join(lines[:index] + lines[index + 1:]) + '\n'


def measure(asker, word, listed):
    """How many lines of a word there are, refusals without one, remedies that help, and filters that then pass their tests."""
    counts = [0, 0, 0, 0]
    for name, path in filters.filters():
        for number, text in without(filters.text_of(path), word):
            counts[0] += 1
            refused, after, certificate = asker.try_remedy(text)
            counts[1] += refused
            counts[2] += bool(refused and certificate)
            passes = bool(refused and certificate and asker.passes(name, after, certificate))
            counts[3] += passes
            if listed and refused and not passes:
                print('%s without line %d: %s' % (name, number, 'other output' if certificate else 'refused'))
    return counts


def main():
    parser = argparse.ArgumentParser(description=__doc__, formatter_class=argparse.RawDescriptionHelpFormatter)
    parser.add_argument('--program', default=BUILT, help='the program, in place of the one that ./host builds')
    parser.add_argument('--list', action='store_true', help='tell each module whose remedy did not help')
    options = parser.parse_args()
    with tempfile.TemporaryDirectory() as folder:
        asker = Asker(os.path.abspath(options.program), folder)
        rows = [(word, measure(asker, word, options.list)) for word in WORDS]
        patterns = [asker.try_remedy(filters.text_of(before)) for _, before, _, _ in filters.patterns()]
    print('| Taken out | Lines | Refused | Accepted with the remedy | Pass their tests |')
    print('|---|---|---|---|---|')
    for word, counts in rows + [('all', [sum(column) for column in zip(*(counts for _, counts in rows))])]:
        print('| %s | %s |' % ('`%s`' % word if word != 'all' else word, ' | '.join(map(str, counts))))
    print('patterns: %d refused, %d accepted with the remedy' % (len(patterns), sum(bool(c) for _, _, c in patterns)))


if __name__ == '__main__':
    main()
