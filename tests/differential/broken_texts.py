#!/usr/bin/env python3
"""Breaks texts of the language for authors at a known place, and looks where the program tells the mistake.

    python3 tests/differential/broken_texts.py [--programs N] [--seed SEED] [--program PATH] [--keep FOLDER]

A token of a random program that is taken is deleted, doubled or changed. Where the text is not taken any more, the program must tell one
mistake, by one line with its place, which is not before the place where the text was broken. N counts these texts. Some mistakes are told
where something begins that is wrong as a whole; AS_A_WHOLE lists them. One in a `def` is told with the line that runs it, which counts.
"""
import argparse
import collections
import os
import random
import re
import tempfile
import time

from language import MISTAKE, PROGRAM, Compiler
from programs import Program
from reading.sources import TOKEN

OTHERS = ['emit', 'keep', 'on', 'if', 'else', 'it', 'in', 'copy', 'of', 'at', 'let', 'loop', 'byte', 'not', 'end', 'v9', 'h0', 'v0', 'd0', 't0', 'b',
          '0', '7', '4294967296', '"a"', '"', "'a'", '+', '==', '=', '<<', '(', ')', '{', '}', '[', ',', ';', '&&', '$', '\\', '\x01', '\xe9', '#']
PLACE = re.compile(r'line ([0-9]+), column ([0-9]+): (.*?)(?: \(in the `def` that runs from line ([0-9]+)\))?\n')
AS_A_WHOLE = (
    'this `{` is not closed',                                # told where it opens
    '`[a-z0-9]+` takes [0-9]+ number',                       # told where it is run
    'this pattern ',                                         # of two patterns
    '`on byte` and `on bucket` do not go together',
    '`it` is given away on one way through this loop',       # told where the loop begins
    '`leave` cannot stand in a filter with an `on match`',
    'too many ', 'the filter ',                              # what does not fit into one module
)


def broken(text, chance):
    """A text with one token deleted, doubled or changed, and the line and the column of that place."""
    found = [match for match in TOKEN.finditer(text) if match.lastgroup != 'blank']
    token = chance.choice(found)
    place = text.count('\n', 0, token.start()) + 1, token.start() - text.rfind('\n', 0, token.start())
    how = chance.choice(['deleted', 'doubled', 'changed', 'changed'])
    new = {'deleted': ' ', 'doubled': token[0] + ' ' + token[0], 'changed': ' %s ' % chance.choice(OTHERS)}[how]
    return text[:token.start()] + new + text[token.end():], place, '%s at line %d, column %d' % (how, *place)


def fault_of(answer, is_other, place):
    """What is wrong with what is told of a text that was broken at a place, if something is; standard error may have something other than it."""
    found = PLACE.fullmatch(answer)
    if not found or not MISTAKE.fullmatch(answer) or is_other:
        return 'not one mistake'
    line, column, what, run = found.groups()
    told = (int(run), 0) if run else (int(line), int(column))
    if told < ((place[0], 0) if run else place) and not re.match('|'.join(AS_A_WHOLE), what):
        return 'told before it'
    return None


def compile_text(compiler, text):
    with open(compiler.path, 'w', encoding='latin-1') as file:
        file.write(text)
    return compiler.asked(['compile', compiler.path])


def run(compiler, options):
    """Breaks as many texts as are asked for; gives how many answers are not as they should be."""
    counts, number, begin = collections.Counter(), 0, time.monotonic()
    while counts['mistakes'] < options.programs and counts['wrong'] < 10:
        chance = random.Random('%s/%d' % (options.seed, number))
        number += 1
        whole = Program(chance).text
        if compile_text(compiler, whole).returncode:
            continue
        text, place, how = broken(whole, chance)
        done = compile_text(compiler, text)
        answer = done.stdout.decode('latin-1')
        if done.returncode == 0:
            counts['taken'] += 1
            continue
        counts['mistakes'] += 1
        named = ('%s: %s' % (compiler.path, answer)).encode('latin-1')
        fault = fault_of(answer, done.stderr != named, place)
        if fault:
            counts['wrong'] += 1
            path = os.path.join(options.keep, 'broken_%s_%d.filter' % (options.seed, number - 1))
            with open(path, 'w', encoding='latin-1') as file:
                file.write(text)
            print('broken texts: %s, %s: %s: %r' % (path, how, fault, answer[:300]), flush=True)
    print('broken texts: %d with a mistake, %d taken, %d not as they should be, %.0f s' % (
        counts['mistakes'], counts['taken'], counts['wrong'], time.monotonic() - begin))
    return counts['wrong']


def main():
    parser = argparse.ArgumentParser(description='Breaks texts, and looks where the program tells the mistake.')
    parser.add_argument('--programs', type=int, default=2000, metavar='N', help='how many texts that are not taken')
    parser.add_argument('--seed', default='1', help='any word; the same word gives the same texts')
    parser.add_argument('--program', default=PROGRAM, help='crates/host_cli/out/host_cli where it is not given')
    parser.add_argument('--keep', default=tempfile.gettempdir(), help='the folder for texts of which something wrong is told')
    options = parser.parse_args()
    with tempfile.TemporaryDirectory() as folder:
        return int(run(Compiler(options.program, folder), options) > 0)


if __name__ == '__main__':
    raise SystemExit(main())
