#!/usr/bin/env python3
"""Plays the transcripts of docs/FILTERS.md in which a filter is compiled or tried, and compares what they show.

    python3 tests/tutorial.py PROGRAM            # the transcripts with `./host compile` and `./host filter`
    python3 tests/tutorial.py PROGRAM compile    # those with `./host compile` alone

PROGRAM stands for `./host`. A command begins with `$ ` in an indented block, and what it writes stands below it, standard error with
standard output. Commands run in a folder of their own, beside links to examples/ and filters/.
"""
import os
import re
import subprocess
import sys
import tempfile

TOP = os.path.dirname(os.path.dirname(os.path.abspath(__file__)))
PAGE = 'docs/FILTERS.md'


def transcripts(text):
    """Each command of a page with the line that it stands on, and the lines shown below it."""
    found, shown = [], None
    for number, line in enumerate(text.split('\n'), 1):
        if not line.startswith('    '):
            shown = None
        elif line.startswith('    $ '):
            shown = []
            found.append((number, line[6:], shown))
        elif shown is not None:
            shown.append(line[4:])
    return found


def written(command, program, room):
    """What a command writes, line by line."""
    command = command.replace('./host', program)
    done = subprocess.run(['bash', '-c', '{ %s\n} 2>&1' % command], cwd=room, stdout=subprocess.PIPE, timeout=60)
    return done.stdout.decode().split('\n')


def is_played(command, words):
    return any(re.search(r'\./host %s\b' % word, command) for word in words) and not command.endswith('&')


def makes_file(command):
    return '>' in command and './host' not in command


def faults(program, words):
    with open(os.path.join(TOP, PAGE), encoding='utf-8') as file:
        steps = transcripts(file.read())
    with tempfile.TemporaryDirectory() as room:
        for name in ('examples', 'filters'):
            os.symlink(os.path.join(TOP, name), os.path.join(room, name))
        for number, command, shown in steps:
            if makes_file(command):
                written(command, program, room)
            elif is_played(command, words):
                lines = written(command, program, room)
                if [line for line in lines if line] != [line for line in shown if line]:
                    yield '%s:%d: %s writes %r' % (PAGE, number, command, lines)


def main(words):
    if not words:
        raise SystemExit(__doc__)
    told = list(faults(os.path.abspath(words[0]), words[1:] or ['compile', 'filter']))
    print('\n'.join(told) or 'no faults')
    raise SystemExit(int(bool(told)))


if __name__ == '__main__':
    main(sys.argv[1:])
