#!/usr/bin/env python3
"""Answers as the program must, by the reading of its rules.

    python3 tests/differential/play.py < SCRIPT
    python3 tests/differential/play.py assemble MODULE
    python3 tests/differential/play.py certify [--slim] MODULE
    python3 tests/differential/play.py check MODULE CERTIFICATE
    python3 tests/differential/play.py upgrade MODULE CERTIFICATE

A script may have 1 to 16 modules and any number of connections. The exit status is the program's, too.
"""
import sys

from reading.certificates import answer, certify, check_texts, upgrade_texts
from reading.scripts import play
from reading.texts import assemble_alone, print_module

COMMANDS = {
    'assemble': (1, lambda module: answer(lambda: print_module(assemble_alone(module)))),
    'certify': (1, certify),
    'certify --slim': (1, lambda module: certify(module, is_slim=True)),
    'check': (2, check_texts),
    'upgrade': (2, upgrade_texts),
}


def read_file(name):
    with open(name, 'rb') as file:
        return file.read()


def main():
    word, *names = sys.argv[1:] or ['play']
    if (word, names[:1]) == ('certify', ['--slim']):
        word, names = 'certify --slim', names[1:]
    if word == 'play' and not names:
        printed, status = play(sys.stdin.buffer.read())
    elif word in COMMANDS and len(names) == COMMANDS[word][0]:
        printed, status = COMMANDS[word][1](*map(read_file, names))
    else:
        sys.stderr.write(__doc__)
        return 2
    sys.stdout.buffer.write(printed)
    return status


if __name__ == '__main__':
    raise SystemExit(main())
