#!/usr/bin/env python3
"""The texts that `host` prints without the program, in crates/host_cli/texts: the program's help, its version, and the help of each command.

    python3 tests/texts.py                       # compares them with what the program prints
    python3 tests/texts.py --write [PROGRAM]     # writes them as the program prints them

The program is the one that ./host builds, where none is named.
"""
import os
import re
import subprocess
import sys

TOP = os.path.dirname(os.path.dirname(os.path.abspath(__file__)))
FOLDER = os.path.join(TOP, 'crates', 'host_cli', 'texts')
BUILT = os.path.join(TOP, 'crates', 'host_cli', 'out', 'host_cli')


def printed(program, words):
    done = subprocess.run([program] + words, stdin=subprocess.DEVNULL, capture_output=True, text=True)
    return done.stdout if done.returncode == 0 else 'status %d: %s' % (done.returncode, done.stderr)


def commands(program):
    """The commands that the help lists, but `help`."""
    listed = printed(program, ['--help']).partition('Commands:\n')[2].partition('\n\n')[0]
    return [name for name in re.findall(r'(?m)^  (\w+)', listed) if name != 'help']


def texts(program):
    """The words that ask for each text, and the name of its file."""
    yield ['--help'], 'help.txt'
    yield ['-h'], 'help.txt'
    yield ['help'], 'help.txt'
    yield ['--version'], 'version.txt'
    yield ['-V'], 'version.txt'
    for name in commands(program):
        for words in ([name, '--help'], [name, '-h'], ['help', name]):
            yield words, os.path.join('commands', name + '.txt')


def text_of(name):
    path = os.path.join(FOLDER, name)
    if not os.path.exists(path):
        return None
    with open(path, encoding='utf-8') as file:
        return file.read()


def check(program, told):
    """Compares the texts; gives how many were asked for."""
    asked = list(texts(program))
    for words, name in asked:
        if printed(program, words) != text_of(name):
            told('%s is not what `%s` prints; python3 tests/texts.py --write writes it' % (name, ' '.join(words)))
    for name in os.listdir(os.path.join(FOLDER, 'commands')):
        if os.path.join('commands', name) not in {name for _, name in asked}:
            told('there is no command of %s' % name)
    return len(asked)


def write(program):
    os.makedirs(os.path.join(FOLDER, 'commands'), exist_ok=True)
    for words, name in texts(program):
        with open(os.path.join(FOLDER, name), 'w', encoding='utf-8') as file:
            file.write(printed(program, words))


if __name__ == '__main__':
    if sys.argv[1:2] == ['--write']:
        write(sys.argv[2] if sys.argv[2:] else BUILT)
    else:
        print('%d asked' % check(BUILT, print))
