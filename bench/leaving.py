#!/usr/bin/env python3
"""Counts what a brigade costs behind a filter that left, beside the chain without it, in instructions of the processor.

    python3 bench/leaving.py [PROGRAM] [--brigades N]

PROGRAM is crates/host_cli/out/host_cli where none is given (`./host` builds it). One request is played with N brigades of 64 bytes and with
2 N, by each chain: its own filter leaves at the first of them, as once.mod and label_text.mod do. The difference is what N brigades cost that
go past it. valgrind is wanted.
"""
import argparse
import os
import re
import subprocess
import tempfile

from steps import BUILT, TOP, built, filters

# A filter that leaves, and those that stay in the chain.
CHAINS = [('once', []), ('label_text', []), ('once', ['upper']), ('label_text', ['upper']), ('once', ['prefix', 'upper'])]
FIRST = b'\x00' + b'a' * 63                      # no text, so label_text leaves too


def text_of(name):
    return filters.text_of(os.path.join(TOP, 'filters', name + '.mod'))


def script(names, brigades):
    """A request of so many brigades, behind one at which filters leave."""
    piece = filters.quoted(b'a' * 64)
    lines = ['checked', 'open', 'run 1', 'begin 1', 'run 1', 'bring 1 heap %s' % filters.quoted(FIRST), 'run 1']
    lines += ['bring 1 heap ' + piece, 'run 1'] * brigades + ['output 1']
    return ''.join(map(text_of, names)) + '\n'.join(lines) + '\n'


def counted(program, names, brigades, folder):
    """The instructions of the processor that a script takes."""
    out = os.path.join(folder, 'out')
    done = subprocess.run(['valgrind', '--tool=callgrind', '--callgrind-out-file=' + out, program], input=script(names, brigades).encode(),
                          capture_output=True, check=True)
    if done.stdout.splitlines()[-2] != b'ended ok':
        raise SystemExit('%s: %r' % (' '.join(names), done.stdout[-200:]))
    return int(re.search(rb'Collected : (\d+)', done.stderr)[1])


def of_a_brigade(program, names, brigades, folder):
    once, twice = (counted(program, names, n, folder) for n in (brigades, 2 * brigades))
    return (twice - once) / brigades


def main():
    parser = argparse.ArgumentParser(description=__doc__.splitlines()[0])
    parser.add_argument('program', nargs='?', default=BUILT)
    parser.add_argument('--brigades', type=int, default=2000, metavar='N')
    options = parser.parse_args()
    program = built(options.program)
    with tempfile.TemporaryDirectory() as folder:
        for leaver, others in CHAINS:
            # A chain has a filter at least: beside one that leaves alone stands the step that hands over, which has no like.
            left = of_a_brigade(program, [leaver] + others, options.brigades, folder)
            if not others:
                print('%-24s %9.0f a brigade' % (leaver, left))
                continue
            alone = of_a_brigade(program, others, options.brigades, folder)
            print('%-24s %9.0f a brigade, without it %9.0f: %.3f times' % ('-'.join([leaver] + others), left, alone, left / alone))


if __name__ == '__main__':
    main()
