#!/usr/bin/env python3
"""Prints the sizes of the sources.

    python3 tests/sizes.py           # the lines of each crate, and the longest chain of crates
    python3 tests/sizes.py --long    # the lines of more than 200 characters: file, how many, the longest

Lines are those of .rt and .antt files; empty ones and comments count. A chain is crates of crates.txt of which each stands on the one before, so
that they are proved one after another; the longest has the most lines.
"""
import os
import re
import subprocess
import sys

import documents

SOURCES = ('.rt', '.antt', '.py', '.c', '.md', '.edit')
PROVED = ('.rt', '.antt')


def lines(path):
    return documents.read(path).split('\n')


def size(crate):
    """The lines of a crate's code, definitions and proofs."""
    folder = os.path.join('crates', crate) + os.sep
    return sum(len(lines(path)) - 1 for path in documents.all_files() if path.startswith(folder) and path.endswith(PROVED))


def crates():
    """Each crate of crates.txt with the crates of the repository that it stands on."""
    rows = [re.match(r'(\w+)[^:]*:(.*)', line) for line in lines('crates.txt')]
    found = {row[1]: row[2].split() for row in rows if row}
    return {name: [low for low in below if low in found] for name, below in found.items()}


def longest(below, sizes):
    """The chain of crates with the most lines, the lowest crate first."""
    chains = {}

    def chain(name):
        if name not in chains:
            chains[name] = max((chain(low) for low in below[name]), key=total, default=[]) + [name]
        return chains[name]

    def total(names):
        return sum(sizes[name] for name in names)
    return max(map(chain, below), key=total)


def print_sizes():
    below = crates()
    sizes = {name: size(name) for name in below}
    for name in below:
        print('%7d  %s' % (sizes[name], name))
    print('%7d  in all' % sum(sizes.values()))
    chain = longest(below, sizes)
    print('%7d  in the longest chain: %s' % (sum(sizes[name] for name in chain), ', '.join(chain)))


def print_long():
    """The sources that git knows with lines of more than 200 characters."""
    known = subprocess.run(['git', 'ls-files'], cwd=documents.TOP, capture_output=True, text=True, check=True).stdout.split('\n')
    for path in known:
        if path.endswith(SOURCES) and os.path.exists(os.path.join(documents.TOP, path)):
            over = [len(line) for line in lines(path) if len(line) > documents.LONGEST]
            if over:
                print('%s: %d, the longest has %d characters' % (path, len(over), max(over)))


if __name__ == '__main__':
    if sys.argv[1:] == ['--long']:
        print_long()
    else:
        print_sizes()
