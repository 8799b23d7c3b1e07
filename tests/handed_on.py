#!/usr/bin/env python3
"""Looks whether each crate hands on the types of lower crates that its public signatures name, so that a caller needs no other crate.

    python3 tests/handed_on.py

A signature is one of a public function of what `src/lib.rt` exports, of an exported trait, or a public field or a variant of an exported
type. What it names of a lower crate of this repository is to be exported by `pub use` too. The programs, and what is called from C, have
no callers here. Types of the kit's crates are not looked at.
"""
import glob
import os
import re
import sys

TOP = os.path.dirname(os.path.dirname(os.path.abspath(__file__)))
NO_CALLERS = {'host_cli', 'host_lib', 'acceptance'}
USE = re.compile(r'^(pub )?use (\w+)((?:::\w+)*)(?:::(\{[^}]*\}))?;', re.M)
CONTRACT = re.compile(r'^\s*(requires|ensures|ghost|decreases|#\[|//)')
IMPL = re.compile(r'^impl(?:<[^{]*?>)? (?:(?P<of>[\w:<>, ]+) for )?(?P<name>\w+)')


def crates():
    """The crates of the repository, as crates.txt names them."""
    with open(os.path.join(TOP, 'crates.txt'), encoding='utf-8') as file:
        return {line.split(':')[0].split()[0] for line in file if line.strip() and not line.startswith('#')}


def uses(text):
    """What `use` lines bring: public or not, the first word of the path, and each name."""
    for public, first, path, names in USE.findall(text):
        found = [part.strip() for part in names.strip('{}').split(',')] if names else [path.split('::')[-1]]
        for name in filter(None, found):
            yield bool(public), first, name.split(' as ')[-1].split('::')[-1]


def signature(lines, at):
    """The text from this line on up to the contract or the body."""
    found = []
    for line in lines[at:]:
        if CONTRACT.match(line) or line.strip() == '{':
            break
        found.append(line)
        if line.rstrip().endswith(('{', ';')):
            break
    return ' '.join(found)


def items(text, exported):
    """The public signatures of a file: of what they are part, and their text."""
    lines = text.splitlines()
    owner, kind, public = '', '', False
    for at, line in enumerate(lines):
        head = re.match(r'^pub (struct|enum|trait) (\w+)', line)
        impl = IMPL.match(line)
        if head:
            kind, owner = head.groups()
            public = owner in exported
            if public:
                yield owner, signature(lines, at)
        elif impl:
            kind, owner = 'impl', impl.group('name')
            public = owner in exported and not impl.group('of')
        elif line.startswith('}'):
            owner, public = '', False
        elif re.match(r'^pub fn (\w+)', line):
            name = re.match(r'^pub fn (\w+)', line).group(1)
            if name in exported:
                yield name, signature(lines, at)
        elif not public or CONTRACT.match(line):
            continue
        elif kind == 'impl' and re.match(r'^    pub fn ', line):
            yield owner, signature(lines, at)
        elif kind == 'trait' and re.match(r'^    fn ', line):
            yield owner, signature(lines, at)
        elif kind == 'struct' and re.match(r'^    pub \w+:', line):
            yield owner, line
        elif kind == 'enum':
            yield owner, line


def missing(crate, known):
    """What the crate's signatures name of lower crates and is not handed on: the name, its crate, and by which item."""
    folder = os.path.join(TOP, 'crates', crate, 'src')
    with open(os.path.join(folder, 'lib.rt'), encoding='utf-8') as file:
        root = list(uses(file.read()))
    exported = {name for public, first, name in root if public}
    found = {}
    for path in sorted(glob.glob(os.path.join(folder, '**', '*.rt'), recursive=True)):
        with open(path, encoding='utf-8') as file:
            text = file.read()
        lower = {name: first for public, first, name in uses(text) if first in known and first != crate}
        for owner, written in items(text, exported):
            for word in re.findall(r'\b[A-Z]\w+', re.sub(r'//.*', '', written)):
                if word in lower and word not in exported:
                    found.setdefault((word, lower[word]), set()).add(owner)
    return found


def faults():
    """What is named and not handed on, a line for each."""
    known = crates()
    return ['%s names %s of %s in %s, and does not hand it on' % (crate, name, lower, ', '.join(sorted(owners)))
            for crate in sorted(known - NO_CALLERS)
            for (name, lower), owners in sorted(missing(crate, known).items())]


if __name__ == '__main__':
    found = faults()
    print('\n'.join(found or ['no faults']))
    sys.exit(1 if found else 0)
