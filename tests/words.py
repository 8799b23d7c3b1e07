#!/usr/bin/env python3
"""Prints the names that two or more crates declare, with the files that declare them.

    python3 tests/words.py

Names are those of types, traits, records, data and predicates: each begins with a capital and has two letters at least. Cases of an enum
or of data, and modules, are not counted.
"""
import os
import re

import documents

CODE = re.compile(r'^\s*(?:pub(?:\(crate\))? )?(?:struct|enum|trait|type|union) ([A-Z]\w+)', re.M)
KINDS = r'(?:record|data|abbrev|unfoldable)'
LOGIC = re.compile(r'^\s*(?:pub )?%s (?:pub )?([A-Z]\w+)|^(?:pub )?([A-Z]\w+) :(?!:)' % KINDS, re.M)


def declared():
    """Each name with the crates that declare it, and their files."""
    found = {}
    for path in documents.all_files():
        parts = path.split(os.sep)
        if parts[0] != 'crates' or len(parts) < 4 or not path.endswith(('.rt', '.antt')) or 'must-fail' in parts:
            continue
        pattern = CODE if path.endswith('.rt') else LOGIC
        for match in pattern.finditer(documents.read(path)):
            name = next(filter(None, match.groups()))
            found.setdefault(name, {}).setdefault(parts[1], set()).add(os.sep.join(parts[2:]))
    return found


def print_shared():
    names = declared()
    shared = {name: crates for name, crates in names.items() if len(crates) > 1}
    for name in sorted(shared):
        print('%s: %s' % (name, '; '.join('%s %s' % (crate, ', '.join(sorted(files))) for crate, files in sorted(shared[name].items()))))
    print('%d of %d names' % (len(shared), len(names)))


if __name__ == '__main__':
    print_shared()
