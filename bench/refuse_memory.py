#!/usr/bin/env python3
"""Refuses each growth of memory in turn while a script is played, and looks at all answers (tests/refusals.py says which are right).

    python3 bench/refuse_memory.py [--broken] [SCRIPT ..]

Without scripts it plays those of examples/ and tests/cases/. With --broken it plays those of 100 connections, of which one breaks by each
fault: some minutes for each.

The program is crates/host_cli/out/host_cli (`./host` builds it).
"""
import glob
import os
import sys
import tempfile

from steps import BUILT, MOST, TOP, built, filters, script

import broken
import refusals


def scripts(words):
    """The scripts, by name."""
    if words[:1] == ['--broken']:
        yield from ((name, script) for name, script, _ in broken.scripts() if not name.startswith('without'))
        return
    if words[:1] == ['--filters']:
        yield from ((name, script(filters.text_of(path), MOST, 1, 3000).encode('latin-1')) for name, path in filters.filters())
        return
    names = words or [name for folder in ('examples', 'tests/cases') for name in sorted(glob.glob(os.path.join(TOP, folder, '*.script')))]
    for name in names:
        with open(name, 'rb') as file:
            yield os.path.basename(name), file.read()


def main():
    with tempfile.TemporaryDirectory() as folder:
        refuser = refusals.Refuser(built(BUILT), folder)
        for name, script in scripts(sys.argv[1:]):
            calls, met, fault = refusals.play(refuser, script)
            if fault:
                raise SystemExit('%s, growth %d: %r' % (name, *fault))
            print('%s: of %d growths %d were met by an answer, and no other answer changed' % (name, calls, met), flush=True)


if __name__ == '__main__':
    main()
