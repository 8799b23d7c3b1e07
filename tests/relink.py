#!/usr/bin/env python3
"""Points links in the documents to files that were moved.

    python3 tests/relink.py          # prints what it would change, and the links for which it finds no file
    python3 tests/relink.py --write  # changes them

A link is mended where its file is not there, or where the `word` that it shows does not stand in it. It is to lead to the file as which git
knows it now; where git knows none, to the one file with the same name, in a folder of the same name, that has the word.
"""
import os
import re
import subprocess
import sys

import documents


def sources():
    """The files to which links may lead, from the top."""
    return [path for path in documents.all_files() if not path.endswith('/')]


def has_words(shown, path):
    """Whether the words that a link shows stand in a file; only files of code and definitions are looked into."""
    if not path.endswith(('.rt', '.antt')):
        return True
    return not list(documents.word_faults(shown, path, ''))


def renames():
    """The paths that git knows as renamed, each with its next one."""
    listed = subprocess.run(['git', 'log', '-M', '--diff-filter=R', '--name-status', '--format='], cwd=documents.TOP, capture_output=True, text=True)
    found = {}
    for line in listed.stdout.splitlines():
        _, before, after = line.split('\t')
        found.setdefault(before, after)
    return found


def renamed(full, known):
    """The path as which git knows a file now; None where it does not know it."""
    for _ in range(len(known)):
        if os.path.exists(os.path.join(documents.TOP, full)) or full not in known:
            break
        full = known[full]
    return full if os.path.exists(os.path.join(documents.TOP, full)) else None


def moved(shown, full, files, known):
    """The files to which a link may lead in place of this one."""
    now = renamed(full, known)
    if now and now != full and has_words(shown, now):
        return [now]
    tail = '/'.join(full.split('/')[-2:])
    found = [path for path in files if path.endswith('/' + tail) and has_words(shown, path)]
    return found or [path for path in files if os.path.basename(path) == os.path.basename(full) and has_words(shown, path)]


def mended(path, text, files, known):
    """The text with its links mended; prints each change, and each link that is left."""
    folder = os.path.dirname(path)

    def mend(found):
        shown, target = found[1], found[2]
        name, mark, anchor = target.partition('#')
        full = os.path.normpath(os.path.join(folder, name)) if name else path
        if target.startswith(('http:', 'https:')) or (os.path.exists(os.path.join(documents.TOP, full)) and has_words(shown, full)):
            return found[0]
        choices = moved(shown, full, files, known)
        if len(choices) != 1:
            print('%s: left: [%s](%s): %s' % (path, shown, target, ', '.join(choices) or 'no such file'))
            return found[0]
        print('%s: %s -> %s' % (path, full, choices[0]))
        return '[%s](%s)' % (shown, os.path.relpath(choices[0], folder or '.') + mark + anchor)
    return re.sub(documents.LINK, mend, text)


if __name__ == '__main__':
    files, known = sources(), renames()
    for path in documents.paths():
        text = documents.read(path)
        new = mended(path, text, files, known)
        if new != text and sys.argv[1:] == ['--write']:
            with open(os.path.join(documents.TOP, path), 'w', encoding='utf-8') as file:
                file.write(new)
