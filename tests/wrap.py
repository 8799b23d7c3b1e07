#!/usr/bin/env python3
"""Lays out the prose of Markdown files: each paragraph with a line of more than 150 characters is filled anew, at 130.

    python3 tests/wrap.py [FILE ..]

All Markdown files of the repository where none is named. Headings, tables and blocks of code stay. A link, a code span, and a link with
the clauses named after it stay on one line.
"""
import os
import re
import sys

import documents

WIDTH = 130
MOST = 150

LINK = r'\[[^\]]+\]\([^)\s]+\)'
ATOM = re.compile(LINK + r', clauses? (?:`\w+`(?:, | and )?)*`\w+`|' + LINK + r'|`[^`]+`')
HELD = re.compile('\0(\\d+)\0')
ITEM = re.compile(r'\s*(?:[-*]|\d+\.) ')
NOT_FIRST = re.compile(r'\d+\.$|[-+*#>|]|=+$')


def words(text):
    """The pieces of a text between which a line may end."""
    atoms = []

    def hold(found):
        atoms.append(found[0])
        return '\0%d\0' % (len(atoms) - 1)
    found = []
    for word in ATOM.sub(hold, ' '.join(text.split())).split(' '):
        word = HELD.sub(lambda held: atoms[int(held[1])], word)
        if found and NOT_FIRST.match(word):
            found[-1] += ' ' + word
        else:
            found.append(word)
    return found


def filled(paragraph):
    """The lines of a paragraph, filled anew."""
    item = ITEM.match(paragraph[0])
    first = item[0] if item else re.match(r'\s*', paragraph[0])[0]
    later = re.match(r'\s*', paragraph[1])[0] if item and len(paragraph) > 1 else ' ' * len(first)
    lines, line = [], None
    for word in words(' '.join([paragraph[0][len(first):]] + paragraph[1:])):
        if line is not None and len(line) + 1 + len(word) > WIDTH:
            lines.append(line)
            line = later + word
        else:
            line = first + word if line is None else line + ' ' + word
    return lines + [line]


def wrapped(text):
    """The text with its long paragraphs filled anew."""
    done, paragraph, inside = [], [], False

    def close():
        done.extend(filled(paragraph) if max(map(len, paragraph), default=0) > MOST else paragraph)
        paragraph.clear()
    for line in text.split('\n'):
        fence = line.lstrip().startswith('```')
        inside ^= fence
        block = fence or inside or not line.strip() or line.startswith(('|', '#', '<')) or (line.startswith('    ') and not paragraph)
        if block or ITEM.match(line):
            close()
        (done if block else paragraph).append(line)
    close()
    return '\n'.join(done)


if __name__ == '__main__':
    for path in sys.argv[1:] or documents.paths():
        full = os.path.abspath(path) if sys.argv[1:] else os.path.join(documents.TOP, path)
        with open(full, encoding='utf-8') as file:
            text = file.read()
        if wrapped(text) != text:
            assert wrapped(text).split() == text.split()
            with open(full, 'w', encoding='utf-8') as file:
                file.write(wrapped(text))
            print('wrapped: %s' % path)
