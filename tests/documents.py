#!/usr/bin/env python3
"""Checks the documents, or writes the figures in them.

    python3 tests/documents.py            # reports what is wrong
    python3 tests/documents.py --write    # puts the right numbers of lines into tables of files

Checked are, in each Markdown file: that links lead to a file, and to a heading of it; that a file or folder which is named
`like/this.rt` is there; that a function or definition which is linked `like_this` stands in the file that the link names, and the
clauses named after it in the contract of that function (in docs/CLAIMS.md those after a colon, too); that a number beside links in a
table is the files' number of lines; that what a transcript shows below `$ cat FILE` and `$ ./host < SCRIPT`, or
`$ ./host --unproved < SCRIPT`, is that file, and the answers kept with that script; that each file of definitions is named in
docs/CLAIMS.md or in tests/lower_definitions.txt, and not in both; that the words of docs/MODEL.md are there; that README.md has at most 900
words, and no cell of a table there more than 30; that examples/README.md names each script; and that no line but one of a table has
more than 200 characters (python3 tests/wrap.py lays them out).
"""
import os
import re
import sys

TOP = os.path.dirname(os.path.dirname(os.path.abspath(__file__)))
LEFT_OUT = {'.git', 'out', '__pycache__'}
MOST_WORDS = 30
README_WORDS = 900
LONGEST = 200

LINK = re.compile(r'\[([^\]]+)\]\(([^)\s]*)\)')
SPAN = re.compile(r'`([^`]+)`')
NAMED_FILE = re.compile(r'(?:[\w.*-]+/)*[\w.*-]+\.(?:rt|antt|py|md|script|stdout|expected|edit|txt)|(?:[\w.*-]+/)+')
WORD = re.compile(r'(?:[A-Za-z]\w*::)*([A-Za-z]\w*)')
COUNTED = re.compile(r'(\| ((?:\[[^\]]*\]\([^)#\s]+\) )+)\| )(\d+|-)( \|)')
CLAUSES = {False: re.compile(r', clauses? ((?:`\w+`(?:, | and )?)+)'), True: re.compile(r'(?:, clauses?|:) ((?:`\w+`(?:, | and )?)+)')}
CLAIMS = 'docs/CLAIMS.md'
LOWER = 'tests/lower_definitions.txt'
SUM = re.compile(r'(\| \*\*in all\*\* \| )(\d+|-)( \|)')


def paths():
    """All Markdown files, from the top of the repository."""
    found = []
    for folder, folders, files in os.walk(TOP):
        folders[:] = sorted(set(folders) - LEFT_OUT)
        found += [os.path.relpath(os.path.join(folder, name), TOP) for name in sorted(files) if name.endswith('.md')]
    return found


def all_files():
    """The paths of all files and folders, from the top, folders with a slash at their end."""
    found = []
    for folder, folders, files in os.walk(TOP):
        folders[:] = sorted(set(folders) - LEFT_OUT)
        found += [os.path.relpath(os.path.join(folder, name), TOP) for name in files]
        found += [os.path.relpath(os.path.join(folder, name), TOP) + '/' for name in folders]
    return found


def read(path):
    with open(os.path.join(TOP, path), encoding='utf-8') as file:
        return file.read()


def without_blocks(text):
    """The lines of a text with their numbers, those of code blocks left out."""
    inside, lines = False, []
    for number, line in enumerate(text.split('\n'), 1):
        if line.lstrip().startswith('```'):
            inside = not inside
        elif not inside and not line.startswith('    '):
            lines.append((number, line))
    return lines


def headings(path):
    """The anchors of a document's headings."""
    found = set()
    for _, line in without_blocks(read(path)):
        if line.startswith('#'):
            text = line.lstrip('#').strip().lower()
            found.add(re.sub(r'[^\w\- ]', '', text).replace(' ', '-'))
    return found


def link_faults(path, line):
    """What is wrong with the links of a line."""
    for link in LINK.finditer(line):
        shown, target = link.groups()
        if target.startswith(('http:', 'https:')):
            continue
        name, _, anchor = target.partition('#')
        full = os.path.normpath(os.path.join(os.path.dirname(path), name)) if name else path
        if not target or not os.path.exists(os.path.join(TOP, full)):
            yield 'dead link %s' % target
        elif anchor and anchor not in headings(full):
            yield 'no heading for %s' % target
        elif full.endswith(('.rt', '.antt')):
            yield from word_faults(shown, full, CLAUSES[path == CLAIMS].match(line, link.end()))


def word_faults(shown, full, named):
    """Whether the word that a link shows stands in the file that it leads to, and the clauses named after it in its contract."""
    text = read(full)
    words = [word for word in map(WORD.fullmatch, SPAN.findall(shown)) if word]
    for word in words:
        if not re.search(r'\b%s\b' % word[1], text):
            yield '%s does not stand in %s' % (word[0], full)
    if named and words:
        clauses = set(SPAN.findall(named[1]))
        if not any(clauses <= told for told in contracts(text, words[0][1])):
            yield '%s of %s has no clauses %s' % (words[0][0], full, ', '.join(sorted(clauses)))


def contracts(text, name):
    """The names of the clauses of each function of this name."""
    heads = re.findall(r'\bfn %s\b.*?(?:^ *\{\}?$|\};$)' % name, text, re.S | re.M)
    return [set(re.findall(r'\bensures (\w+) \{', head)) for head in heads]


def is_there(name, files):
    """Whether a name is the end of a path of the repository; a star stands for any part of it."""
    if 'NAME' in name or name.startswith('/'):
        return True
    pattern = re.compile('(?:.*/)?' + '[^/]*'.join(map(re.escape, name.split('*'))))
    return any(pattern.fullmatch(file) for file in files)


def name_faults(line, files):
    """The files that a line names in code spans and that are not there."""
    for span in SPAN.findall(line):
        for word in span.split(' '):
            if NAMED_FILE.fullmatch(word) and not is_there(word.removeprefix('./'), files):
                yield 'no file %s' % word


def cell_faults(line):
    """The cells of a table's line that are too long."""
    if line.startswith('|'):
        for cell in re.split(r'(?<!\\)\|', line):
            if len(cell.split()) > MOST_WORDS:
                yield 'a cell of %d words' % len(cell.split())


def transcript_faults(text):
    """The transcripts that do not show the answers that are kept, with the numbers of their lines."""
    lines = text.split('\n')
    for number, line in enumerate(lines, 1):
        kept = re.fullmatch(r'( *)\$ cat (\S+)', line)
        if kept and lines[number:number + read(kept[2]).count('\n')] != [kept[1] + due for due in read(kept[2]).split('\n')[:-1]]:
            yield number, 'not the text of %s' % kept[2]
        found = re.fullmatch(r'( *)\$ \./host(?: --unproved)? < (\S+)\.script', line)
        if not found:
            continue
        answers = [end for end in ('.expected', '.stdout') if os.path.exists(os.path.join(TOP, found[2] + end))]
        if not answers:
            yield number, 'no answers of %s.script' % found[2]
            continue
        due = read(found[2] + answers[0]).split('\n')[:-1]
        if lines[number:number + len(due)] != [found[1] + answer for answer in due]:
            yield number, 'not the answers of %s.script' % found[2]


def model_faults():
    """The words in the first column of docs/MODEL.md that no definition and no type has."""
    sources = [read(file) for file in all_files() if re.search(r'/(specs|src)/.*\.(antt|rt)$', file)]
    words = {word for text in sources for word in re.findall(r'\w+', text)}
    for number, line in without_blocks(read('docs/MODEL.md')):
        for span in SPAN.findall(line.split('|')[1]) if line.startswith('|') else []:
            if re.fullmatch(r'\w+', span) and span not in words:
                yield 'docs/MODEL.md:%d: no definition %s' % (number, span)


def length_faults():
    """Whether README.md is longer than two screens."""
    count = len(read('README.md').split())
    if count > README_WORDS:
        yield 'README.md: %d words, at most %d are wanted' % (count, README_WORDS)


def unlisted():
    """The scripts that the index of examples does not name."""
    named = {target for _, target in LINK.findall(read('examples/README.md'))}
    return [name for name in sorted(os.listdir(os.path.join(TOP, 'examples'))) if name.endswith('.script') and name not in named]


def lines_of(path, target):
    full = os.path.normpath(os.path.join(TOP, os.path.dirname(path), target))
    if not os.path.isfile(full):
        return '-'
    with open(full, encoding='utf-8') as file:
        return str(file.read().count('\n'))


def with_figures(path):
    """The text of a document with the right numbers of lines."""
    total, lines = 0, []
    for line in read(path).split('\n'):
        counted = COUNTED.search(line)
        if counted:
            counts = [lines_of(path, target) for _, target in LINK.findall(counted[2])]
            count = '-' if '-' in counts else str(sum(map(int, counts)))
            total += int(count) if count != '-' else 0
            line = COUNTED.sub(lambda found: found[1] + count + found[4], line, count=1)
        elif SUM.search(line):
            line = SUM.sub(lambda found: found[1] + str(total) + found[3], line)
            total = 0
        elif line.startswith('#'):
            total = 0
        lines.append(line)
    return '\n'.join(lines)


def faults():
    """All faults, each as a line of text."""
    files, found = all_files(), []
    for path in paths():
        text = read(path)
        for number, line in without_blocks(text):
            told = [*link_faults(path, line), *name_faults(line, files)]
            told += cell_faults(line) if path == 'README.md' else []
            told += ['a line of %d characters' % len(line)] if len(line) > LONGEST and not line.startswith('|') else []
            found += ['%s:%d: %s' % (path, number, fault) for fault in told]
        found += ['%s:%d: %s' % (path, number, fault) for number, fault in transcript_faults(text)]
        if text != with_figures(path):
            found.append('%s: numbers of lines are not right; python3 tests/documents.py --write puts them right' % path)
    found += [*model_faults(), *length_faults()]
    found += ['examples/README.md: it does not name %s' % file for file in unlisted()]
    return found + definition_faults()


def definition_faults():
    """The files of definitions that are named neither in docs/CLAIMS.md nor in the list of lower ones, or in both, and what that list has beside
    them. Lib and Prelude define nothing."""
    named = {os.path.normpath(os.path.join('docs', target)) for _, target in LINK.findall(read(CLAIMS))}
    lower = read(LOWER).split()
    files = [file for file in all_files() if re.search(r'/specs/.*\.antt$', file) and not file.endswith(('/Lib.antt', '/Prelude.antt'))]
    found = ['%s and %s: neither names %s' % (CLAIMS, LOWER, file) for file in files if file not in named and file not in lower]
    found += ['%s: %s is named in %s' % (LOWER, file, CLAIMS) for file in lower if file in named]
    return found + ['%s: no file of definitions %s' % (LOWER, file) for file in lower if file not in files]


def write():
    """Puts the right figures into all documents."""
    for path in paths():
        right = with_figures(path)
        if right != read(path):
            with open(os.path.join(TOP, path), 'w', encoding='utf-8') as file:
                file.write(right)
            print('written: %s' % path)


if __name__ == '__main__':
    if sys.argv[1:] == ['--write']:
        write()
    else:
        told = faults()
        print('\n'.join(told) or 'no faults')
        raise SystemExit(int(bool(told)))
