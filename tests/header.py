#!/usr/bin/env python3
"""Compares httpd/cidawru.h with what crates/host_lib exports.

    python3 tests/header.py

Each export has its prototype there, with the same parameters and result; each struct that crosses has the same fields; and the numbers are the
same. `tests/run documents` does this too. httpd/test_lib.c calls each function.
"""
import os
import re
import sys

TOP = os.path.dirname(os.path.dirname(os.path.abspath(__file__)))
SOURCES = os.path.join(TOP, 'crates', 'host_lib', 'src')
HEADER = os.path.join(TOP, 'httpd', 'cidawru.h')

# How a type of Rattle is declared in C. A slice is a pointer and a length; a Global has no bytes.
STRUCTS = {'Handle': 'cidawru', 'LoadTold': 'cidawru_told', 'TextLengths': 'cidawru_lengths'}
NUMBERS = {'u64': 'uint64_t', 'u32': 'uint32_t', 'usize': 'size_t', 'bool': 'bool', 'u8': 'unsigned char', '': 'void'}
# The names of a const of the code begin so in the header.
NUMBERED = {'answers.rt': 'CIDAWRU_', 'told.rt': 'CIDAWRU_TOLD_', 'loading.rt': 'CIDAWRU_'}
RULES = ['F1', 'F10', 'SHAPE', 'ENTRY', 'FLOW', 'EXIT', 'REQUEST']
KINDS = ['HEAP', 'TRANSIENT', 'IMMORTAL', 'POOL', 'FLUSH', 'EOS']


def read(path):
    with open(path, encoding='utf-8') as file:
        return file.read()


def named(word):
    return 'struct ' + STRUCTS[word] if word in STRUCTS else NUMBERS[word]


def in_c(kind):
    """The C types of a parameter of this type."""
    if kind == 'Global':
        return []
    slice_of = re.fullmatch(r'&(mut )?\[(\w+)\]', kind)
    if slice_of:
        return ['%s%s *' % ('' if slice_of[1] else 'const ', named(slice_of[2])), 'size_t']
    lent = re.fullmatch(r'&mut (\w+)', kind)
    return [named(lent[1]) + ' *'] if lent else [named(kind)]


def exports():
    """What the crate exports: the name of each function, with its result and its parameters, as C has them."""
    text = read(os.path.join(SOURCES, 'lib.rt'))
    found = {}
    for row in re.finditer(r'#\[unsafe\(no_mangle\)\]\s+pub extern "C" fn (\w+)\(([^)]*)\)(?: -> (\w+))?', text):
        kinds = [part.split(':', 1)[1].strip() for part in row[2].split(',') if part.strip()]
        found[row[1]] = (named(row[3] or ''), [kind for each in kinds for kind in in_c(each)])
    return found


def without_comments(text):
    return re.sub(r'/\*.*?\*/', '', text, flags=re.S)


def prototypes(text):
    """The functions that the header declares, in the same form."""
    found = {}
    for row in re.finditer(r'^(\w+) (cidawru_\w+)\(([^)]*)\);', text, re.M):
        parts = [' '.join(part.split()) for part in row[3].split(',')]
        kinds = [re.fullmatch(r'(.*?[* ])\w*', part)[1].strip() if not part.endswith('*') else part for part in parts]
        found[row[2]] = (row[1], [kind if not kind.endswith('*') else kind[:-1].strip() + ' *' for kind in kinds])
    return found


def struct_in_c(text, name):
    body = re.search(r'struct %s \{(.*?)\};' % name, text, re.S)[1]
    return [' '.join(row.split()) for row in body.split(';') if row.strip()]


def struct_in_code(file, name):
    body = re.search(r'pub struct %s \{(.*?)\n\}' % name, read(os.path.join(SOURCES, file)), re.S)[1]
    rows = re.findall(r'^\s+(?:pub(?:\(crate\))? )?(\w+): (.*),$', body, re.M)
    return [(field, 'unsigned char *' if kind == '*mut u8' else NUMBERS.get(kind, kind)) for field, kind in rows]


def fields(file, name):
    """The fields of a struct, as C has them; those of the slot stand in its place."""
    found = []
    for field, kind in struct_in_code(file, name):
        found += fields('handle.rt', 'SessionSlot') if kind == 'SessionSlot' else ['%s%s%s' % (kind, '' if kind.endswith('*') else ' ', field)]
    return found


def constants(text):
    """The numbers of the header."""
    found = {}
    for body in re.findall(r'enum \{(.*?)\};', text, re.S):
        number = -1
        for part in filter(None, (part.strip() for part in body.split(','))):
            name, _, value = (word.strip() for word in part.partition('='))
            number = int(value) if value else number + 1
            found[name] = number
    return found


def due_constants():
    """The numbers of the code, by the names that they have in the header."""
    found = {}
    for file, begin in NUMBERED.items():
        for row in re.finditer(r'const (\w+): u32 = (\d+);', read(os.path.join(SOURCES, file))):
            found[begin + row[1]] = int(row[2])
    rules = dict(re.findall(r'Rule::(\w+) => (\d+)', read(os.path.join(SOURCES, 'told.rt'))))
    faults = dict(re.findall(r'FaultKind::(\w+) => (\d+)', read(os.path.join(SOURCES, 'told.rt'))))
    by_name = {name.upper(): int(number) for name, number in {**rules, **faults}.items()}
    found.update({'CIDAWRU_RULE_' + name: by_name[name] for name in RULES})
    kinds = re.findall(r'^\s+(\d+) => Ok\(Piece::(\w+)', read(os.path.join(SOURCES, 'pieces.rt')), re.M)
    found.update({'CIDAWRU_' + name.upper(): int(number) for number, name in kinds})
    return found


def faults():
    """What of the header is not as the code has it."""
    text = without_comments(read(HEADER))
    wrong = []
    pairs = [(exports(), prototypes(text), 'function'), (due_constants(), constants(text), 'number')]
    for due, found, what in pairs:
        for name in sorted(due.keys() | found.keys()):
            if due.get(name) != found.get(name):
                wrong.append('httpd/cidawru.h: %s %s is %s, due is %s' % (what, name, found.get(name), due.get(name)))
    for file, name in (('handle.rt', 'Handle'), ('told.rt', 'LoadTold'), ('loading.rt', 'TextLengths')):
        due, found = fields(file, name), struct_in_c(text, STRUCTS[name])
        if due != found:
            wrong.append('httpd/cidawru.h: struct %s is %s, due is %s' % (STRUCTS[name], found, due))
    return wrong


def main():
    wrong = faults()
    for line in wrong:
        print(line)
    print('header: %d functions, %d numbers, %d not as in the code' % (len(exports()), len(due_constants()), len(wrong)))
    return int(bool(wrong))


if __name__ == '__main__':
    sys.exit(main())
