"""Module texts: the module that a text says, or its first fault.

A reading of the rules of docs/LANGUAGE.md, written apart from the definitions and from the code, so that a slip in
either shows.
"""
import re

TEXT_LIMIT = 1048576
MOST_INSTRUCTIONS = 1024
MOST_TEXTS = 64
MOST_TEXT_BYTES = 255
U32 = 2 ** 32 - 1

# The operands of each instruction: P a pool, Q a declared pool, B a brigade, O a declared brigade, V a declared pool or
# brigade, C a cursor, K a kind, N a number variable, X one or a constant, T a text, L a label, S a status.
OPERANDS = {
    'pcreate': 'Q', 'pclear': 'Q', 'pdestroy': 'Q',
    'label': 'PT', 'unlabel': 'PT', 'prelabel': 'PT',
    'jnull': 'VL',
    'bcreate': 'O', 'bclean': 'B', 'bconcat': 'BB', 'bsave': 'OB',
    'bsplit': 'BCB', 'bpart': 'BXCL',
    'jempty': 'BL', 'pass': 'BL', 'jsent': 'L', 'leave': '',
    'first': 'CB', 'next': 'CC', 'jend': 'CL', 'jkind': 'CKL',
    'unlink': 'C', 'bdelete': 'C',
    'tail': 'BC', 'head': 'BC', 'before': 'CC',
    'heap': 'CT', 'immortal': 'CT',
    'frombuf': 'C', 'transient': 'C', 'poolb': 'CP',
    'flush': 'C', 'eos': 'C',
    'split': 'CXL', 'copy': 'CC', 'aside': 'CP',
    'read': 'CL', 'len': 'NC', 'get': 'NXL',
    'jlt': 'NXL', 'jeq': 'NXL',
    'put': 'XL', 'clearbuf': '',
    'set': 'NX', 'add': 'NX', 'sub': 'NX',
    'jump': 'L', 'ret': 'S',
}
KINDS = ('heap', 'transient', 'immortal', 'pool', 'file', 'flush', 'eos', 'data')
HANDLERS = ('open', 'init', 'main')
ONLY_IN_MAIN = ('pass', 'leave')
STRUCTURE = {'module', 'pool', 'brigade', 'end', ':'}.union(HANDLERS)
# The words of structure that are due after what was read last; within a handler labels and instructions are too.
DUE = {
    'module': ('module',),
    'pools': ('pool', 'brigade', 'open'),
    'brigades': ('brigade', 'open'),
    'open': ('init',), 'init': ('main',), 'main': ('end',), 'end': (),
}

PRINTABLE = re.compile(rb'[ -~]*')
NAME = re.compile(r'[a-z][a-z0-9]{0,15}')
DECIMAL = re.compile(r'0|[1-9][0-9]{0,19}')
TWO_DIGITS = re.compile(r'[0-9a-f]{2}')
ESCAPES = {'"': 34, '\\': 92, 'n': 10, 'r': 13}


class FaultyText(Exception):
    """The first faulty line, with the lowest code that fits it."""

    def __init__(self, line, code):
        super().__init__(line, code)
        self.line, self.code = line, code


class Module:
    """What a module text says."""

    def __init__(self):
        self.pools = []          # the parent of each: 'conn', 'req' or the number of a pool variable
        self.brigades = []       # the pool of each, likewise
        self.code = []           # (word, operands ..)
        self.start = {}          # the first instruction of each handler


class Handler:
    """A handler while its text is read."""

    def __init__(self, line, first):
        self.line, self.first = line, first
        self.labels = []         # (name, line, the instruction that follows)


def decimal(word, most):
    """The number that a word says, or None where it is none or over `most`."""
    if not DECIMAL.fullmatch(word) or int(word) > most:
        return None
    return int(word)


def variable(word, letter):
    """The number of a variable of this letter, 0 to 7, or None."""
    return int(word[1]) if len(word) == 2 and word[0] == letter and word[1] in '01234567' else None


def read_text(line, at):
    """The bytes of the text whose quote stands at `at`, and the place behind it; None where it is faulty."""
    out = bytearray()
    at += 1
    while at < len(line):
        char = line[at]
        if char == '"':
            return bytes(out), at + 1
        if char != '\\':
            if not ' ' <= char <= '~':
                return None
            out.append(ord(char))
            at += 1
        elif line[at + 1:at + 2] in ESCAPES:
            out.append(ESCAPES[line[at + 1]])
            at += 2
        elif line[at + 1:at + 2] == 'x' and TWO_DIGITS.fullmatch(line[at + 2:at + 4]):
            out.append(int(line[at + 2:at + 4], 16))
            at += 4
        else:
            return None
    return None


def show_text(data):
    """The one text in quotes by which bytes are printed."""
    def show(byte):
        if byte in b'"\\':
            return '\\' + chr(byte)
        return chr(byte) if 0x20 <= byte <= 0x7E else '\\x%02x' % byte
    return '"' + ''.join(map(show, data)) + '"'


def assemble(data):
    """The module whose text stands at the front of `data`, with the place behind it and the number of the line there.
    Raises FaultyText where there is none."""
    reader = Reader(data)
    state = 'module'
    while state != 'end':
        line = reader.next_line()
        if line and line[0] != '#':
            state = reader.take_line(line, state)
        reader.line += 1
    reader.check_handlers()
    return reader.module, reader.at, reader.line


def assemble_alone(data):
    """The module whose text is all of `data`. Raises FaultyText where there is none."""
    reader = Reader(data)
    state = 'module'
    while state != 'end' or reader.at < len(data):
        line = reader.next_line()
        if line and line[0] != '#':
            state = reader.take_line(line, state)
        reader.line += 1
    reader.check_handlers()
    return reader.module


def print_module(module):
    """The text by which a module is printed."""
    def word(kind, value):
        if kind in 'PQ' and value not in ('conn', 'req'):
            return 'p%d' % value
        if kind in 'BO' and value != 'in':
            return 'b%d' % value
        if kind == 'V':
            return '%s%d' % value
        if kind in 'CN':
            return '%s%d' % (kind.lower(), value)
        if kind == 'X':
            return 'n%d' % value[1] if value[0] == 'n' else '%d' % value[1]
        if kind == 'T':
            return show_text(value)
        return 'i%d' % value if kind == 'L' else value

    targets = {operands[-1] for first, *operands in module.code if 'L' in OPERANDS[first]}
    lines = ['module 1']
    lines += ['pool p%d %s' % (i, word('P', pool)) for i, pool in enumerate(module.pools)]
    lines += ['brigade b%d %s' % (i, word('P', pool)) for i, pool in enumerate(module.brigades)]
    for pc, (first, *operands) in enumerate(module.code):
        lines += [handler for handler in HANDLERS if module.start[handler] == pc]
        lines += [':i%d' % pc] if pc in targets else []
        lines.append(' '.join([first] + [word(kind, value) for kind, value in zip(OPERANDS[first], operands)]))
    return ''.join(line + '\n' for line in lines + ['end']).encode('ascii')


class Reader:
    """Reads a module text line by line."""

    def __init__(self, data):
        self.data, self.at, self.line = data, 0, 1
        self.module = Module()
        self.texts = 0
        self.handlers = []
        self.line_of = []        # the line of each instruction

    def fault(self, code):
        raise FaultyText(self.line, code)

    def next_line(self):
        """The next line without the spaces at its front."""
        if self.at >= len(self.data):
            self.fault(2)
        end = self.data.find(b'\n', self.at)
        if end < 0 or end + 1 > TEXT_LIMIT or not PRINTABLE.fullmatch(self.data, self.at, end):
            self.fault(1)
        line = self.data[self.at:end].decode('ascii').lstrip(' ')
        self.at = end + 1
        return line

    def take_line(self, line, state):
        """Takes a line that is not skipped, and gives the state after it."""
        if line[0] == ':':
            first, rest = ':', line[1:]
        else:
            first, space, rest = line.partition(' ')
            rest = rest if space else None
        if first not in STRUCTURE and first not in OPERANDS:
            self.fault(3)
        is_code = first == ':' or first in OPERANDS
        if first not in DUE[state] and not (is_code and state in HANDLERS):
            self.fault(2)
        if is_code:
            self.take_code(first, rest, state)
            return state
        if first in ('pool', 'brigade'):
            self.take_declaration(first, rest)
            return first + 's'
        if rest != ('1' if first == 'module' else None):
            self.fault(4)
        if first in HANDLERS:
            self.handlers.append(Handler(self.line, len(self.module.code)))
            self.module.start[first] = len(self.module.code)
        return 'pools' if first == 'module' else first

    def take_declaration(self, first, rest):
        """`pool pI PARENT` or `brigade bI POOL`."""
        declared = self.module.pools if first == 'pool' else self.module.brigades
        words = rest.split(' ') if rest is not None else []
        codes = set()
        if len(words) != 2 or variable(words[0], first[0]) != len(declared):
            codes.add(4)
        pool = words[1] if len(words) > 1 else 'conn'
        if pool not in ('conn', 'req'):
            pool = variable(pool, 'p')
            if pool is None:
                codes.add(4)
            elif pool >= len(self.module.pools):
                codes.add(6)
        if codes:
            self.fault(min(codes))
        declared.append(pool)

    def take_code(self, first, rest, handler):
        """A label or an instruction; `rest` is None where nothing follows the first word."""
        if first == ':':
            if not NAME.fullmatch(rest):
                self.fault(4)
            self.handlers[-1].labels.append((rest, self.line, len(self.module.code)))
            return
        codes = set()
        if 'T' in OPERANDS[first]:
            operands = self.operand_and_text(first, rest, handler, codes)
        else:
            operands = self.operands(first, rest, handler, codes)
        if len(self.module.code) >= MOST_INSTRUCTIONS:
            codes.add(11)
        if codes:
            self.fault(min(codes))
        self.module.code.append((first, *operands))
        self.line_of.append(self.line)

    def operand_and_text(self, first, rest, handler, codes):
        """The operands of an instruction with a text; what is wrong with them goes to `codes`."""
        self.texts += 1
        if self.texts > MOST_TEXTS:
            codes.add(11)
        if rest is None:
            codes.add(4)
            return ()
        word, _, text = rest.partition(' ')
        operand = self.operand(OPERANDS[first][0], word, handler, codes)
        if not text.startswith('"'):
            codes.add(4)
            return ()
        found = read_text(text, 0)
        if found is None:
            codes.add(5)
            return ()
        data, after = found
        if after != len(text):
            codes.add(4)
        if len(data) > MOST_TEXT_BYTES:
            codes.add(5)
        return operand, data

    def operands(self, first, rest, handler, codes):
        """The operands of any other instruction, likewise."""
        kinds = OPERANDS[first]
        words = rest.split(' ') if rest is not None else []
        if len(words) != len(kinds):
            codes.add(4)
        if are_one_brigade(kinds, words):
            codes.add(4)
        if first in ONLY_IN_MAIN and handler != 'main':
            codes.add(9)
        return [self.operand(kind, word, handler, codes) for kind, word in zip(kinds, words)]

    def operand(self, kind, word, handler, codes):
        """What a word says where an operand of this kind is due, likewise."""
        if kind == 'P' and word in ('conn', 'req'):
            if word == 'req' and handler == 'open':
                codes.add(9)
            return word
        if kind == 'B' and word == 'in':
            if handler != 'main':
                codes.add(9)
            return word
        if kind in 'PQ':
            return self.declared('p', word, handler, codes)
        if kind in 'BO':
            return self.declared('b', word, handler, codes)
        if kind == 'V':
            letter = 'p' if word.startswith('p') else 'b'
            return letter, self.declared(letter, word, handler, codes)
        if kind == 'S' and word == 'fail' and handler != 'main':
            codes.add(9)
        if kind == 'C':
            value = variable(word, 'c')
        elif kind == 'K':
            value = word if word in KINDS else None
        elif kind == 'N':
            value = variable(word, 'n')
        elif kind == 'X':
            value = number_or_constant(word)
        elif kind == 'L':
            value = word if NAME.fullmatch(word) else None
        else:
            value = word if word in ('ok', 'fail') else None
        if value is None:
            codes.add(4)
        return value

    def declared(self, letter, word, handler, codes):
        """The number of a declared variable, likewise."""
        pools = self.module.pools if letter == 'p' else self.module.brigades
        index = variable(word, letter)
        if index is None:
            codes.add(4)
        elif index >= len(pools):
            codes.add(6)
        elif handler == 'open' and self.lies_on_request(pools[index]):
            codes.add(9)
        return index

    def lies_on_request(self, pool):
        while pool not in ('conn', 'req'):
            pool = self.module.pools[pool]
        return pool == 'req'

    def check_handlers(self):
        """What can be told only when all lines are read; puts instructions in the place of the labels' names."""
        code = self.module.code
        faults = []
        seen = set()
        ends = [handler.first for handler in self.handlers[1:]] + [len(code)]
        for handler, end in zip(self.handlers, ends):
            for name, line, instruction in handler.labels:
                if name in seen:
                    faults.append((line, 7))
                seen.add(name)
                if instruction >= end:
                    faults.append((line, 8))
            if handler.first == end or code[end - 1][0] not in ('ret', 'jump'):
                faults.append((handler.line, 10))
            places = {name: instruction for name, _, instruction in reversed(handler.labels)}
            for i in range(handler.first, end):
                if 'L' not in OPERANDS[code[i][0]]:
                    continue
                if code[i][-1] in places:
                    code[i] = (*code[i][:-1], places[code[i][-1]])
                else:
                    faults.append((self.line_of[i], 8))
        if faults:
            raise FaultyText(*min(faults))


def are_one_brigade(kinds, words):
    """Whether two words where brigades are due are the same."""
    brigades = [word for kind, word in zip(kinds, words) if kind in 'BO']
    return len(brigades) == 2 and brigades[0] == brigades[1]


def number_or_constant(word):
    """('n', number of the variable) or ('=', constant), or None."""
    index = variable(word, 'n')
    if index is not None:
        return 'n', index
    value = decimal(word, U32)
    return None if value is None else ('=', value)
