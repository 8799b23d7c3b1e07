"""Texts of the language for authors: the tree that a text spells. Only texts that the program takes are read, so faults are not told.

A number or a condition is a tuple that begins with what it is:

    ('number', N)  ('name', NAME)  ('size', HOLD)  ('look', TABLE, INDEX)  ('empty', HOLD)  ('has', HOLD, SIZE)  ('not', OF)  (OPERATOR, LEFT, RIGHT)

A statement likewise; its words are those of the text. `it` stands for a hold where it may.
"""
import re

TOKEN = re.compile(r'''(?P<blank>[ \t\n]+|\#[^\n]*)|(?P<text>"(?:[^"\\\n]|\\.)*")|(?P<byte>'(?:[^'\\\n]|\\x..|\\.)')'''
                   r'''|(?P<number>0x[0-9A-Fa-f]+|[0-9]+)|(?P<word>[A-Za-z][A-Za-z0-9_]*)|(?P<mark>[-+=!<>]=|<<|>>|[-+*/%<>=(){}\[\],])''')
ESCAPE = re.compile(r'\\(x[0-9A-Fa-f]{2}|.)')
ESCAPED = {'n': '\n', 'r': '\r', 't': '\t', '0': '\0', '"': '"', "'": "'", '\\': '\\'}
LEVELS = (('or',), ('and',), ('<', '<=', '>', '>=', '==', '!='), ('+', '-'), ('*', '/', '%', '<<', '>>'))
COMPARED = 2


def unquoted(text):
    """The bytes of what stands in quotes."""
    return ESCAPE.sub(lambda found: chr(int(found[1][1:], 16)) if len(found[1]) == 3 else ESCAPED[found[1]], text[1:-1]).encode('latin-1')


def tokens(text):
    """Pairs of a kind and a value: a text is its bytes, a byte and a number are numbers."""
    at = 0
    while at < len(text):
        found = TOKEN.match(text, at)
        at = found.end()
        kind, word = found.lastgroup, found[0]
        if kind == 'text':
            yield kind, unquoted(word)
        elif kind == 'byte':
            yield 'number', unquoted(word)[0]
        elif kind == 'number':
            yield kind, int(word, 16 if word[:2] == '0x' else 10)
        elif kind != 'blank':
            yield kind, word
    yield 'end', None


class Source:
    """A filter: its declarations and handlers. `settings` are values of `param`, by their names."""

    def __init__(self, text, settings=None):
        self.tokens, self.at = list(tokens(text)), 0
        self.settings = settings or {}
        self.vars, self.holds, self.constants, self.tables, self.texts, self.defs = {}, {}, {}, {}, {}, {}
        self.handlers, self.patterns, self.byte = {}, {}, None
        self.word('filter')
        self.take()
        while self.tokens[self.at][1] != 'on' and self.tokens[self.at][0] != 'end':
            self.declaration()
        while self.has('on'):
            self.handler()

    def take(self):
        self.at += 1
        return self.tokens[self.at - 1][1]

    def kind(self):
        return self.tokens[self.at][0]

    def has(self, *words):
        """Passes one of these words, if it is next."""
        kind, value = self.tokens[self.at]
        if kind in ('word', 'mark') and value in words:
            return self.take()
        return None

    def word(self, word):
        assert self.has(word), (word, self.tokens[self.at])

    def declaration(self):
        conn = bool(self.has('conn'))
        what, name = self.take(), self.take()
        if what == 'def':
            self.word('(')
            names = []
            while not self.has(')'):
                names.append(self.take())
                self.has(',')
            self.defs[name] = names, self.block()
            return
        if what == 'hold':
            limit = None
            if self.has('at'):
                self.word('most')
                limit = self.known()
            self.holds[name] = conn, limit
            return
        self.word('=')
        if what == 'param' and self.kind() == 'text':
            self.texts[name] = self.settings.get(name, self.text())
        elif what == 'table':
            self.tables[name] = self.text()
        elif what == 'var':
            self.vars[name] = conn, self.known()
        else:
            value = self.known()
            self.constants[name] = int(self.settings.get(name, value)) if what == 'param' else value

    def text(self):
        """Texts side by side, or the name of one."""
        if self.kind() == 'word':
            return self.texts[self.take()]
        text = b''
        while self.kind() == 'text':
            text += self.take()
        return text

    def known(self):
        """A number that is known beforehand."""
        return value_of(self.sum(), self)

    def handler(self):
        event = self.take()
        if event == 'byte':
            self.byte = self.take(), self.block()
        elif event == 'match':
            pattern = self.text()
            self.patterns[pattern] = self.block()
        else:
            self.handlers[event] = self.block()

    # Numbers and conditions

    def sum(self, level=0):
        if level == len(LEVELS):
            return self.unit()
        if level == COMPARED and self.has('not'):
            return 'not', self.sum(COMPARED)
        left = self.sum(level + 1)
        while True:
            word = self.has(*LEVELS[level])
            if not word:
                return left
            left = word, left, self.sum(level + 1)

    def unit(self):
        if self.kind() == 'number':
            return 'number', self.take()
        if self.has('('):
            inner = self.sum()
            self.word(')')
            return inner
        name = self.take()
        if name in ('size', 'empty', 'has'):
            self.word('(')
            found = name, self.take()
            if name == 'has':
                self.word(',')
                found += self.sum(),
            self.word(')')
            return found
        if self.has('['):
            index = self.sum()
            self.word(']')
            return 'look', name, index
        return 'name', name

    # Statements

    def block(self):
        self.word('{')
        body = []
        while not self.has('}'):
            body.append(self.statement())
        return body

    def thing(self):
        if self.kind() == 'text':
            return 'text', self.text()
        if self.has('it'):
            return 'it',
        if self.has('copy'):
            return 'copy', self.take()
        if self.has('decimal'):
            return 'decimal', self.sum()
        value = self.sum()
        if self.has('of'):
            return 'part', value, self.take()
        if value[0] == 'name' and value[1] in self.texts:
            return 'text', self.texts[value[1]]
        if value[0] == 'name' and value[1] in self.holds:
            return 'whole', value[1]
        return 'byte', value

    def choice(self):
        test, then, other = self.sum(), self.block(), []
        if self.has('else'):
            other = [self.choice()] if self.has('if') else self.block()
        return 'if', test, then, other

    def walk(self):
        self.word('byte')
        byte = self.take()
        place = self.take() if self.has('at') else None
        self.word('in')
        return 'for', byte, place, self.take(), self.block()

    def statement(self):
        word = self.take()
        if word == 'if':
            return self.choice()
        if word == 'for':
            return self.walk()
        if word in ('while', 'loop'):
            return 'while', self.sum() if word == 'while' else None, self.block()
        if word in ('emit', 'keep'):
            thing = self.thing()
            return 'put', thing, self.take() if word == 'keep' and self.has('in') else None
        if word == 'let':
            name = self.take()
            self.word('=')
            return 'let', name, self.sum()
        if word == 'drop':
            return 'drop', self.take()
        if word == 'cut':
            self.word('it')
            self.word('at')
            return 'cut', self.sum()
        if word == 'log':
            self.has('conn')
            return 'log', self.text()
        how = self.has('=', '+=', '-=', '(')
        if not how:
            return word,
        if how == '(':
            values = []
            while not self.has(')'):
                values.append(self.sum())
                self.has(',')
            return 'run', word, values
        value = self.sum()
        return 'set', word, value if how == '=' else (how[0], ('name', word), value)


MOST = 2 ** 32 - 1
ARITHMETIC = {
    '+': lambda a, b: min(a + b, MOST),
    '-': lambda a, b: max(a - b, 0),
    '*': lambda a, b: min(a * b, MOST),
    '/': lambda a, b: a // b,
    '%': lambda a, b: a % b,
    '<<': lambda a, b: min(a << b, MOST),
    '>>': lambda a, b: a >> b,
}


def value_of(number, source):
    """The value of a number that is known beforehand."""
    if number[0] == 'number':
        return number[1]
    if number[0] == 'name':
        return source.constants[number[1]]
    if number[0] == 'look':
        return byte_at(source.tables[number[1]], value_of(number[2], source))
    return ARITHMETIC[number[0]](value_of(number[1], source), value_of(number[2], source))


def byte_at(table, index):
    """The byte of a table, 0 past its end."""
    return table[index] if index < len(table) else 0
