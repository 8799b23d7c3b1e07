"""What a filter in the language for authors means: its numbers, holds and output, as lists, and nothing of buckets, pools or cursors.

A brigade is a list of pieces, FLUSH and EOS; of a piece its bytes count, and whether it is one of a file. What the filter passes is given
to `down`, a function from such a list to whether the pass went well.
"""
from reading.sources import ARITHMETIC, MOST, byte_at

FLUSH, EOS = 'flush', 'eos'
FILE_PART = 8000                         # how many bytes of a file's piece a loop takes at once
COMPARE = {'<': int.__lt__, '<=': int.__le__, '>': int.__gt__, '>=': int.__ge__, '==': int.__eq__, '!=': int.__ne__}


class Piece:
    def __init__(self, data, file=False):
        self.data, self.file = data, file


class Next(Exception):
    """This byte, bucket or event is done."""


class Break(Exception):
    pass


class Continue(Exception):
    pass


class End(Exception):
    """The response ends."""


class Fail(Exception):
    """The call fails."""


class Leave(Exception):
    """The filter leaves the response."""


class TooLong(Exception):
    """More is done than the reading may take."""


def total(items):
    return sum(len(item.data) for item in items if item != FLUSH)


class Meaning:
    """A filter on one connection."""

    def __init__(self, source, down, most_steps):
        self.source, self.down, self.left_steps = source, down, most_steps
        self.vars = {name: value for name, (_, value) in source.vars.items()}
        self.holds = {name: [] for name in source.holds}
        self.scopes, self.logs, self.todo = [{}], [], []
        self.out, self.waiting, self.it, self.in_call = [], b'', None, False

    # Events

    def begin(self):
        """A request begins."""
        for name, (conn, value) in self.source.vars.items():
            if not conn:
                self.vars[name] = value
        self.drop_holds()
        self.out, self.waiting, self.ended, self.has_left, self.in_call = [], b'', False, False, False
        self.handle('start')

    def call(self, brigade):
        """A brigade comes. Gives whether the call went well."""
        if self.has_left:
            return self.down(brigade)
        if self.ended:
            return True
        self.in_call, self.todo, self.it = True, list(brigade), None
        try:
            return self.go_through()
        except End:
            self.ended = True
            self.out.append(EOS)
            return self.deliver()
        except Leave:
            return self.leave()
        except Fail:
            self.out = []
            return False

    def go_through(self):
        self.handle('call')
        while self.todo:
            self.it = self.todo.pop(0)
            if self.it == EOS:
                self.at_eos()
            if self.it == FLUSH:
                self.handle('flush', lambda: self.out.append(FLUSH))
            elif self.source.byte or self.source.patterns:
                self.each_byte()
            else:
                self.handle('bucket', lambda: self.out.append(self.it))
        self.it = None
        self.handle('return')
        self.pass_on()
        return True

    def at_eos(self):
        for byte in self.waiting:
            self.own(byte)
        self.handle('eos')
        raise End

    def leave(self):
        """What was emitted goes, then what is left of the bucket at hand, and the rest of the brigade as it came."""
        self.has_left = True
        self.out += [self.it] * (self.it is not None) + self.todo
        self.drop_holds()
        return not self.out or self.deliver()

    def drop_holds(self):
        self.holds.update((name, []) for name, (conn, _) in self.source.holds.items() if not conn)

    def handle(self, event, otherwise=lambda: None):
        if event in self.source.handlers:
            self.do(self.source.handlers[event])
        else:
            otherwise()

    def do(self, body, **names):
        """What stands in a handler, where these names and no other locals are known. What `it` was is gone behind it."""
        outer, self.scopes = self.scopes, [names]
        try:
            self.block(body)
        except Next:
            pass
        finally:
            self.scopes = outer

    def deliver(self):
        items, self.out = self.out, []
        return self.down(items)

    def pass_on(self):
        if self.out and not self.deliver():
            raise Fail

    # Bytes and matches

    def each_byte(self):
        """Goes through the bytes of the bucket at hand, which is gone behind them; in a `leave`, those behind the byte at hand go on."""
        self.read()
        data = self.it.data
        for at, byte in enumerate(data):
            self.it = Piece(data[at + 1:])
            self.take_byte(byte)

    def take_byte(self, byte):
        """A byte waits where it goes on with a pattern. Else what waits is released up to where it may begin one, and the byte comes again."""
        while True:
            seen = self.waiting + bytes([byte])
            if seen in self.source.patterns:
                self.waiting = b''
                return self.do(self.source.patterns[seen])
            if any(pattern.startswith(seen) for pattern in self.source.patterns):
                self.waiting = seen
                return None
            if not self.waiting:
                return self.own(byte)
            released = self.waiting
            self.waiting = self.fallback(released)
            for other in released[:len(released) - len(self.waiting)]:
                self.own(other)

    def fallback(self, seen):
        """The longest end of what was seen, but all of it, with which a pattern begins."""
        return next(seen[at:] for at in range(1, len(seen) + 1) if any(pattern.startswith(seen[at:]) for pattern in self.source.patterns))

    def own(self, byte):
        """A byte that is in no match."""
        if self.source.byte:
            name, body = self.source.byte
            self.do(body, **{name: byte})
        else:
            self.out.append(Piece(bytes([byte])))

    def read(self):
        """The bytes of the bucket at hand are looked at: of a file's piece the first ones; the rest comes next."""
        piece = self.it
        if piece.file and len(piece.data) > FILE_PART:
            self.todo.insert(0, Piece(piece.data[FILE_PART:], True))
        if piece.file:
            self.it = Piece(piece.data[:FILE_PART])

    # Numbers and conditions

    def scope_of(self, name):
        for scope in reversed(self.scopes):
            if name in scope:
                return scope
        return self.vars

    def number(self, of):
        kind = of[0]
        if kind == 'number':
            return of[1]
        if kind == 'name':
            scope = self.scope_of(of[1])
            return scope[of[1]] if of[1] in scope else self.source.constants[of[1]]
        if kind == 'look':
            return byte_at(self.source.tables[of[1]], self.number(of[2]))
        if kind == 'size':
            return min(self.size(of[1]), MOST)
        return ARITHMETIC[kind](self.number(of[1]), self.number(of[2]))

    def size(self, what):
        if what == 'it':
            return 0 if self.it == FLUSH else len(self.it.data)
        self.spend(len(self.holds[what]))
        return total(self.holds[what])

    def holds_true(self, test):
        kind = test[0]
        if kind == 'not':
            return not self.holds_true(test[1])
        if kind == 'and':
            return self.holds_true(test[1]) and self.holds_true(test[2])
        if kind == 'or':
            return self.holds_true(test[1]) or self.holds_true(test[2])
        if kind == 'empty':
            return not self.holds[test[1]]
        if kind == 'has':
            return self.size(test[1]) >= self.number(test[2])
        return COMPARE[kind](self.number(test[1]), self.number(test[2]))

    # Statements

    def spend(self, steps=1):
        self.left_steps -= steps
        if self.left_steps < 0:
            raise TooLong

    def block(self, body):
        self.scopes.append({})
        for statement in body:
            self.spend()
            getattr(self, 'do_' + statement[0])(*statement[1:])
        self.scopes.pop()

    def do_let(self, name, value):
        self.scopes[-1][name] = self.number(value)

    def do_set(self, name, value):
        self.scope_of(name)[name] = self.number(value)

    def do_if(self, test, then, other):
        self.block(then if self.holds_true(test) else other)

    def do_run(self, name, values):
        names, body = self.source.defs[name]
        outer, self.scopes = self.scopes, [dict(zip(names, [self.number(value) for value in values]))]
        try:
            self.block(body)
        finally:
            self.scopes = outer

    def turn(self, body):
        """One turn of a loop."""
        self.spend()
        depth = len(self.scopes)
        try:
            self.block(body)
        except Continue:
            del self.scopes[depth:]

    def do_while(self, test, body):
        depth = len(self.scopes)
        try:
            while test is None or self.holds_true(test):
                self.turn(body)
        except Break:
            del self.scopes[depth:]

    def do_for(self, byte, place, over, body):
        depth = len(self.scopes)
        if over == 'it':
            self.read()
        pieces = [self.it] if over == 'it' else self.holds[over]
        try:
            for data in [piece.data for piece in pieces if piece != FLUSH]:
                for at, value in enumerate(data):
                    self.scopes.append({byte: value, place: at})
                    self.turn(body)
                    self.scopes.pop()
        except Break:
            del self.scopes[depth:]

    def items_of(self, thing):
        """What a thing is, as a list; and what is left of the hold that it is taken from."""
        kind, value = thing[0], thing[-1]
        if kind == 'text':
            return [Piece(value)] * bool(value), None
        if kind == 'byte':
            return [Piece(bytes([min(self.number(value), 255)]))], None
        if kind == 'decimal':
            return [Piece(b'%d' % self.number(value))], None
        if kind == 'it' or value == 'it':
            return [self.it], None
        self.spend(len(self.holds[value]))
        if kind == 'part':
            return front(self.holds[value], self.number(thing[1]))
        return list(self.holds[value]), self.holds[value] if kind == 'copy' else []

    def do_put(self, thing, hold):
        items, left = self.items_of(thing)
        self.spend(total(items) // 100)
        if hold is not None and thing != ('text', b'') and self.in_call:
            limit = self.source.holds[hold][1]
            if limit is not None and total(self.holds[hold]) + total(items) > limit:
                raise Fail
        if left is not None:
            self.holds[thing[-1]] = left
        (self.out if hold is None else self.holds[hold]).extend(items)
        if thing == ('it',):
            self.it = None

    def do_drop(self, what):
        if what == 'it':
            self.it = None
        else:
            self.holds[what] = []

    def do_cut(self, at):
        size, piece = self.number(at), self.it
        if size <= len(piece.data):
            self.it = Piece(piece.data[:size], piece.file)
            self.todo.insert(0, Piece(piece.data[size:], piece.file))

    def do_flush(self):
        self.out.append(FLUSH)

    def do_pass(self):
        self.pass_on()

    def do_log(self, text):
        self.logs.append(text)

    def do_next(self):
        raise Next

    def do_break(self):
        raise Break

    def do_continue(self):
        raise Continue

    def do_end(self):
        raise End

    def do_fail(self):
        raise Fail

    def do_leave(self):
        raise Leave


def front(items, size):
    """The shortest front of a hold with so many bytes, or all of it, and what is left."""
    taken, left = [], list(items)
    while left and size:
        piece = left.pop(0)
        if piece != FLUSH and len(piece.data) > size:
            left.insert(0, Piece(piece.data[size:], piece.file))
            piece = Piece(piece.data[:size], piece.file)
        size -= 0 if piece == FLUSH else len(piece.data)
        taken.append(piece)
    return taken, left
