"""Random programs in the language for authors, and requests for them.

A program is nearly always right: names are declared, and statements stand where they may. What the program that is compared refuses all the
same (a ninth number, `it` that was given away) is left out by who asks for programs.
"""

BYTES = b'ab<!-\n>xyz 09A'
FILE_COPIES = 1200
WAYS_OUT = ('end', 'fail', 'leave', 'next', 'break', 'continue')
NUMBERS = ['0', '1', '2', '3', '9', '10', "'a'", "'z'", '65', '255', '256', '4294967295', '16', 'K', 'P']


class Spot:
    """Where a statement stands: the event, what is known there, and the loops around."""

    def __init__(self, event, has_it=False, names=(), in_def=False):
        self.event, self.has_it, self.names, self.in_def = event, has_it, list(names), in_def
        self.loops, self.over_it, self.over = 0, False, []

    def inner(self, names=(), loops=0, over_it=False, over=()):
        """The same within a block, where these names are known too."""
        spot = Spot(self.event, self.has_it, self.names + list(names), self.in_def)
        spot.loops, spot.over_it, spot.over = self.loops + loops, self.over_it or over_it, self.over + list(over)
        return spot

    def can_pass(self):
        return self.event != 'start'

    def can_change_it(self):
        return self.has_it and not self.over_it


class Program:
    """A random program: its `text`, and what the operator sets of its `param`."""

    def __init__(self, chance):
        self.chance, self.made, self.defs = chance, 0, {}
        lines = ['filter f'] + self.declarations()
        lines += [self.definition(number) for number in range(chance.choice([0, 0, 1, 2]))]
        handlers = self.handlers()
        chance.shuffle(handlers)
        self.text = '\n'.join(lines + handlers) + '\n'
        self.settings = {}
        if chance.random() < .5:
            self.settings = {'P': b'%d' % chance.choice([0, 1, 3, 97, 300]), 'T': bytes(chance.choice(b'ab<>!-') for _ in range(chance.randrange(4)))}

    def some(self, begin, counts):
        return [begin + str(number) for number in range(self.chance.choice(counts))]

    def declarations(self):
        chance = self.chance
        self.vars, conn_vars = self.some('v', [0, 1, 1, 2, 2, 3]), self.some('w', [0, 0, 0, 1])
        self.holds, conn_holds = self.some('h', [0, 0, 1, 1, 2]), self.some('g', [0, 0, 0, 1])
        self.tables = self.some('t', [0, 0, 0, 1, 1, 2])
        lines = ['var %s = %d' % (name, chance.choice([0, 0, 1, 5, 300])) for name in self.vars]
        lines += ['conn var %s = %d' % (name, chance.choice([0, 1, 7])) for name in conn_vars]
        lines += [begin + name + self.bound() for begin, names in (('hold ', self.holds), ('conn hold ', conn_holds)) for name in names]
        lines += ['table %s = "%s"' % (name, self.letters('abcxyz0123<>-', [1, 3, 16, 64, 255, 256, 400])) for name in self.tables]
        lines += ['const K = %d' % chance.choice([0, 1, 2, 97, 255, 1000]), 'param P = %d' % chance.choice([0, 2, 98]),
                  'param T = "%s"' % self.letters('ab<', [1, 2, 3])]
        self.vars, self.holds = self.vars + conn_vars, self.holds + conn_holds
        return lines

    def bound(self):
        return ' at most %d' % self.chance.choice([0, 1, 3, 8, 20, 300]) if self.chance.random() < .3 else ''

    def letters(self, among, counts):
        return ''.join(self.chance.choice(among) for _ in range(self.chance.choice(counts)))

    def definition(self, number):
        name, names = 'd%d' % number, ['p', 'q'][:self.chance.choice([0, 1, 2])]
        event = 'call' if self.chance.random() < .5 else 'start'
        body = self.block(2, Spot(event, names=names, in_def=True))
        self.defs[name] = len(names)
        return 'def %s(%s) %s' % (name, ', '.join(names), body)

    def handlers(self):
        chance = self.chance
        mode = chance.choice(['byte', 'byte', 'bucket', 'bucket', 'match', 'match and byte', 'none'])
        made = []
        if mode == 'bucket':
            made.append('on bucket ' + self.block(3, Spot('bucket', has_it=True)))
        if mode in ('byte', 'match and byte'):
            made.append('on byte b ' + self.block(3 if mode == 'byte' else 2, Spot('byte', names=['b'])))
        if mode.startswith('match'):
            patterns = {self.letters('ab<!-', [1, 2, 2, 3, 4, 6]) for _ in range(chance.choice([1, 1, 2, 3]))}
            made += ['on match %s %s' % (pattern, self.block(2, Spot('match')))
                     for pattern in ['"%s"' % word for word in sorted(patterns)] + ['T'] * (chance.random() < .1)]
        for event, often in (('start', .4), ('call', .25), ('flush', .35), ('eos', .5), ('return', .35)):
            if chance.random() < often:
                made.append('on %s %s' % (event, self.block(2, Spot(event, has_it=event == 'flush'))))
        return made

    # Numbers and conditions

    def number(self, spot, depth=2):
        chance = self.chance
        names, which = self.vars + spot.names, chance.random()
        if depth == 0 or which < .5:
            return chance.choice(names) if names and chance.random() < .65 else chance.choice(NUMBERS)
        if which < .75:
            return '%s %s %s' % (self.number(spot, depth - 1), chance.choice('+-'), self.number(spot, depth - 1))
        if which < .85:
            return '(%s) %s %d' % (self.number(spot, depth - 1), chance.choice('*/%/%'), chance.choice([1, 2, 3, 4, 10, 16, 64, 100, 255]))
        if which < .88:
            return '(%s) %s %d' % (self.number(spot, depth - 1), chance.choice(['<<', '>>']), chance.choice([0, 1, 4, 8]))
        if which < .94 and self.tables:
            return '%s[%s]' % (chance.choice(self.tables), self.number(spot, depth - 1))
        if self.holds and chance.random() < .5:
            return 'size(%s)' % chance.choice(self.holds)
        return 'size(it)' if spot.has_it else '(%s)' % self.number(spot, depth - 1)

    def test(self, spot, depth=2):
        chance, which = self.chance, self.chance.random()
        free = [hold for hold in self.holds if hold not in spot.over]
        if depth and which < .15:
            return '(%s) %s (%s)' % (self.test(spot, depth - 1), chance.choice(['and', 'or']), self.test(spot, depth - 1))
        if depth and which < .22:
            return 'not (%s)' % self.test(spot, depth - 1)
        if free and which < .32:
            hold = chance.choice(free)
            return 'empty(%s)' % hold if chance.random() < .5 else 'has(%s, %s)' % (hold, self.number(spot, 1))
        return '%s %s %s' % (self.number(spot, 1), chance.choice(['<', '<=', '>', '>=', '==', '!=', '==']), self.number(spot, 1))

    # Statements

    def block(self, depth, spot):
        spot, made = spot.inner(), []
        for _ in range(self.chance.choice([0, 1, 1, 2, 2, 3, 4])):
            statement = self.statement(depth, spot)
            if statement:
                made.append(statement)
            if statement in WAYS_OUT:
                break
        return '{ ' + ' '.join(made) + ' }'

    def new_name(self, begin):
        self.made += 1
        return begin + str(self.made)

    def statement(self, depth, spot):
        which = self.chance.random()
        if which < .32:
            return self.put(spot)
        if which < .56:
            return self.assignment(spot)
        if which < .72 and depth:
            return self.choice(depth, spot)
        if which < .84 and depth:
            return self.counted(depth, spot) if which < .77 else self.walk(depth, spot)
        if which < .88 and self.defs:
            name = self.chance.choice(sorted(self.defs))
            return '%s(%s)' % (name, ', '.join(self.number(spot, 1) for _ in range(self.defs[name])))
        return self.plain(spot)

    def assignment(self, spot):
        names = self.vars + [name for name in spot.names if name[0] != 'i']
        if names and self.chance.random() < .75:
            return '%s %s %s' % (self.chance.choice(names), self.chance.choice(['=', '+=', '-=']), self.number(spot))
        name, value = self.new_name('x'), self.number(spot)
        spot.names.append(name)
        return 'let %s = %s' % (name, value)

    def choice(self, depth, spot):
        made = 'if %s %s' % (self.test(spot), self.block(depth - 1, spot))
        if self.chance.random() < .5:
            made += ' else ' + (self.block(depth - 1, spot) if self.chance.random() < .6 else self.choice(depth - 1, spot))
        return made

    def counted(self, depth, spot):
        """A loop of a few turns, whose count no statement of its body changes."""
        name = self.new_name('k')
        body = self.block(depth - 1, spot.inner(loops=1))
        if self.chance.random() < .7:
            return 'let %s = 0 while %s < %d { %s += 1 if 1 == 1 %s }' % (name, name, self.chance.choice([1, 2, 3]), name, body)
        return 'let %s = 0 loop { %s += 1 if %s > %d { break } if 1 == 1 %s }' % (name, name, name, self.chance.choice([1, 2]), body)

    def walk(self, depth, spot):
        byte, place = self.new_name('b'), self.new_name('i')
        free = [hold for hold in self.holds if hold not in spot.over]
        if spot.can_change_it() and spot.event == 'bucket' and self.chance.random() < .6:
            return 'for byte %s at %s in it %s' % (byte, place, self.block(depth - 1, spot.inner([byte, place], 1, over_it=True)))
        if free:
            hold = self.chance.choice(free)
            return 'for byte %s in %s %s' % (byte, hold, self.block(depth - 1, spot.inner([byte], 1, over=[hold])))
        return None

    def put(self, spot):
        chance = self.chance
        free = [hold for hold in self.holds if hold not in spot.over]
        to = chance.choice(free) if free and chance.random() < .45 else None
        thing = self.thing(spot, [hold for hold in free if hold != to])
        return 'emit %s' % thing if to is None else 'keep %s in %s' % (thing, to)

    def thing(self, spot, free):
        chance, which = self.chance, self.chance.random()
        if spot.has_it and which < .3:
            return chance.choice(['it', 'it', 'copy it']) if spot.can_change_it() else 'copy it'
        if which < .5:
            number = self.number(spot)
            return number if number not in ('256', '4294967295', 'K', 'P') else chance.choice(spot.names + ['7'])
        if which < .65:
            return 'T' if chance.random() < .1 else '"%s"' % self.letters('abc<>', [0, 1, 2, 4, 5, 9, 260 if chance.random() < .1 else 3])
        if which < .72 or not free:
            return 'decimal(%s)' % self.number(spot, 1)
        hold = chance.choice(free)
        return chance.choice([hold, hold, 'copy ' + hold, '%s of %s' % (self.number(spot, 1), hold)])

    def plain(self, spot):
        """A statement without a block."""
        chance, which = self.chance, self.chance.random()
        free = [hold for hold in self.holds if hold not in spot.over]
        if which < .2:
            return 'flush' if chance.random() < .5 or not spot.can_pass() else 'pass'
        if which < .45 and spot.can_change_it():
            return 'drop it' if chance.random() < .5 or spot.event == 'flush' else 'cut it at ' + self.number(spot, 1)
        if which < .6 and free:
            return 'drop ' + chance.choice(free)
        if which < .68:
            return 'log %s"l%d"' % (chance.choice(['', 'conn ']), chance.randrange(4))
        if which < .78 and spot.loops:
            return chance.choice(['break', 'continue'])
        if which < .84 and not spot.in_def:
            return 'next'
        if which < .94 and spot.can_pass() and spot.event != 'eos':
            return 'leave'
        return chance.choice(['end', 'fail']) if spot.can_pass() else None


def body(chance):
    return bytes(chance.choice(BYTES) for _ in range(chance.choice([0, 1, 2, 3, 5, 8, 13])))


def brigade(chance):
    """A brigade: `flush`, `eos`, or a kind with bytes; of a file the bytes from a place on. An EOS ends it now and then, and may be early."""
    pieces, ended = [], False
    for _ in range(chance.randrange(5)):
        kind = chance.choice(['heap', 'transient', 'immortal', 'pool', 'file', 'flush'])
        if kind == 'flush':
            pieces.append((kind,))
        elif not ended:
            pieces.append((kind, chance.randrange(31), chance.choice([0, 1, 5, 12])) if kind == 'file' else (kind, body(chance)))
        if chance.random() < .08 and not ended:
            pieces.append(('eos',))
            ended = True
    return pieces


def requests(chance):
    """One to three requests on a connection: lists of brigades. The EOS ends most of them; now and then it misses, or something comes behind."""
    made = []
    for _ in range(chance.randrange(1, 4)):
        brigades = [brigade(chance) for _ in range(chance.randrange(1, 6))]
        if chance.random() < .9:
            brigades[-1] = [piece for piece in brigades[-1] if piece != ('eos',)] + [('eos',)]
            brigades += [[('heap', b'late')]] * (chance.random() < .1)
        brigades[:0] = [[('file', 0, 8100)]] * (chance.random() < .02)
        made.append(brigades)
    return made
