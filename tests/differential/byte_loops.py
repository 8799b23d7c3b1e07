"""Random scripts with a loop over the bytes of buckets, for compare.py --loops.

A loop begins with `get`, and is one that the program may carry out by a table or an automaton: it adds, compares and puts. Budgets end at any step of
a round, mostly at one of the last ones; buckets have none, one or 8,001 bytes, and such numbers as a walk begins with; buffers are near their
end, and numbers near the last one. What the numbers are at the end is put, bit by bit.
"""
from reading.chains import Connection
from reading.scripts import TooBig, play
from reading.texts import U32

SIZES = [0, 1, 2, 63, 64, 65, 130, 511, 512, 513, 600, 800, 1000, 1500, 2500, 8000, 8001]
# How often each of these is taken.
LIKELY = [3, 3, 2, 1, 2, 1, 2, 1, 2, 2, 8, 8, 6, 3, 1, .3, .5]
TEXTS = [b'a', b'ab', b'Some words, and -> more.\n', b'\r\n\n\r', b'<!-- a -->-', bytes(range(256)), bytes(range(0, 256, 7)), b'abcdefghijklmnop\n',
         b'\0\xff', b'aaaaaaaaaaaaaaaaaaaaaaaaaaaaaaaaaaaaaaaaaaaaab']
STARTS = [0, 0, 0, 0, 1, 2, 10, 16, 48, 255, 256, 7999, U32, U32 - 1, U32 - 300, U32 - 2000, 4294901759, 4294901760, 4294901500, 2147483647]
CONSTANTS = [0, 1, 1, 2, 3, 10, 13, 16, 32, 48, 64, 97, 123, 127, 128, 254, 255, 256, 257, 512, 1000, U32, U32 - 1]
MOST = 60000                              # the budget where it is not to end
SHOWN = 3                                 # how many numbers are put at the end; each takes 160 instructions
LAST = []                                 # the connection that was opened last


def note(begin):
    def noted(self, *arguments):
        LAST[:] = [self]
        begin(self, *arguments)
    return noted


Connection.__init__ = note(Connection.__init__)


class Loop:
    """The lines of a loop."""

    def __init__(self, rng):
        self.rng, self.labels = rng, 0
        self.place, self.byte = rng.sample(range(8), 2)
        # a few numbers only, so that they meet
        self.numbers = [self.byte] * 2 + rng.sample(range(8), rng.choice([1, 1, 2, 3]))

    def number(self):
        return 'n%d' % self.rng.choice(self.numbers)

    def value(self):
        rng = self.rng
        if rng.random() < .2:
            return self.number()
        return str(rng.choice(CONSTANTS) if rng.random() < .7 else rng.randrange(256))

    def instructions(self, depth):
        """Some lines without a jump out of them, but to the head of the loop and to its end."""
        rng, lines = self.rng, []
        for _ in range(rng.choice([1, 1, 2, 3])):
            chance = rng.random()
            if chance < .35 and depth:
                self.labels += 1
                label = 'l%d' % self.labels
                lines += ['%s %s %s %s' % (rng.choice(['jlt', 'jeq']), self.number(), self.value(), label)]
                lines += self.instructions(depth - 1) + [':' + label]
            elif chance < .6:
                lines.append('put %s %s' % (self.number() if rng.random() < .8 else self.value(), rng.choice(['done', 'done', 'full'])))
            elif chance < .95:
                lines.append('%s %s %s' % (rng.choice(['set', 'add', 'add', 'sub', 'sub']), self.number(), self.value()))
            elif chance < .97:
                lines.append('jump byte')
            else:
                lines.append(rng.choice(['get %s %s done' % (self.number(), self.number()), 'get n%d n%d done' % (self.byte, self.place), 'clearbuf',
                                         'jsent done', 'jnull b0 done']))
        return lines

    def lines(self):
        rng = self.rng
        head = ['get n%d n%d done' % (self.byte, self.place)]
        step = ['add n%d %d' % (self.place, rng.choice([1] * 20 + [0, 2, 7]))]
        if rng.random() < .25:
            body = ['jlt n%d 97 l0' % self.byte, 'jlt n%d 123 l00' % self.byte, 'jump l0', ':l00', 'sub n%d 32' % self.byte, ':l0', 'put n%d done' % self.byte]
        else:
            body = [line for _ in range(rng.choice([1, 2, 3, 5])) for line in self.instructions(2)]
        if rng.random() < .7:
            return [':byte'] + head + step + body + ['jump byte']
        return [':byte'] + head + body + step + ['jump byte']


def bits(number):
    """Lines that put the bits of a number."""
    lines = []
    for bit in reversed(range(32)):
        label = 'b%dx%d' % (number, bit)
        lines += ['jlt n%d %d %s' % (number, 2 ** bit, label), 'sub n%d %d' % (number, 2 ** bit), 'put 49 bad', 'jump %se' % label, ':' + label,
                  'put 48 bad', ':%se' % label]
    return lines


def module(rng):
    """The lines of a module with such a loop."""
    loop = Loop(rng)
    others = [number for number in range(8) if number != loop.place]
    filled = ['set n%d 0' % loop.place]
    if rng.random() < .3:
        count = rng.choice([1, 7000, 7900, 7980, 7990, 7998, 7999, 8000])
        filled += [':fill', 'put 46 filled', 'add n%d 1' % loop.place, 'jlt n%d %d fill' % (loop.place, count), ':filled']
    sets = ['set n%d %d' % (number, rng.choice(STARTS)) for number in others if rng.random() < .5]
    first = 'set n%d %d' % (loop.place, rng.choice([0] * 12 + [1, 5, 100, U32, U32 - 1]))
    shown = [line for number in rng.sample(sorted({loop.place, *loop.numbers} | {0, 1, 2}), SHOWN) for line in bits(number)]
    return ['module 1', 'brigade b0 req', 'open', 'ret ok', 'init', 'bcreate b0', 'ret ok', 'main', *sets,
            ':next', 'first c0 in', 'jend c0 out', 'jkind c0 data work', 'bdelete c0', 'jump next',
            ':work', 'read c0 bad', *filled, first, *loop.lines(),
            ':full', 'label req "full"', ':done', 'frombuf c1', 'tail b0 c1', 'clearbuf', *shown, 'frombuf c1', 'tail b0 c1', 'clearbuf', 'bdelete c0', 'jump next',
            ':out', 'pass b0 bad', 'bclean b0', 'ret ok', ':bad', 'ret fail', 'end']


def pieces(rng, files):
    """What is brought: parts of files, from any place on."""
    told = []
    for _ in range(rng.choice([1, 1, 1, 2, 3])):
        name, length = rng.choice(files)
        size = min(rng.choices(SIZES, LIKELY)[0], length)
        told.append('file %s %d %d' % (name, rng.randrange(min(40, length - size + 1)), size))
    return ' '.join(told + ['eos'])


def random_script(rng):
    """A script with one module, and a few brigades of bytes."""
    from odd import quote
    commands = []
    files = []
    for name in ('a', 'b'):
        text = rng.choice(TEXTS) if rng.random() < .7 else bytes(rng.randrange(256) for _ in range(rng.choice([40, 300])))
        count = 8100 // len(text) + 1
        files.append((name, count * len(text)))
        commands.append('file %s %d %s' % (name, count, quote(rng, text)))
    commands += ['open', 'run 1', 'begin 1', 'run 1']
    commands += [line for _ in range(rng.choice([1, 1, 2])) for line in ('bring 1 ' + pieces(rng, files), 'run 1', 'output 1')]
    lines = module(rng)

    def script(budget):
        return '\n'.join(lines + ['budget %d' % budget] + commands + ['']).encode('latin-1')
    if rng.random() < .5:
        return script(MOST)
    try:
        play(script(MOST))
    except TooBig:
        return script(1000)
    count = LAST[0].count if LAST else 1
    near = rng.choice([count, count - 1, count + 1, count - rng.randrange(40), count - rng.randrange(400), rng.randrange(count + 1)])
    return script(max(1, near))
