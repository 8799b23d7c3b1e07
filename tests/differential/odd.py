"""Words and lines that are right, nearly right or wrong, and changes of a script's lines."""
from reading.texts import KINDS, ONLY_IN_MAIN, OPERANDS, U32

# Words that begin no line of a module.
UNKNOWN = ['frob', 'file', 'data', 'metadata', 'insert', 'bhead', 'btail', 'poolb0', 'reads', 'jkin', 'Heap', 'EOS']
LEAVING = .1                             # how often a module has a `leave`
NUMBERS = [0, 1, 2, 3, 255, 256, 257, 7999, 8000, 8001, 2 ** 31 - 1, 2 ** 31, U32 - 1, U32]

# Words that are often right where an operand of the kind is due.
LIKELY = {
    'P': ['p0', 'p1', 'conn', 'req', 'p2', 'p5'], 'Q': ['p0', 'p1', 'p2', 'p6'],
    'B': ['b0', 'b1', 'in', 'b2', 'b5'], 'O': ['b0', 'b1', 'b2', 'b6'], 'V': ['p0', 'b0', 'p3', 'b3', 'p1'],
    'N': ['n0', 'n7'], 'X': ['n1', '0', '4294967295'], 'T': ['"a"', '""', '"\\x00"'],
    'C': ['c0', 'c1', 'c7'], 'K': list(KINDS), 'L': ['aa', 'aa', 'aa', 'bb'], 'S': ['ok', 'fail'],
}
ODD_OPERANDS = [
    'p0', 'p1', 'p7', 'p8', 'p', 'p00', 'p10', 'b0', 'b1', 'b7', 'b8', 'b-1', 'in', 'In', 'conn', 'req', 'n0', 'n7', 'n8', 'n',
    '0', '00', '1', '01', '255', '4294967295', '4294967296', '99999999999', '-1', '+1', '1e3', '0x1', 'ok', 'fail', 'l1',
    'c0', 'c1', 'c7', 'c8', 'c', 'c01', 'C0', 'heap', 'file', 'eos', 'Eos', 'data', 'metadata',
    'L', 'x', 'abcdefghijklmnop', 'abcdefghijklmnopq', '9a', 'a-b', '""', '"a"', '"', '"\\q"', '"\\x1"', '"\\xAB"', '"\\xab"',
    '"a"b', '"a', '"a b"', '"\\"', '"\\""', '"a" "b"', "'a'", '\\', ':', '', ' ', '#', 'p1 ',
    '"%s"' % ('y' * 254), '"%s"' % ('y' * 255), '"%s"' % ('y' * 256), '"%s"' % ('\\x41' * 255), '"%s"' % ('\\x41' * 256),
]
ODD_LINES = [
    'module 1', 'module', 'module 2', 'open', 'open x', 'init', 'init ', 'main', 'end', 'end ', ':aa', ':', ':A', ': a', ':a b',
    ':a:', ':1', ':a_', ':abcdefghijklmnop', ':abcdefghijklmnopq', 'pool', 'pool p0 conn', 'pool p1 p0', 'pool p8 conn',
    'brigade b0', 'brigade b0 conn', 'brigade b0 p3', 'brigade b8 conn', 'cert 1', 'slim 1', 'cert 2 full', 'checked', 'budget 5', 'Open',
    'x', '"', 'p0', 'ret', 'clearbuf ', 'leave', 'prelabel p0 "a"', '', '   ', '#', '# note', '  # x', '#\x7f', ' \x01', '\t',
]
ODD_COMMANDS = [
    '', ' ', '#', '# c', ' open', 'open ', 'open', 'open 1', 'begin', 'begin 1 ', 'begin  1', 'begin 01', 'begin\t1',
    'begin 18446744073709551616', 'begin 18446744073709551615', 'begin x', 'begin -1', 'begin +1', 'begin 1\x00', 'bring',
    'bring 1 ', 'bring 1 heap', 'bring 1 heap "a', 'bring 1 heap "a"eos', 'bring 1 heap "a"  eos', 'bring 1 heap "a" eos ',
    'bring 1 heap ""', 'bring 1 heap "\\xff\\n\\r\\\\\\""', 'bring 1 heap "\\x0A"', 'bring 1 heap "\x80"',
    'bring 1 heap "\x7f"', 'bring 1 heap a', 'bring 1 "a"', 'bring 1 eof', 'bring 1 flush flush eos eos', 'bring 1 eos flush',
    'bring 1 eos pool ""', 'bring 1 file a 0', 'bring 1 file a 0 01', 'bring 1 file A 0 1', 'bring 1 file a 0 0',
    'bring 1 eos file a 0 0', 'bring 1 eos file nothere 0 1', 'bring 1 file a 0 18446744073709551616',
    'bring 1 file a 18446744073709551615 18446744073709551615', 'bring 1 file abcdefghij0123456 0 1', 'bring 2 eos', 'bring 0',
    'bring 01 eos', 'step 1 1', 'step 1 0', 'step 1', 'step 1 01', 'step 2 1', 'step 1 1 ', 'step 1  1', 'step 1 18446744073709551615',
    'step 1 18446744073709551616', 'step 1 x', 'step', 'checked', 'budget 3', 'budget 0', 'budget 01', 'budget', 'budget 5 ', ' budget 5',
    'budget 18446744073709551615', 'budget 18446744073709551616', 'cert 1', 'module 1', 'pools ', 'pools 1', 'pools', 'Pools',
    'output', 'output 1 ', 'output 3', 'labels', 'labels 1 x', 'close', 'close 1', 'close 2', 'run', 'run 0', 'run 1 1',
    'run 1\r', 'end', 'end 1', 'file a 1 "x"', 'file b 0 "x"', 'file c 4294967295 ""', 'file c 4294967296 ""', 'file c 01 "x"',
    'file c -1 "x"', 'file C 1 "x"', 'file 1c 1 "x"', 'file c 1 x', 'file c 1 "x" ', 'file c 1 "x"y', 'file c 1', 'file c',
    'file', 'file c  1 "x"', 'file abcdefghij012345 2 "ab"', 'file abcdefghij0123456 2 "ab"', 'file d 3 "\\x00\\xfe\\"\\\\"',
    'file d 3 "\\xFE"', 'file d 1 "a b  c"', 'frob', 'ok', 'serve', 'ret ok', 'label p0 "a"', ':a',
]
STRANGE_BYTES = [0, 9, 10, 13, 31, 32, 34, 48, 57, 58, 65, 92, 97, 126, 127, 128, 255]


def quote(rng, data):
    """A random spelling of these bytes as a text."""
    return '"' + ''.join(spell(rng, byte) for byte in data) + '"'


def spell(rng, byte):
    chance = rng.random()
    if byte in b'"\\' and chance < .7:
        return '\\' + chr(byte)
    if byte in b'\n\r' and chance < .6:
        return '\\n' if byte == 10 else '\\r'
    if 0x20 <= byte <= 0x7E and byte not in b'"\\' and chance < .97:
        return chr(byte)
    return '\\x%02x' % byte


def some_bytes(rng, most=8):
    """Some bytes, often letters, now and then none or odd ones."""
    chance = rng.random()
    if chance < .12:
        return b''
    alphabet = b'abcdexyz' if chance < .75 else b'\x00\n\r"\\\x7f\xff\x80 ~\x1fxn:#'
    return bytes(rng.choice(alphabet) for _ in range(rng.randint(1, most)))


def words_in(handler, leaves):
    """The words of instructions that a handler may have; `leave` only where the module leaves."""
    return [word for word in OPERANDS if (word not in ONLY_IN_MAIN or handler == 'main') and (word != 'leave' or leaves)]


def odd_line(rng, label='aa'):
    """A line of a module that may be out of place, or wrong in some of its words. Its handler has this label."""
    chance = rng.random()
    if chance < .06:
        return ' '.join([rng.choice(UNKNOWN)] + [rng.choice(ODD_OPERANDS) for _ in range(rng.randint(0, 3))])
    if chance < .2:
        return rng.choice(ODD_LINES)
    word = rng.choice(list(OPERANDS))
    words = [odd_operand(rng, kind).replace('aa', label) for kind in OPERANDS[word]]
    chance = rng.random()
    if chance < .06:
        words = words[:-1]
    elif chance < .1:
        words.append(rng.choice(ODD_OPERANDS))
    elif chance < .12:
        rng.shuffle(words)
    return (' ' if rng.random() < .97 else '  ').join([word] + words)


def odd_operand(rng, kind):
    """A word that is mostly right where an operand of this kind is due."""
    if rng.random() < .8:
        return rng.choice(LIKELY[kind])
    return rng.choice([word for word in ODD_OPERANDS if kind != 'T' or word.startswith('"')])


def change(rng, lines):
    """The lines with one to three random changes, most of which make them faulty somewhere."""
    lines = list(lines)
    for _ in range(rng.choice([1, 1, 1, 2, 3])):
        if lines:
            rng.choice(CHANGES)(rng, lines, rng.randrange(len(lines)))
    return lines


def leave_out(_, lines, place):
    del lines[place]


def double(rng, lines, place):
    lines.insert(place, rng.choice(lines))


def swap(rng, lines, place):
    other = rng.randrange(len(lines))
    lines[place], lines[other] = lines[other], lines[place]


def insert(rng, lines, place):
    lines.insert(place, rng.choice([odd_line(rng), rng.choice(ODD_LINES), rng.choice(ODD_COMMANDS)]))


def spaces(rng, lines, place):
    lines[place] = rng.choice([' ' + lines[place], '   ' + lines[place], lines[place].replace(' ', '  ', 1)])


def append(rng, lines, place):
    lines[place] += rng.choice([' ', ' x', '\r', '"', '#'])


def other_word(rng, lines, place):
    words = lines[place].split(' ')
    words[rng.randrange(len(words))] = rng.choice(ODD_OPERANDS)
    lines[place] = ' '.join(words)


def other_digit(rng, lines, place):
    lines[place] = lines[place].replace(rng.choice('0123'), rng.choice('0123456789'), 1)


def strange_byte(rng, lines, place):
    at = rng.randrange(len(lines[place]) + 1)
    lines[place] = lines[place][:at] + chr(rng.choice(STRANGE_BYTES)) + lines[place][at + rng.randint(0, 1):]


def insert_label(rng, lines, place):
    """A label that stands somewhere already, or a new one, which may be the last line of its handler."""
    lines.insert(place, rng.choice([line for line in lines if line.startswith(':')] + [':zz0', ':zz1']))


def without_end_of_handler(rng, lines, _):
    places = [i for i, line in enumerate(lines) if line.startswith(('ret', 'jump'))]
    if places:
        del lines[rng.choice(places)]


def other_label(rng, lines, _):
    places = [i for i, line in enumerate(lines) if 'L' in OPERANDS.get(line.split(' ')[0], '')]
    if places:
        place = rng.choice(places)
        lines[place] = ' '.join(lines[place].split(' ')[:-1] + [rng.choice(['nolabel', 'l1', 'l2', 'zz0'])])


CHANGES = [leave_out, double, swap, insert, insert, spaces, append, other_word, other_word, other_digit, strange_byte,
           insert_label, without_end_of_handler, other_label]
