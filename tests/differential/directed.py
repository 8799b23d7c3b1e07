"""Programs in the language for authors for what random ones meet seldom, each with the requests that it is played with."""

EOS, FLUSH = ('eos',), ('flush',)


def heap(*texts):
    """A request whose brigades have one bucket each, and the EOS in one of its own."""
    return [[('heap', text)] for text in texts] + [[EOS]]


PLAIN = [heap(b'ab\ncd', b'', b'\nef'), [[('file', 0, 12), FLUSH, ('transient', b'xyz'), EOS]], heap()]
LONG = [[[('file', 0, 8500), FLUSH, ('pool', b'ab')], [('file', 3, 8000), EOS]], [[('file', 5, 8001), ('file', 9, 16001)], [EOS], [('heap', b'late')]]]

CASES = [
    # Holds of requests and connections
    ('hold h\nconn hold g\non start { emit copy g }\non bucket { keep it in h }\non eos { keep h in g }', PLAIN + PLAIN),
    ('hold h\nconn hold g\non start { emit copy g }\non bucket { keep it in h }\non eos { keep 3 of h in g emit h }', PLAIN + PLAIN),
    ('conn hold g\non start { emit g }\non bucket { keep copy it in g emit it }\non flush { keep it in g }', PLAIN + PLAIN),
    ('hold h\non bucket { keep it in h }\non return { emit 2 of h }\non eos { while has(h, 3) { emit 3 of h emit "," } emit h }', PLAIN),
    ('hold h\nhold g\non bucket { keep it in h keep copy h in g }\non eos { emit decimal(size(g)) emit g emit h }', PLAIN),
    # Bytes that wait in the buffer where something else is emitted, fails, ends or is passed
    ("hold h\non byte b { keep b in h if b == 'c' { fail } }\non eos { emit h }", [heap(b'ab', b'xcd', b'ef')]),
    ("hold h\non byte b { emit b keep b in h if b == 'c' { pass } }\non eos { emit h }", [heap(b'ab', b'xcd', b'ecf', b'g')]),
    ('on byte b { emit b let k = 0 while k < 2 { k += 1 pass } }', [heap(b'ab', b'c')]),
    ("hold h\non byte b { if b < 'm' { keep b in h } else { emit b } }\non return { emit h }\non eos { emit '!' emit h }", PLAIN + LONG),
    ("hold h\non byte b { keep b in h if b == 'c' and has(h, 2) { flush } emit h }", PLAIN),
    ("hold h\non byte b { keep b in h if b == 'c' or empty(h) { flush } emit h }", PLAIN),
    ("hold h\non byte b { emit b if not (b != 10 or has(h, 0)) { flush } keep b in h }\non eos { emit h }", PLAIN),
    ('hold h\non byte b { emit b if b == 10 { emit "a longer text" emit copy h } keep b in h }', PLAIN),
    ("on byte b { if b == 'x' { end } emit b }", PLAIN + [heap(b'abx', b'ab')]),
    # Files that are read in parts, and cut
    ('on bucket { let n = 0 for byte b in it { n += 1 if n == 3 { break } } emit decimal(size(it)) emit "," }', LONG),
    ('on bucket { for byte b at i in it { if b == 10 { emit decimal(i) emit " " } } emit it }', PLAIN + LONG),
    ('on bucket { cut it at 3 emit it emit "," }', PLAIN + [heap(b'abcdef', b'abc')]),
    ('hold h\non bucket { keep it in h }\non eos { let n = 0 for byte b in h { n += b } emit decimal(n) emit h }', PLAIN + LONG),
    # The table is read from a cursor, and the bucket at hand again behind it
    ('table t = "%s"\non byte b { emit t[b] emit b }' % ''.join('zyxwvutsrqponmlk'[at * 7 % 16] for at in range(300)), PLAIN),
    # `leave`
    ('on bucket { if size(it) > 2 { emit "<" leave } emit it }', PLAIN + LONG),
    ('on bucket { for byte b at i in it { if i == 2 { emit "<" leave } } emit it emit ">" }', PLAIN + LONG),
    ('on bucket { emit it leave }', PLAIN + LONG),
    ('on bucket { emit copy it leave }', PLAIN),
    ('on bucket { if size(it) > 2 { emit it leave } else { leave } }', PLAIN),
    ('on bucket { if size(it) > 2 { emit it } else { drop it } leave }', PLAIN),
    ('on bucket { if size(it) > 4 { emit it next } emit "<" leave }', PLAIN),
    ('on bucket { let k = 0 while k < 2 { k += 1 if k == 2 { emit "." } } if size(it) == 3 { leave } if size(it) > 9 { emit it } }', PLAIN + LONG),
    ('on byte b { emit b if b == 10 { leave } }', PLAIN + LONG),
    ("on byte b { if b == 'd' { leave } emit '-' }", PLAIN + LONG),
    ("on match \"b\" { emit \"[b]\" leave }\non byte b { emit '.' }", PLAIN),
    ('var n = 0\non call { n += 1 if n == 2 { leave } }\non byte b { emit b + 1 }', PLAIN + LONG),
    ('on return { emit ";" leave }\non byte b { emit b + 1 }', PLAIN),
    ('on flush { emit "f" leave }\non byte b { emit b + 1 }', PLAIN + LONG),
    ('on flush { emit it leave }\non byte b { emit b + 1 }', PLAIN + LONG),
    ('hold h\nconn hold g\non bucket { keep copy it in g if size(g) > 6 { emit g leave } keep it in h }\non eos { emit h emit "e" }', PLAIN + PLAIN),
    ('conn var n = 0\non start { n += 1 }\non bucket { if n == 2 { leave } emit "[" emit it emit "]" }\non eos { emit "e" }', PLAIN + PLAIN),
    # Limits of holds
    ('hold h at most 4\non byte b { keep b in h }\non eos { emit h }', [heap(b'abcd'), heap(b'ab', b'c', b'de', b'f'), heap()]),
    ('hold h at most 4\non bucket { keep it in h }\non eos { emit h }', PLAIN + [heap(b'abcd', b'', b'')]),
    ('hold h at most 0\non bucket { keep it in h emit decimal(size(h)) }', PLAIN),
    ('conn hold h at most 9\non bucket { keep copy it in h emit it }\non eos { emit decimal(size(h)) }', PLAIN + PLAIN),
    ('hold h at most 5\non start { keep "123456" in h }\non bucket { keep it in h emit h }\non eos { emit h }', PLAIN),
    ('hold h at most 5\nhold g\non bucket { keep it in g keep 2 of g in h emit g }\non eos { emit h }', PLAIN),
    ('hold h at most 5\nhold g\non bucket { keep it in g keep copy g in h emit g emit 1 of h }\non eos { emit h }', PLAIN),
    ('hold h at most 3\nvar n = 8\non call { n += 1 keep decimal(n) in h emit 1 of h }\non eos { emit h }', PLAIN + [heap(b'', b'', b'', b'')]),
    ('hold h at most 4294967295\non bucket { keep it in h }\non eos { emit h }', PLAIN),
    # Patterns
    ('on match "aab" { emit "!" }', [heap(b'aaab', b'aa', b'b', b'a', b'aab', b'aabaa')]),
    ('on match "abab" { emit "!" }\non match "abc" { emit "?" }\non byte b { emit b flush }', [heap(b'ababab', b'c', b'abcab', b'ab', b'abx')]),
    ("on match \"ab\" { emit '!' }\non byte b { if b == 'a' { fail } emit b }", [heap(b'xa', b'b', b'ya', b'x', b'z')]),
    ('hold h\non match "<!--" { keep "c" in h }\non byte b { keep b in h }\non eos { emit h }', [heap(b'a<', b'!', b'--b<!-', b'<!--', b'<!')]),
    # Numbers
    ('var n = 4294967295\non byte b { n += b emit decimal(n) n -= 4294967290 emit decimal(n - b) emit decimal(b * 17) }', PLAIN),
    ('on byte b { emit decimal(b / 7) emit " " emit decimal(b % 7) emit " " emit decimal(b >> 3) emit " " emit decimal(b << 5) emit ";" }',
     PLAIN + [heap(b'\xff\xfe\xe0\xdf', b'\x00\x80')]),
    ("var x = 3\nvar y = 5\non byte b { x = y + x emit x x = 200 - x emit x x = y * 2 - x emit x x = (b - x) / 2 + x emit x }", PLAIN),
    ('table t = "bcdefghijkl"\nvar x = 1\non byte b { x = t[x] - x emit x x = t[x - 90] + x emit x x = b - 96 - t[x] emit x x = x % 7 }', PLAIN),
    ('hold h\nvar x = 1\non bucket { keep it in h x = size(h) - x emit x x = 9 - size(h) + x emit x }', PLAIN),
    ('on byte b { emit b * 3 emit b - 98 }', PLAIN),
    ('on eos { emit decimal(0) emit " " emit decimal(1000000000) emit " " emit decimal(999999999 + 1 << 2) }', [heap()]),
    ('var n = 0\non byte b { n = b * 16777216 emit decimal(n) n = n / 255 * 3 emit decimal(n % 1000) }', PLAIN),
    # What goes on at other events
    ('on start { emit "s" flush }\non call { emit "c" }\non return { emit "r" }\non eos { emit "e" flush }', PLAIN),
    ('on call { flush }\non bucket { drop it }\non eos { end }', PLAIN),
    ('on return { fail }\non eos { emit "e" }', PLAIN),
    ('on eos { fail }', PLAIN + [heap(b'a') + [[('heap', b'b')], [EOS]]]),
    ('conn var n = 7\nvar m = 1\non start { log "s" log conn "c" n += 1 }\non eos { m += 1 log "e" emit decimal(n) emit decimal(m) }', PLAIN + PLAIN),
]


class Directed:
    """A program of CASES, as random ones are."""

    def __init__(self, text, played):
        self.text, self.played, self.settings = 'filter f\n%s\n' % text, played, {}
