"""Plays the filters of filters/ with their tests, and chains of them.

A filter stands there as a module, NAME.mod, as a text of the language for authors, NAME.filter, or as both; what the program compiles of
the text is played as the module is. A test stands in filters/tests/NAME.test, that of a chain of modules in
filters/tests/chains/FIRST-SECOND-THIRD.test. Its lines are

    # ..                           a remark
    body IN => OUT ; IN => OUT ..  bodies of requests on one connection, and what is to come out for each; where there is one
                                   body alone it is sent twice
    with NAME="VALUE" .. body ..   the same, played with the text of the language alone, in which the operator sets these `param`
    > COMMAND                      a command of a script, and behind it the lines of its answer

IN and OUT are texts as in a script, one behind the other, each with a count before it where it stands more than once:
`3 * "ab" "c"` is ababcabc.

Each body is sent in many cuts: as buckets of every kind, in one brigade and in many, with empty brigades and FLUSH
between them, the EOS with the last data or alone, and with data behind the EOS, which may not come out.
"""
import glob
import itertools
import os
import random
import re
import subprocess

TOP = os.path.dirname(os.path.dirname(os.path.abspath(__file__)))
KINDS = ('heap', 'transient', 'immortal', 'pool', 'file')
TERM = re.compile(r'(?:(\d+) \* )?"((?:[^"\\]|\\.)*)"')
SETTING = re.compile(r'(\w+)="((?:[^"\\]|\\.)*)" ')
ESCAPE = re.compile(r'\\(x[0-9a-f]{2}|.)')
NAMED = {'n': 10, 'r': 13, '"': 34, '\\': 92}


def unquoted(text):
    """The bytes of a text between its quotes."""
    def byte(found):
        word = found.group(1)
        if len(word) < 3 and word not in NAMED:
            raise SystemExit('tests/filters.py: no escape \\%s in a text' % word)
        return chr(int(word[1:], 16) if len(word) == 3 else NAMED[word])
    return ESCAPE.sub(byte, text).encode('latin-1')


def quoted(data):
    """A text as a script prints it."""
    shown = ''.join('\\' + chr(b) if b in b'"\\' else chr(b) if 32 <= b < 127 else '\\x%02x' % b for b in data)
    return '"%s"' % shown


def side(text):
    """The bytes of one side of a body."""
    return b''.join(unquoted(term) * int(count or 1) for count, term in TERM.findall(text))


def bodies(line):
    """The requests of a line: pairs of what is sent and what is to come out."""
    pairs = [part.split(' => ') for part in line.split(' ; ')]
    found = [(side(sent), side(due)) for sent, due in pairs]
    return found if len(found) > 1 else found * 2


def cuts(body, chance):
    """Ways to cut a body: all, where it is short, else some, at and beside the lengths that filters have."""
    if len(body) <= 6:
        for marks in itertools.product((0, 1), repeat=max(len(body) - 1, 0)):
            yield [at + 1 for at, mark in enumerate(marks) if mark]
        return
    yield []
    for _ in range(12):
        places = {chance.randrange(1, len(body)) for _ in range(chance.randrange(1, 6))}
        near = {512, 1000, 1024, 4000, 4096, 8000} | {chance.randrange(1, len(body))}
        places |= {at + chance.randrange(-1, 2) for at in chance.sample(sorted(near), 3)}
        yield sorted(at for at in places if 0 < at < len(body))


class Play:
    """The commands of a play, and which of their answers are due."""

    def __init__(self, chance):
        self.chance, self.commands, self.due, self.files = chance, [], [], 0
        for command, answer in (('open', 'conn 1'), ('run 1', 'ended ok')):
            self.say(command, answer)

    def say(self, command, answer):
        self.commands.append(command)
        self.due.append(answer)

    def piece(self, data):
        kind = self.chance.choice(KINDS)
        if kind != 'file':
            return '%s %s' % (kind, quoted(data))
        self.files += 1
        self.say('file f%d 1 %s' % (self.files, quoted(data)), 'ok')
        return 'file f%d 0 %d' % (self.files, len(data))

    def bring(self, pieces):
        self.say(' '.join(['bring 1'] + pieces), 'ok')
        self.say('run 1', 'ended ok')

    def request(self, body, cut, out):
        """One request: its body in these parts, and what is to come out of it."""
        self.say('begin 1', 'ok')
        self.say('run 1', 'ended ok')
        held = []
        for start, end in zip([0] + cut, cut + [len(body)]):
            held.append(self.piece(body[start:end]))
            extra = self.chance.randrange(6)
            held += ['flush'] if extra == 0 else []
            if self.chance.randrange(2):
                self.bring(held)
                held = []
            if extra == 1:
                self.bring([])
        if self.chance.randrange(3) == 0:
            self.bring(held)
            held = []
        self.bring(held + ['eos'])
        self.bring([self.piece(b'late')])
        self.say('output 1', 'output ' + quoted(out))
        self.say('end 1', 'ok')


def transcript(lines):
    """Commands, and the answers that are due."""
    commands = [line[2:] for line in lines if line.startswith('> ')]
    return commands, [line for line in lines if not line.startswith('> ')]


def tests(path):
    """The bodies and the transcript of a file of tests; and the bodies that are for certain settings alone, with these."""
    with open(path, encoding='ascii') as file:
        lines = [line.rstrip('\n') for line in file if line.strip() and not line.startswith('#')]
    told = [bodies(line[5:]) for line in lines if line.startswith('body ')]
    set_to = [line[5:].split('body ', 1) for line in lines if line.startswith('with ')]
    others = [([(name, unquoted(value)) for name, value in SETTING.findall(settings)], bodies(line)) for settings, line in set_to]
    return told, transcript([line for line in lines if not line.startswith(('body ', 'with '))]), others


def plays_of(requests, chance):
    """The plays of some requests, in many cuts."""
    for cut in cuts(requests[0][0], chance):
        play = Play(chance)
        for number, (body, out) in enumerate(requests):
            play.request(body, cut if number == 0 else next(cuts(body, chance)), out)
        yield play.commands, play.due


def plays(name, path):
    """All plays of a filter or a chain, as commands with the answers that are due."""
    chance = random.Random(name)
    sent, (commands, due), _ = tests(path)
    for requests in sent:
        yield from plays_of(requests, chance)
    if commands:
        yield commands, due


def plays_with(name, path):
    """The plays of a filter for certain settings: these, and the plays."""
    chance = random.Random(name)
    for settings, requests in tests(path)[2]:
        yield settings, plays_of(requests, chance)


def filters():
    """The filters that are modules, by their names."""
    for path in sorted(glob.glob(os.path.join(TOP, 'filters', '*.mod'))):
        yield os.path.basename(path)[:-4], path


def sources():
    """The filters in the language for authors that have tests, by their names; new.filter, which the program prints, has none."""
    for path in sorted(glob.glob(os.path.join(TOP, 'filters', '*.filter'))):
        name = os.path.basename(path)[:-len('.filter')]
        if name != 'new':
            yield name, path


def compiled(program, path, settings=()):
    """The module of a filter in the language with its certificate, as one text, and what the program says where it makes none."""
    words = [word for name, value in settings for word in ('--set', name.encode() + b'=' + value)]
    made = [subprocess.run([program, command, path] + words, capture_output=True) for command in ('compile', 'certify')]
    if any(done.returncode for done in made):
        return None, made[0].stdout.decode('latin-1')
    return ''.join(done.stdout.decode('ascii') for done in made), ''


def chains():
    """The chains that have tests, by their names, and the modules of each."""
    for path in sorted(glob.glob(os.path.join(TOP, 'filters', 'tests', 'chains', '*.test'))):
        name = os.path.basename(path)[:-5]
        yield name, [os.path.join(TOP, 'filters', part + '.mod') for part in name.split('-')]


def patterns():
    """The patterns: a name, the module that is refused with what `certify` says of it, and the one that is accepted."""
    for path in sorted(glob.glob(os.path.join(TOP, 'filters', 'patterns', '*.before'))):
        name = os.path.basename(path)[:-len('.before')]
        told = text_of(path).split('\n', 1)[0].split(' It is ')[1].rstrip('.')
        yield name, path, told, path[:-len('.before')] + '.after'


def text_of(path):
    with open(path, encoding='ascii') as file:
        return file.read()


def certified(paths):
    """The modules of a chain, each with its certificate."""
    return ''.join(text_of(path) + text_of(path + '.cert') for path in paths)


def script(texts, commands):
    """A script that plays a chain, checked with its certificates."""
    return texts + 'checked\n' + ''.join(c + '\n' for c in commands)
