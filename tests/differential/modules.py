"""Random modules, many of which the checker accepts.

A module is written beside the rules of the checker: they are asked in which states the next instruction may stand, and one
that may be at fault there is rarely written. Others are filters of the examples and cases with some lines changed.
"""
import glob
import os

from generator import OFTEN, Writer, odd_module
from odd import LEAVING, NUMBERS, change, quote, some_bytes, words_in
from reading.counts import uncounted
from reading.rules import May, Rule, at_end_of_request, between_calls, brought, first_state
from reading.states import join, leq
from reading.texts import HANDLERS, KINDS, OPERANDS, Module, Reader, are_one_brigade, number_or_constant
from walks import CHANGES_OF_ONE, WALKS, lines_of

TOP = os.path.dirname(os.path.dirname(os.path.dirname(os.path.abspath(__file__))))
KEEPER = """module 1|brigade b0 conn|brigade b1 conn|open|bcreate b0|bcreate b1|ret ok|init|bclean b0|ret ok|main|jsent drop|:loop|
first c0 in|jend c0 keep|unlink c0|jkind c0 eos send|tail b1 c0|jump loop|:keep|bsave b0 b1|ret ok|:send|tail b1 c0|
bconcat b0 b1|bclean in|pass b0 bad|bclean b0|ret ok|:bad|bclean b0|ret fail|:drop|bclean in|ret ok|end""".replace('\n', '').split('|')
# Instructions of a module for the checker are taken as often as those of a script, but for these.
MORE = {'jnull': 2, 'jend': 5, 'jkind': 5, 'unlink': 6, 'bsplit': 5, 'bpart': 3, 'copy': 4, 'jump': 2, 'jsent': 2, 'bdelete': 3,
        'pass': 6, 'get': 2, 'eos': 1, 'ret': 1}
# Faults that seldom come about are written so many times as often.
SELDOM = {'F4': 4, 'F5': 100, 'F6': 10, 'F8': 4, 'F9': 2}


class Guided:
    """Writes one module."""

    def __init__(self, rng):
        self.rng = rng
        self.module = Module()
        for _ in range(rng.choice([0, 0, 1, 2, 3, 5, 8])):
            self.module.pools.append(rng.choice(['conn', 'req'] + 2 * list(range(len(self.module.pools)))))
        for _ in range(rng.choice([0, 1, 1, 2, 2, 3, 5, 8])):
            self.module.brigades.append(rng.choice(['conn', 'req'] + 2 * list(range(len(self.module.pools)))))
        self.lines, self.labels, self.texts = [], 0, 0
        self.fault = None                                    # the one that `edges` told last
        self.wrong = rng.choice([0, 0, 0, .003, .02])        # the chance that what may be at fault is written
        self.length = rng.choice([0, 2, 4, 8, 16, 30])
        self.cursors = rng.choice([2, 3, 4, 8])
        self.leaves = rng.random() < LEAVING
        self.creates = rng.choice([.5, .95, 1])              # the chance that a variable is created where it is due

    def under_request(self, pool):
        while pool not in ('conn', 'req'):
            pool = self.module.pools[pool]
        return pool == 'req'

    # Operands: each as its word and as the reading has it.

    def operand(self, kind):
        rng = self.rng
        in_open = self.handler == 'open'
        pools = [i for i, pool in enumerate(self.module.pools) if not in_open or not self.under_request(pool)]
        brigades = [i for i, pool in enumerate(self.module.brigades) if not in_open or not self.under_request(pool)]
        named = {'Q': [('p%d' % i, i) for i in pools], 'O': [('b%d' % i, i) for i in brigades]}
        named['P'] = named['Q'] + [('conn', 'conn')] + [('req', 'req')] * (not in_open)
        named['B'] = named['O'] + [('in', 'in')] * 2 * (self.handler == 'main')
        named['V'] = [(word, (word[0], i)) for word, i in named['Q'] + named['O']]
        if kind == 'Q' and rng.random() < .5:
            named['Q'] = [found for found in named['Q'] if found[1] in self.above_homes()] or named['Q']
        if kind in named:
            return rng.choice(named[kind]) if named[kind] else None
        if kind == 'C':
            i = self.cursor()
            return 'c%d' % i, i
        if kind == 'X':
            word = rng.choice(['n%d' % rng.randrange(8), str(rng.choice(NUMBERS))])
            return word, number_or_constant(word)
        word = {'K': rng.choice(KINDS), 'N': 'n%d' % rng.randrange(8), 'T': quote(rng, some_bytes(rng)), 'L': 'l',
                'S': 'fail' if self.handler == 'main' and rng.random() < .3 else 'ok'}[kind]
        return word, int(word[1]) if kind == 'N' else word

    def above_homes(self):
        """The declared pools on which homes are, and those above them."""
        found = set()
        for part in self.state.brigades + self.state.cursors:
            pools = [int(home[1]) for home in part.homes if home[0] == 'p'] if part and part.homes else []
            for pool in pools:
                while pool not in ('conn', 'req'):
                    found.add(pool)
                    pool = self.module.pools[pool]
        return found

    def cursor(self):
        """A cursor, mostly one that is set."""
        there = [i for i, cursor in enumerate(self.state.cursors[:8]) if cursor]
        return self.rng.choice(there) if there and self.rng.random() < .75 else self.rng.randrange(self.cursors)

    def aimed(self):
        """A word for what stands at the cursors and has dead homes, where chance wants one."""
        rng, state = self.rng, self.state
        places = {cursor.place for cursor in state.cursors if cursor}
        homes = [part.homes for part in state.brigades + state.cursors if part and part.homes]
        if any('dead' in one for one in homes) and rng.random() < .4:
            return rng.choice(['read', 'copy', 'split', 'aside', 'bpart', 'bsave', 'bconcat', 'tail', 'unlink', 'ret'])
        if any(home.startswith('p') for one in homes for home in one) and rng.random() < .1:
            return rng.choice(['pclear', 'pdestroy'])
        if 'either' in places and rng.random() < .5:
            return 'jend'
        if 'in' in places and rng.random() < .5:
            return rng.choice(['next', 'unlink', 'read', 'get', 'split', 'before', 'jkind', 'bsplit', 'aside', 'copy', 'bdelete'])
        if 'loose' in places and rng.random() < .3:
            return rng.choice(['tail', 'head', 'before', 'aside', 'jkind', 'copy'])
        return None

    def instruction(self):
        """A random instruction: its words, and as the reading has it; None where an operand is wanting."""
        words = words_in(self.handler, self.leaves)
        word = self.aimed() or self.rng.choices(words, [MORE.get(word, OFTEN.get(word, 1)) for word in words])[0]
        operands = [self.operand(kind) for kind in OPERANDS[word]]
        if None in operands or are_one_brigade(OPERANDS[word], operands) or 'T' in OPERANDS[word] and self.texts > 50:
            return None
        return [word] + [text for text, _ in operands], (word, *[value for _, value in operands])

    # Code. A state is None where nothing arrives.

    def edges(self, instruction, state):
        """The states behind an instruction and at its label, or None where it may be at fault."""
        word, *operands = instruction
        try:
            found = dict(getattr(Rule(self.module, 0, state), 'rule_' + word)(*operands))
        except May as may:
            self.fault = str(may)
            return None
        return found.get(1), found.get('l')

    def step(self):
        """Writes an instruction."""
        for _ in range(20):
            found = self.instruction()
            if found and found[0][0] in ('pcreate', 'bcreate') and self.rng.random() < .8:
                continue
            edges = found and self.edges(found[1], self.state)
            if found and (edges or self.rng.random() < self.wrong * SELDOM.get(self.fault, 1)):
                break
        else:
            return
        words, instruction = found
        self.texts += 'T' in OPERANDS[words[0]]
        if words[0] == 'ret' and edges:
            self.returned()
            return
        behind, at_label = edges or (self.state, self.state)
        if 'L' in OPERANDS[words[0]]:
            words[-1] = self.label_for(at_label)
        self.lines.append(' '.join(words))
        self.state = behind

    def label_for(self, state):
        """A label to which control may go in this state: one behind or one ahead."""
        back = [name for name, there in self.placed.items() if state is None or there and leq(state, there)]
        if back and self.rng.random() < .3:
            return self.rng.choice(back)
        if self.ahead and self.rng.random() < .4:
            name = self.rng.choice(list(self.ahead))
        else:
            self.labels += 1
            name = 'l%d' % self.labels
            self.ahead[name] = None
        self.ahead[name] = joined(self.ahead[name], state)
        return name

    def place(self, name):
        """Writes a label that some jump names."""
        self.lines.append(':' + name)
        self.state = joined(self.state, self.ahead.pop(name))
        self.placed[name] = self.state

    def template(self):
        """Writes a walk or a change of one bucket, where the rules let it."""
        rng = self.rng
        brigades = [self.operand('B') for _ in range(2)]
        if None in brigades or brigades[0] == brigades[1]:
            return
        c, d = rng.sample(range(8), 2)
        self.labels += 1
        words = {'B': brigades[0][0], 'O': brigades[1][0], 'c': 'c%d' % c, 'd': 'c%d' % d, 'n': 'n1', 'm': 'n2', 'x': '3',
                 'P': self.operand('P')[0], 'T': '"t"', 'U': '"u"', 'l': 'w%dx' % self.labels}
        lines = lines_of(rng.choice(rng.choice([WALKS, CHANGES_OF_ONE])), words)
        behind = self.behind(lines)
        if behind is not None and self.texts < 50:
            self.texts += 2
            self.lines += lines
            self.state = behind

    def behind(self, lines):
        """The state behind some lines, or None where one of them may be at fault or nothing arrives."""
        reader = Reader(b'')
        reader.module.pools, reader.module.brigades = self.module.pools, self.module.brigades
        places, code = {}, reader.module.code
        for line in lines:
            if line[0] == ':':
                places[line[1:]] = len(code)
            else:
                reader.take_code(line.split(' ')[0], line.partition(' ')[2] or None, self.handler)
        states, todo = {0: self.state}, [0]
        while todo:
            pc = todo.pop()
            if pc == len(code):
                continue
            try:
                edges = getattr(Rule(self.module, pc, states[pc]), 'rule_' + code[pc][0])(*code[pc][1:])
            except May:
                return None
            for to, state in edges:
                to = places.get(to, to)
                new = joined(states.get(to), state)
                if new != states.get(to):
                    states[to] = new
                    todo.append(to)
        return states.get(len(code))

    def returned(self):
        """Ends a call, mostly after own brigades are cleaned."""
        cleans = self.rng.random() < .9
        for i, brigade in enumerate(self.state.brigades):
            if cleans and brigade.is_live() and (brigade.marks != {'u'} or self.rng.random() < .5 or 'call' in brigade.homes):
                if self.handler != 'open' or not self.under_request(self.module.brigades[i]):
                    self.lines.append('bclean b%d' % i)
                    self.state = self.edges(('bclean', i), self.state)[0]
        self.lines.append('ret ' + self.operand('S')[0])
        self.exits.append(between_calls(self.state))
        self.state = None

    def create(self):
        """Creates the variables whose pool is there."""
        for word, variables in (('pcreate', self.module.pools), ('bcreate', self.module.brigades)):
            for i, pool in enumerate(variables):
                is_due = self.under_request(pool) == (self.handler == 'init')
                edges = self.edges((word, i), self.state) if is_due else None
                if edges and self.rng.random() < self.creates:
                    self.lines.append('%s %s%d' % (word, 'p' if word == 'pcreate' else 'b', i))
                    self.state = edges[0]

    def write(self, handler, entry):
        """Writes the code of a handler that is entered in this state; gives the states of its returns, joined."""
        self.handler, self.state, self.ahead, self.placed, self.exits = handler, entry, {}, {}, []
        self.lines.append(handler)
        if handler == 'main' and self.rng.random() < .9:
            self.lines.append('jsent gone')
            self.state, at_label = self.edges(('jsent', 'l'), self.state)
            self.ahead['gone'] = at_label or self.state
        if handler != 'main':
            self.create()
        for _ in range(self.rng.randint(0, self.length * (2 if handler == 'main' else 1))):
            if self.ahead and (self.state is None or self.rng.random() < .12):
                self.place(self.rng.choice([name for name in self.ahead if name != 'gone'] or ['gone']))
            if self.state is None:
                break
            if self.rng.random() < .12:
                self.template()
            else:
                self.step()
        if self.state is not None:
            self.returned()
        while self.ahead:
            self.place(self.rng.choice(list(self.ahead)))
            if self.state is None:
                self.lines.append('ret ok')
            elif self.rng.random() < .7 or not self.ahead:
                self.returned()
        return self.exits

    def text(self):
        """The module's lines."""
        def pool(name):
            return name if name in ('conn', 'req') else 'p%d' % name

        self.lines = ['module 1']
        self.lines += ['pool p%d %s' % (i, pool(name)) for i, name in enumerate(self.module.pools)]
        self.lines += ['brigade b%d %s' % (i, pool(name)) for i, name in enumerate(self.module.brigades)]
        idle = None
        for state in self.write('open', first_state(self.module)):
            idle = joined(idle, joined(state, at_end_of_request(self.module, state)))
        ready = None
        for state in self.write('init', idle or first_state(self.module)):
            ready = joined(ready, state)
        self.write('main', brought(ready or first_state(self.module)))
        return self.lines + ['end']


def joined(one, other):
    """The join of two states, or the one that is there."""
    return one if other is None else other if one is None else join(one, other)


def filters():
    """The modules of the examples and cases, as lists of lines."""
    found = [KEEPER]
    for path in sorted(glob.glob(os.path.join(TOP, 'examples', '*.script')) + glob.glob(os.path.join(TOP, 'tests', 'certificates', '*.module'))):
        with open(path, encoding='latin-1') as file:
            lines = [line.strip() for line in file if line.strip()[:1] != '#']
        found.append(lines[:lines.index('end') + 1])
    return found


FILTERS = filters()


def changed_filter(rng):
    """A filter with a few lines changed: instructions are left out, doubled, swapped, or get other operands."""
    lines = list(rng.choice(FILTERS))
    for _ in range(rng.choice([0, 1, 1, 2, 3])):
        places = [i for i, line in enumerate(lines) if line.split(' ')[0] in OPERANDS]
        place, other = rng.choice(places), rng.choice(places)
        chance = rng.random()
        if chance < .3:
            del lines[place]
        elif chance < .5:
            lines.insert(place, lines[other])
        elif chance < .6:
            lines[place], lines[other] = lines[other], lines[place]
        else:
            words = lines[place].split(' ')
            kinds = {'c': ['c0', 'c1', 'c2'], 'b': ['b0', 'b1', 'in'], 'i': ['b0', 'b1'], 'e': ['eos', 'flush', 'data', 'heap']}
            words[1:] = [rng.choice(kinds[word[0]]) if word[0] in kinds and len(word) < 4 and rng.random() < .6 else word
                         for word in words[1:]]
            lines[place] = ' '.join(words)
    return lines


def some_module(rng):
    chance = rng.random()
    if chance < .62:
        return Guided(rng).text()
    if chance < .88:
        return changed_filter(rng)
    if chance < .96:
        return Writer(rng).script()[0]
    lines = odd_module(rng)
    return lines[:lines.index('end') + 1]


def random_module(rng):
    """The bytes of a random module text, most of them right as a text."""
    with uncounted():
        lines = some_module(rng)
    if rng.random() < .04:
        lines = change(rng, lines)
    return '\n'.join(lines).encode('latin-1') + b'\n'
