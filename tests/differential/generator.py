"""Random scripts.

A script is written beside the reading: the generator plays each command and each instruction on it as it writes them, so that
it knows what is live, empty, passed or dead, and rarely writes what is a fault by accident. Each call of a handler has code of
its own; counters in n6 and n7 lead to it. What a test did can be told from the labels of the connection's pool.
"""
from odd import LEAVING, NUMBERS, ODD_COMMANDS, change, odd_line, quote, some_bytes, words_in
from reading.chains import Host
from reading.counts import uncounted
from reading.pools import DEAD
from reading.scripts import BadLine, answer
from reading.steps import BUFFER
from reading.texts import (HANDLERS, KINDS, MOST_TEXTS, OPERANDS, TEXT_LIMIT, U32, Handler, Module, Reader, are_one_brigade,
                           number_or_constant)
from walks import CHANGES_OF_ONE, CLEARED, WALKS, audit, lines_of

MOST = 2 ** 64 - 1
FILE_NAMES = ['a', 'b', 'c', 'f1', 'abcdefghij012345']
COUNTERS = {'init': 6, 'main': 7}
# How often each instruction is taken; what is not named is taken once.
OFTEN = {'pcreate': 5, 'pclear': 2, 'label': 2, 'bcreate': 5, 'bclean': 4, 'bconcat': 6, 'bsave': 7, 'pass': 5, 'leave': 4, 'jempty': 2,
         'add': 2, 'sub': 2, 'jump': .3, 'ret': 0,
         'first': 6, 'next': 4, 'jkind': 3, 'unlink': 3, 'tail': 5, 'head': 4, 'before': 4, 'heap': 2, 'split': 4, 'copy': 3,
         'aside': 4, 'read': 5, 'len': 3, 'get': 4, 'bpart': 4, 'bsplit': 4, 'eos': .5}
# Faults that seldom come about are written so many times as often.
SELDOM = {'F1': 2, 'F2': .5, 'F4': 6, 'F5': 1000, 'F6': 300, 'F7': 12, 'F8': 200, 'F9': 2, 'F10': 4}
LONGEST_WALK = 5000                      # instructions of a walk; none with so many is written


class Writer:
    """Writes one script that is right as a text."""

    def __init__(self, rng):
        self.rng = rng
        self.module = self.declarations()
        self.host = Host([self.module])
        self.handler = 'open'
        self.calls = {handler: [] for handler in HANDLERS}      # the code of each call
        self.lines = []                                         # the code of the call that is written
        self.labels = self.texts = 0
        self.wrong = rng.choice([0, .001, .005, .02, .1])       # the chance that a fault is written
        self.length = rng.choice([1, 3, 6, 6, 12, 25])
        self.kinds = rng.choice([['heap', 'transient', 'immortal', 'pool'], ['pool', 'heap'], ['pool'], ['heap', 'transient'],
                                 ['immortal', 'pool']])
        self.file_chance = rng.choice([0, .3, .7, .9])
        self.walks = rng.choice([0, .1, .3, .6])                # how often a walk is taken in place of an instruction
        self.is_endless = False
        self.leaves = rng.random() < LEAVING
        self.keeps = rng.random() < .5                          # brigades are rarely cleaned and passed
        self.keeps_files = rng.random() < .3                    # what comes are files, which are kept past their requests
        if self.keeps_files:
            self.keeps, self.file_chance, self.kinds, self.wrong = True, .9, ['pool'], .003
        self.commands = []

    @property
    def connection(self):
        """The connection, or None where it is not there."""
        return self.host.connections.get(1)

    @property
    def filter(self):
        """The instance of the module on the connection."""
        return self.connection.instances[0]

    def declarations(self):
        """A module of pools and brigades, whose handlers are not there yet."""
        rng, module = self.rng, Module()
        for _ in range(rng.choice([0, 1, 2, 3, 3, 4, 5, 8])):
            module.pools.append(rng.choice(['conn', 'conn', 'req'] + 2 * list(range(len(module.pools)))))
        for _ in range(rng.choice([0, 1, 2, 3, 3, 4, 6, 8])):
            module.brigades.append(rng.choice(['conn', 'conn', 'req'] + 2 * list(range(len(module.pools)))))
        module.start = {handler: 0 for handler in HANDLERS}
        return module

    # Operands, each as its word and as the reading has it.

    def under_request(self, pool):
        while pool not in ('conn', 'req'):
            pool = self.module.pools[pool]
        return pool == 'req'

    def may_name(self, pool):
        return self.handler != 'open' or not self.under_request(pool)

    def operands_of(self, kind):
        """The operands of a kind that the handler may name."""
        pools = [('p%d' % i, i) for i in range(len(self.module.pools)) if self.may_name(i)]
        brigades = [('b%d' % i, i) for i, pool in enumerate(self.module.brigades) if self.may_name(pool)]
        roots = [('conn', 'conn')] + [('req', 'req')] * (self.handler != 'open')
        brought = [('in', 'in')] * (self.handler == 'main')
        if kind == 'V':
            return [(word, (word[0], number)) for word, number in pools + brigades]
        return {'P': roots + pools, 'Q': pools, 'B': brigades + 2 * brought, 'O': brigades}[kind]

    def operand(self, kind):
        """A random operand of a kind, or None where there is none."""
        rng = self.rng
        if kind in 'PQBOV':
            choices = self.operands_of(kind)
            return rng.choice(choices) if choices else None
        if kind == 'C':
            cursor = self.cursor()
            return 'c%d' % cursor, cursor
        if kind == 'K':
            word = rng.choice(KINDS)
            return word, word
        if kind == 'N':
            number = rng.randrange(6)
            return 'n%d' % number, number
        if kind == 'X':
            near = min(U32, max(0, rng.choice(self.filter.numbers) + rng.choice([-1, 0, 0, 1])))
            word = rng.choice(['n%d' % rng.randrange(8), str(rng.choice(NUMBERS)), str(near)])
            return word, number_or_constant(word)
        if kind == 'T':
            data = rng.choice([b'1', b'2', b'a\n', b'', some_bytes(rng)])
            return quote(rng, data), data
        self.labels += 1
        return 'l%d' % self.labels, 'taken'

    def cursor(self):
        """A cursor, mostly one that names something that is there."""
        call, rng = self.filter.call, self.rng
        there = [i for i, named in enumerate(call.cursors) if self.filter.place_of(named)] if call else []
        return rng.choice(there) if there and rng.random() < .8 else rng.randrange(8)

    def instruction(self, word=None):
        """A random instruction of this word, or of any: its line, and as the reading has it; None where an operand is
        wanting."""
        if word is None:
            words = words_in(self.handler, self.leaves)
            word = self.rng.choices(words, [OFTEN.get(word, 1) for word in words])[0]
        if 'T' in OPERANDS[word] and self.texts >= MOST_TEXTS - 1:
            return None
        operands = [self.operand(kind) for kind in OPERANDS[word]]
        if None in operands or are_one_brigade(OPERANDS[word], operands):
            return None
        return ' '.join([word] + [text for text, _ in operands]), (word, *[value for _, value in operands])

    # The code of a call.

    def do(self, instruction):
        """Does an instruction on the reading. A jump that is taken leaves the place 'taken'."""
        self.filter.call.pc = 0
        self.filter.do(instruction)

    def pointless(self, instruction):
        """Whether an instruction would do next to nothing: such are written rarely."""
        word, *operands = instruction
        if word in ('bconcat', 'bsave'):
            return not self.filter.brigade_of(operands[1]).buckets
        if word == 'bclean':
            return not self.filter.brigade_of(operands[0]).passed
        if word == 'pass':
            return self.keeps or not self.filter.brigade_of(operands[0]).buckets
        if word == 'pdestroy':
            return len(self.host.pools.children(self.filter.pool_of(operands[0]))) == 0
        return False

    def step(self, word=None):
        """Writes an instruction and does it; gives whether the call goes on."""
        for _ in range(12):
            found = self.instruction(word)
            if found is None:
                continue
            line, instruction = found
            fault = self.filter.fault_of(instruction)
            if fault and self.rng.random() >= self.wrong * SELDOM.get(fault, 1):
                continue
            if not fault and self.pointless(instruction) and self.rng.random() < .8:
                continue
            self.lines.append(line)
            self.texts += 'T' in OPERANDS[instruction[0]]
            if fault:
                self.lines += [':' + line.split(' ')[-1]] * ('L' in OPERANDS[instruction[0]])
                return False
            self.do(instruction)
            if 'L' in OPERANDS[instruction[0]]:
                self.after_jump(line.split(' ')[-1])
            return True
        return True

    def after_jump(self, label):
        """What stands between a jump and its label: something that is skipped, or a label that tells it was not."""
        if self.filter.call.pc == 'taken':
            found = self.instruction() if self.rng.random() < .5 else None
            if found:
                line = found[0]
                self.texts += ' "' in line
                self.lines.append(line)
                if found[1][-1] == 'taken':
                    self.lines.append(':' + line.split(' ')[-1])
        elif self.texts < MOST_TEXTS - 1 and self.rng.random() < .8:
            self.texts += 1
            self.lines.append('label conn "%d"' % self.texts)
            self.do(('label', 'conn', b'%d' % self.texts))
        self.lines.append(':' + label)

    def block(self, lines):
        """Writes code with jumps of its own and does it; gives whether the call goes on. Code that takes long is left out."""
        reader = Reader(b'')
        reader.module.pools, reader.module.brigades = self.module.pools, self.module.brigades
        reader.handlers = [Handler(0, 0)]
        for line in lines:
            first, rest = (':', line[1:]) if line[0] == ':' else (line.split(' ')[0], line.partition(' ')[2] or None)
            reader.take_code(first, rest, self.handler)
        code, places = reader.module.code, {name: place for name, _, place in reader.handlers[0].labels}
        code = [(*part[:-1], places[part[-1]]) if 'L' in OPERANDS[part[0]] else part for part in code]
        self.lines += lines
        self.texts += reader.texts
        self.filter.call.pc = 0
        while self.filter.call.pc < len(code):
            instruction = code[self.filter.call.pc]
            if self.filter.fault_of(instruction):
                return False
            self.filter.do(instruction)
        return True

    def words(self):
        """Words for a block, or None where no usable brigade has buckets or no other one is there."""
        rng, instance = self.rng, self.filter
        brigades = [(word, brigade) for word, brigade in dict(self.operands_of('B')).items()
                    if instance.fault_of(('jempty', brigade, 0)) is None]
        filled = [word for word, brigade in brigades if instance.brigade_of(brigade).buckets]
        if not filled or len(brigades) < 2 or self.texts >= MOST_TEXTS - 3:
            return None
        chosen = rng.choice(filled)
        pools = [word for word, pool in self.operands_of('P') if instance.pool_of(pool) is not None]
        c, d = rng.sample(range(8), 2)
        n, m = rng.sample(range(5), 2)
        self.labels += 1
        return {'B': chosen, 'O': rng.choice([word for word, _ in brigades if word != chosen]), 'c': 'c%d' % c, 'd': 'c%d' % d,
                'n': 'n%d' % n, 'm': 'n%d' % m, 'P': rng.choice(pools), 'x': str(rng.choice([0, 1, 1, 2, 3, 5, 8, 8000, 20000])),
                'T': self.operand('T')[0], 'U': self.operand('T')[0], 'l': 'w%dx' % self.labels}

    def walk(self):
        """A walk along a brigade, a change of one bucket, or both, and what then stands where is told."""
        rng, words = self.rng, self.words()
        if not words:
            return self.step()
        brigade = self.filter.brigade_of(dict(self.operands_of('B'))[words['B']])
        template = rng.choice(rng.choice([WALKS, CHANGES_OF_ONE, CHANGES_OF_ONE]))
        pools = [word for word, pool in self.operands_of('Q') if self.filter.pool_of(pool) is not None]
        if pools and rng.random() < .05:
            template, words['Q'] = CLEARED, rng.choice(pools)
        if sum(map(self.filter.length, brigade.buckets)) > LONGEST_WALK and 'get {m}' in template:
            template = CHANGES_OF_ONE[0]
        if not self.block(lines_of(template, words)):
            return False
        return rng.random() < .6 or self.audit()

    def audit(self):
        """Tells of a brigade whether all in it is as the reading has it."""
        words = self.words()
        if not words:
            return True
        buckets = self.filter.brigade_of(dict(self.operands_of('B'))[words['B']]).buckets
        number = self.filter.numbers[int(words['m'][1])]
        if len(buckets) > 12:
            return True
        end = words['l'] + 'z'
        return self.block(audit(buckets, self.filter.length, words)
                          + ['jeq %s %d %s' % (words['m'], number, end), 'label conn "audit"', ':' + end])

    def fill_buffer(self):
        """A loop that fills the buffer, or nearly."""
        rng = self.rng
        self.labels += 2
        again, full = 'l%d' % (self.labels - 1), 'l%d' % self.labels
        count, byte = rng.choice([3, 4000, 7999, 8000, 8001]), rng.choice([0, 255])
        self.lines += ['set n5 0', ':' + again, 'put %d %s' % (byte, full), 'add n5 1',
                       'jlt n5 %d %s' % (count, again), ':' + full]
        self.filter.numbers[5] = min(count, BUFFER - len(self.filter.call.buffer))
        self.filter.call.buffer += bytes([byte]) * self.filter.numbers[5]

    def write_call(self):
        """Writes the code of the call that runs, up to its end or its fault."""
        rng, instance = self.rng, self.filter
        self.lines = []
        if self.handler in COUNTERS:
            instance.numbers[COUNTERS[self.handler]] += 1
        if rng.random() < .01:
            self.lines += [':again%d' % self.labels, 'jump again%d' % self.labels]
            self.labels += 1
            self.is_endless = True
            self.connection.broken = 'OutOfSteps'
        elif all(self.some_step() for _ in range(rng.randint(0, 2 * self.length))):
            self.end_call()
        else:
            self.lines.append('ret ok')
            self.connection.broken = 'Faulted'
        self.calls[self.handler].append(self.lines)

    def some_step(self):
        """A step; often one that does something about what was brought."""
        chance = self.rng.random()
        if chance < .004:
            self.fill_buffer()
            return True
        homes = [bucket.home for bucket in self.filter.all_buckets()]
        if DEAD in homes and self.handler == 'main' and self.rng.random() < .6:
            return self.use_of_dead()
        if self.rng.random() < self.walks:
            return self.walk()
        brought = self.filter.brought
        if brought and brought.buckets and chance < .04:
            return self.carry()
        if brought and brought.buckets and chance < .4:
            return self.step(self.rng.choice(['bconcat', 'bsave'] if self.keeps_files else ['bconcat', 'bsave', 'bsave', 'pass']))
        if any(kind == 'pool' for kind, _ in homes) and chance < .1:
            return self.step(self.rng.choice(['pclear', 'pdestroy']))
        return self.step()

    def use_of_dead(self):
        """A use of a bucket whose home is dead, or something near it."""
        rng, instance = self.rng, self.filter
        dead = [(word, place) for word, brigade in dict(self.operands_of('O')).items() if instance.brigade_of(brigade)
                for place, bucket in enumerate(instance.brigade_of(brigade).buckets) if bucket.home == DEAD]
        if not dead or rng.random() < .5:
            return self.step(rng.choice(['bsave', 'pass', 'bconcat', 'read', 'copy', 'aside', 'split', 'bpart']))
        word, place = rng.choice(dead)
        buckets = instance.brigade_of(dict(self.operands_of('O'))[word]).buckets
        point = sum(map(instance.length, buckets[:place])) + rng.choice([0, 1, 1, instance.length(buckets[place])])
        self.labels += 1
        use = rng.choice(['read c0 {l}', 'copy c1 c0', 'aside c0 conn', 'split c0 1 {l}', 'bpart {b} {x} c1 {l}', 'pass {b} {l}',
                          'unlink c0', 'bdelete c0', 'len n0 c0'])
        lines = ['first c0 ' + word] + ['next c0 c0'] * place + [use, ':{l}']
        return self.block([line.format(b=word, x=point, l='d%d' % self.labels) for line in lines])

    def carry(self):
        """Saves what was brought into a brigade on a pool, moves it on, clears that pool, and uses it."""
        rng, instance = self.rng, self.filter
        usable = [i for i in range(len(self.module.brigades)) if instance.fault_of(('jempty', i, 0)) is None]
        pairs = [(i, j) for i in usable for j in usable if self.module.brigades[i] not in ('conn', 'req') and not self.host.pools.lies_under(
            instance.brigade_of(j).pool, instance.brigade_of(i).pool)]
        if not pairs:
            return self.step()
        between, last = rng.choice(pairs)
        pool = self.module.brigades[between]
        for line, instruction in (
                ('bsave b%d in' % between, ('bsave', between, 'in')),
                ('bconcat b%d b%d' % (last, between), ('bconcat', last, between)), ('pclear p%d' % pool, ('pclear', pool))):
            if instance.fault_of(instruction) is None:
                self.lines.append(line)
                self.do(instruction)
        return self.step(rng.choice(['pass', 'bsave']))

    def end_call(self):
        """Cleans what may not be kept, mostly, and returns."""
        instance = self.filter
        if self.keeps_files and instance.brought and instance.brought.buckets and not self.step(self.rng.choice(['bconcat', 'bconcat', 'bsave'])):
            self.lines.append('ret ok')
            self.connection.broken = 'Faulted'
            return
        for i, name in enumerate(instance.brigade_variables):
            brigade = instance.brigades.get(name)
            kept = brigade and any(bucket.home[0] == 'call' for bucket in brigade.buckets)
            if brigade and self.may_name(self.module.brigades[i]) and (
                    brigade.passed and self.rng.random() < .7 or
                    kept and not brigade.passed and self.rng.random() >= self.wrong * SELDOM['F6']):
                self.lines.append('bclean b%d' % i)
                self.do(('bclean', i))
        status = 'fail' if self.handler == 'main' and self.rng.random() < .1 else 'ok'
        self.lines.append('ret ' + status)
        if instance.fault_of(('ret', status)):
            self.connection.broken = 'Faulted'
        else:
            self.do(('ret', status))

    # Commands.

    def command(self, line):
        """Writes a command and plays it; a call that is to run gets its code."""
        self.commands.append(line)
        if line == 'run 1' and self.connection and self.connection.stack and not self.connection.broken:
            self.write_call()
            return
        try:
            told = answer(self.host, line)
        except BadLine:
            return
        word = line.split(' ')[0]
        if word in ('open', 'begin', 'bring') and not told.startswith('refused'):
            self.handler = {'open': 'open', 'begin': 'init', 'bring': 'main'}[word]

    def file(self):
        """A new file."""
        rng = self.rng
        names = [name for name in FILE_NAMES if name not in self.host.pools.files]
        if names:
            data, count = some_bytes(rng, 2), rng.choice([0, 1, 2, 10, 1000, 7999, 8000, 8001, 16001])
            if rng.random() < .03:
                data, count = b'', U32
            self.command('file %s %d %s' % (rng.choice(names), count, quote(rng, data)))

    def piece(self):
        rng, files = self.rng, self.host.pools.files
        if files and rng.random() < self.file_chance:
            name = rng.choice(sorted(files))
            most = len(files[name])
            start = rng.choice([0, 0, 1, most // 2, most, min(most, 8000)])
            start = min(start, most)
            length = rng.choice([most - start, most - start, 0, min(most - start, 8000), min(most - start, 8001)])
            if rng.random() < .04:
                name = rng.choice([name, 'zz'])
                start, length = rng.choice([0, 1, most, most + 1, MOST]), rng.choice([0, 1, most, most + 1, MOST])
            return 'file %s %d %d' % (name, start, length)
        return 'flush' if rng.random() < .1 else '%s %s' % (rng.choice(self.kinds), quote(rng, some_bytes(rng)))

    def bring(self):
        """A brigade; now and then with an EOS, and rarely with data behind it."""
        rng = self.rng
        pieces = [self.piece() for _ in range(rng.choice([0, 1, 1, 2, 2, 3, 6]))]
        if rng.random() < .25:
            pieces.append('eos')
            if rng.random() < .2:
                pieces.append(rng.choice(['flush', 'eos', self.piece()]))
        self.command(' '.join(['bring 1'] + pieces))

    def stray(self):
        """A command that may be refused."""
        rng = self.rng
        word = rng.choice(['begin', 'end', 'run', 'run', 'output', 'labels', 'pools', 'bring', 'file', 'close'])
        if word == 'pools':
            self.command(word)
        elif word == 'file':
            self.file()
        elif word == 'bring' and rng.random() < .8:
            self.bring()
        elif word != 'close' or rng.random() < .2:
            self.command('%s %s' % (word, 1 if rng.random() < .93 else rng.choice([0, 2, 9, MOST])))

    def in_order(self):
        """Commands in the order that a connection allows, now and then with a stray one."""
        rng = self.rng
        stray = rng.choice([0, 0, .05, .2])

        def between():
            if rng.random() < stray:
                self.stray()

        for _ in range(2 if self.keeps_files else rng.choice([0, 1, 2])):
            self.file()
        for line in ('open', 'run 1'):
            self.command(line)
            between()
        for _ in range(rng.choice([2, 3, 4] if self.keeps_files else [1, 2, 2, 3])):
            for line in ('begin 1', 'run 1'):
                self.command(line)
                between()
            for _ in range(rng.choice([1, 2] if self.keeps_files else [0, 1, 2, 3, 4])):
                self.bring()
                between()
                self.command('run 1')
                if rng.random() < .3:
                    self.command(rng.choice(['output 1', 'output 1', 'pools', 'labels 1']))
            self.command('end 1')
        for line in ('output 1', 'labels 1', 'pools', 'close 1', 'pools'):
            self.command(line)

    def script(self):
        """The module's lines and the commands."""
        if self.rng.random() < .85:
            self.in_order()
        else:
            for _ in range(self.rng.randint(0, 3)):
                self.stray()
            self.command('open')
            for _ in range(self.rng.randint(1, 30)):
                self.stray()
        return self.module_lines(), self.commands

    def budget(self, is_changed):
        """Mostly none, but always one for a module with a loop that may not end."""
        chance = self.rng.random()
        if chance < .08:
            return ['budget %d' % self.rng.choice([0, 1, 2, 3, 5, 8, 13, 20, 50, 100])]
        if self.is_endless or is_changed:
            return ['budget 1000']
        return ['budget %d' % self.rng.choice([60000, MOST])] if chance < .2 else []

    def module_lines(self):
        def pool(name):
            return name if name in ('conn', 'req') else 'p%d' % name

        lines = ['module 1']
        lines += ['pool p%d %s' % (i, pool(name)) for i, name in enumerate(self.module.pools)]
        lines += ['brigade b%d %s' % (i, pool(name)) for i, name in enumerate(self.module.brigades)]
        for handler in HANDLERS:
            lines += [handler] + self.dispatch(handler)
        return lines + ['end']

    def dispatch(self, handler):
        """The code of a handler: it counts its calls, and goes to the code of the one that runs."""
        calls = self.calls[handler] or [['ret ok']]
        if handler == 'open':
            return calls[0]
        counter = COUNTERS[handler]
        lines = ['add n%d 1' % counter]
        lines += ['jeq n%d %d %sat%d' % (counter, k + 1, handler[0], k) for k in range(1, len(calls))]
        for k, code in enumerate(calls):
            lines += [':%sat%d' % (handler[0], k)] * (k > 0) + code
        return lines


def with_steps(rng, commands):
    """The commands, with some steps before some runs and behind them. (A call's code is written where it is run, so they come last.)"""
    if rng.random() < .7:
        return commands
    lines = []
    for line in commands:
        if line.startswith('run ') and rng.random() < .3:
            lines.append('step%s %d' % (line[3:], rng.choice([1, 1, 2, 3, 5, 8, 20, 1000])))
        lines.append(line)
        if rng.random() < .03:
            lines.append('step %d %d' % (rng.choice([1, 1, 1, 2]), rng.choice([1, 7, MOST])))
    return lines


# The ways to make a script, as a list of lines.

def played(rng):
    """A script that is right as a text; of some, the module or the commands are changed."""
    writer = Writer(rng)
    module, commands = writer.script()
    commands = with_steps(rng, commands)
    chance = rng.random()
    commands = writer.budget(is_changed=chance < .13) + commands
    if chance < .13:
        module = change(rng, module)
    elif chance < .18:
        commands = change(rng, commands)
    elif chance < .22:
        commands.insert(rng.randrange(len(commands) + 1), rng.choice(ODD_COMMANDS))
    elif chance < .24:
        commands.insert(0, rng.choice(['', '# x', 'module 1', 'checked', 'cert 1'] + ODD_COMMANDS))
    return module + commands


def odd_module(rng):
    """A small module with odd lines."""
    lines = ['module 1']
    pools = rng.choice([0, 1, 2, 3])
    lines += ['pool p%d %s' % (i, rng.choice(['conn', 'req'] + ['p%d' % j for j in range(i)])) for i in range(pools)]
    lines += ['brigade b%d %s' % (i, rng.choice(['conn', 'req'] + ['p%d' % j for j in range(pools)]))
              for i in range(rng.choice([0, 1, 2, 3]))]
    for handler in HANDLERS:
        label = rng.choice([handler, handler, handler, 'main'])
        lines += [handler, ':' + handler] + [odd_line(rng, label) for _ in range(rng.choice([0, 0, 1, 2]))]
        lines.append(rng.choice(['ret ok'] * 7 + ['clearbuf', 'ret fail']))
    return lines + ['end', 'open', 'run 1', 'pools']


def odd_labels(rng):
    """Few names of labels in all handlers: doubled ones, missing ones, and such as nothing follows."""
    lines, names = ['module 1'], ['a', 'b', 'c', 'd'][:rng.choice([1, 2, 3, 4])]
    for handler in HANDLERS:
        lines.append(handler)
        for _ in range(rng.choice([0, 1, 2, 3, 5])):
            lines.append(rng.choice([':%s', ':%s', 'jump %s', 'jsent %s', 'put 1 %s', 'jeq n0 1 %s', 'ret ok'])
                         .replace('%s', rng.choice(names)))
        lines += ['ret ok'] * (rng.random() < .8) + [':' + rng.choice(names)] * (rng.random() < .1)
    return lines + ['end', 'budget 50', 'open', 'run 1', 'begin 1', 'run 1', 'bring 1 heap "a" eos', 'run 1', 'close 1']


def at_limits(rng):
    """About as many instructions, texts or bytes of a text, and a command about as long, as may be."""
    kind = rng.randrange(4)
    code = []
    if kind == 0:
        code = ['clearbuf'] * rng.choice([1020, 1021, 1022])
    elif kind == 1:
        code = ['%s conn "%d"' % (rng.choice(['label', 'unlabel', 'prelabel']), i % 9) for i in range(rng.choice([63, 64, 65]))]
    elif kind == 2:
        code = ['label conn ' + quote(rng, b'a"' * 127 + b'b' * rng.choice([0, 1, 2]))]
    lines = ['module 1', 'open'] + code + ['ret ok', 'init', 'ret ok', 'main', 'pass in x', ':x', 'ret ok', 'end']
    if kind == 2 and rng.random() < .3:
        lines = ['#' * rng.choice([TEXT_LIMIT - 100, TEXT_LIMIT - 1, TEXT_LIMIT])] + lines
    lines += ['open', 'run 1', 'pools', 'begin 1', 'run 1']
    if kind == 3:
        lines.append('bring 1 heap "%s" eos' % ('z' * (rng.choice([65535, 65536, 65537]) - len('bring 1 heap "" eos'))))
    return lines + ['bring 1', 'run 1', 'output 1', 'close 1']


WAYS = [(.83, played), (.95, odd_module), (.992, odd_labels), (1, at_limits)]


def random_script(rng):
    """The bytes of a random script."""
    chance = rng.random()
    way = next(way for limit, way in WAYS if chance < limit)
    with uncounted():
        lines = way(rng)
    text = '\n'.join(lines).encode('latin-1') + b'\n'
    chance = rng.random()
    if chance < .01:
        return text[:-1]
    return text[:rng.randrange(len(text) + 1)] if chance < .02 else text
