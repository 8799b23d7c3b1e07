#!/usr/bin/env python3
"""Plays random chains of filters that the checker accepts, on random commands of up to three connections. None may have a fault.

    python3 tests/differential/chains.py [N] [SEED] [--program PATH] [--driver PATH [--growths]] [--troubled] [--keep FOLDER]
    python3 tests/differential/chains.py [N] [SEED] --unchecked [--program PATH]
    python3 tests/differential/chains.py [N] [SEED] --write FOLDER

Bodies come in random cuts, and connections are closed at any moment. In every other chain things fail too: openings and reads of
files, and growths of memory. No script can say that, so these chains are played by the reading; and then, with names that run out, a
device that fails where it is told, closes after each step of a call and growths that are refused, by the driver, `acceptance`.
"""
import argparse
import os
import tempfile
import time
import traceback
from contextlib import suppress
from dataclasses import replace

import trials
from accepted import hand_written
from check import pieces
from compare import answer_of, generator_of, report, shown
from driver import Driver
from filters import LEAVING, MEETING, PAIR
from growths import Growths
from modules import FILTERS, random_module
from odd import quote, some_bytes
from reading.certificates import Refusal, make, show_certificate, slim
from reading.chains import Host
from reading.counts import ARISEN, arose, table, uncounted
from reading.scripts import TooBig, play
from reading.texts import FaultyText, assemble_alone

MOST_CONNECTIONS = 3
MEETING_EACH_OTHER = .5                  # how often a filter is one of those that were written for chains
# How often what fails, one of these in a chain.
OFTEN_IN_TROUBLE = {'opening': [0, .05, .3], 'read': [0, .05, .3, 1], 'growth': [0, .001, .01, .05]}
PASSING = .85                            # how often another one passes something
LEFT = .3                                # how often some filters of a chain leave it
NEW = .5                                 # how often a chain has a new filter
OFTEN_CLOSED = .2                        # how often a chain is closed after each step of a call
NO_SCRIPT = (b'asm line ', b'cert line ', b'script line ', b'refused module ')


class Filter:
    """A module: its text, what it says, and the text of its certificate, or None where it is not accepted; `spellings` are that text and those
    of the same states in the slim form and in version 1. Raises FaultyText."""

    def __init__(self, text):
        self.text, self.module = text, assemble_alone(text)
        self.passes = any(word == 'pass' for word, *_ in self.module.code)
        try:
            full = make(self.module)
        except Refusal:
            self.certificate, self.spellings = None, [b'']
        else:
            forms = [full, slim(self.module, full)]
            self.spellings = [show_certificate(one) for form in forms for one in (form, replace(form, numbers=None))]
            self.certificate = self.spellings[0]


class Filters:
    """The filters of which chains are made. They grow: many a chain has a new one."""

    def __init__(self, unchecked):
        self.unchecked = unchecked
        self.known = []
        self.made, self.accepted = 0, 0  # of random modules
        for lines in FILTERS:
            self.take('\n'.join(lines).encode('latin-1') + b'\n')
        self.meeting = [self.take(text) for text in MEETING]
        self.leaving = [self.take(text) for text in LEAVING]

    def take(self, text):
        """The filter of a text, which is known from now on; None where it may not be in a chain."""
        try:
            filter = Filter(text)
        except FaultyText:
            return None
        if not self.unchecked and filter.certificate is None:
            return None
        self.known.append(filter)
        return filter

    def new(self, rng):
        """A random filter."""
        filter = None
        while filter is None:
            filter = self.take(random_module(rng))
            self.made += 1
            self.accepted += filter is not None and filter.certificate is not None
        return filter

    def one(self, rng):
        """A filter that is known."""
        if rng.random() < MEETING_EACH_OTHER:
            return rng.choice(self.meeting)
        passing = [filter for filter in self.known if filter.passes]
        return rng.choice(passing if rng.random() < PASSING else self.known)

    def chain(self, rng):
        """One to four filters."""
        chain = [self.one(rng) for _ in range(rng.choice([1, 2, 2, 3, 3, 4]))]
        if rng.random() < NEW:
            chain[rng.randrange(len(chain))] = self.new(rng)
        elif len(chain) > 1 and rng.random() < .2:
            place = rng.randrange(len(chain) - 1)
            chain[place:place + 2] = [filter for text in PAIR for filter in self.meeting if filter.text == text]
        if rng.random() < LEFT:
            for place in rng.sample(range(len(chain)), rng.randint(1, len(chain))):
                chain[place] = rng.choice(self.leaving)
        return chain


class Talk:
    """Random commands, which are played on the reading as they are written."""

    def __init__(self, rng, chain, troubled, first=None):
        self.rng = rng
        budget = rng.choice([40, 400, 3000]) if rng.random() < .9 else rng.choice([2, 3, 5, 8, 20])
        if first is None:
            self.host = Host([filter.module for filter in chain], self.fails)
            self.host.budget = budget
        else:
            self.host = trials.host_of(chain, budget, first)
        self.chance_of_telling = 0 if first is None else rng.choice([0, .02, .1])
        self.lines = []
        self.answers = []
        self.files = {}                  # their lengths
        self.bodies = {}                 # by connections: the pieces that are still to come
        self.chance_of_stray = rng.choice([0, .02, .1])
        self.chance_of_close = rng.choice([0, .005, .03])
        self.chance_of_trouble = {what: rng.choice(OFTEN_IN_TROUBLE[what]) if troubled else 0 for what in OFTEN_IN_TROUBLE}

    def fails(self, what):
        """Whether the opening, the read or the growth that is tried fails."""
        failed = self.rng.random() < self.chance_of_trouble[what]
        if failed:
            arose(what + ' that fails by chance')
        return failed

    def say(self, *words):
        line = ' '.join(map(str, words))
        self.lines.append(line)
        self.answers.append(trials.told(self.host, line))

    def file(self):
        """A new file."""
        name, length = 'f%d' % len(self.files), self.rng.choice([1, 10, 7999, 8001, 16001])
        self.files[name] = length
        self.say('file', name, length, quote(self.rng, b'%d' % (len(self.files) % 10)))

    def bring(self, number):
        """Pieces of their own, or what comes next of a body."""
        if self.rng.random() < .4:
            self.say('bring', number, *pieces(self.rng, self.files, often=4))
        else:
            if not self.bodies.get(number):
                self.bodies[number] = body(self.rng, self.files)
            self.say('bring', number, *[word_of(self.rng, piece) for piece in self.cut(number)])

    def cut(self, number):
        """The front of a connection's body up to a random place, which may be inside a piece; the rest comes later."""
        left = self.bodies[number]
        place = self.rng.randint(0, len(left))
        front, self.bodies[number] = left[:place], left[place:]
        if front and front[-1][0] not in ('flush', 'eos') and self.rng.random() < .5:
            arose('body cut inside a piece')
            front[-1], rest = halves(front[-1], self.rng)
            self.bodies[number].insert(0, rest)
        return front

    def stray(self):
        """A command for any connection, there or not."""
        number = self.rng.randint(1, self.host.opened + 1)
        word = self.rng.choice(['begin', 'end', 'output', 'labels', 'run', 'step', 'bring', 'pools', 'file', 'close'])
        if word == 'bring':
            self.bring(number)
        elif word == 'file':
            self.file()
        elif word == 'pools':
            self.say(word)
        elif word == 'step':
            self.say(word, number, self.rng.choice([1, 2, 7]))
        elif word != 'close' or self.rng.random() < .2:
            self.say(word, number)

    def turn(self):
        """A command that some connection's state allows, mostly."""
        rng, connections = self.rng, self.host.connections
        if self.chance_of_telling and rng.random() < self.chance_of_telling:
            self.say('fail_at', rng.choice([0, 1, 1, 1, 2, 3, 5, 10]))
        chance = rng.random()
        if not connections or len(connections) < MOST_CONNECTIONS and chance < .05:
            self.say('open')
        elif chance < .05 + self.chance_of_stray:
            self.stray()
        else:
            number = rng.choice(sorted(connections))
            self.turn_of(number, connections[number])

    def turn_of(self, number, connection):
        rng = self.rng
        if rng.random() < (self.chance_of_close if connection.hand_over is None else .1):
            self.say('close', number)
        elif connection.broken:
            self.say(rng.choice(['close', 'close', 'close', 'output', 'labels', 'run', 'end']), number)
        elif connection.is_busy() and rng.random() < .4:
            self.say('run', number)
        elif connection.is_busy():
            self.say('step', number, rng.choice([1, 1, 2, 3, 5, 10]))
        elif connection.req_pool is None:
            self.say('begin', number)
        elif rng.random() < .75:
            self.bring(number)
        else:
            self.say(rng.choice(['end', 'end', 'end', 'output', 'labels', 'close']), number)

    def all(self):
        """Writes the commands: some in turns, and then all that is left is told and closed."""
        for _ in range(self.rng.choice([0, 1, 2, 2])):
            self.file()
        for _ in range(self.rng.choice([30, 100, 200])):
            self.turn()
        self.say('pools')
        for number in sorted(self.host.connections):
            for word in ('output', 'labels', 'close'):
                self.say(word, number)
        self.say('pools')


def body(rng, files):
    """The pieces of a body: (kind, bytes), ('file', name, start, length), ('flush',), and at its end an EOS."""
    pieces = []
    for _ in range(rng.choice([1, 2, 4, 8])):
        kind = rng.choice(['heap', 'transient', 'immortal', 'pool', 'flush'] + ['file'] * (4 * (len(files) > 0)))
        if kind == 'file':
            name = rng.choice(sorted(files))
            start = rng.randint(0, files[name])
            pieces.append((kind, name, start, rng.randint(0, files[name] - start)))
        else:
            pieces.append((kind,) if kind == 'flush' else (kind, bytes(some_bytes(rng))))
    return pieces + [('eos',)] * (rng.random() < .8)


def halves(piece, rng):
    """A piece in two, at a random place."""
    if piece[0] == 'file':
        _, name, start, length = piece
        size = rng.randint(0, length)
        return ('file', name, start, size), ('file', name, start + size, length - size)
    kind, data = piece
    size = rng.randint(0, len(data))
    return (kind, data[:size]), (kind, data[size:])


def word_of(rng, piece):
    """A piece as a script has it."""
    kind, *words = piece
    if kind in ('heap', 'transient', 'immortal', 'pool'):
        return '%s %s' % (kind, quote(rng, words[0]))
    return ' '.join([kind] + [str(word) for word in words])


def play_troubled(rng, chain, path):
    """Plays commands in which things fail; gives whether there was no fault, and keeps the commands where there was."""
    talk = Talk(rng, chain, troubled=True)
    try:
        talk.all()
    except AssertionError:
        wrong = 'the reading is wrong: ' + traceback.format_exc()
    else:
        faults = [line for line in talk.answers if line.startswith('fault ')]
        wrong = 'FAULT of an accepted chain, where things fail: ' + faults[0] if faults else None
    if wrong:
        told = ['%s\n# %s' % both for both in zip(talk.lines, talk.answers)]
        with open(path + '.troubled', 'wb') as file:
            file.write(b''.join(filter.text for filter in chain) + '\n'.join(told).encode('latin-1'))
        print('%s\n  %s.troubled' % (wrong, path))
    return wrong is None


def trials_of(rng, chain):
    """Scripts for the driver, with their answers."""
    first = trials.first_name(rng)
    talk = Talk(rng, chain, troubled=False, first=first)
    talk.all()
    yield trials.Trial(chain, talk.host.budget, first, talk.lines, talk.answers)
    if rng.random() < OFTEN_CLOSED:
        yield from trials.closes(rng, chain, talk.host.budget, first, talk.lines)


def keep(trial, path):
    """Writes a script for the driver beside its answers."""
    with open(path, 'wb') as file, open(path + '.stdout', 'wb') as answers:
        file.write(trial.script())
        answers.write(trial.due)


def drive(rng, chain, path, driver, refuses):
    """Plays scripts with the driver; gives whether all is well, and keeps the script where it is not."""
    for number, trial in enumerate(trials_of(rng, chain)):
        wrong = b'fault ' in trial.due and 'FAULT of an accepted chain, where things fail'
        if not wrong and driver and driver.play(trial.script())[:3] != (trial.due, 0, []):
            wrong = 'the driver answers otherwise'
        if not wrong and driver and refuses and number == 0:
            growth = Growths(driver).fault(rng, trial)
            wrong = growth and 'the driver answers otherwise where growth %d is refused' % growth
        if wrong:
            keep(trial, path + '.trial')
            print('%s\n  %s.trial' % (wrong, path))
            return False
    return True


def write_trials(rng, chain, path):
    """Writes scripts for the driver beside their answers; gives whether none of these is a fault."""
    for number, trial in enumerate(trials_of(rng, chain)):
        keep(trial, '%s_%d' % (path, number))
        if b'fault ' in trial.due:
            print('FAULT of an accepted chain, where things fail\n  %s_%d' % (path, number))
            return False
    return True


def script_of(rng, chain, unchecked):
    """The bytes of a script: the chain with some of its certificates, and a talk."""
    talk = Talk(rng, chain, troubled=False)
    with uncounted(), suppress(AssertionError):          # the script shows what is wrong, too
        talk.all()
    texts = b''.join(filter.text + (rng.choice(filter.spellings) if rng.random() < .5 else b'') for filter in chain)
    lines = ['budget %d' % talk.host.budget] + ['checked'] * (not unchecked) + talk.lines
    return texts + ''.join(line + '\n' for line in lines).encode('latin-1')


def chain_answer(script):
    """The answer that the reading gives. Raises TooBig where it is a matter of memory or time."""
    return (*play(script), b'')


def is_amiss(told, unchecked):
    """Whether an answer tells that the script is none, or a fault of a chain that is accepted."""
    amiss = NO_SCRIPT if unchecked else NO_SCRIPT + (b'fault ',)
    return any(line.startswith(amiss) for line in told[0].splitlines())


def play_chain(players, script, path, unchecked):
    """Plays a script; gives whether all is well, and keeps the script where it is not."""
    try:
        answers = [player(script) for player in players]
        wrong = 'FAULT of an accepted chain: ' + shown(answers[0]) if is_amiss(answers[0], unchecked) else None
    except TooBig:
        return True
    except AssertionError:
        wrong = 'the reading is wrong: ' + traceback.format_exc()
    if wrong:
        with open(path + '.script', 'wb') as file:
            file.write(script)
        print('%s\n  %s.script' % (wrong, path))
        return False
    if answers[0] != answers[-1]:
        report(players, ['reading', 'program'], script, path)
        return False
    return True


def main():
    parser = argparse.ArgumentParser(description='Plays chains of filters that the checker accepts; none may have a fault.')
    parser.add_argument('n', nargs='?', type=int, default=2000, metavar='N', help='how many chains')
    parser.add_argument('seed', nargs='?', default='1', metavar='SEED', help='any word; the same word gives the same chains')
    parser.add_argument('--program', help='a program, whose answers are compared with those of the reading')
    parser.add_argument('--keep', default=tempfile.gettempdir(), help='the folder for a script on which something is amiss')
    parser.add_argument('--unchecked', action='store_true', help='chains of any filters, which may have faults')
    parser.add_argument('--troubled', action='store_true', help='things fail in each chain, and not in every other one')
    parser.add_argument('--driver', help='the program `acceptance`, which plays the chains in which things fail; this needs a compiler cc')
    parser.add_argument('--growths', action='store_true', help='refuse growths of memory to the driver')
    parser.add_argument('--write', metavar='FOLDER', help='write the scripts for the driver, with their answers, and play nothing')
    options = parser.parse_args()
    players = [chain_answer] + ([answer_of(options.program)] if options.program else [])
    driver = Driver(options.driver, tempfile.mkdtemp()) if options.driver else None
    filters = Filters(options.unchecked)
    start = time.monotonic()
    for number in range(options.n):
        rng = generator_of(options.seed, number)
        chain = filters.chain(rng)
        path = os.path.join(options.keep, 'chain_%s_%d' % (options.seed.replace('/', '_'), number))
        if options.write:
            well = write_trials(rng, chain, os.path.join(options.write, os.path.basename(path)))
        elif (number % 2 or options.troubled) and not options.unchecked:
            well = play_troubled(rng, chain, path) and drive(rng, chain, path, driver, options.growths)
        else:
            well = play_chain(players, script_of(rng, chain, options.unchecked), path, options.unchecked)
        if not well:
            return 1
    print(table())
    if not options.unchecked:
        print('accepted: %d of %d random modules' % (filters.accepted, filters.made))
        for kind, accepted, all_of_them in hand_written():
            print('accepted: %d of %d modules of %s' % (accepted, all_of_them, kind))
        print('%d instructions' % ARISEN['instruction done'])
    print('%d chains of seed %s: %s, %d filters, %.0f s' % (
        options.n, options.seed, 'no difference' if options.unchecked else 'no fault', len(filters.known), time.monotonic() - start))
    return 0


if __name__ == '__main__':
    raise SystemExit(main())
