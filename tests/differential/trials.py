"""Scripts for the driver of troubled chains, `acceptance`: names that run out, devices that fail at a call that is told, growths that are
refused, and closes at each step of a call. The reading answers all but the growths; what is right after one of these is said in growths.py.
"""
import copy

from reading.chains import Host
from reading.counts import arose
from reading.pools import LAST
from reading.scripts import answer

LONGEST_CALL = 60                        # a call of more steps is not closed at each of them


class Device:
    """What fails: of the openings and reads that follow, the one that is told, counted from 1. 0 is none."""

    def __init__(self):
        self.due = 0

    def __call__(self, what):
        if what == 'growth' or self.due == 0:
            return False
        self.due -= 1
        if self.due == 0:
            arose(what + ' that fails as it is told')
        return self.due == 0


def first_name(rng):
    """Where names begin: mostly near the last one, so that they run out."""
    return rng.choice([1, LAST - rng.randint(2, 40), LAST - rng.randint(2, 400), LAST - rng.randint(2, 4000)])


def host_of(chain, budget, first):
    host = Host([filter.module for filter in chain], Device(), first)
    host.budget = budget
    return host


def told(host, line):
    """What a line is answered: nothing where it tells the device to fail."""
    if line.startswith('fail_at '):
        host.pools.fails.due = int(line[8:])
        return ''
    return answer(host, line)


def played(chain, budget, first, lines):
    """The answers to lines of a chain that is new."""
    host = host_of(chain, budget, first)
    return [told(host, line) for line in lines], host


class Trial:
    """A script for the driver: its texts, its lines, and what is due to each line."""

    def __init__(self, chain, budget, first, lines, answers):
        texts = b''.join(filter.text + (filter.certificate if place % 2 else b'') for place, filter in enumerate(chain))
        self.head = b'first %d\n' % first + texts + b'budget %d\nchecked\n' % budget
        self.lines = [line.encode('latin-1') for line in lines]
        self.answers = [given.encode('latin-1') for given in answers]
        self.due = b''.join(self.answers)

    def script(self, lines=None):
        """The script that the driver reads, of its own lines or of others."""
        return self.head + b''.join(line + b'\n' for line in (self.lines if lines is None else lines))


def copied(host):
    """A host as this one stands; both have the same modules, which do not change."""
    return copy.deepcopy(host, {id(module): module for module in host.modules})


def steps_of(host, line):
    """How many steps the call makes that the line `run N` goes on with; 0 where it makes none to its end."""
    number = int(line.split()[1])
    before = host.connections[number].count if number in host.connections else 0
    end = told(host, line)
    return host.connections[number].count - before if end.startswith('ended ') else 0


def closes(rng, chain, budget, first, lines):
    """Trials of the lines up to a call, with a close of its connection after each of its steps, and then the lines of the others."""
    runs = [place for place, line in enumerate(lines) if line.startswith('run ')]
    if not runs:
        return
    place = rng.choice(runs)
    answers, host = played(chain, budget, first, lines[:place])
    count = steps_of(copied(host), lines[place])
    if not 0 < count <= LONGEST_CALL:
        return
    number = lines[place].split()[1]
    rest = [line for line in lines[place + 1:] if line.split()[1:2] != [number]]
    for steps in range(1, count):
        arose('close after a step')
        changed, after = ['step %s %d' % (number, steps), 'output ' + number, 'close ' + number] + rest, copied(host)
        yield Trial(chain, budget, first, lines[:place] + changed, answers + [told(after, line) for line in changed])
