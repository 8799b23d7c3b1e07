#!/usr/bin/env python3
"""Measures chains and many connections, as ratios within one run.

    python3 bench/connections.py [PROGRAM [flat]]

PROGRAM is crates/host_cli/out/host_cli where none is given (`./host` builds it). Each time is processor time of the program, the best
of three.

    step       one instruction of a connection, beside 0, 1,000, 10,000 and 100,000 other connections that hold a request each
    request    begin, bring, run, output and end of a connection, beside as many
    open       a connection is opened and its `open` handler run, beside as many
    close      a connection is closed, beside as many
    idle       bytes of memory that a connection takes, idle and with a request, for chains of 1 and 16 filters
    chain      the same request through chains of 1, 4 and 16 filters that pass what they get
    flat       resident memory after so many requests on 100 connections in turn, and after so many connections that were opened and
               closed one after another, up to a million

With the word `flat` behind PROGRAM it measures that alone, in some minutes.
"""
import os
import subprocess
import sys
import threading

from steps import BUILT, built

PROGRAM = built(sys.argv[1] if len(sys.argv) > 1 else BUILT)

OTHERS = (0, 1_000, 10_000, 100_000)
CHAINS = (1, 4, 16)
STEPS = 60_000_000
REQUESTS = 20_000
OPENS = 10_000
TURNS = (10_000, 100_000, 1_000_000)
BUDGET = 'budget 18446744073709551615\n'

THROUGH = 'module 1\nopen\nret ok\ninit\nret ok\nmain\npass in bad\nret ok\n:bad\nret fail\nend\n'
LOOP = 'module 1\nopen\nret ok\ninit\nret ok\nmain\n:round\nadd n1 1\njlt n1 %d round\nret ok\nend\n'


def opened(numbers):
    """Lines that open these connections and begin a request on each."""
    return ''.join('open\nrun %d\nbegin %d\nrun %d\n' % (k, k, k) for k in numbers)


def request(k):
    return 'begin %d\nrun %d\nbring %d heap "a" eos\nrun %d\noutput %d\nend %d\n' % (k, k, k, k, k, k)


class Talk:
    """A program that answers line by line, and its resident memory."""

    def __init__(self, head):
        self.program = subprocess.Popen([PROGRAM], stdin=subprocess.PIPE, stdout=subprocess.PIPE)
        self.write(head)

    def say(self, text):
        # What is answered is read beside, since a pipe holds little.
        wanted = text.count('\n')
        writer = threading.Thread(target=self.write, args=(text,))
        writer.start()
        return writer, wanted

    def write(self, text):
        self.program.stdin.write(text.encode())
        self.program.stdin.flush()

    def answers(self, text):
        writer, wanted = self.say(text)
        for _ in range(wanted):
            line = self.program.stdout.readline()
            if not line or line.startswith(b'refused'):
                raise SystemExit('the script did not go through: %r' % line)
        writer.join()

    def seconds(self):
        """Processor time that the program has had."""
        with open('/proc/%d/schedstat' % self.program.pid, encoding='ascii') as file:
            return int(file.read().split()[0]) / 1e9

    def time(self, text):
        """Processor time that these commands take."""
        before = self.seconds()
        self.answers(text)
        return self.seconds() - before

    def memory(self):
        with open('/proc/%d/statm' % self.program.pid, encoding='ascii') as file:
            return int(file.read().split()[1]) * os.sysconf('SC_PAGE_SIZE')

    def end(self):
        self.program.stdin.close()
        self.program.stdout.read()
        self.program.wait()


def row(name, figures, first):
    print('%-22s' % name + ''.join('  %10s: %9.3f us, ratio %.2f' % (label, 1e6 * value, value / first) for label, value in figures), flush=True)


def beside(name, head, once, count):
    """A row: the least processor time of three for what `once(talk, number)` gives, beside others, for one of `count`."""
    found = []
    for others in OTHERS:
        talk = Talk(head)
        talk.answers(opened(range(1, others + 1)))
        number, times = others + 1, []
        for _ in range(3):
            taken, number = once(talk, number)
            times.append(taken)
        talk.end()
        found.append((others, min(times) / count))
    row(name, found, found[0][1])


def step(talk, number):
    talk.answers(opened([number]))
    return talk.time('bring %d\nrun %d\n' % (number, number)), number + 1


def requests(talk, number):
    talk.answers('open\nrun %d\n' % number)
    return talk.time(request(number) * REQUESTS), number + 1


def opens(talk, number):
    return talk.time(''.join('open\nrun %d\n' % k for k in range(number, number + OPENS))), number + OPENS


def closes(talk, number):
    opens(talk, number)
    return talk.time(''.join('close %d\n' % k for k in range(number, number + OPENS))), number + OPENS


def chains():
    found = []
    for length in CHAINS:
        talk = Talk(THROUGH * length + BUDGET)
        talk.answers('open\nrun 1\n')
        found.append((length, min(talk.time(request(1) * REQUESTS) for _ in range(3)) / REQUESTS))
        talk.end()
    row('request, by filters', found, found[0][1])


def memory():
    """Bytes for one connection more, idle and in a request."""
    count = 5_000
    for length in (1, 16):
        talk = Talk(THROUGH * length + BUDGET)
        talk.answers('open\nrun 1\n')
        first = talk.memory()
        talk.answers(''.join('open\nrun %d\n' % k for k in range(2, count + 2)))
        idle = talk.memory()
        talk.answers(''.join('begin %d\nrun %d\n' % (k, k) for k in range(2, count + 2)))
        busy = talk.memory()
        talk.end()
        print('memory, chain of %2d     idle: %d bytes, with a request: %d bytes' % (length, (idle - first) // count, (busy - first) // count))


def flat():
    talk = Talk(THROUGH + BUDGET)
    talk.answers(''.join('open\nrun %d\n' % k for k in range(1, 101)))
    done, found = 0, []
    for turns in TURNS:
        while done < turns:
            talk.answers(''.join(request(k) for k in range(1, 101)))
            done += 100
        found.append('%d: %.1f MiB' % (turns, talk.memory() / 2 ** 20))
    talk.end()
    print('resident after requests  ' + ', '.join(found), flush=True)


def flat_opens():
    talk = Talk(THROUGH + BUDGET)
    done, found = 0, []
    for turns in TURNS:
        while done < turns:
            talk.answers(''.join('open\nrun %d\nclose %d\n' % (k, k) for k in range(done + 1, done + 1001)))
            done += 1000
        found.append('%d: %.1f MiB' % (turns, talk.memory() / 2 ** 20))
    talk.end()
    print('resident after opens     ' + ', '.join(found), flush=True)


if __name__ == '__main__':
    if sys.argv[2:] != ['flat']:
        beside('step, beside others', (LOOP % (STEPS // 2)) + BUDGET, step, STEPS)
        beside('request, beside others', THROUGH + BUDGET, requests, REQUESTS)
        beside('open, beside others', THROUGH + BUDGET, opens, OPENS)
        beside('close, beside others', THROUGH + BUDGET, closes, OPENS)
        chains()
        memory()
    flat()
    flat_opens()
