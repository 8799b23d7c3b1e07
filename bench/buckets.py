#!/usr/bin/env python3
"""Measures instructions on single buckets beside few and many other buckets, as ratios within one run.

    python3 bench/buckets.py [PROGRAM]
    python3 bench/buckets.py bare [PROGRAM]
    python3 bench/buckets.py rings [RAW SLAB]

PROGRAM is crates/host_cli/out/host_cli where none is given (`./host` builds it). A step is measured in a loop that goes round as
often as takes a tenth of a second, less the loop without it. Each time is the best of three runs. A ratio near 1 says that the
time of a step does not depend on how many other buckets there are.

With `bare` the steps of a checked host, which looks for no fault, are measured beside those of a watched one, and nothing else.

With `rings` the host over rings in a raw block is measured beside the host over rings in a slab, each run of the one after one of the
other. RAW and SLAB are the two programs. Where they are not given both are built: the program of this repository, and in
/tmp/buckets_over_a_slab a copy of its crates in which the host has `PlainRings`. What is proved of the crates below the host is taken
along; those above are proved again, which takes a while the first time.
"""
import os
import shutil
import subprocess
import sys
import time

TOP = os.path.dirname(os.path.dirname(os.path.abspath(__file__)))
BUILT = os.path.join('crates', 'host_cli', 'out', 'host_cli')
WAY = sys.argv[1] if sys.argv[1:2] in (['bare'], ['rings']) else ''
GIVEN = sys.argv[1:] if WAY == '' else sys.argv[2:]
PROGRAM = GIVEN[0] if GIVEN and WAY != 'rings' else os.path.join(TOP, BUILT)

SIZES = (10, 1_000, 10_000, 100_000)
KEPT = (0, 1_000, 64_000)
ENOUGH = .1                              # seconds that a loop is to take
MOST_ROUNDS = 1_000_000

TEN = ' / '.join(['poolb c2 p0 / tail b2 c2'] * 10)

# What is measured: its name, and code that leaves everything as it was. c1 is the first bucket of b0, which has one byte.
STEPS = [
    ('first', 'first c2 b0'),
    ('next', 'next c2 c1'),
    ('first, unlink, tail', 'first c2 b0 / unlink c2 / tail b0 c2'),
    ('first, unlink, head', 'first c2 b0 / unlink c2 / head b0 c2'),
    ('heap, before, unlink, bdelete', 'heap c2 "x" / before c2 c1 / unlink c2 / bdelete c2'),
    ('heap, tail, bdelete', 'heap c2 "x" / tail b0 c2 / bdelete c2'),
    ('copy, bdelete', 'copy c2 c1 / bdelete c2'),
    ('split, next, bdelete', 'split c1 1 bad / next c2 c1 / bdelete c2'),
    ('read, get', 'read c1 bad / get n2 0 bad'),
    ('10 of poolb, tail; bclean', '%s / bclean b2' % TEN),
    ('10 of poolb, tail; pclear, bclean', '%s / pclear p0 / bclean b2' % TEN),
]


def lines(code):
    return code.replace(' / ', '\n') + '\n' if code else ''


def script(setup, code, rounds, calls=0):
    """A script whose first brought brigade runs `setup` and then `code` so many times; later ones return at once."""
    loop = ':round\n%sadd n1 1\njlt n1 %d round\n' % (lines(code), rounds) if rounds else ''
    module = ('module 1\npool p0 conn\nbrigade b0 conn\nbrigade b1 conn\nbrigade b2 conn\nopen\npcreate p0\nbcreate b0\nbcreate b1\nbcreate b2\nret ok\n'
              'init\nret ok\nmain\njeq n7 1 done\n'
              'set n7 1\n%s%s:done\nret ok\n:bad\nret fail\nend\n' % (lines(setup), loop))
    return module + 'budget 18446744073709551615\nopen\nrun 1\nbegin 1\nrun 1\n' + 'bring 1\nrun 1\n' * (calls + 1)


def filled(brigade, count, label):
    """Code that fills a brigade with so many buckets."""
    return 'set n0 0 / :%s / heap c0 "x" / tail %s c0 / add n0 1 / jlt n0 %d %s' % (label, brigade, count, label)


def once(program, text, last):
    """The seconds that a script takes whose last answer is this."""
    start = time.perf_counter()
    done = subprocess.run([program], input=text.encode(), capture_output=True)
    took = time.perf_counter() - start
    if not done.stdout.endswith(b'\n' + last + b'\n'):
        raise SystemExit('unexpected answer: %r' % done.stdout[-100:])
    return took


def seconds(text):
    return min(once(PROGRAM, text, b'ended ok') for _ in range(3))


def each(setup, code):
    """The seconds that one round of the code takes, less those of an empty round."""
    rounds, base = 1_000, seconds(script(setup, '', 0))
    while True:
        took = seconds(script(setup, code, rounds)) - base
        if took >= ENOUGH or rounds >= MOST_ROUNDS:
            empty = seconds(script(setup, '', rounds)) - base
            return max(took - empty, 1e-12) / rounds
        rounds = min(MOST_ROUNDS, rounds * max(2, min(20, int(1.5 * ENOUGH / max(took, .001)))))


def told(name, where, times):
    print('%-34s %-20s %s' % (name, where, '  '.join('%8.0f ns (%.1f)' % (1e9 * took, took / times[0]) for took in times)))


def steps():
    print('One round among %s buckets, and the ratio to the first:' % ', '.join(format(size, ',') for size in SIZES))
    for name, code in STEPS:
        same = ['%s / first c1 b0' % filled('b0', size, 'fill') for size in SIZES]
        other = ['%s / %s / first c1 b0' % (filled('b1', size, 'fill'), filled('b0', 10, 'few')) for size in SIZES]
        told(name, 'of the same brigade', [each(setup, code) for setup in same])
        told(name, 'of another brigade', [each(setup, code) for setup in other])


MOVE = ':move / first c1 b0 / jend c1 moved / unlink c1 / tail b1 c1 / jump move / :moved / bconcat b0 b1'


def moves():
    """A brigade moved bucket by bucket, against a loop of numbers that goes round as often."""
    for size in SIZES[1:3]:
        setup = filled('b0', size, 'fill')
        count = 'set n3 0 / :count / add n3 1 / jlt n3 %d count' % size
        one, other = each(setup, MOVE) / size, each(setup, count) / size
        print('a bucket of %s moved by `first jend unlink tail jump`: %.0f ns; a round of `add jlt`: %.0f ns; ratio of one instruction %.1f'
              % (format(size, ','), 1e9 * one, 1e9 * other, one / 5 / (other / 2)))


def checked(text):
    """The script on a host whose chain is checked first."""
    budget = 'budget 18446744073709551615\n'
    return text.replace(budget, budget + 'checked\n')


def bare():
    """A brigade moved bucket by bucket on a watched host and on a checked one, which looks for no fault: each run of the one after one of the other."""
    size, rounds = 1_000, 200
    setup = filled('b0', size, 'fill')
    few, many = script(setup, '', 0), script(setup, MOVE, rounds)
    texts = [few, many, checked(few), checked(many)]
    times = [min(column) for column in zip(*([once(PROGRAM, text, b'ended ok') for text in texts] for _ in range(RUNS)))]
    watched, unwatched = (times[k + 1] - times[k] for k in (0, 2))
    print('a bucket moved by `first jend unlink tail jump`: %.0f ns on a watched host, %.0f ns on a checked one; %.2f times the steps'
          % (1e9 * watched / rounds / size, 1e9 * unwatched / rounds / size, watched / unwatched))


PASSER = ('module 1\nopen\nret ok\ninit\nret ok\nmain\njeq n7 1 done\nset n7 1\npass in done\n:done\nret ok\nend\n')


def returns(keeper, before):
    """Calls that return at once, while so many buckets are kept; the keeper has the first word in what is printed."""
    first = None
    for size in KEPT:
        setup = filled('b0', size, 'fill') if size else 'set n0 0'
        calls, base = 100, seconds(before + script(setup, '', 0))
        took = 0
        while took < ENOUGH and calls < 100_000:
            calls *= 4
            took = seconds(before + script(setup, '', 0, calls)) - base
        first = first or took / calls
        print('a call that returns while %s keeps %s buckets: %.1f us; ratio %.1f' % (keeper, format(size, ','), 1e6 * took / calls, took / calls / first))


class Driven:
    """The program, driven line by line: each answer is read before the next line is sent."""

    def __init__(self, module, program=PROGRAM):
        self.program = subprocess.Popen([program], stdin=subprocess.PIPE, stdout=subprocess.PIPE)
        self.program.stdin.write((module + 'budget 18446744073709551615\n').encode())

    def ask(self, line, answer):
        self.program.stdin.write(line.encode() + b'\n')
        self.program.stdin.flush()
        said = self.program.stdout.readline().decode().rstrip('\n')
        if said != answer:
            raise SystemExit('unexpected answer to %r: %r' % (line[:40], said))

    def end(self):
        self.program.stdin.close()
        self.program.wait()


SAVER = ('module 1\nbrigade b0 conn\nopen\nbcreate b0\nret ok\ninit\nbclean b0\nret ok\nmain\nbsave b0 in\nret ok\nend\n')
AT_ONCE = 4_000                          # pieces in one `bring`: a line has at most 65,536 bytes


def end_of(count, rounds):
    """The seconds that the end of a request takes which saved so many files; the best of some."""
    driven, best = Driven(SAVER), None
    driven.ask('file a 1 "x"', 'ok')
    driven.ask('open', 'conn 1')
    driven.ask('run 1', 'ended ok')
    for _ in range(rounds):
        driven.ask('begin 1', 'ok')
        driven.ask('run 1', 'ended ok')
        for first in range(0, count, AT_ONCE):
            driven.ask('bring 1' + ' file a 0 1' * min(AT_ONCE, count - first), 'ok')
            driven.ask('run 1', 'ended ok')
        start = time.perf_counter()
        driven.ask('end 1', 'ok')
        took = time.perf_counter() - start
        best = took if best is None else min(best, took)
    driven.end()
    return best


def ends():
    """Requests that end when so many files were saved for the next."""
    first = end_of(KEPT[1], 20)
    for size, took in ((KEPT[1], first), (KEPT[2], end_of(KEPT[2], 5))):
        print('the end of a request that saved %s files: %.0f us; ratio %.1f' % (format(size, ','), 1e6 * took, took / first))


SLAB = '/tmp/buckets_over_a_slab'
HOST = os.path.join('crates', 'filter_chain', 'src', 'host.rt')
SWAPS = [('use bucket_ring::RawRings;', 'use bucket_ring::PlainRings;'), ('Brigades<RawRings<Stored>>', 'Brigades<PlainRings<Stored>>')]
RUNS = 5


def copied(crate):
    """Copies a crate, and its proved library where the copy has none."""
    source, copy = os.path.join(TOP, 'crates', crate), os.path.join(SLAB, 'crates', crate)
    fresh = not os.path.isdir(os.path.join(copy, 'out'))
    for part in os.listdir(source):
        if part != 'out':
            shutil.rmtree(os.path.join(copy, part), ignore_errors=True)

    def left_out(folder, names):
        if os.path.basename(folder) != 'out' or os.path.dirname(folder) != source:
            return []
        return [it for it in names if it != 'rlib'] if fresh else names

    shutil.copytree(source, copy, ignore=left_out, dirs_exist_ok=True)


def over_a_slab():
    """The program whose host has rings in a slab."""
    for crate in os.listdir(os.path.join(TOP, 'crates')):
        copied(crate)
    for file in ('crates.txt', 'HANDLES'):
        shutil.copy2(os.path.join(TOP, file), SLAB)
    with open(os.path.join(SLAB, HOST)) as it:
        text = it.read()
    for old, new in SWAPS:
        if text.count(old) != 1:
            raise SystemExit('%s: %r stands there %d times, and not once' % (HOST, old, text.count(old)))
        text = text.replace(old, new)
    with open(os.path.join(SLAB, HOST), 'w') as it:
        it.write(text)
    program = os.path.join(SLAB, BUILT)
    if os.path.exists(program):
        os.remove(program)
    done = subprocess.run(['rt', 'run'], cwd=os.path.join(SLAB, 'crates', 'host_cli'), stdin=subprocess.DEVNULL, capture_output=True, text=True)
    if not os.access(program, os.X_OK):
        raise SystemExit(done.stdout + done.stderr)
    return program


def both(programs, text, last):
    """The best seconds of each program, run in turn."""
    times = [[once(program, text, last) for program in programs] for _ in range(RUNS)]
    return [min(column) for column in zip(*times)]


def alone(programs, code, connection=1):
    """The seconds of each program for one `step 1 1` within code that goes round forever; of no such connection, those of the command alone."""
    count, text = 100_000, script('%s / first c1 b0 / %s' % (filled('b0', 1_000, 'fill'), code), '', 0)
    text += 'step 1 5000\n' + 'step %d 1\n' % connection * count
    answer = b'went 1' if connection == 1 else b'refused NoSuchConn'
    text = text.replace('bring 1\nrun 1\n', 'bring 1\n')
    return [took / count for took in both(programs, text, answer)]


def single_steps(programs):
    """A bucket that is moved, beside a round of `add jlt`: each instruction stepped alone, less what the command takes."""
    none = alone(programs, ':round / add n1 1 / jlt n1 4294967295 round', 2)
    move = alone(programs, MOVE + ' / jump move')
    count = alone(programs, ':round / add n1 1 / jlt n1 4294967295 round')
    for kind, n, m, c in zip(KINDS, none, move, count):
        print('over %s: an instruction of a bucket moved (`first jend unlink tail jump`) %.0f ns, one of `add jlt` %.0f ns, each stepped alone; ratio %.2f'
              % (kind, 1e9 * (m - n), 1e9 * (c - n), (m - n) / (c - n)))


def requests(programs):
    """Requests of the identity filter, with a brigade of 1,000 buckets."""
    module = 'module 1\nopen\nret ok\ninit\nret ok\nmain\npass in bad\nret ok\n:bad\nret fail\nend\nbudget 18446744073709551615\nopen\nrun 1\n'
    one = 'begin 1\nrun 1\nbring 1%s eos\nrun 1\nend 1\n' % (' heap "x"' * 1_000)
    count = 1_000
    few, many = both(programs, module + one, b'ok'), both(programs, module + one * (count + 1), b'ok')
    each_one = [(m - f) / count for f, m in zip(few, many)]
    print('a request of the identity filter, a brigade of 1,000 buckets: %s; ratio %.2f'
          % (', '.join('%.0f a second over %s' % (1 / took, kind) for kind, took in zip(KINDS, each_one)), each_one[1] / each_one[0]))


def resident(program, count):
    """The bytes that the program keeps while a brigade keeps so many buckets without content."""
    fill = 'set n0 0 / :fill / flush c0 / tail b0 c0 / add n0 1 / jlt n0 %d fill' % count
    driven = Driven(script(fill, '', 0).split('budget')[0], program)
    for line, answer in (('open', 'conn 1'), ('run 1', 'ended ok'), ('begin 1', 'ok'), ('run 1', 'ended ok'), ('bring 1', 'ok'), ('run 1', 'ended ok')):
        driven.ask(line, answer)
    with open('/proc/%d/status' % driven.program.pid) as it:
        kept = next(int(line.split()[1]) * 1024 for line in it if line.startswith('VmRSS'))
    driven.end()
    return kept


def sizes_of_buckets(programs):
    """What a bucket takes where the places of a ring's memory are all but full: 2^16 and 2^17 of them."""
    few, many = 65_000, 130_000
    for kind, program in zip(KINDS, programs):
        print('over %s: %.0f bytes for a bucket in a ring, beside its content' % (kind, (resident(program, many) - resident(program, few)) / (many - few)))


KINDS = ('a raw block', 'a slab')


def rings():
    """The host over rings of both kinds."""
    if len(GIVEN) == 2:
        programs = GIVEN
    else:
        subprocess.run([os.path.join(TOP, 'host')], stdin=subprocess.DEVNULL, stdout=subprocess.DEVNULL)
        programs = [PROGRAM, over_a_slab()]
    single_steps(programs)
    requests(programs)
    sizes_of_buckets(programs)


def main():
    if WAY == 'rings':
        return rings()
    if not os.access(PROGRAM, os.X_OK):
        raise SystemExit('bench/buckets.py: there is no program %s; ./host builds the one of this repository' % PROGRAM)
    if WAY == 'bare':
        return bare()
    steps()
    moves()
    bare()
    returns('its filter', '')
    returns('the next filter', PASSER)
    ends()


if __name__ == '__main__':
    main()
