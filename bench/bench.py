#!/usr/bin/env python3
"""Measures the built program, so that a change is compared with what was there before in one run each.

    python3 bench/bench.py [PROGRAM]

PROGRAM is crates/host_cli/out/host_cli where none is given (`./host` builds it). Each figure is the best of three runs,
less the time of a run that does the same without the measured part.
"""
import os
import subprocess
import sys
import time

TOP = os.path.dirname(os.path.dirname(os.path.abspath(__file__)))
PROGRAM = sys.argv[1] if len(sys.argv) > 1 else os.path.join(TOP, 'crates', 'host_cli', 'out', 'host_cli')

LOOP = 'module 1\nopen\nret ok\ninit\nret ok\nmain\n:a\njump a\nend\n'
IDENTITY = ('module 1\nopen\nret ok\ninit\nret ok\nmain\njsent drop\npass in bad\nret ok\n'
            ':drop\nbclean in\nret ok\n:bad\nret fail\nend\n')
BEGUN = 'open\nrun 1\nbegin 1\nrun 1\n'


def seconds(script, ends):
    best = None
    for _ in range(3):
        start = time.perf_counter()
        done = subprocess.run([PROGRAM], input=script, capture_output=True)
        took = time.perf_counter() - start
        if not done.stdout.endswith(ends):
            raise SystemExit('unexpected answer: %r' % done.stdout[-100:])
        best = took if best is None else min(best, took)
    return best


def loop(budget):
    script = LOOP + 'budget %d\n' % budget + BEGUN + 'bring 1 eos\nrun 1\n'
    return seconds(script.encode(), b'refused Broken(OutOfSteps)\n')


def brigades(count, taken):
    once = 'bring 1 heap "%s"\nrun 1\n' % ('x' * 100) + ('output 1\n' if taken else '')
    ends = b'ended ok\n' if count == 0 or not taken else b'"\n'
    return seconds((IDENTITY + BEGUN + once * count).encode(), ends)


def requests(count):
    once = 'begin 1\nrun 1\nbring 1 file a 0 100 eos\nrun 1\nend 1\n'
    script = IDENTITY + 'file a 100 "x"\nopen\nrun 1\n' + once * count + 'labels 1\n'
    return seconds(script.encode(), b'labels\n')


def assembled(filler):
    head, tail = 'module 1\nopen\nret ok\ninit\nret ok\nmain\n', 'ret ok\nend\n'
    room = 1048576 - len(head) - len(tail)
    lines, i = [], 0
    while room > 0:
        line = filler(i)
        if len(line) > room:
            line = '#' * (room - 1) + '\n'
        lines.append(line)
        room -= len(line)
        i += 1
    text = head + ''.join(lines) + tail
    assert len(text) == 1048576
    return seconds((text + BEGUN).encode(), b'ended ok\n')


def name(i):
    letters = ''
    for _ in range(4):
        letters += chr(97 + i % 26)
        i //= 26
    return letters


def main():
    if not os.access(PROGRAM, os.X_OK):
        raise SystemExit('bench/bench.py: there is no program %s; ./host builds the one of this repository' % PROGRAM)
    n = 20_000_000
    print('watched instructions per second, `jump` to itself: %.2e' % (n / (loop(n) - loop(0))))
    for count in (5_000, 20_000):
        took = brigades(count, False) - brigades(0, False)
        print('brought brigades of 100 bytes per second, %d of them, output kept: %.2e' % (count, count / took))
        took = brigades(count, True) - brigades(0, True)
        print('brought brigades of 100 bytes per second, %d of them, output taken each time: %.2e' % (count, count / took))
        took = requests(count) - requests(0)
        print('requests per second that bring a file, %d of them: %.2e' % (count, count / took))
    print('a module text of 1,048,576 bytes, of labels: %.3f s' % assembled(lambda i: ':%s\n' % name(i)))
    print('a module text of 1,048,576 bytes, of comments: %.3f s' % assembled(lambda i: '# comment %d\n' % i))


if __name__ == '__main__':
    main()
