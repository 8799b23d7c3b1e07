"""How many instructions a filter takes for a byte of a page: part of bench/filters.py and bench/serve_filters.py.

A page of 65,536 bytes is brought in one brigade: words and lines, with a tab, an arrow and a comment now and then. Its instructions are
the least budget with which the call ends.
"""
import os
import subprocess
import sys
import time

TOP = os.path.dirname(os.path.dirname(os.path.abspath(__file__)))
BUILT = os.path.join(TOP, 'crates', 'host_cli', 'out', 'host_cli')
sys.path.insert(0, os.path.join(TOP, 'tests'))
import filters  # noqa: E402  (the reader of filters and their tests)

SIZE = 65536
LINE = b'Some words of a page, a -> b,\tand <!-- a remark --> more. \n'
LINES = SIZE // len(LINE) + 1
MOST = 100_000_000


def built(program):
    """The program's path, where it is there."""
    if not os.path.isfile(program):
        raise SystemExit('%s: there is no program %s; ./host builds the one of this repository' % (sys.argv[0], program))
    return os.path.abspath(program)


def script(module, budget, requests, size=SIZE):
    """A script in which so many bytes of a page are sent so many times."""
    lines = ['budget %d' % budget, 'file a %d %s' % (LINES, filters.quoted(LINE)), 'open', 'run 1']
    lines += ['begin 1', 'run 1', 'bring 1 file a 0 %d eos' % size, 'run 1', 'end 1'] * requests
    return module + '\n'.join(lines) + '\n'


def played(program, module, budget, requests):
    """The answers of such a script, and the time that it took."""
    text = script(module, budget, requests)
    start = time.perf_counter()
    done = subprocess.run([program], input=text.encode(), capture_output=True)
    return done.stdout.decode().splitlines(), time.perf_counter() - start


def instructions(program, module):
    """The least budget with which the call with the page ends."""
    low, high = 0, MOST
    while high - low > 1:
        middle = (low + high) // 2
        ends = played(program, module, middle, 1)[0][6].startswith('ended')
        low, high = (low, middle) if ends else (middle, high)
    return high
