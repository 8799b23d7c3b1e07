#!/usr/bin/env python3
"""Measures the filters of filters/: instructions for each byte of a body, and bytes a second beside the identity filter.

    python3 bench/filters.py [PROGRAM]
    python3 bench/filters.py --counts [PROGRAM] [OTHER]
    python3 bench/filters.py --compiled [PROGRAM]

PROGRAM is crates/host_cli/out/host_cli where none is given (`./host` builds it). The body is the page of bench/steps.py.
Time is of 40 such requests on one connection, the best of three runs, less that of a run of 2; the last column is the time as a
multiple of the identity filter's.

With --counts it tells how many instructions of the processor a byte takes, as valgrind counts them: of 3 requests, less those of one. That
is the same on a machine with much other work. With OTHER, an older program, it also tells how many that one takes, and the ratio. Then come
bodies of 2 and of 100 bytes through `upper`, a filter that no walk suits, and bodies of random bytes.

With --compiled it tells the same of each filter that is there as a module written by hand and in the language for authors, and the ratio
of the compiled one to the other.
"""
import os
import random
import statistics
import subprocess
import sys
import tempfile

from steps import BUILT, LINE, LINES, MOST, SIZE, TOP, built, filters, instructions, played

# After how many bytes the random ones come again: a line of a script has no room for more.
NOISE = 4001

# A filter that compares with another number at each byte, so that no round is made again.
COUNTS_UP = '''module 1
open
  ret ok
init
  ret ok
main
:loop
  first c0 in
  jend c0 out
  jkind c0 data work
  bdelete c0
  jump loop
:work
  split c0 8000 whole
:whole
  read c0 bad
  set n0 0
:byte
  get n1 n0 done
  add n0 1
  add n2 1
  jeq n1 n2 byte
  jump byte
:done
  bdelete c0
  jump loop
:out
:bad
  ret ok
end
'''


def seconds(program, module):
    """The time of one request."""
    few, many = (min(played(program, module, MOST, n)[1] for _ in range(3)) for n in (2, 42))
    return max(many - few, 1e-6) / 40


def counted(program, text):
    """How many instructions of the processor a script takes."""
    with tempfile.TemporaryDirectory() as folder:
        words = ['valgrind', '--tool=callgrind', '--callgrind-out-file=' + os.path.join(folder, 'out'), program]
        told = subprocess.run(words, input=text.encode('latin-1'), stdout=subprocess.DEVNULL, stderr=subprocess.PIPE, check=True).stderr.decode()
    return int(next(line for line in told.splitlines() if 'Collected' in line).split(':')[1])


def script(module, piece, size, requests):
    """A script of so many requests with a body of so many bytes of a file."""
    lines = ['budget %d' % MOST, 'file a %d %s' % piece, 'open', 'run 1']
    lines += ['begin 1', 'run 1', 'bring 1 file a 0 %d eos' % size, 'run 1', 'end 1'] * requests
    return module + '\n'.join(lines) + '\n'


def for_a_byte(program, module, piece=(LINES, filters.quoted(LINE)), size=SIZE, few=1, many=3):
    """How many instructions of the processor a byte of a body takes."""
    first, last = (counted(program, script(module, piece, size, requests)) for requests in (few, many))
    return (last - first) / (many - few) / size


def counts(programs):
    """Tells the counts of the programs beside each other."""
    rng = random.Random('bytes')
    noise = bytes(rng.randrange(256) for _ in range(NOISE))
    rows = [(name, filters.text_of(path), {}) for name, path in filters.filters()]
    texts = {name: text for name, text, _ in rows}
    rows += [('upper, %d bytes' % size, texts['upper'], {'size': size, 'few': 100, 'many': 300}) for size in (2, 100)]
    rows += [('counts up', COUNTS_UP, {})]
    rows += [(name + ', noise', texts[name], {'piece': (SIZE // NOISE + 1, filters.quoted(noise))}) for name in ('base64', 'crlf', 'hexdump')]
    print('%-18s%s' % ('filter', ''.join('%10s' % word for word in ('a byte', 'before', 'ratio')[:len(programs) * 2 - 1])))
    for name, text, options in rows:
        took = [for_a_byte(program, text, **options) for program in programs]
        print('%-18s%s' % (name, ''.join('%10.1f' % each for each in took)) + ('%10.2f' % (took[0] / took[1]) if len(took) > 1 else ''), flush=True)


def compiled(program):
    """Tells the counts of the modules that are written by hand, and of those that the compiler makes of the same filter."""
    print('%-12s %9s %9s %6s' % ('filter', 'by hand', 'compiled', 'ratio'))
    ratios = []
    for name, path in filters.filters():
        source = os.path.join(TOP, 'filters', name + '.filter')
        if not os.path.isfile(source):
            continue
        made = subprocess.run([program, 'compile', source], capture_output=True, check=True).stdout.decode('latin-1')
        by_hand, by_compiler = (for_a_byte(program, module) for module in (filters.text_of(path), made))
        ratios.append(by_compiler / max(by_hand, 1e-6))
        print('%-12s %9.1f %9.1f %6.2f' % (name, by_hand, by_compiler, ratios[-1]), flush=True)
    print('median %.2f, worst %.2f' % (statistics.median(ratios), max(ratios)))


def main():
    words = sys.argv[1:]
    if '--compiled' in words:
        words.remove('--compiled')
        return compiled(built(words[0] if words else BUILT))
    if '--counts' in words:
        words.remove('--counts')
        return counts([built(word) for word in words] or [built(BUILT)])
    program = built(words[0] if words else BUILT)
    with open(os.path.join(TOP, 'tests', 'certificates', 'identity.module'), encoding='ascii') as file:
        identity = file.read()
    least = seconds(program, identity)
    print('%-12s %8s %10s %8s' % ('filter', 'a byte', 'MB/s', 'times'))
    for name, module in [('identity', identity)] + [(n, filters.text_of(p)) for n, p in filters.filters()]:
        took = seconds(program, module)
        print('%-12s %8.2f %10.1f %8.1f' % (name, instructions(program, module) / SIZE, SIZE / took / 1e6, took / least))


if __name__ == '__main__':
    main()
