#!/usr/bin/env python3
"""Measures a request by script of a filter that passes on, on a checked host, of several programs by turns.

    python3 bench/by_script.py [PROGRAM ..] [--requests N] [--rounds N] [--processor N]

Each PROGRAM plays a script of N requests (`begin`, `run`, `bring` of 2 bytes of the heap and an EOS, `run`, `output`, `end`); where none is
given it is crates/host_cli/out/host_cli (`./host` builds it). Told are the least and the middle of its processor time for a request, and
how many times as fast it is as the first program: the middle of the ratios of each round. So a program is compared with that of an earlier text.
"""
import argparse
import os
import resource
import statistics
import subprocess
import tempfile

from steps import BUILT, built

FILTER = '''\
module 1
open
  ret ok
init
  ret ok
main
  jsent drop
  pass in bad
  ret ok
:drop
  bclean in
  ret ok
:bad
  ret fail
end
checked
open
run 1
'''
REQUEST = 'begin 1\nrun 1\nbring 1 heap "ab" eos\nrun 1\noutput 1\nend 1\n'


def spent():
    """The processor time of the programs that have ended, in seconds."""
    used = resource.getrusage(resource.RUSAGE_CHILDREN)
    return used.ru_utime + used.ru_stime


def played(program, script):
    """The processor time that the program takes for a script, in seconds, and the last line that it answers."""
    before = spent()
    script.seek(0)
    told = subprocess.run([program], stdin=script, stdout=subprocess.PIPE, check=True).stdout
    return spent() - before, told.splitlines()[-1]


def main():
    parser = argparse.ArgumentParser(description=__doc__.splitlines()[0])
    parser.add_argument('programs', nargs='*', default=[BUILT], metavar='PROGRAM')
    parser.add_argument('--requests', type=int, default=300_000, metavar='N')
    parser.add_argument('--rounds', type=int, default=41, metavar='N')
    parser.add_argument('--processor', type=int, metavar='N', help='the one on which all programs run')
    options = parser.parse_args()
    programs = [built(program) for program in options.programs]
    if options.processor is not None:
        os.sched_setaffinity(0, {options.processor})
    times = [[] for _ in programs]
    with tempfile.TemporaryFile() as script:
        script.write((FILTER + REQUEST * options.requests).encode())
        for turn in range(options.rounds):
            for index in range(len(programs)) if turn % 2 == 0 else reversed(range(len(programs))):
                took, last = played(programs[index], script)
                if last != b'ok':
                    raise SystemExit('%s: the last request was answered by %r' % (programs[index], last))
                times[index].append(took / options.requests * 1e6)
    for program, own in zip(programs, times):
        ratio = statistics.median(first / one for first, one in zip(times[0], own))
        print('%s: %.3f us a request at best, %.3f in the middle, %.2f times as fast as the first' % (program, min(own), statistics.median(own), ratio))


if __name__ == '__main__':
    main()
