#!/usr/bin/env python3
"""Measures what the gate spends its processor time on: the first proof of each crate, the second one that its wrong bodies
begin with, the wrong bodies, and the compilers of programs.

    python3 bench/gate.py [COMMAND ..]      by default .ci/run

The last line is a ratio within one run: all processor time beside that of the first proof of `module_code`. Machines differ by
two to four times, and so does one from hour to hour; the ratio differs less.

What runs is looked at each second in /proc, so each check may lack its last second, and a process that is shorter may be missed. `other`
is what is neither a proof nor written in Python: mostly the compilers. The processor time of the line before the last is what the system
counted, of all processes.
"""
import os
import resource
import subprocess
import sys
import time

TOP = os.path.dirname(os.path.dirname(os.path.abspath(__file__)))
TICKS = os.sysconf('SC_CLK_TCK')
KINDS = ('first', 'second', 'wrong', 'other')
YARDSTICK = 'module_code'


def parents():
    """Returns the parent of each process, by number."""
    found = {}
    for pid in filter(str.isdigit, os.listdir('/proc')):
        try:
            with open(f'/proc/{pid}/stat', encoding='utf-8', errors='replace') as it:
                found[int(pid)] = int(it.read().rpartition(')')[2].split()[1])
        except OSError:
            pass
    return found


def below(top):
    """Returns the processes that stand below one."""
    of = parents()
    found, due = [], [top]
    while due:
        children = [it for it, parent in of.items() if parent == due[-1]]
        due.pop()
        found += children
        due += children
    return found


def kind_of(words, folder):
    """Returns what a process does for the gate, and for which crate. Wrong bodies are tried in folders of their own."""
    name = words[words.index('--crate-name') + 1] if '--crate-name' in words else 'programs'
    if os.path.basename(words[0]) != 'rattle' or words[1:2] not in (['build'], ['check']) or '--toolchain' in words:
        return 'other', name
    if 'rt-edit-' not in folder:
        return 'first', name
    kept = words[words.index('--incremental') + 1] if '--incremental' in words else ''
    return ('second' if kept.endswith('/seed') else 'wrong'), name


def look(seen, top):
    """Notes the processor time of what runs below a process."""
    for pid in below(top):
        try:
            with open(f'/proc/{pid}/cmdline', 'rb') as it:
                words = [word.decode(errors='replace') for word in it.read().split(b'\0') if word]
            with open(f'/proc/{pid}/stat', encoding='utf-8', errors='replace') as it:
                fields = it.read().rpartition(')')[2].split()
            folder = os.readlink(f'/proc/{pid}/cwd')
        except OSError:
            continue
        if words and 'python' not in words[0]:
            seen[pid, fields[19]] = kind_of(words, folder), (int(fields[11]) + int(fields[12])) / TICKS


def table(seen, wall, spent):
    """Prints the seconds by crate, the dearest first."""
    by = {}
    for (kind, name), seconds in seen.values():
        row = by.setdefault(name, dict.fromkeys(KINDS, 0.0))
        row[kind] += seconds
    line = '{:14}' + ' {:>8}' * (len(KINDS) + 1)
    print(line.format('crate', *KINDS, 'all'))
    for name, row in sorted(by.items(), key=lambda it: -sum(it[1].values())):
        print(line.format(name, *(f'{row[it]:.0f}' for it in KINDS), f'{sum(row.values()):.0f}'))
    sums = [sum(row[it] for row in by.values()) for it in KINDS]
    print(line.format('in all', *(f'{it:.0f}' for it in sums), f'{sum(sums):.0f}'))
    print(f'wall clock {wall / 60:.1f} minutes, processor {spent / 60:.1f} minutes')
    unit = by.get(YARDSTICK, {}).get('first', 0.0)
    if unit > 1:
        print(f'all beside the first proof of {YARDSTICK}: {spent / unit:.1f}')


def main():
    command = sys.argv[1:] or [f'{TOP}/.ci/run']
    seen, began = {}, time.time()
    with subprocess.Popen(command, cwd=TOP) as ran:
        while ran.poll() is None:
            look(seen, ran.pid)
            time.sleep(1)
    used = resource.getrusage(resource.RUSAGE_CHILDREN)
    table(seen, time.time() - began, used.ru_utime + used.ru_stime)
    return ran.returncode


if __name__ == '__main__':
    sys.exit(main())
