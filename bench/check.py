#!/usr/bin/env python3
"""Measures `certify` and `check` on modules of growing size, and `check` with the slim form of the certificate. Then it tells how many bytes the
certificates of filters/ have, full and slim, beside the same in version 1.

    python3 bench/check.py [PROGRAM]

PROGRAM is crates/host_cli/out/host_cli where none is given (`./host` builds it). Each time is the best of five runs, less that of
a run which reads the same module and a certificate text that is none. The memory is the most that the process had at once.
"""
import glob
import os
import subprocess
import sys
import tempfile
import time

TOP = os.path.dirname(os.path.dirname(os.path.abspath(__file__)))
PROGRAM = sys.argv[1] if len(sys.argv) > 1 else os.path.join(TOP, 'crates', 'host_cli', 'out', 'host_cli')
HEAD = ['module 1', 'brigade b0 conn', 'open', 'bcreate b0', 'ret ok', 'init', 'bclean b0', 'ret ok', 'main']
USED = 4                                 # instructions of `open` and `init`


def straight(size):
    """Buckets that are made and put in, one after the other."""
    pairs = (size - USED - 2) // 2
    return ['eos c%d / tail b0 c%d' % (i % 8, i % 8) if i % 5 == 0 else 'heap c%d "" / tail b0 c%d' % (i % 8, i % 8) if i < 60
            else 'flush c%d / tail b0 c%d' % (i % 8, i % 8) for i in range(pairs)]


def joins(size):
    """Jumps over one instruction each, so that two ways meet at every second one."""
    return ['jlt n0 %d l%d / flush c%d / :l%d' % (i, i, i % 8, i) for i in range((size - USED - 2) // 2)]


def nested(size):
    """Loops nested 8 deep, as many as there is room for, each with a walk inside that learns about a cursor."""
    blocks = []
    for k in range((size - USED - 2) // 21):
        begin = [':a%dx%d / %s' % (k, d, 'first c%d in' % d) for d in range(8)]
        end = ['jlt n%d 9 a%dx%d' % (d, k, d) for d in reversed(range(8))]
        blocks += begin + ['jend c7 z%d / unlink c7 / tail in c7 / jempty b0 z%d / :z%d / clearbuf' % (k, k, k)] + end
    return blocks


def module(body, size):
    lines = [line for part in body(size) for line in part.split(' / ')]
    return '\n'.join(HEAD + lines + ['bclean b0', 'ret ok', 'end']) + '\n'


def run(words, status=0):
    """The best time of five runs, the most memory in KiB, and what was printed."""
    best, most, printed = None, 0, b''
    for _ in range(5):
        with tempfile.TemporaryFile() as out:
            start = time.perf_counter()
            process = subprocess.Popen([PROGRAM] + words, stdin=subprocess.DEVNULL, stdout=out)
            _, ended, used = os.wait4(process.pid, 0)
            took = time.perf_counter() - start
            process.returncode = os.waitstatus_to_exitcode(ended)
            out.seek(0)
            printed = out.read()
        if process.returncode != status:
            raise SystemExit('unexpected answer: %r' % printed[:100])
        best, most = took if best is None else min(best, took), max(most, used.ru_maxrss)
    return best, most, printed


def measure(name, body, folder):
    for size in (256, 512, 1024):
        text = os.path.join(folder, 'module')
        with open(text, 'w', encoding='ascii') as file:
            file.write(module(body, size))
        count = sum(line[0] != ':' for line in module(body, size).splitlines()[9:-1]) + USED
        base, _, _ = run(['check', text, os.devnull], status=1)
        certify, certify_memory, certificate = run(['certify', text])
        with open(text + '.cert', 'wb') as file:
            file.write(certificate)
        check, check_memory, _ = run(['check', text, text + '.cert'])
        slim = run(['certify', '--slim', text])[2]
        with open(text + '.slim', 'wb') as file:
            file.write(slim)
        slimly, _, _ = run(['check', text, text + '.slim'])
        print('%-28s %5d instructions: certify %6.1f ms, %5.1f MiB; check %5.1f ms, %5.1f MiB; certificate of %d bytes; slim: check %5.1f ms, %d bytes'
              % (name, count, 1000 * (certify - base), certify_memory / 1024, 1000 * (check - base), check_memory / 1024,
                 len(certificate), 1000 * (slimly - base), len(slim)))


def in_version_1(text):
    """A certificate of version 2, as it is spelled in version 1."""
    first, _, _, *lines = text.decode('ascii').splitlines()
    said = {}
    for place, line in enumerate(lines):
        number, _, state = line.partition(' ')
        if state.startswith('same '):
            state = said[state[len('same '):]]
            lines[place] = '%s %s' % (number, state)
        said[number] = state
    return '\n'.join(['slim 1' if first.endswith('slim') else 'cert 1', *lines, '']).encode('ascii')


def tell_filters():
    """The bytes of the certificates of the filters in both versions. That of version 1 is upgraded by the program, so that it is the same."""
    modules = sorted(glob.glob(os.path.join(TOP, 'filters', '*.mod')))
    for form, words in (('full', []), ('slim', ['--slim'])):
        now = before = 0
        for module in modules:
            text = subprocess.run([PROGRAM, 'certify', *words, module], capture_output=True, check=True).stdout
            old = in_version_1(text)
            with tempfile.NamedTemporaryFile() as file:
                file.write(old)
                file.flush()
                if subprocess.run([PROGRAM, 'upgrade', module, file.name], capture_output=True).stdout != text:
                    raise SystemExit('%s: what is upgraded is not what is made' % module)
            now, before = now + len(text), before + len(old)
        print('%d filters, certificates %s: %d bytes, %d in version 1, %.2f of these' % (len(modules), form, now, before, now / before))


def main():
    if not os.access(PROGRAM, os.X_OK):
        raise SystemExit('bench/check.py: there is no program %s; ./host builds the one of this repository' % PROGRAM)
    with tempfile.TemporaryDirectory() as folder:
        measure('straight', straight, folder)
        measure('a join at each second one', joins, folder)
        measure('loops nested 8 deep', nested, folder)
    tell_filters()


if __name__ == '__main__':
    main()
