#!/usr/bin/env python3
"""Sends the tests of the filters of filters/, and a page of 1 MiB, through `serve`.

    bench/serve_filters.py [--program PATH]

First for the identity filter, then for each filter and for each chain that has tests: how many bodies of its tests came out as they are
to, and whether the page did; how many megabytes of the page go through in a second, the best of three, and how many times as long as with
the identity filter it takes; and its instructions for a byte, as bench/steps.py counts them. What a filter makes of the page is
written here, in `MAKES`; a chain makes of it what its filters make, one after another. The budget of a call is 100,000,000 instructions.
"""
import argparse
import base64
import os
import re
import shutil
import socket
import subprocess
import sys
import tempfile
import time

from steps import BUILT, LINE, SIZE, TOP, built, filters, instructions

UPPER, LOWER = b'ABCDEFGHIJKLMNOPQRSTUVWXYZ', b'abcdefghijklmnopqrstuvwxyz'
LARGE = (LINE + b'The <b>quick</b> brown fox.\r\n') * 12000
LARGE = LARGE[:1048576]
TURNED = bytes.maketrans(UPPER + LOWER, UPPER[13:] + UPPER[:13] + LOWER[13:] + LOWER[:13])
LINES_OF_16 = re.compile(rb'.{1,16}', re.DOTALL)
FIRST_LETTER = re.compile(rb'(?<![^\0- ])[!-/:-@\[-`{-\x7f]*[a-z]')
MAKES = {
    'upper': bytes.upper,
    'lower': bytes.lower,
    'rot13': lambda body: body.translate(TURNED),
    'tabs': lambda body: body.replace(b'\t', b' '),
    'arrow': lambda body: body.replace(b'->', b'=>'),
    'crlf': lambda body: re.sub(rb'(?<!\r)\n', b'\r\n', body),
    'strip': lambda body: re.sub(rb'<!--.*?(?:-->|\Z)', b'', body, flags=re.DOTALL),
    'base64': base64.b64encode,
    'hexdump': lambda body: LINES_OF_16.sub(lambda line: line[0].hex(' ').encode() + b' \n', body),
    'capital': lambda body: FIRST_LETTER.sub(lambda found: found[0].upper(), body),
    'count': lambda body: body + b'%d lines, %d bytes\n' % (body.count(b'\n'), len(body)),
    'prefix': lambda body: b'-- begin --\n' + body,
    'suffix': lambda body: body + b'-- end --\n',
    'footer': lambda body: body and body + b'<!-- served by httpd -->\n',
    'banner': lambda body: b'welcome\n' + body,
    'truncate': lambda body: body[:1000],
    'drop': lambda body: b'',
    'tee': lambda body: body * 2,
}


def ask(port, path):
    """The status and the body of a GET, on a connection of its own."""
    with socket.create_connection(('127.0.0.1', port), timeout=30) as sock:
        sock.sendall(b'GET %s HTTP/1.1\r\nHost: h\r\nConnection: close\r\n\r\n' % path.encode())
        parts = list(iter(lambda: sock.recv(1 << 16), b''))
    head, _, rest = b''.join(parts).partition(b'\r\n\r\n')
    pieces = []
    while rest:
        end = rest.index(b'\r\n')
        size = int(rest[:end], 16)
        pieces.append(rest[end + 2:end + 2 + size])
        rest = rest[end + size + 4:]
    return int(head.split()[1]), b''.join(pieces)


def free_port():
    with socket.socket() as sock:
        sock.bind(('127.0.0.1', 0))
        return sock.getsockname()[1]


def pairs(test):
    """The first body of each line of a test, and what is to come out."""
    with open(test) as lines:
        return [filters.bodies(line[5:].rstrip('\n'))[0] for line in lines if line.startswith('body ')]


def lay_out(folder, files):
    """The files of a site, and its site file."""
    for path, data in files.items():
        with open(folder + path, 'wb') as file:
            file.write(data)
    with open(folder + '/site', 'w') as site:
        site.writelines('%s %s%s\n' % (path, folder, path) for path in files)


def seconds(port):
    """How long the page takes."""
    start = time.monotonic()
    ask(port, '/large')
    return time.monotonic() - start


def measure(program, modules, due, made, folder):
    """How many bodies came out right, whether the page did, and megabytes a second."""
    lay_out(folder, {'/large': LARGE, **{'/%d' % at: sent for at, (sent, _) in enumerate(due)}})
    port = free_port()
    words = [program, 'serve', '--site', folder + '/site', '--port', str(port), '--forever', '--budget', '100000000'] + modules
    with subprocess.Popen(words, stdout=subprocess.PIPE) as server:
        try:
            server.stdout.readline()
            right = sum(ask(port, '/%d' % at) == (200, out) for at, (_, out) in enumerate(due))
            whole = ask(port, '/large') == (200, made)
            return right, whole, len(LARGE) / 1e6 / min(seconds(port) for _ in range(3))
        finally:
            server.kill()


def made_of(name):
    """What a chain makes of the page."""
    body = LARGE
    for part in name.split('-'):
        body = MAKES.get(part, lambda same: same)(body)
    return body


def subjects(program, folder):
    """What is measured: a name, the modules, the bodies of the tests, and what becomes of the page."""
    identity = shutil.copy(os.path.join(TOP, 'filters', 'new.module'), folder)
    with open(identity + '.cert', 'wb') as file:
        subprocess.run([program, 'certify', identity], stdout=file)
    yield 'identity', [identity], [], LARGE
    tests = os.path.join(TOP, 'filters', 'tests')
    for name, path in filters.filters():
        yield name, [path], pairs(os.path.join(tests, name + '.test')), made_of(name)
    for name, paths in filters.chains():
        yield name, paths, pairs(os.path.join(tests, 'chains', name + '.test')), made_of(name)


def main():
    parser = argparse.ArgumentParser(description=__doc__, formatter_class=argparse.RawDescriptionHelpFormatter)
    parser.add_argument('--program', default=BUILT, metavar='PATH')
    program = built(parser.parse_args().program)
    wrong, base = 0, None
    with tempfile.TemporaryDirectory() as kept:
        for name, modules, due, made in subjects(program, kept):
            with tempfile.TemporaryDirectory() as folder:
                right, whole, rate = measure(program, modules, due, made, folder)
            base = base or rate
            steps = instructions(program, ''.join(filters.text_of(path) for path in modules)) / SIZE
            wrong += len(due) - right + (not whole)
            told = 'as it is to be' if whole else 'WRONG'
            print('%-22s %2d of %2d bodies, the page %s, %7.1f MB a second, %6.1f times, %6.2f instructions a byte'
                  % (name, right, len(due), told, rate, base / rate, steps), flush=True)
    print('%d wrong' % wrong)
    return int(wrong > 0)


if __name__ == '__main__':
    sys.exit(main())
