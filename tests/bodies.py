"""Puts bodies through filters by the command `filter`, and looks at what comes out.

Each filter of filters/, as a module and where it is there in the language for authors, and each chain that has tests is given the first body of each
line `body` of its tests: from a file, and through a pipe in pieces. Then a pipe that is answered piece by piece, a body that is far larger than the
memory, calls that break or fail, and streams that fail.
"""
import glob
import os
import random
import resource
import select
import subprocess
import tempfile

import filters

TOP = os.path.dirname(os.path.dirname(os.path.abspath(__file__)))
SECONDS = 60
LARGE = 32 << 20
MEMORY = 96 << 20
BUDGET_MET = b'cannot filter: the connection is broken: the budget of steps was met, which --budget raises\n'


def module(name):
    return os.path.join(TOP, 'filters', name + '.mod')


def chains():
    """The chains that are played: the name of each, its files, and its tests."""
    tests = os.path.join(TOP, 'filters', 'tests')
    for name, path in filters.filters():
        yield name, [path], os.path.join(tests, name + '.test')
    for path in sorted(glob.glob(os.path.join(TOP, 'filters', '*.filter'))):
        test = os.path.join(tests, os.path.basename(path)[:-len('.filter')] + '.test')
        if os.path.exists(test):
            yield os.path.basename(path), [path], test
    for name, paths in filters.chains():
        yield name, paths, os.path.join(tests, 'chains', name + '.test')


def filtered(program, words, body, **more):
    """What the command answers to a body in a file: the output, the errors and the status."""
    with tempfile.TemporaryFile() as file:
        file.write(body)
        file.seek(0)
        done = subprocess.run([program, 'filter'] + words, stdin=file, stdout=subprocess.PIPE, stderr=subprocess.PIPE, timeout=SECONDS, **more)
    return done.stdout, done.stderr, done.returncode


def in_pieces(program, words, body, chance):
    """The same of a body that comes through a pipe in pieces."""
    with tempfile.TemporaryFile() as out, tempfile.TemporaryFile() as err:
        play = subprocess.Popen([program, 'filter'] + words, stdin=subprocess.PIPE, stdout=out, stderr=err, bufsize=0)
        at = 0
        while at < len(body):
            size = chance.choice((1, 2, 7, 512, 7999, 8000, 8001, 20000))
            play.stdin.write(body[at:at + size])
            at += size
        play.stdin.close()
        status = play.wait(timeout=SECONDS)
        out.seek(0)
        err.seek(0)
        return out.read(), err.read(), status


def play_bodies(program, told):
    """Plays the bodies of the tests; gives how many."""
    count = 0
    chance = random.Random('bodies')
    for name, paths, test in chains():
        sent, *_ = filters.tests(test)
        for number, requests in enumerate(sent):
            body, due = requests[0]
            for how, found in (('from a file', filtered(program, paths, body)), ('in pieces', in_pieces(program, paths, body, chance))):
                count += 1
                if found != (due, b'', 0):
                    told('%s, body %d %s: %r, status %d, due is %r' % (name, number + 1, how, (found[0][-40:], found[1]), found[2], due[-40:]))
    return count


def piece_by_piece(program, told):
    """A pipe at whose other end each piece is answered before the next is sent."""
    play = subprocess.Popen([program, 'filter', module('upper')], stdin=subprocess.PIPE, stdout=subprocess.PIPE, bufsize=0)
    for piece in (b'a', b'line\n', b'b' * 3000):
        play.stdin.write(piece)
        found = b''
        while len(found) < len(piece) and select.select([play.stdout], [], [], SECONDS)[0]:
            found += os.read(play.stdout.fileno(), len(piece) - len(found))
        if found != piece.upper():
            told('a piece is answered %r before the next is sent' % found)
            break
    play.stdin.close()
    if play.wait(timeout=SECONDS) != 0:
        told('a pipe that ends: status %d' % play.returncode)
    play.stdout.close()


def large(program, told):
    """A body that is larger than the memory that the program may have."""
    def limit():
        resource.setrlimit(resource.RLIMIT_DATA, (MEMORY, MEMORY))
    unit = b'0123456789abcdef' * 4096
    found = filtered(program, [module('upper')], unit * (LARGE // len(unit)), preexec_fn=limit)
    if found != (unit.upper() * (LARGE // len(unit)), b'', 0):
        told('a body of %d bytes: %d bytes, %r, status %d' % (LARGE, len(found[0]), found[1], found[2]))


def stopped(program):
    """Bodies that are not filtered whole: what the command answers, and what it is to answer."""
    yield 'the budget', filtered(program, ['--budget', '10', module('upper')], b'abc'), (b'', BUDGET_MET, 1)
    parts = in_pieces(program, [module('abort')], b'abc' * 4000 + b'\0', random.Random(1))
    yield 'a filter that fails', (b'', parts[1], parts[2]), (b'', b'cannot filter: a filter failed\n', 1)
    front = filtered(program, [module('abort')], b'a' * 16000 + b'\0')
    yield 'what came out before a failure', front, (b'a' * 16000, b'cannot filter: a filter failed\n', 1)
    with tempfile.TemporaryDirectory() as folder:
        missing = os.path.join(folder, 'none.mod')
        yield 'a file that is not there', filtered(program, [missing], b'abc')[::2], (b'cannot read %s\n' % missing.encode(), 1)
        wrong = os.path.join(folder, 'wrong.filter')
        with open(wrong, 'w') as file:
            file.write('filter f\non byte b { emit b; }\n')
        what = b'line 2, column 19: no `;` is needed\n'
        shown = b'%s: %son byte b { emit b; }\n%s^\n' % (wrong.encode(), what, b' ' * 18)
        yield 'a filter that is refused', filtered(program, [module('upper'), wrong], b'abc'), (b'refused module 1 at ' + what, shown, 1)
    yield 'no byte', filtered(program, [module('upper')], b''), (b'', b'', 0)
    folder = os.open('/', os.O_RDONLY)
    done = subprocess.run([program, 'filter', module('upper')], stdin=folder, capture_output=True, timeout=SECONDS)
    os.close(folder)
    yield 'a reader that fails', (done.stdout, done.stderr, done.returncode), (b'', b'cannot read standard input\n', 1)
    with open('/dev/full', 'wb') as full:
        done = subprocess.run([program, 'filter', module('upper')], input=b'abc', stdout=full, stderr=subprocess.PIPE, timeout=SECONDS)
    yield 'a writer that fails', (done.stderr, done.returncode), (b'cannot write\n', 1)


def check(program, told):
    """Plays all of it; gives how many plays there were."""
    count = play_bodies(program, told)
    piece_by_piece(program, told)
    large(program, told)
    for name, found, due in stopped(program):
        count += 1
        if found != due:
            told('%s: %r, due is %r' % (name, found, due))
    return count + 2
