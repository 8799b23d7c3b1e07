"""Refuses each growth of memory in turn, while a script is played, a command answers, or pages are served, and looks at all answers.

A small library before the C library's calls that give memory counts them and refuses one; it is built with `cc` in a folder of its own.

The answers of a script are those where memory lasts, up to the command that met the refused growth. That one answers `refused NoMemory`,
and all later ones answer as in the script without it; or `refused Broken(NoMemory)`, and what the connection served until then stands; or
the program ends with `no memory`. A command answers what it answers where memory lasts, or `no memory`. A page is the whole page, a
response 500, or nothing; the next client gets the page.
"""
import os
import shutil
import subprocess

import serve

REFUSED, BROKEN, ENDED = b'refused NoMemory', b'refused Broken(NoMemory)', b'no memory'

REFUSER = '''\
#include <errno.h>
#include <stddef.h>
#include <stdio.h>
#include <stdlib.h>

extern void *__libc_malloc(size_t);
extern void *__libc_calloc(size_t, size_t);
extern void *__libc_realloc(void *, size_t);
extern void *__libc_memalign(size_t, size_t);

static long calls, refused = -1;

static int is_refused(void) {
  calls++;
  return calls == refused;
}

__attribute__((constructor)) static void begin(void) {
  const char *at = getenv("REFUSED");
  refused = at ? atol(at) : 0;
  calls = 0;
}

__attribute__((destructor)) static void end(void) {
  fprintf(stderr, "%ld\\n", calls);
}

void *malloc(size_t size) { return is_refused() ? NULL : __libc_malloc(size); }
void *calloc(size_t count, size_t size) { return is_refused() ? NULL : __libc_calloc(count, size); }
void *realloc(void *old, size_t size) { return is_refused() ? NULL : __libc_realloc(old, size); }
void *aligned_alloc(size_t align, size_t size) { return is_refused() ? NULL : __libc_memalign(align, size); }
int posix_memalign(void **result, size_t align, size_t size) {
  if (is_refused()) return ENOMEM;
  *result = __libc_memalign(align, size);
  return *result ? 0 : ENOMEM;
}
'''


class Refuser:
    """The program, with one of its growths refused."""

    def __init__(self, program, folder, code=REFUSER):
        if not shutil.which('cc'):
            raise SystemExit('there is no compiler cc')
        source, self.library = os.path.join(folder, 'refuser.c'), os.path.join(folder, 'refuser.so')
        with open(source, 'w', encoding='utf-8') as file:
            file.write(code)
        subprocess.run(['cc', '-shared', '-fPIC', '-O1', '-D_GNU_SOURCE', '-o', self.library, source], check=True)
        self.program = program

    def environment(self, refused):
        return dict(os.environ, LD_PRELOAD=self.library, REFUSED=str(refused))

    def call(self, words, refused, given=b'', folder=None):
        """What the program writes, its status, and how often it asked for memory. 0 refuses none."""
        done = subprocess.run([self.program] + words, input=given, capture_output=True, env=self.environment(refused), cwd=folder)
        calls = done.stderr.split()
        return done.stdout, done.returncode, int(calls[-1]) if calls else 0

    def play(self, script, refused):
        """The lines that answer a script, and how often the program asked for memory."""
        output, _, calls = self.call([], refused, script)
        return output.splitlines(), calls


def split(script):
    """The texts with the lines `budget` and `checked`, and the commands, as lists of lines."""
    lines = script.split(b'\n')[:-1]
    first, word = 0, b'module'
    while word in (b'module', b'cert', b'slim'):
        first = next((i + 1 for i in range(first, len(lines)) if lines[i].strip(b' ') == b'end'), len(lines))
        word = next((line.split()[0] for line in lines[first:] if line.strip() and not line.lstrip().startswith(b'#')), b'')
    for word in (b'budget ', b'checked'):
        first += first < len(lines) and lines[first].startswith(word)
    return lines[:first], lines[first:]


def joined(head, commands):
    return b''.join(line + b'\n' for line in head + commands)


def answers(commands, lines):
    """The lines that answer each command: `pools` has all up to its `ok`."""
    found, at = [], 0
    for command in commands:
        end = at + 1
        while command == b'pools' and end < len(lines) and lines[end - 1] not in (b'ok', ENDED):
            end += 1
        found.append(lines[at:end])
        at = end
    return found + [lines[at:]]


def is_front(answer, of):
    """Whether output or labels are the front of others."""
    return answer[:-1] == of[:len(answer) - 1] if answer.endswith(b'"') else answer == of[:len(answer)]


def stands_broken(command, answer, well):
    """Whether a broken connection answers a command so: `well` is the answer where memory lasts."""
    word = command.split(b' ')[0]
    if word in (b'begin', b'end', b'bring', b'step', b'run'):
        return answer == [BROKEN]
    if word in (b'output', b'labels'):
        return len(answer) == 1 and is_front(answer[0], well[0])
    if word == b'pools':
        return answer[-1:] == [b'ok']
    return len(answer) == 1 and answer[0].startswith(b'labels') if word == b'close' else answer == well


def is_broken_well(commands, conn, answers, well):
    """Whether these answers are those where running out of memory broke a connection, by its number as a word: others answer as before."""
    closed = False
    for command, answer, whole in zip(commands, answers, well):
        serves = command == b'pools' or (command.split(b' ')[1:2] == [conn] and not closed)
        if not (stands_broken(command, answer, whole) if serves else answer == whole):
            return False
        closed = closed or command == b'close ' + conn
    return True


def is_front_of(lines, others):
    """Whether answers are the front of others, a last `script line` apart: what is no command depends on the lines before it."""
    if lines[-1:] and lines[-1].startswith(b'script line '):
        return lines[:-1] == others[:len(lines) - 1]
    return lines == others


def is_well_told(refuser, script, lines, others):
    """Whether `others` answer the script as they should where one growth was refused, and `lines` where none was."""
    head, commands = split(script)
    well, found = answers(commands, lines), answers(commands, others)
    at = next(i for i in range(len(found)) if found[i] != well[i])
    answer, later = found[at], others[sum(map(len, found[:at + 1])):]
    if answer == [ENDED]:
        return later == []
    if answer == [REFUSED]:
        without, _ = refuser.play(joined(head, commands[:at] + commands[at + 1:]), 0)
        return is_front_of(later, without[sum(map(len, found[:at])):])
    if answer != [BROKEN]:
        return False
    return is_broken_well(commands[at + 1:], commands[at].split(b' ')[1], found[at + 1:], well[at + 1:])


def play(refuser, script):
    """Plays a script with each growth refused in turn. Gives how many growths there are, how many changed an answer, and the first at
    which an answer is not as it should be."""
    lines, calls = refuser.play(script, 0)
    met = 0
    for refused in range(1, calls + 1):
        others, _ = refuser.play(script, refused)
        if others != lines:
            met += 1
            if not is_well_told(refuser, script, lines, others):
                return calls, met, (refused, others)
    return calls, met, None


def ask(refuser, words, given=b'', folder=None):
    """Calls a command with each growth refused in turn, and gives the same."""
    well, status, calls = refuser.call(words, 0, given, folder)
    met = 0
    for refused in range(1, calls + 1):
        output, ended, _ = refuser.call(words, refused, given, folder)
        if (output, ended) != (well, status):
            met += 1
            if not (ended == 1 and output == b'no memory\n'):
                return calls, met, (refused, output)
    return calls, met, None


def served(refuser, folder, refused):
    """What two clients get, one after another, the line that tells of the port, and how often memory was asked for."""
    words = ['env', 'LD_PRELOAD=' + refuser.library, 'REFUSED=%d' % refused, refuser.program]
    with serve.Server(refuser.program, folder, ['--conns', '2'], starter=words) as server:
        if not server.line.startswith(b'listening'):
            return [], server.line, 0
        pages = [server.ask(serve.GET) for _ in range(2)]
        server.process.wait(10)
        calls = server.process.stderr.read().split()
        return pages, server.line, int(calls[-1]) if calls else 0


def serve_pages(refuser, folder):
    """Serves two clients with each growth refused in turn, and gives the same."""
    well, _, calls = served(refuser, folder, 0)
    met = 0
    for refused in range(1, calls + 1):
        pages, line, _ = served(refuser, folder, refused)
        if pages != well:
            met += 1
            lost = [page for page in pages if page != well[0]]
            cut = len(pages) == 2 and len(lost) == 1 and (lost[0] == b'' or lost[0].startswith(b'HTTP/1.1 500 '))
            if not cut and not (pages == [] and line == b'no memory\n'):
                return calls, met, (refused, line, pages)
    return calls, met, None
