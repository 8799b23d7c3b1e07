#!/usr/bin/env python3
"""Counts the memory that is asked for where POOL bytes are cut and their pool is cleared.

    python3 bench/pool_bytes.py [PROGRAM]

64 KiB of POOL bytes in 16 buckets are cut into 64 and kept in a brigade while their pool is cleared; the same is done with HEAP bytes. All is
done once before, so that there is room for nodes and names. A small library before the C library's calls that give memory adds up what they
are asked for; it is built with `cc`. Cuts that copy no byte ask for none; a clear asks for the copies.

PROGRAM is crates/host_cli/out/host_cli where none is given (`./host` builds it).
"""
import sys
import tempfile

from steps import BUILT, built

import refusals
from buckets import script

PIECE, PIECES, PARTS = 4_096, 16, 4
FILL = 'set n0 0 / :byte / put 120 bad / add n0 1 / jlt n0 %d byte' % PIECE

COUNTER = refusals.REFUSER.split('static long')[0] + '''\
static size_t asked;

__attribute__((destructor)) static void end(void) {
  fprintf(stderr, "%zu\\n", asked);
}

void *malloc(size_t size) { asked += size; return __libc_malloc(size); }
void *calloc(size_t count, size_t size) { asked += count * size; return __libc_calloc(count, size); }
void *realloc(void *old, size_t size) { asked += size; return __libc_realloc(old, size); }
void *aligned_alloc(size_t align, size_t size) { asked += size; return __libc_memalign(align, size); }
int posix_memalign(void **result, size_t align, size_t size) {
  asked += size;
  *result = __libc_memalign(align, size);
  return *result ? 0 : ENOMEM;
}
'''


def put_in(making, label, is_cut):
    """Code that puts 64 KiB into b0 in 16 buckets, and cuts each in four, or does not."""
    cut = 'set n2 1 / :cut%s / split c0 %d bad / next c0 c0 / add n2 1 / jlt n2 %d cut%s' % (label, PIECE // PARTS, PARTS, label)
    return ('set n1 0 / :piece%s / %s / tail b0 c0 / %s / add n1 1 / jlt n1 %d piece%s'
            % (label, making, cut if is_cut else 'set n2 1', PIECES, label))


def asked(counter, *codes):
    """How many bytes of memory a script asks for whose first brigade runs these codes."""
    output, _, count = counter.call([], 0, script(' / '.join((FILL,) + codes), '', 0).encode())
    if not output.endswith(b'\nended ok\n'):
        raise SystemExit('unexpected answer: %r' % output[-100:])
    return count


def main():
    program = built(sys.argv[1] if len(sys.argv) > 1 else BUILT)
    with tempfile.TemporaryDirectory() as folder:
        counter = refusals.Refuser(program, folder, COUNTER)
        for kind, making in (('POOL', 'poolb c0 p0'), ('HEAP', 'frombuf c0')):
            before = (put_in(making, 'a', True), 'bclean b0')
            whole, cut = asked(counter, *before, put_in(making, 'b', False)), asked(counter, *before, put_in(making, 'b', True))
            cleared = asked(counter, *before, put_in(making, 'b', True), 'pclear p0')
            print('64 KiB of %s bytes in %d buckets are cut into %d: the cuts ask for %s bytes of memory, a clear of the pool for %s'
                  % (kind, PIECES, PIECES * PARTS, format(cut - whole, ','), format(cleared - cut, ',')))


if __name__ == '__main__':
    main()
