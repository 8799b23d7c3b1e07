"""The driver, `acceptance`, as it is played on many scripts. It is loaded once; a library before the C library's calls, the one of
tests/refusals.py with a function more, has each script played by a child, in which it may refuse a growth of memory.
"""
import os
import struct
import subprocess
import sys

sys.path.append(os.path.dirname(os.path.dirname(os.path.abspath(__file__))))
from refusals import REFUSER, Refuser                    # noqa: E402

SERVER = REFUSER + '''\

#include <stdint.h>
#include <sys/mman.h>
#include <sys/wait.h>
#include <unistd.h>

static char buffer[65536];

/* Copies so many bytes, or ends. */
static void copy(int from, int to, size_t size) {
  while (size > 0) {
    ssize_t count = read(from, buffer, size < sizeof buffer ? size : sizeof buffer);
    if (count <= 0 || write(to, buffer, count) != count) _exit(0);
    size -= count;
  }
}

static uint32_t size_of(int file) {
  uint32_t size = lseek(file, 0, SEEK_END);
  lseek(file, 0, SEEK_SET);
  return size;
}

/* Before anything else: of each growth and script that come, plays the script in a child, and gives its status, output and errors. */
__attribute__((constructor(101))) static void serve(void) {
  uint32_t asked[2], found[3];
  while (read(0, asked, sizeof asked) == sizeof asked) {
    int files[3] = {memfd_create("in", 0), memfd_create("out", 0), memfd_create("errors", 0)}, status;
    copy(0, files[0], asked[1]);
    size_of(files[0]);
    pid_t child = fork();
    if (child == 0) {
      char number[16];
      snprintf(number, sizeof number, "%u", asked[0]);
      setenv("REFUSED", number, 1);
      for (int i = 0; i < 3; i++) dup2(files[i], i);
      return;
    }
    waitpid(child, &status, 0);
    found[0] = status, found[1] = size_of(files[1]), found[2] = size_of(files[2]);
    if (write(1, found, sizeof found) != sizeof found) _exit(0);
    for (int i = 1; i < 3; i++) copy(files[i], 1, found[i]);
    for (int i = 0; i < 3; i++) close(files[i]);
  }
  _exit(0);
}
'''


class Driver:
    """The driver, which stays up until it is let go."""

    def __init__(self, program, folder):
        refuser = Refuser(program, folder, SERVER)
        self.process = subprocess.Popen([program], stdin=subprocess.PIPE, stdout=subprocess.PIPE, env=refuser.environment(0))

    def play(self, script, refused=0):
        """What it writes, its status, what it writes as errors, and how often it asked for memory; one growth may be refused to it."""
        self.process.stdin.write(struct.pack('=II', refused, len(script)) + script)
        self.process.stdin.flush()
        status, *sizes = struct.unpack('=III', self.process.stdout.read(12))
        output, errors = map(self.process.stdout.read, sizes)
        *errors, calls = errors.splitlines() or [b'0']
        return output, os.waitstatus_to_exitcode(status), errors, int(calls)
