"""Plays scripts through readers and writers that are slow, end or fail, and looks at what is written then.

What was read is answered before more is read. Where the reader ends or fails, the whole lines that it gave are answered, and
where the writer fails, what it took is a front of the answers.
"""
import array
import fcntl
import os
import resource
import select
import signal
import socket
import subprocess
import termios
import time

TOP = os.path.dirname(os.path.dirname(os.path.abspath(__file__)))
SCRIPT = os.path.join(TOP, 'examples', 'two_connections')
SECONDS = 20


def texts():
    """A script and its answers, and how many lines stand before its commands."""
    with open(SCRIPT + '.script', 'rb') as script, open(SCRIPT + '.expected', 'rb') as answers:
        script, answers = script.read(), answers.read()
    lines = script.splitlines(True)
    return script, answers, max(i for i, line in enumerate(lines) if line == b'end\n') + 1


def is_well(done, answers, told=b'', status=0):
    return (done.stdout, done.stderr, done.returncode) == (answers, told, status)


def until(stream, size):
    """So many bytes of a pipe, or what came of them in time."""
    found = b''
    while len(found) < size and select.select([stream], [], [], SECONDS)[0]:
        more = os.read(stream.fileno(), size - len(found))
        if not more:
            break
        found += more
    return found


def line_by_line(program, script, answers, before):
    """A program at the other end of the pipe: it sends a command when the last one was answered."""
    play = subprocess.Popen([program, 'play'], stdin=subprocess.PIPE, stdout=subprocess.PIPE, bufsize=0)
    lines, due = script.splitlines(True), answers.splitlines(True)
    play.stdin.write(b''.join(lines[:before]))
    for number, (line, answer) in enumerate(zip(lines[before:], due)):
        play.stdin.write(line)
        found = until(play.stdout, len(answer))
        if found != answer:
            play.kill()
            play.communicate()
            return ['line %d: answered %r before the next was sent' % (before + number + 1, found)]
    rest, _ = play.communicate(timeout=SECONDS)
    return [] if (rest, play.returncode) == (b'', 0) else ['at the end: %r, status %d' % (rest, play.returncode)]


def is_taken(reader):
    """Whether nothing of what was written to a pipe is left in it."""
    left = array.array('i', [0])
    fcntl.ioctl(reader, termios.FIONREAD, left)
    return left[0] == 0


def byte_by_byte(program, script, answers):
    """A reader that gives one byte a read."""
    reader, writer = os.pipe()
    play = subprocess.Popen([program], stdin=reader, stdout=subprocess.PIPE, stderr=subprocess.PIPE)
    late = time.monotonic() + SECONDS
    for byte in script:
        os.write(writer, bytes([byte]))
        while play.poll() is None and not is_taken(reader) and time.monotonic() < late:
            time.sleep(0)
    os.close(writer)
    os.close(reader)
    out, err = play.communicate(timeout=SECONDS)
    return [] if (out, err, play.returncode) == (answers, b'', 0) else ['one byte a read: %r' % out[-60:]]


def answered(script, answers, before, size):
    """The answers to the whole lines among the first bytes of the script, and how many lines these are."""
    count = script[:size].count(b'\n')
    return b''.join(answers.splitlines(True)[:max(0, count - before)]), count


def ends_early(program, script, answers, before):
    """Readers that end behind each byte: the line that is cut is told, and a text that is not at its end."""
    faults = []
    for size in range(len(script)):
        done = subprocess.run([program], input=script[:size], capture_output=True)
        due, count = answered(script, answers, before, size)
        if count < before:
            well = done.stdout.startswith(b'asm line %d code ' % (count + 1)) and done.returncode == 1
        elif script[:size].endswith(b'\n'):
            well = is_well(done, due)
        else:
            well = is_well(done, due + b'script line %d\n' % (count + 1), status=1)
        if not well:
            faults.append('ends behind byte %d: %r, status %d' % (size, done.stdout[-60:], done.returncode))
    return faults


def reader_fails(program, script, answers, before, size):
    """A socket that gives these bytes, and is reset: its other end is closed with a byte unread."""
    ours, theirs = socket.socketpair()
    ours.sendall(script[:size])
    theirs.sendall(b'?')
    play = subprocess.Popen([program], stdin=theirs, stdout=subprocess.PIPE, stderr=subprocess.PIPE)
    theirs.close()
    ours.close()
    out, err = play.communicate(timeout=SECONDS)
    due, _ = answered(script, answers, before, size)
    return (out, err, play.returncode) == (due + b'cannot read standard input\n', b'', 1)


def writer_fails(program, script, answers, size, folder):
    """A file that may have so many bytes."""
    def bound():
        signal.signal(signal.SIGXFSZ, signal.SIG_IGN)
        resource.setrlimit(resource.RLIMIT_FSIZE, (size, size))

    name = os.path.join(folder, 'answers')
    with open(name, 'wb') as file:
        done = subprocess.run([program], input=script, stdout=file, stderr=subprocess.PIPE, preexec_fn=bound)
    with open(name, 'rb') as file:
        return (file.read(), done.stderr, done.returncode) == (answers[:size], b'cannot write\n', 1)


def closed(program, script):
    """A pipe that nobody reads, a full device, and a standard input that is closed."""
    reader, writer = os.pipe()
    os.close(reader)
    gone = subprocess.run([program], input=script, stdout=writer, stderr=subprocess.PIPE)
    os.close(writer)
    with open('/dev/full', 'wb') as full:
        filled = subprocess.run([program], input=script, stdout=full, stderr=subprocess.PIPE)
        helped = subprocess.run([program, '--help'], stdout=full, stderr=subprocess.PIPE)
        unread = subprocess.run([program, 'assemble', 'no such file'], stdout=full, stderr=subprocess.PIPE)
        unserved = subprocess.run([program, 'serve', '--site', 'no such file', '--port', '1', 'no such file'], stdout=full, stderr=subprocess.PIPE)
    shut = subprocess.run([program], capture_output=True, preexec_fn=lambda: os.close(0))
    faults = []
    for name, done in (('a pipe that nobody reads', gone), ('a full device', filled), ('help on a full device', helped),
                       ('a fault on a full device', unread), ('serve on a full device', unserved)):
        if (done.stderr, done.returncode) != (b'cannot write\n', 1):
            faults.append('%s: %r, status %d' % (name, done.stderr, done.returncode))
    if not is_well(shut, b'cannot read standard input\n', status=1):
        faults.append('a closed standard input: %r, status %d' % (shut.stdout, shut.returncode))
    return faults


def unreadable(program):
    """Files that cannot be read: the cause is told on the standard error."""
    module = os.path.join(TOP, 'filters', 'upper.mod')
    faults = []
    for words, name, cause in ((['assemble', 'none'], 'none', 'No such file or directory (os error 2)'),
                               (['certify', 'none'], 'none', 'No such file or directory (os error 2)'),
                               (['certify', '/'], '/', 'Is a directory (os error 21)'),
                               (['check', 'none', '/'], 'none', 'No such file or directory (os error 2)'),
                               (['check', module, '/'], '/', 'Is a directory (os error 21)')):
        done = subprocess.run([program] + words, stdin=subprocess.DEVNULL, capture_output=True)
        if not is_well(done, b'cannot read %s\n' % name.encode(), b'cause: %s\n' % cause.encode(), 1):
            faults.append('%s: %r, %r, status %d' % (' '.join(words), done.stdout, done.stderr, done.returncode))
    return faults


def faults(program, folder):
    """How many plays there were, and what was not as it should be."""
    script, answers, before = texts()
    found = line_by_line(program, script, answers, before) + byte_by_byte(program, script, answers)
    found += ends_early(program, script, answers, before) + closed(program, script) + unreadable(program)
    for size in range(len(script) + 1):
        if not reader_fails(program, script, answers, before, size):
            found.append('a reader that fails behind byte %d' % size)
    for size in range(len(answers)):
        if not writer_fails(program, script, answers, size, folder):
            found.append('a writer that fails behind byte %d' % size)
    return 2 + len(script) + 3 + len(script) + 1 + len(answers), found
