"""Scripts: what the program must answer to one, byte for byte, and its exit status.

A reading of the rules of docs/LANGUAGE.md, written apart from the definitions and from the code, so that a slip in
either shows. Memory lasts in it, and readers and writers do not fail.
"""
from .certificates import Refusal, check, make, read_certificate
from .chains import Connection, Host, Refused
from .counts import arose
from .texts import NAME, PRINTABLE, U32, FaultyText, assemble, decimal, read_text, show_text

MOST_MODULES = 16
LINE_LIMIT = 65536
U64 = 2 ** 64 - 1
MOST_FILE = 20000000
MOST_STEPS = 3000000


class BadLine(Exception):
    """A line that is no command."""


class TooBig(Exception):
    """A file so large that what is answered is a matter of memory, or a run so long that it is one of time."""


class Ended(Exception):
    """The line with which a script ends before its commands."""


def play(script):
    """The bytes that the program must print for a script, and its exit status. Raises TooBig where that is a matter of memory or time."""
    try:
        chain, at, line = read_chain(script, MOST_MODULES)
    except Ended as ended:
        return str(ended).encode('ascii'), 1
    host = Host([module for module, _ in chain])
    answers = []
    due = ['budget', 'checked']
    while at < len(script):
        try:
            command, at = next_line(script, at)
            if 'budget' in due and command.startswith('budget '):
                host.budget = number(command[len('budget '):])
                due = ['checked']
            elif 'checked' in due and command == 'checked':
                judge(chain)
                due = []
            else:
                due = []
                answers.append(answer(host, command))
        except Ended as ended:
            return str(ended).encode('ascii'), 1
        except BadLine:
            arose('script with a line that is no command')
            answers.append('script line %d\n' % line)
            return ''.join(answers).encode('ascii'), 1
        line += 1
    arose('script played to its end')
    arose('script with %d modules' % len(chain))
    return ''.join(answers).encode('ascii'), 0


def read_chain(script, most):
    """The modules at the front of a script, each with its certificate or None, and the place and line behind them. Raises Ended
    where a text is faulty."""
    chain, at, line = [], 0, 1
    while not chain or len(chain) < most and is_module(script, at):
        try:
            module, size, lines = assemble(script[at:])
        except FaultyText as fault:
            arose('module text with code %d' % fault.code)
            raise Ended('asm line %d code %d\n' % (line - 1 + fault.line, fault.code)) from None
        at, line = at + size, line - 1 + lines
        certificate, at, line = given_certificate(script, at, line)
        chain.append((module, certificate))
    return chain, at, line


def is_module(script, at):
    """Whether a module text stands at `at`: the first line that is not skipped in one begins with `module`."""
    while at < len(script):
        end = script.find(b'\n', at)
        end = end if end >= 0 else len(script)
        line = script[at:end].lstrip(b' ')
        if line and line[:1] != b'#':
            return line.split(b' ')[0] == b'module'
        at = end + 1
    return False


def given_certificate(script, at, line):
    """The certificate that stands at `at`, if one does, and the place and line behind it. (A text without an `end` is not judged.)"""
    if script[at:].split(b'\n', 1)[0].split(b' ', 1)[0] not in (b'cert', b'slim'):
        return None, at, line
    end = script.find(b'\nend\n', at)
    if end < 0:
        raise TooBig
    end += len(b'\nend\n')
    try:
        return read_certificate(script[at:end]), end, line + script.count(b'\n', at, end)
    except FaultyText as fault:
        raise Ended('cert line %d code %d\n' % (line - 1 + fault.line, fault.code)) from None


def judge(chain):
    """Ends the script where a module is not accepted. Certificates that are wanting are made first, then those that are given are
    checked."""
    for is_given in (False, True):
        for place, (module, certificate) in enumerate(chain):
            try:
                if is_given and certificate:
                    check(module, certificate)
                elif not is_given and not certificate:
                    make(module)
            except Refusal as refusal:
                raise Ended('refused module %d at %d: %s\n' % (place, refusal.pc, refusal.rule)) from None


def next_line(script, at):
    """The line that stands at `at`, and the place behind it."""
    end = script.find(b'\n', at)
    if end < 0 or end - at > LINE_LIMIT or not PRINTABLE.fullmatch(script, at, end):
        raise BadLine
    return script[at:end].decode('ascii'), end + 1


def number(word, most=U64):
    """The number that a word says."""
    value = decimal(word, most)
    if value is None:
        raise BadLine
    return value


def text_at(line, at):
    """The bytes of the text in quotes at `at`, and the place behind it."""
    found = read_text(line, at) if line.startswith('"', at) else None
    if found is None:
        raise BadLine
    return found


def next_word(line, at):
    """The word behind the space at `at`, and the place behind it."""
    if not line.startswith(' ', at):
        raise BadLine
    end = line.find(' ', at + 1)
    end = end if end >= 0 else len(line)
    return line[at + 1:end], end


def read_pieces(line, at):
    """The pieces of a `bring` from `at` on."""
    pieces = []
    while at < len(line):
        kind, at = next_word(line, at)
        if kind in ('heap', 'transient', 'immortal', 'pool'):
            if not line.startswith(' ', at):
                raise BadLine
            text, at = text_at(line, at + 1)
            pieces.append((kind, text))
        elif kind == 'file':
            name, at = next_word(line, at)
            start, at = next_word(line, at)
            length, at = next_word(line, at)
            if not NAME.fullmatch(name):
                raise BadLine
            pieces.append((kind, name, number(start), number(length)))
        elif kind in ('flush', 'eos'):
            pieces.append((kind,))
        else:
            raise BadLine
    return pieces


def answer(host, command):
    """What is answered to a command."""
    if command == 'pools':
        return host.pools.show() + 'ok\n'
    word, space, rest = command.partition(' ')
    if word == 'file':
        make_file(host, rest)
        return 'ok\n'
    if command != 'open' and (word not in ANSWERS or not space):
        raise BadLine
    conn, *operands = (None,) if command == 'open' else read_operands(word, command)
    try:
        if command == 'open':
            return 'conn %d\n' % host.open()
        if word == 'close':
            return labels_line(host.close(conn))
        return ANSWERS[word](host.connection(conn), *operands)
    except Refused as refused:
        arose('%s refused, %s' % (word, refused))
        return 'refused %s\n' % refused


def read_operands(word, command):
    """The number of the connection, and the pieces of a `bring` or the count of a `step`."""
    conn, at = next_word(command, len(word))
    if word == 'bring':
        return number(conn), read_pieces(command, at)
    if word == 'step':
        count, at = next_word(command, at)
        if at != len(command) or number(count) == 0:
            raise BadLine
        return number(conn), number(count)
    if at != len(command):
        raise BadLine
    return (number(conn),)


def make_file(host, rest):
    """`file NAME COUNT "text"`: there is a file of this name from now on."""
    words = rest.split(' ', 2)
    if len(words) != 3:
        raise BadLine
    name, count, text = words
    data, end = text_at(text, 0)
    count = number(count, U32)
    if end != len(text) or not NAME.fullmatch(name) or name in host.pools.files:
        raise BadLine
    if len(data) * count > MOST_FILE:
        raise TooBig
    host.pools.files[name] = data * count


def run(conn):
    """Steps until the call ends."""
    result = conn.step()
    while result is None:
        if conn.count > MOST_STEPS:
            raise TooBig
        result = conn.step()
    return end_line(result)


def steps(conn, count):
    """So many steps, or fewer where the call ends."""
    for _ in range(count):
        if conn.count > MOST_STEPS:
            raise TooBig
        result = conn.step()
        if result is not None:
            return end_line(result)
    arose('steps that went')
    return 'went %d\n' % count


def end_line(result):
    """The answer to steps of which the last one did not go on."""
    if result[0] == 'ended':
        arose('call ended ' + result[1])
        return 'ended %s\n' % result[1]
    return 'fault %s module %d pc %d\n' % result[1:]


def labels_line(labels):
    """The answer that tells labels."""
    return ' '.join(['labels'] + [show_text(label) for label in labels]) + '\n'


def done(event):
    """The answer `ok` behind an event."""
    def answer_ok(*operands):
        event(*operands)
        return 'ok\n'
    return answer_ok


ANSWERS = {
    'begin': done(Connection.begin),
    'bring': done(Connection.bring),
    'step': steps,
    'run': run,
    'end': done(Connection.end),
    'output': lambda conn: 'output %s\n' % show_text(conn.take_output()),
    'labels': lambda conn: labels_line(conn.labels),
    'close': None,                       # told by the host, which lets the connection go
}
