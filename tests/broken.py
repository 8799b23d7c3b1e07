"""Scripts of 100 connections, of which the last one breaks by a fault, for each fault.

The answers are written from docs/LANGUAGE.md. Those of the other connections are the same where the one that breaks is not there.
"""
CONNECTIONS = 100
BROKEN = 'refused Broken(Faulted)'

# What main does where the first byte that comes is a letter from a on: instructions, of which one has the fault of this number.
WORKS = {
    1: ['label p0 "x"'],
    2: ['bclean b1'],
    3: ['bdelete c7'],
    4: ['first c1 b0', 'bdelete c1'],
    5: ['next c1 c0', 'aside c1 p1', 'pdestroy p1', 'pass in bad'],
    6: ['bconcat b0 in', 'ret ok'],
    7: ['pass in bad', 'pass in bad'],
    8: ['heap c1 "late"', 'tail in c1', 'pass in bad'],
    9: ['tail b0 c0'],
    10: ['bcreate b0'],
}
# what comes behind that byte, where the fault wants more
MORE = {5: ' file f 0 3', 6: ' transient "t"', 8: ' eos'}
# what was passed on before the fault
PASSED = {7: 'g'}

HEAD = ['module 1', 'pool p0 conn', 'pool p1 conn', 'brigade b0 conn', 'brigade b1 conn', 'open', 'pcreate p1', 'bcreate b0', 'ret ok', 'init', 'ret ok', 'main']
FIRST = ['first c0 in', 'jend c0 send', 'read c0 bad', 'get n0 0 send']
SEND = [':send', 'pass in bad', 'ret ok', ':bad', 'ret fail']
BEFORE_MAIN = 4
THROUGH = ['module 1', 'open', 'ret ok', 'init', 'ret ok', 'main', 'jsent drop', 'pass in bad', 'ret ok', ':drop', 'bclean in', 'ret ok', ':bad', 'ret fail', 'end']


def letter(fault):
    return chr(ord('a') + fault - 1)


def chain():
    """The lines of a filter that has any fault on demand and of one that passes on what comes, and where the faults are."""
    main = FIRST + ['jeq n0 %d f%d' % (ord(letter(fault)), fault) for fault in WORKS] + SEND
    places = {}
    for fault, work in WORKS.items():
        main += [':f%d' % fault] + work
        places[fault] = BEFORE_MAIN + sum(not line.startswith(':') for line in main) - 1
        main.append('ret ok')
    return HEAD + main + ['end'] + THROUGH, places


class Talk:
    """Commands with the connection that each is for, or none, and their answers."""

    def __init__(self):
        self.lines = []

    def say(self, number, command, answer):
        self.lines.append((number, command, answer))

    def all(self, numbers, command, answer, broken):
        """A command for each connection, by its number, and the answers of the others and of the one that breaks."""
        for number in numbers:
            wanted = broken if number == CONNECTIONS else answer
            self.say(number, command.format(number), wanted.format(number))


def talk(fault, place):
    """What is said, in rounds over all connections, the one that breaks in their middle."""
    told = Talk()
    numbers = list(range(1, 51)) + [CONNECTIONS] + list(range(51, CONNECTIONS))
    told.say(None, 'file f 3 "abc"', 'ok')
    for number in range(1, CONNECTIONS + 1):
        told.say(number, 'open', 'conn %d' % number)
    told.all(numbers, 'run {}', 'ended ok', 'ended ok')
    told.all(numbers, 'begin {}', 'ok', 'ok')
    told.all(numbers, 'run {}', 'ended ok', 'ended ok')
    for number in numbers:
        bad = number == CONNECTIONS
        told.say(number, 'bring %d heap "%s"%s' % ((number, letter(fault), MORE.get(fault, '')) if bad else (number, 'x%d' % number, ' file f 1 2')), 'ok')
    told.all(numbers, 'step {} 3', 'went 3', 'went 3')
    told.all(numbers, 'run {}', 'ended ok', 'fault F%d module 0 pc %d' % (fault, place))
    told.all(numbers, 'output {}', 'output "x{}bc"', 'output "%s"' % PASSED.get(fault, ''))
    told.all(numbers, 'bring {0} heap "y{0}" eos', 'ok', BROKEN)
    told.all(numbers, 'run {}', 'ended ok', BROKEN)
    told.all(numbers, 'output {}', 'output "y{}"', 'output ""')
    told.all(numbers, 'end {}', 'ok', BROKEN)
    told.all(numbers, 'begin {}', 'ok', BROKEN)
    told.all(numbers, 'run {}', 'ended ok', BROKEN)
    told.all(numbers, 'labels {}', 'labels', 'labels')
    told.all(numbers, 'close {}', 'labels', 'labels')
    told.all(numbers, 'run {}', 'refused NoSuchConn', 'refused NoSuchConn')
    return told.lines


def scripts():
    """For each fault the script with the connection that breaks, and the one without it: name, text and answers."""
    modules, places = chain()
    for fault in WORKS:
        lines = talk(fault, places[fault])
        for name, there in (('F%d' % fault, lines), ('without F%d' % fault, [line for line in lines if line[0] != CONNECTIONS])):
            text = ''.join(line + '\n' for line in modules + [line[1] for line in there])
            yield name, text.encode(), ''.join(line[2] + '\n' for line in there).encode()
