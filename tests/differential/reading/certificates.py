"""Certificates: their texts, the checker, and the maker; and what the commands `certify` and `check` must answer.

A reading of docs/LANGUAGE.md, written apart from the definitions and from the code, so that a slip in either shows.
"""
import re
from dataclasses import dataclass, field, replace

from . import rules
from .counts import arose
from .states import join, leq, read, show
from .texts import HANDLERS, OPERANDS, PRINTABLE, FaultyText, assemble_alone

CERTIFICATE_LIMIT = 4194304
NUMBER = re.compile(r'0|[1-9][0-9]{0,3}')
VERSION_1 = {'cert 1': False, 'slim 1': True}
VERSION_2 = {'cert 2 full': False, 'cert 2 slim': True}
MOST_VARIABLES, MOST_CODE = 8, 1024


@dataclass
class Certificate:
    """A state between requests and one between calls, or None, and the states of instructions. `numbers` are those of the module that one of
    version 2 names: pool variables, brigade variables and instructions; one of version 1 has None."""
    idle: object = None
    ready: object = None
    at: dict = field(default_factory=dict)
    numbers: object = None
    slim: bool = False


class Refusal(Exception):
    """The first refusal of the checker or the maker: the instruction, and the rule."""

    def __init__(self, pc, rule):
        super().__init__(pc, rule)
        self.pc, self.rule = pc, rule


class OfVersion2(Exception):
    """A certificate that is to be upgraded has version 2 already."""


# Texts.

def show_certificate(certificate):
    """The one text of a certificate."""
    lines = first_lines(certificate)
    lines += ['%s %s' % (word, show(state) if state else 'none')
              for word, state in (('idle', certificate.idle), ('ready', certificate.ready))]
    lines += state_lines(certificate)
    return ''.join(line + '\n' for line in lines + ['end']).encode('ascii')


def first_lines(certificate):
    """The lines that name the form, and the module's numbers."""
    if certificate.numbers is None:
        return ['slim 1' if certificate.slim else 'cert 1']
    return ['cert 2 %s' % ('slim' if certificate.slim else 'full'), 'vars %d %d' % certificate.numbers[:2], 'code %d' % certificate.numbers[2]]


def state_lines(certificate):
    """The lines of instructions. Version 2 names the line where the state stood first."""
    first, lines = {}, []
    for pc, state in sorted(certificate.at.items()):
        spelled = show(state)
        if certificate.numbers and first.setdefault(spelled, pc) != pc:
            spelled = 'same %d' % first[spelled]
        lines.append('%d %s' % (pc, spelled))
    return lines


def read_certificate(data):
    """The certificate that a text says. Raises FaultyText where there is none."""
    reader, at = CertificateReader(), 0
    while at < len(data) or reader.due != 'done':
        if at >= len(data):
            raise FaultyText(reader.line, 2)
        end = data.find(b'\n', at)
        if end < 0 or end + 1 > CERTIFICATE_LIMIT or not PRINTABLE.fullmatch(data, at, end):
            raise FaultyText(reader.line, 1)
        reader.take(data[at:end].decode('ascii'))
        at = end + 1
    return reader.certificate


class CertificateReader:
    """Takes the lines of a text: what they said so far, what is due, and the number of the line."""

    def __init__(self):
        self.certificate, self.due, self.line = Certificate(), 'cert', 1
        self.spelled = {}                # the states that are written out, with the instruction of each

    def fault(self, code):
        return FaultyText(self.line, code)

    def take(self, text):
        """Takes a line."""
        if self.due == 'done':
            raise self.fault(2)
        self.due = getattr(self, 'take_' + self.due)(text, *text.partition(' ')[::2])
        self.line += 1

    def take_cert(self, text, word, rest):
        if text in VERSION_1:
            self.certificate.slim = VERSION_1[text]
            return 'idle'
        if text in VERSION_2:
            self.certificate.slim = VERSION_2[text]
            return 'vars'
        raise self.fault(2)

    def take_vars(self, text, word, rest):
        pools, gap, brigades = rest.partition(' ')
        if word != 'vars' or not gap or not all(is_number(one, 0, MOST_VARIABLES) for one in (pools, brigades)):
            raise self.fault(2)
        self.certificate.numbers = int(pools), int(brigades)
        return 'numbers'

    def take_numbers(self, text, word, rest):
        if word != 'code' or not is_number(rest, 1, MOST_CODE):
            raise self.fault(2)
        self.certificate.numbers += (int(rest),)
        return 'idle'

    def take_idle(self, text, word, rest):
        if word != 'idle':
            raise self.fault(2)
        self.certificate.idle = self.state_or_none(rest)
        return 'ready'

    def take_ready(self, text, word, rest):
        if word != 'ready':
            raise self.fault(2)
        self.certificate.ready = self.state_or_none(rest)
        return 'states'

    def take_states(self, text, word, rest):
        at = self.certificate.at
        if text == 'end':
            return 'done'
        if not is_number(word, max(at, default=-1) + 1, MOST_CODE - 1):
            raise self.fault(2)
        pc = int(word)
        at[pc] = self.state_of(rest) if self.certificate.numbers is None else self.new_or_same(pc, rest)
        return 'states'

    def new_or_same(self, pc, rest):
        """The state of an instruction in version 2: one that stands nowhere above, or one that was written out there."""
        same = re.fullmatch('same (%s)' % NUMBER.pattern, rest)
        if same:
            named = int(same[1])
            if named not in self.spelled.values():
                raise self.fault(3)
            return self.certificate.at[named]
        state = self.state_of(rest)
        if rest in self.spelled:
            raise self.fault(3)
        self.spelled[rest] = pc
        return state

    def state_or_none(self, text):
        return None if text == 'none' else self.state_of(text)

    def state_of(self, text):
        state = read(text)
        if state is None:
            raise self.fault(3)
        return state


def is_number(word, least, most):
    """Whether a word is a number within bounds, in its one spelling."""
    return NUMBER.fullmatch(word) is not None and least <= int(word) <= most


# The checker.

def handler_of(module, pc):
    """The handler in which an instruction stands."""
    return [handler for handler in HANDLERS if module.start[handler] <= pc][-1]


def entries(module, certificate):
    """The first instruction of each handler that is entered, with the state in which it is."""
    found = [(module.start['open'], rules.first_state(module))]
    if certificate.idle:
        found.append((module.start['init'], certificate.idle))
    if certificate.ready:
        found.append((module.start['main'], rules.brought(certificate.ready)))
    return found


def heads(module):
    """The first instructions of handlers, and those that some instruction names as its target."""
    return set(module.start.values()) | {operands[-1] for word, *operands in module.code if OPERANDS[word].endswith('L')}


def completion(module, certificate):
    """The certificate that a slim one means: what stands elsewhere is what the instruction before hands on."""
    if not certificate.slim:
        return certificate
    given, at = heads(module), {}
    for pc in range(len(module.code)):
        state = certificate.at.get(pc) if pc in given else next_state(module, pc - 1, at.get(pc - 1))
        if state is not None:
            at[pc] = state
    return replace(certificate, at=at, slim=False)


def next_state(module, pc, state):
    """What an instruction hands on to the one behind it, or None."""
    if state is None:
        return None
    try:
        return dict(rules.after(module, pc, state)).get(pc + 1)
    except rules.May:
        return None


def check(module, certificate):
    """Raises the first refusal of a certificate."""
    check_shape(module, certificate)
    certificate = completion(module, certificate)
    for pc, state in entries(module, certificate):
        if not below(state, certificate.at.get(pc)):
            raise Refusal(pc, 'entry')
    for pc, state in sorted(certificate.at.items()):
        check_instruction(module, certificate, pc, state)
    if certificate.ready and not below(rules.at_end_of_request(module, certificate.ready), certificate.idle):
        raise Refusal(0, 'request')


def below(state, other):
    """Whether a state is below another one, or none."""
    return other is not None and leq(state, other)


def check_shape(module, certificate):
    if certificate.numbers not in (None, numbers_of(module)):
        raise Refusal(0, 'shape')
    if certificate.slim and not set(certificate.at) <= heads(module):
        raise Refusal(0, 'shape')
    for pc, state in [(-1, certificate.idle), (-1, certificate.ready)] + list(certificate.at.items()):
        if state is None:
            continue
        in_main = pc >= 0 and handler_of(module, pc) == 'main'
        if (len(state.pools), len(state.brigades)) != (len(module.pools), len(module.brigades)) \
                or (state.brought is not None) != in_main or pc >= len(module.code) or pc < 0 and any(state.cursors):
            raise Refusal(0, 'shape')


def numbers_of(module):
    """The numbers that a certificate of version 2 has."""
    return len(module.pools), len(module.brigades), len(module.code)


def check_instruction(module, certificate, pc, state):
    try:
        edges = rules.after(module, pc, state)
    except rules.May as may:
        raise Refusal(pc, str(may)) from None
    if not all(below(to, certificate.at.get(target)) for target, to in edges):
        raise Refusal(pc, 'flow')
    if module.code[pc][0] == 'ret':
        exit_state = certificate.idle if handler_of(module, pc) == 'open' else certificate.ready
        if not below(rules.between_calls(state), exit_state):
            raise Refusal(pc, 'exit')


# The maker.

def handed_on(module, place, state):
    """What the state of a place hands on: pairs of a place (an instruction, 'idle' or 'ready') and a state."""
    if place == 'idle':
        return [(module.start['init'], state)]
    if place == 'ready':
        return [(module.start['main'], rules.brought(state)), ('idle', rules.at_end_of_request(module, state))]
    try:
        edges = rules.after(module, place, state)
    except rules.May:
        return []
    if module.code[place][0] == 'ret':
        edges = [('idle' if handler_of(module, place) == 'open' else 'ready', rules.between_calls(state))]
    return edges


def grow(module, more=()):
    """The states at which rounds over all places at once arrive, from where `open` begins and from `more` places with states.
    A place whose state did not change hands on nothing new."""
    states = {}
    arriving = [(module.start['open'], rules.first_state(module)), *more]
    while arriving:
        changed = set()
        for place, state in arriving:
            old = states.get(place)
            states[place] = state if old is None else join(old, state)
            if states[place] != old:
                changed.add(place)
        arriving = [edge for place in changed for edge in handed_on(module, place, states[place])]
    idle, ready = states.pop('idle', None), states.pop('ready', None)
    return Certificate(idle, ready, states, numbers_of(module))


def make(module):
    """The least certificate, of version 2. Raises the refusal of the lowest instruction that refuses."""
    certificate = grow(module)
    for pc, state in sorted(certificate.at.items()):
        try:
            rules.after(module, pc, state)
        except rules.May as may:
            raise Refusal(pc, str(may)) from None
    return certificate


def slim(module, certificate):
    """The slim form."""
    kept = heads(module)
    return replace(certificate, at={pc: state for pc, state in certificate.at.items() if pc in kept}, slim=True)


def upgrade(module, certificate):
    """The same states in version 2. Raises OfVersion2 where they are so, and the refusal where the certificate is not accepted."""
    if certificate.numbers:
        raise OfVersion2
    check(module, certificate)
    return replace(certificate, numbers=numbers_of(module))


# The commands.

def answer(program):
    """What a command of these texts prints, and its exit status."""
    try:
        return program(), 0
    except FaultyText as fault:
        return b'asm line %d code %d\n' % (fault.line, fault.code), 1
    except Refusal as refusal:
        arose('refused: %s' % refusal.rule)
        return b'refused at %d: %s\n' % (refusal.pc, refusal.rule.encode()), 1


def certify(text, is_slim=False):
    """The answer to `certify`, or to `certify --slim`."""
    def made():
        module = assemble_alone(text)
        certificate = make(module)
        return show_certificate(slim(module, certificate) if is_slim else certificate)
    return answer(made)


def of_texts(work, text, certificate_text):
    """The answer to a command of a module text and a certificate text, which does this work on what they say."""
    def done():
        module = assemble_alone(text)
        try:
            certificate = read_certificate(certificate_text)
        except FaultyText as fault:
            arose('certificate text with code %d' % fault.code)
            raise CertificateFault(fault) from None
        arose('certificate of version %d, %s' % (1 if certificate.numbers is None else 2, 'slim' if certificate.slim else 'full'))
        return work(module, certificate)
    try:
        return answer(done)
    except CertificateFault as fault:
        return b'cert line %d code %d\n' % (fault.args[0].line, fault.args[0].code), 1


def check_texts(text, certificate_text):
    """The answer to `check`."""
    def checked(module, certificate):
        check(module, certificate)
        arose('certificate accepted')
        return b'accepted\n'
    return of_texts(checked, text, certificate_text)


def upgrade_texts(text, certificate_text):
    """The answer to `upgrade`."""
    def upgraded(module, certificate):
        printed = show_certificate(upgrade(module, certificate))
        arose('certificate upgraded')
        return printed
    try:
        return of_texts(upgraded, text, certificate_text)
    except OfVersion2:
        return b'already version 2\n', 1


class CertificateFault(Exception):
    """The fault of a certificate text."""
