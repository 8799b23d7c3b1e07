"""Abstract states of the checker: their form, their order, the join, and their texts.

Part of the reading of docs/LANGUAGE.md that rules.py and certificates.py make.
"""
import re
from dataclasses import dataclass, replace
from itertools import combinations

CONTENTS = 'efnoa'               # empty, flushes only, no EOS, no data after an EOS, any
NOTHING = frozenset()
READ_CURSOR = 8                  # the place of `rd` among the cursors
CURSORS = ['c%d' % i for i in range(8)] + ['rd']
HOMES = ['call', 'req'] + ['p%d' % i for i in range(8)] + ['dead']


@dataclass(frozen=True)
class Brigade:
    """What is known of a brigade variable: a set of n, g and l; where it may be live its marks, a set of u and p; where it
    may be usable its content and homes. `in` is always live."""
    var: frozenset
    marks: frozenset = None
    content: str = None
    homes: frozenset = None

    def is_live(self):
        return self.var == {'l'}

    def is_usable(self):
        """Whether it is exactly live and exactly usable."""
        return self.is_live() and self.marks == {'u'}


@dataclass(frozen=True)
class Cursor:
    """Where a cursor that is set stands: `loose`, `in` a brigade, at its `end`, or `either` of the last two."""
    place: str
    brigade: object = None       # the number of a variable, or 'in'
    classes: frozenset = None    # of d, f and e; none at an end
    homes: frozenset = None      # of a loose bucket


@dataclass(frozen=True)
class State:
    """A state. Facts are the written ones, as rising pairs of places among the cursors."""
    sent: bool                   # an EOS may have been passed
    pools: tuple                 # sets of n, g and l
    brigades: tuple
    brought: Brigade = None
    cursors: tuple = (None,) * 9
    facts: frozenset = NOTHING

    def brigade(self, which):
        return self.brought if which == 'in' else self.brigades[which]

    def with_brigade(self, which, brigade):
        if which == 'in':
            return replace(self, brought=brigade)
        return replace(self, brigades=self.brigades[:which] + (brigade,) + self.brigades[which + 1:])

    def with_pool(self, which, pool):
        return replace(self, pools=self.pools[:which] + (pool,) + self.pools[which + 1:])

    def with_cursor(self, which, cursor):
        return replace(self, cursors=self.cursors[:which] + (cursor,) + self.cursors[which + 1:])

    def is_implied(self, pair):
        """Whether two set cursors stand at two places, or one is an end."""
        one, other = (self.cursors[i] for i in pair)
        return 'end' in (one.place, other.place) or (one.place == 'loose') != (other.place == 'loose') \
            or one.brigade != other.brigade

    def set_pairs(self):
        """The pairs of cursors that are set."""
        return combinations([i for i, cursor in enumerate(self.cursors) if cursor], 2)

    def known(self):
        """The facts, written or implied."""
        return {pair for pair in self.set_pairs() if pair in self.facts or self.is_implied(pair)}

    def with_facts(self, facts):
        """The state with those of these facts that are to be written."""
        return replace(self, facts=frozenset(pair for pair in self.set_pairs() if pair in facts and not self.is_implied(pair)))

    def only_standing(self):
        """The state in which cursors at a brigade that is not exactly live and usable are unset."""
        for i, cursor in enumerate(self.cursors):
            if cursor and cursor.place != 'loose' and not is_usable(self.brigade(cursor.brigade)):
                self = self.with_cursor(i, None)
        return self


def is_usable(brigade):
    return brigade is not None and brigade.is_usable()


def usable(content='e', homes=NOTHING):
    """A brigade that is live and usable."""
    return Brigade(frozenset('l'), frozenset('u'), content, homes)


def above(content, other):
    """The greater of two contents."""
    return max(content, other, key=CONTENTS.index)


def at_most(content, most):
    return CONTENTS.index(content) <= CONTENTS.index(most)


# The order.

def brigade_below(one, other):
    if not one.var <= other.var:
        return False
    if 'l' not in one.var:
        return True
    if not one.marks <= other.marks:
        return False
    return 'u' not in one.marks or at_most(one.content, other.content) and one.homes <= other.homes


def cursor_below(one, other):
    if other is None:
        return True
    if one is None:
        return False
    if one.place == 'loose' or other.place == 'loose':
        return one.place == other.place and one.classes <= other.classes and one.homes <= other.homes
    if one.brigade != other.brigade or other.place not in (one.place, 'either'):
        return False
    return one.place == 'end' or one.classes <= other.classes


def leq(one, other):
    """Whether a state is below another; the two have the same variables."""
    return (one.sent <= other.sent
            and all(a <= b for a, b in zip(one.pools, other.pools))
            and all(brigade_below(a, b) for a, b in zip(one.brigades, other.brigades))
            and (one.brought is None or brigade_below(one.brought, other.brought))
            and all(cursor_below(a, b) for a, b in zip(one.cursors, other.cursors))
            and other.facts <= one.known())


# The join.

def join_brigades(one, other):
    if one is None:
        return None
    var = one.var | other.var
    live = [brigade for brigade in (one, other) if 'l' in brigade.var]
    if not live:
        return Brigade(var)
    marks = NOTHING.union(*[brigade.marks for brigade in live])
    used = [brigade for brigade in live if 'u' in brigade.marks]
    if not used:
        return Brigade(var, marks)
    return Brigade(var, marks, max((brigade.content for brigade in used), key=CONTENTS.index),
                   NOTHING.union(*[brigade.homes for brigade in used]))


def join_cursors(one, other):
    if one is None or other is None or (one.place == 'loose') != (other.place == 'loose') or one.brigade != other.brigade:
        return None
    if one.place == 'loose':
        return Cursor('loose', None, one.classes | other.classes, one.homes | other.homes)
    if one.place == other.place == 'end':
        return one
    place = one.place if one.place == other.place else 'either'
    return Cursor(place, one.brigade, (one.classes or NOTHING) | (other.classes or NOTHING))


def join(one, other):
    """The least state above both; the two have the same variables."""
    state = State(one.sent or other.sent,
                  tuple(a | b for a, b in zip(one.pools, other.pools)),
                  tuple(map(join_brigades, one.brigades, other.brigades)),
                  join_brigades(one.brought, other.brought),
                  tuple(map(join_cursors, one.cursors, other.cursors)))
    return state.only_standing().with_facts(one.known() & other.known())


# Texts.

def in_order(letters, members):
    return ''.join(letter for letter in letters if letter in members)


def show_homes(homes):
    return ','.join(home for home in HOMES if home in homes) or '-'


def show_marks(brigade):
    text = in_order('up', brigade.marks)
    return text + '/%s/%s' % (brigade.content, show_homes(brigade.homes)) if 'u' in brigade.marks else text


def show_brigade(brigade):
    text = in_order('ngl', brigade.var)
    return text + '/' + show_marks(brigade) if 'l' in brigade.var else text


def show_cursor(cursor):
    if cursor.place == 'loose':
        return 'loose/%s/%s' % (in_order('dfe', cursor.classes), show_homes(cursor.homes))
    name = cursor.brigade if cursor.brigade == 'in' else 'b%d' % cursor.brigade
    if cursor.place == 'end':
        return name + '$'
    return name + ('?' if cursor.place == 'either' else '') + '/' + in_order('dfe', cursor.classes)


def show(state):
    """The one text of a state."""
    words = ['sent=maybe' if state.sent else 'sent=no']
    words += ['p%d=%s' % (i, in_order('ngl', pool)) for i, pool in enumerate(state.pools)]
    words += ['b%d=%s' % (i, show_brigade(brigade)) for i, brigade in enumerate(state.brigades)]
    if state.brought:
        words.append('in=' + show_marks(state.brought))
    words += ['%s=%s' % (CURSORS[i], show_cursor(cursor)) for i, cursor in enumerate(state.cursors) if cursor]
    return ' '.join(words + ['%s!%s' % (CURSORS[i], CURSORS[j]) for i, j in sorted(state.facts)])


MARKS = r'(?P<marks>[up]+)(?:/(?P<content>[efnoa])/(?P<homes>[a-z0-7,-]+))?'
WORDS = {
    'pool': re.compile(r'p([0-7])=(?P<var>[ngl]+)'),
    'brigade': re.compile(r'b([0-7])=(?P<var>[ngl]+)(?:/%s)?' % MARKS),
    'in': re.compile('in=' + MARKS),
    'loose': re.compile(r'(c[0-7]|rd)=loose/(?P<classes>[dfe]+)/(?P<homes>[a-z0-7,-]+)'),
    'at': re.compile(r'(c[0-7]|rd)=(?P<at>b[0-7]|in)(?:(?P<end>\$)|(?P<either>\?)?/(?P<classes>[dfe]+))'),
    'fact': re.compile(r'(c[0-7]|rd)!(c[0-7]|rd)'),
}


def read(text):
    """The state that a text says, or None where it is not the one text of a state."""
    words = text.split(' ')
    if words[0] not in ('sent=no', 'sent=maybe'):
        return None
    state = State(words[0] == 'sent=maybe', (), ())
    for word in words[1:]:
        kind, found = next(((kind, found) for kind, regex in WORDS.items() if (found := regex.fullmatch(word))), (None, None))
        if not found:
            return None
        state = add_word(state, kind, found)
    return state if is_in_form(state) and show(state) == text else None


def read_homes(text):
    return None if text is None else NOTHING if text == '-' else frozenset(text.split(','))


def read_brigade(var, found):
    marks, content = found['marks'], found['content']
    return Brigade(frozenset(var), marks and frozenset(marks), content, read_homes(found['homes']))


def add_word(state, kind, found):
    """The state with what one word says; words that are out of order show when the state is written."""
    if kind == 'pool':
        return replace(state, pools=state.pools + (frozenset(found['var']),))
    if kind == 'brigade':
        return replace(state, brigades=state.brigades + (read_brigade(found['var'], found),))
    if kind == 'in':
        return replace(state, brought=read_brigade('l', found))
    if kind == 'fact':
        return replace(state, facts=state.facts | {tuple(map(CURSORS.index, found.groups()))})
    if kind == 'loose':
        cursor = Cursor('loose', None, frozenset(found['classes']), read_homes(found['homes']))
    else:
        at = 'in' if found['at'] == 'in' else int(found['at'][1])
        place = 'end' if found['end'] else 'either' if found['either'] else 'in'
        cursor = Cursor(place, at, None if place == 'end' else frozenset(found['classes']))
    return state.with_cursor(CURSORS.index(found[1]), cursor)


def is_in_form(state):
    """Whether all parts are there where they belong, and none elsewhere."""
    pools = set(HOMES[2:2 + len(state.pools)])
    brigades = state.brigades + (() if state.brought is None else (state.brought,))
    homes = [brigade.homes for brigade in brigades] + [cursor and cursor.homes for cursor in state.cursors]
    if not all(one is None or one <= {'call', 'req', 'dead'} | pools for one in homes):
        return False
    for brigade in brigades:
        if (brigade.marks is not None) != ('l' in brigade.var):
            return False
        if (brigade.content is not None) != (brigade.marks is not None and 'u' in brigade.marks):
            return False
    for cursor in state.cursors:
        if cursor and cursor.brigade not in (None, 'in') and cursor.brigade >= len(state.brigades):
            return False
    return state.only_standing() == state and state.with_facts(state.facts) == state
