"""The rules of the checker: what an instruction needs in a state, and the states to which it leads.

A reading of docs/LANGUAGE.md, written apart from the definitions and from the code, so that a slip in either shows.
"""
from dataclasses import replace

from .states import NOTHING, READ_CURSOR, Brigade, Cursor, State, above, at_most, usable
from .texts import KINDS

CLASSES = {'f': frozenset('f'), 'n': frozenset('df'), 'o': frozenset('dfe'), 'a': frozenset('dfe')}
CLASS_OF_KIND = {kind: 'd' for kind in KINDS} | {'flush': 'f', 'eos': 'e'}
LIVE = frozenset('l')


class May(Exception):
    """A fault that an instruction may have: its name."""


def after(module, pc, state):
    """Where an instruction leads: pairs of an instruction and its state. Raises May where a need fails."""
    word, *operands = module.code[pc]
    return getattr(Rule(module, pc, state), 'rule_' + word)(*operands)


def pools_under(module, pool):
    """The declared pools under a pool, not it itself."""
    under = set()
    for i, parent in enumerate(module.pools):
        if parent == pool or parent in under:
            under.add(i)
    return under


def home_of(pool):
    """The home of what lies in a pool; none for the connection's."""
    return NOTHING if pool == 'conn' else frozenset([pool if pool == 'req' else 'p%d' % pool])


def ended(module, state, pool):
    """What a clear of a pool, declared or `req`, does to all that is under it."""
    under = pools_under(module, pool)
    for i in under:
        state = state.with_pool(i, gone(state.pools[i]))
    for i, lies_on in enumerate(module.brigades):
        if lies_on == pool or lies_on in under:
            state = state.with_brigade(i, Brigade(gone(state.brigades[i].var)))
    names = NOTHING.union(*map(home_of, under | {pool}))

    def dead(part):
        if part is None or part.homes is None or not part.homes & names:
            return part
        return replace(part, homes=part.homes - names | {'dead'})

    state = state.only_standing()
    return replace(state, brigades=tuple(map(dead, state.brigades)), brought=dead(state.brought),
                   cursors=tuple(map(dead, state.cursors)))


def gone(var):
    return var - LIVE | {'g'} if 'l' in var else var


def at_end_of_request(module, state):
    """The state between requests that comes of one between calls."""
    return replace(ended(module, state, 'req'), sent=False)


def first_state(module):
    """The state in which `open` begins."""
    return State(False, (frozenset('n'),) * len(module.pools), (Brigade(frozenset('n')),) * len(module.brigades))


def brought(state):
    """The state in which `main` begins, where this one stands between calls."""
    return replace(state, brought=usable('o', frozenset(['call'])))


def between_calls(state):
    """What is left of a state at a return."""
    return replace(state, brought=None, cursors=(None,) * 9, facts=NOTHING)


class Rule:
    """One instruction in one state."""

    def __init__(self, module, pc, state):
        self.module, self.pc, self.state = module, pc, state

    # Edges.

    def edge(self, to, state, sets=(), new=()):
        """An edge with the facts that survive, where `sets` are the cursors that the instruction sets, and new ones."""
        facts = {pair for pair in self.state.known() if not set(pair) & set(sets)}
        return to, state.with_facts(facts | {tuple(sorted(pair)) for pair in new})

    def next(self, state, sets=(), new=()):
        return [self.edge(self.pc + 1, state, sets, new)]

    def both(self, label):
        return self.next(self.state) + [self.edge(label, self.state)]

    # Needs.

    def need(self, holds, fault):
        if not holds:
            raise May(fault)

    def pool(self, pool):
        self.need(pool in ('conn', 'req') or self.state.pools[pool] == LIVE, 'F1')

    def there(self, brigade):
        self.need(self.state.brigade(brigade).is_live(), 'F2')

    def usable(self, *brigades):
        for brigade in brigades:
            self.there(brigade)
            self.need(self.state.brigade(brigade).is_usable(), 'F7')

    def named(self, cursor):
        """A cursor that is set; gives where it stands."""
        found = self.state.cursors[cursor]
        self.need(found is not None, 'F3')
        return found

    def bucket(self, cursor):
        found = self.named(cursor)
        self.need(found.place in ('loose', 'in'), 'F4')
        return found

    def loose(self, cursor):
        found = self.bucket(cursor)
        self.need(found.place == 'loose', 'F9')
        return found

    def standing(self, cursor):
        found = self.bucket(cursor)
        self.need(found.place == 'in', 'F9')
        return found

    def homes_of(self, cursor):
        """The homes of a cursor's bucket."""
        return cursor.homes if cursor.place == 'loose' else self.state.brigade(cursor.brigade).homes

    def alive(self, homes):
        self.need('dead' not in homes, 'F5')

    # What is done to states.

    def forget(self, cursor):
        """The state in which cursors that may name the bucket of this one are unset."""
        state, known, found = self.state, self.state.known(), self.state.cursors[cursor]
        for i, other in enumerate(self.state.cursors):
            if i == cursor or other is None or other.place == 'end' or tuple(sorted((i, cursor))) in known:
                continue
            if (other.place == 'loose') == (found.place == 'loose') and other.brigade == found.brigade:
                state = state.with_cursor(i, None)
        return state

    def unset(self, state, brigade, places=('in', 'either')):
        """The state in which cursors that stand so at a brigade are unset."""
        for i, cursor in enumerate(state.cursors):
            if cursor and cursor.brigade == brigade and cursor.place in places:
                state = state.with_cursor(i, None)
        return state

    def front(self, brigade):
        """What is known of the first bucket, or the end, of a brigade."""
        content = self.state.brigade(brigade).content
        return Cursor('end', brigade) if content == 'e' else Cursor('either', brigade, CLASSES[content])

    # Pools.

    def rule_pcreate(self, pool):
        self.pool(self.module.pools[pool])
        self.need('l' not in self.state.pools[pool], 'F10')
        return self.next(self.state.with_pool(pool, LIVE))

    def rule_pclear(self, pool):
        self.pool(pool)
        return self.next(ended(self.module, self.state, pool))

    def rule_pdestroy(self, pool):
        self.pool(pool)
        return self.next(ended(self.module, self.state, pool).with_pool(pool, frozenset('g')))

    def rule_label(self, pool, _):
        self.pool(pool)
        return self.next(self.state)

    rule_unlabel = rule_prelabel = rule_label

    def rule_leave(self):
        return self.next(self.state)

    def rule_jnull(self, variable, label):
        letter, index = variable
        state = self.state
        var = state.pools[index] if letter == 'p' else state.brigades[index].var

        def with_var(var):
            if letter == 'p':
                return state.with_pool(index, var)
            return state.with_brigade(index, replace(state.brigades[index], var=var) if 'l' in var else Brigade(var))

        edges = []
        if var - {'n'}:
            edges += self.next(with_var(var - {'n'}))
        if 'n' in var:
            edges.append(self.edge(label, with_var(frozenset('n'))))
        return edges

    # Whole brigades.

    def rule_bcreate(self, brigade):
        self.pool(self.module.brigades[brigade])
        self.need('l' not in self.state.brigades[brigade].var, 'F10')
        return self.next(self.state.with_brigade(brigade, usable()))

    def rule_bclean(self, brigade):
        self.there(brigade)
        return self.next(self.unset(self.state.with_brigade(brigade, usable()), brigade))

    def moved(self, target, source, homes):
        """All of a brigade goes to the tail of another, which then has these homes."""
        content, more = self.state.brigade(target).content, self.state.brigade(source).content
        if at_most(content, 'n'):
            content = above(content, more)
        elif content != 'o' or not at_most(more, 'f'):
            content = 'a'
        state = self.state.with_brigade(target, usable(content, homes)).with_brigade(source, usable())
        state = self.unset(state, source, ['either'])
        for i, cursor in enumerate(state.cursors):
            if cursor and cursor.place == 'in' and cursor.brigade == source:
                state = state.with_cursor(i, replace(cursor, brigade=target))
        return self.next(state)

    def rule_bconcat(self, target, source):
        self.usable(target, source)
        return self.moved(target, source, self.state.brigade(target).homes | self.state.brigade(source).homes)

    def rule_bsave(self, target, source):
        self.usable(target, source)
        self.alive(self.state.brigade(source).homes)
        return self.moved(target, source, self.state.brigade(target).homes | home_of(self.module.brigades[target]))

    def rule_bsplit(self, brigade, cursor, target):
        self.usable(brigade)
        found = self.named(cursor)
        self.need(found.brigade == brigade, 'F9')
        self.usable(target)
        source = self.state.brigade(brigade)
        state = self.state.with_brigade(target, usable() if found.place == 'end' else usable(source.content, source.homes))
        state = self.unset(self.unset(state, target), brigade)
        if found.place == 'in':
            state = state.with_cursor(cursor, replace(found, brigade=target))
        return self.next(state)

    def rule_bpart(self, brigade, _, cursor, label):
        self.usable(brigade)
        self.alive(self.state.brigade(brigade).homes)
        return self.next(self.state.with_cursor(cursor, self.front(brigade)), [cursor]) \
            + [self.edge(label, self.state.with_cursor(cursor, Cursor('end', brigade)), [cursor])]

    def rule_jempty(self, brigade, label):
        self.usable(brigade)
        edges = [self.edge(label, self.state.with_brigade(brigade, usable()))]
        return edges if self.state.brigade(brigade).content == 'e' else edges + self.next(self.state)

    def rule_pass(self, brigade, label):
        self.usable(brigade)
        content = self.state.brigade(brigade).content
        self.alive(self.state.brigade(brigade).homes)
        self.need(at_most(content, 'f' if self.state.sent else 'o'), 'F8')
        state = self.unset(self.state, brigade, ('in', 'either', 'end'))
        state = replace(state, sent=state.sent or content == 'o')
        state = state.with_brigade(brigade, Brigade(LIVE, frozenset('p')))
        return self.next(state) + [self.edge(label, state)]

    # Cursors.

    def rule_first(self, cursor, brigade):
        self.usable(brigade)
        return self.next(self.state.with_cursor(cursor, self.front(brigade)), [cursor])

    def rule_next(self, target, cursor):
        brigade = self.standing(cursor).brigade
        return self.next(self.state.with_cursor(target, self.front(brigade)), [target],
                         [(target, cursor)] if target != cursor else [])

    def rule_jend(self, cursor, label):
        found = self.named(cursor)
        edges = []
        if found.place != 'end':
            place = 'in' if found.place == 'either' else found.place
            edges += self.next(self.state.with_cursor(cursor, replace(found, place=place)))
        if found.place in ('end', 'either'):
            edges.append(self.edge(label, self.state.with_cursor(cursor, Cursor('end', found.brigade))))
        return edges

    def rule_jkind(self, cursor, kind, label):
        found = self.bucket(cursor)
        letter = CLASS_OF_KIND[kind]
        taken = found.classes & {letter}
        rest = found.classes if letter == 'd' and kind != 'data' else found.classes - {letter}
        edges = []
        if rest:
            edges += self.next(self.state.with_cursor(cursor, replace(found, classes=rest)))
        if taken:
            edges.append(self.edge(label, self.state.with_cursor(cursor, replace(found, classes=taken))))
        return edges

    def rule_unlink(self, cursor):
        found = self.standing(cursor)
        return self.next(self.forget(cursor).with_cursor(cursor, Cursor('loose', None, found.classes, self.homes_of(found))))

    def rule_bdelete(self, cursor):
        self.bucket(cursor)
        return self.next(self.forget(cursor).with_cursor(cursor, None))

    def put_in(self, brigade, cursor, content):
        """A loose bucket goes into a brigade, which then has this content."""
        found, old = self.state.cursors[cursor], self.state.brigade(brigade)
        state = self.forget(cursor).with_brigade(brigade, usable(content, old.homes | found.homes))
        return self.next(state.with_cursor(cursor, Cursor('in', brigade, found.classes)))

    def rule_tail(self, brigade, cursor):
        self.usable(brigade)
        classes, content = self.loose(cursor).classes, self.state.brigade(brigade).content
        if at_most(content, 'n'):
            content = above(content, content_of(classes))
        elif content != 'o' or 'd' in classes:
            content = 'a'
        return self.put_in(brigade, cursor, content)

    def rule_head(self, brigade, cursor):
        self.usable(brigade)
        classes, content = self.loose(cursor).classes, self.state.brigade(brigade).content
        if content != 'a':
            if 'e' not in classes:
                content = above(content, content_of(classes))
            else:
                content = 'o' if at_most(content, 'f') else 'a'
        return self.put_in(brigade, cursor, content)

    def rule_before(self, cursor, place):
        classes, brigade = self.loose(cursor).classes, self.standing(place).brigade
        content = self.state.brigade(brigade).content
        if classes == {'f'}:
            content = above(content, 'f')
        elif 'e' not in classes:
            content = 'n' if at_most(content, 'n') else 'a'
        else:
            content = 'o' if at_most(content, 'f') else 'a'
        return self.put_in(brigade, cursor, content)

    # Makers.

    def made(self, cursor, classes, homes=NOTHING):
        """A new loose bucket, which no other cursor names."""
        return self.next(self.state.with_cursor(cursor, Cursor('loose', None, frozenset(classes), homes)), [cursor],
                         [(cursor, i) for i in range(9) if i != cursor])

    def rule_heap(self, cursor, _):
        return self.made(cursor, 'd')

    rule_immortal = rule_heap

    def rule_frombuf(self, cursor):
        return self.made(cursor, 'd')

    def rule_transient(self, cursor):
        return self.made(cursor, 'd', frozenset(['call']))

    def rule_poolb(self, cursor, pool):
        self.pool(pool)
        return self.made(cursor, 'd')

    def rule_flush(self, cursor):
        return self.made(cursor, 'f')

    def rule_eos(self, cursor):
        return self.made(cursor, 'e')

    def rule_copy(self, target, cursor):
        found = self.bucket(cursor)
        self.alive(self.homes_of(found))
        return self.made(target, found.classes, self.homes_of(found))

    # Single buckets.

    def rule_aside(self, cursor, pool):
        found = self.bucket(cursor)
        self.pool(pool)
        self.alive(self.homes_of(found))
        if found.place == 'loose':
            return self.next(self.forget(cursor).with_cursor(cursor, replace(found, homes=home_of(pool))))
        brigade = self.state.brigade(found.brigade)
        return self.next(self.state.with_brigade(found.brigade, replace(brigade, homes=brigade.homes | home_of(pool))))

    def rule_split(self, cursor, _, label):
        self.alive(self.homes_of(self.standing(cursor)))
        return self.both(label)

    def rule_read(self, cursor, label):
        found = self.standing(cursor)
        self.alive(self.homes_of(found))
        others = [i for i in range(9) if i not in (cursor, READ_CURSOR) and tuple(sorted((i, cursor))) in self.state.known()]
        return self.next(self.state.with_cursor(READ_CURSOR, found), [READ_CURSOR], [(i, READ_CURSOR) for i in others]) \
            + [self.edge(label, self.state.with_cursor(READ_CURSOR, None), [READ_CURSOR])]

    def rule_len(self, _, cursor):
        self.bucket(cursor)
        return self.next(self.state)

    def rule_get(self, _, __, label):
        self.bucket(READ_CURSOR)
        return self.both(label)

    # The others.

    def rule_jsent(self, label):
        edges = self.next(replace(self.state, sent=False))
        return edges + [self.edge(label, self.state)] if self.state.sent else edges

    def rule_jlt(self, _, __, label):
        return self.both(label)

    rule_jeq = rule_jlt

    def rule_put(self, _, label):
        return self.both(label)

    def rule_clearbuf(self):
        return self.next(self.state)

    def rule_set(self, *_):
        return self.next(self.state)

    rule_add = rule_sub = rule_set

    def rule_jump(self, label):
        return [self.edge(label, self.state)]

    def rule_ret(self, _):
        for brigade in self.state.brigades:
            self.need(brigade.homes is None or 'call' not in brigade.homes, 'F6')
        return []


def content_of(classes):
    """The least content of a brigade of one bucket of these classes."""
    return 'o' if 'e' in classes else 'f' if classes == {'f'} else 'n'
