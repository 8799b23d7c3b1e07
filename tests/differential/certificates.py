"""Certificates that are right, nearly right or wrong, and changes of their texts."""
from dataclasses import replace

from odd import STRANGE_BYTES
from reading.certificates import Certificate, grow, heads, numbers_of, show_certificate, slim
from reading.states import CONTENTS, NOTHING, Cursor, usable

HOMES = ['call', 'req', 'dead', 'p0', 'p1', 'p7']
ODD_LINES = ['cert 1', 'cert 2', 'cert 3', 'cert', 'slim 1', 'slim 2', 'cert 2 full', 'cert 2 slim', 'cert 2 full ', 'vars 0 0', 'vars 1 1', 'vars 8 8',
             'vars 9 0', 'vars 0 9', 'vars 1', 'vars 00 0', 'vars', 'code 1', 'code 0', 'code 1024', 'code 1025', 'code 08', 'code', 'code 8 ', '0 same 0',
             '1 same 0', '2 same 0', '5 same 2', '7 same 4', '3 same 1', '2 same', '1023 same 1023', '4 same 04', 'idle same 0', 'ready same 0', 'idle none', 'ready none', 'idle', 'ready ', 'end', 'end ', '', '# x', '0',
             '0 sent=no', '1024 sent=no', '1023 sent=no', '00 sent=no', ' 1 sent=no', 'idle sent=no', 'ready sent=maybe', 'x',
             '2 sent=maybe in=u/o/call', '3 sent=no in=u/o/call c0=in/d rd=in/d', 'module 1', 'accepted']
ODD_WORDS = ['sent=no', 'sent=maybe', 'p0=l', 'p0=nl', 'p0=ln', 'p1=ngl', 'b0=n', 'b0=l', 'b0=l/u/e/-', 'b0=l/p', 'b0=nl/up/a/call,dead',
             'b0=gl/u/n/req', 'b1=g', 'in=p', 'in=u/o/call', 'in=up/a/-', 'in=u/o/dead,call', 'c0=in/d', 'c0=in/ed', 'c0=in$',
             'c0=in?/dfe', 'c0=b0/d', 'c1=b0?/f', 'c1=loose/d/-', 'c2=loose/e/call', 'rd=in/d', 'rd=in$', 'rd=loose/d/p0', 'c0!c1',
             'c1!c0', 'c0!rd', 'c1!rd', 'c7=loose/f/-', 'c8=in/d', 'in=u/o/call,p0', 'in=u/o/', 'in=u', 'p8=l', 'c0=', 'same', 'same 0',
             'full', 'slim', '']


def subset_near(rng, members, letters):
    """A set of these letters with one member more or less; never empty."""
    letter = rng.choice(letters)
    return members ^ {letter} or frozenset(letters[0])


def brigade_near(rng, brigade, is_brought):
    """A brigade with one part changed."""
    if not is_brought and rng.random() < .3:
        brigade = replace(brigade, var=subset_near(rng, brigade.var, 'ngl'))
    elif brigade.marks and rng.random() < .3:
        brigade = replace(brigade, marks=subset_near(rng, brigade.marks, 'up'))
    elif brigade.content and rng.random() < .5:
        step = rng.choice([-1, 1])
        brigade = replace(brigade, content=CONTENTS[min(4, max(0, CONTENTS.index(brigade.content) + step))])
    elif brigade.homes is not None:
        brigade = replace(brigade, homes=brigade.homes ^ {rng.choice(HOMES)})
    return formed(brigade)


def formed(brigade):
    """A brigade with just the parts that belong to it."""
    if 'l' not in brigade.var:
        return replace(brigade, marks=None, content=None, homes=None)
    marks = brigade.marks or frozenset('u')
    if 'u' not in marks:
        return replace(brigade, marks=marks, content=None, homes=None)
    return replace(brigade, marks=marks, content=brigade.content or 'e', homes=brigade.homes or NOTHING)


def cursor_near(rng, cursor, brigades):
    """A cursor that stands elsewhere, or names a bucket of other classes or homes."""
    if cursor is None:
        return rng.choice([Cursor('loose', None, frozenset('d'), NOTHING), Cursor('either', rng.choice(brigades), frozenset('df')),
                           Cursor('in', rng.choice(brigades), frozenset('d')), Cursor('end', rng.choice(brigades))])
    chance = rng.random()
    if chance < .25:
        return None
    if cursor.classes and chance < .6:
        return replace(cursor, classes=subset_near(rng, cursor.classes, 'dfe'))
    if cursor.place == 'loose':
        return replace(cursor, homes=cursor.homes ^ {rng.choice(HOMES)})
    place = rng.choice(['in', 'either', 'end'])
    return Cursor(place, cursor.brigade, None if place == 'end' else cursor.classes or frozenset('d'))


def state_near(rng, state):
    """A state with one part changed."""
    chance = rng.random()
    brigades = list(range(len(state.brigades))) + (['in'] if state.brought else [])
    if chance < .12:
        state = replace(state, sent=not state.sent)
    elif chance < .3 and state.pools:
        which = rng.randrange(len(state.pools))
        state = state.with_pool(which, subset_near(rng, state.pools[which], 'ngl'))
    elif chance < .6 and brigades:
        which = rng.choice(brigades)
        state = state.with_brigade(which, brigade_near(rng, state.brigade(which), which == 'in'))
    elif chance < .85 and brigades:
        there = [i for i, cursor in enumerate(state.cursors) if cursor] or [rng.randrange(9)]
        which = rng.choice(there) if rng.random() < .7 else rng.randrange(9)
        state = state.with_cursor(which, cursor_near(rng, state.cursors[which], brigades))
    elif chance < .95:
        state = replace(state, facts=state.facts ^ {tuple(rng.choice([(0, 1), (0, 8), (1, 2), *state.facts]))})
    else:
        state = replace(state, brought=None if state.brought else usable('o', frozenset(['call'])))
    facts = {pair for pair in state.facts if all(state.cursors[i] for i in pair)}
    cursors = tuple(None if cursor and cursor.brigade == 'in' and state.brought is None else cursor for cursor in state.cursors)
    state = replace(state, cursors=cursors).only_standing()
    return state.with_facts(facts)


def certificate_near(rng, certificate):
    """A certificate with one state changed, left out, or put in."""
    idle, ready, at = certificate.idle, certificate.ready, dict(certificate.at)
    chance = rng.random()
    alone = [state for state in at.values() if not state.brought and not any(state.cursors)]
    if chance < .04 and alone:
        idle = rng.choice(alone)
    elif chance < .08 and idle:
        idle = None if rng.random() < .3 else state_near(rng, idle)
    elif chance < .2 and ready:
        ready = None if rng.random() < .3 else state_near(rng, ready)
    elif at:
        pc = rng.choice(sorted(at))
        if chance < .3:
            del at[pc]
        elif chance < .38:
            at[rng.choice([pc + 1, max(at) + 1])] = at[pc]
        else:
            at[pc] = state_near(rng, at[pc])
    return replace(certificate, idle=idle, ready=ready, at=at)


def greater(rng, module, certificate):
    """What the states grow to where another one arrives somewhere, too."""
    places = [('idle', certificate.idle), ('ready', certificate.ready)] + list(certificate.at.items())
    place, state = rng.choice([(place, state) for place, state in places if state])
    near = state_near(rng, state)
    if bool(near.brought) != bool(state.brought):
        return certificate
    return grow(module, [(place, one) for place, one in places if one] + [(place, near)])


def spelled(rng, module, certificate):
    """The certificate in one of the two versions, full or slim; now and then with numbers that are not the module's, or with a line of no head."""
    numbers = list(numbers_of(module))
    if rng.random() < .05:
        place = rng.randrange(3)
        numbers[place] = rng.randint(1, 1024) if place == 2 else rng.randint(0, 8)
    certificate = replace(certificate, numbers=rng.choice([None, tuple(numbers)]))
    if rng.random() < .4:
        full, certificate = certificate, slim(module, certificate)
        others = sorted(set(full.at) - heads(module))
        if others and rng.random() < .1:
            pc = rng.choice(others)
            certificate.at[pc] = full.at[pc]
    return certificate


def certificate_text(rng, module, certificate):
    """The text of a certificate, or of one near it; now and then with faults."""
    if rng.random() < .25:
        certificate = greater(rng, module, certificate)
    certificate = spelled(rng, module, certificate)
    for _ in range(rng.choice([0, 0, 1, 1, 1, 2, 3])):
        certificate = certificate_near(rng, certificate)
    text = show_certificate(certificate)
    chance = rng.random()
    if chance < .25:
        text = changed_text(rng, text)
    elif chance < .27:
        text = text[:rng.randrange(len(text) + 1)]
    elif chance < .45 and certificate.numbers:
        text = with_another_same(rng, text)
    return text


def with_another_same(rng, text):
    """A text of version 2 in which one line names another line, or writes out what it should name."""
    lines = text.decode('ascii').split('\n')[:-1]
    states = {line.split(' ')[0]: place for place, line in enumerate(lines) if line[0].isdigit()}
    same = [number for number, place in states.items() if ' same ' in lines[place]]
    if not states:
        return text
    number = rng.choice(same) if same and rng.random() < .7 else rng.choice(list(states))
    place = states[number]
    named = lines[place].split(' ')[-1]
    chance = rng.random()
    if chance < .25 and number in same:                      # the state is written out, or the line that says it is left out
        lines[place] = '%s %s' % (number, lines[states[named]].split(' ', 1)[1])
    elif chance < .4 and number in same:
        del lines[states[named]]
    else:
        lines[place] = '%s same %s' % (number, named_by(rng, list(states), same, number, named))
    return ''.join(line + '\n' for line in lines).encode('ascii')


def named_by(rng, numbers, same, number, named):
    """The line that a `same` names in place of the one that is due: any, a later one, a `same` line, itself, none, or in another spelling."""
    others = [one for one in numbers if one not in same]
    later = [one for one in numbers if int(one) > int(number)]
    absent = [str(pc) for pc in range(int(numbers[-1]) + 2) if str(pc) not in numbers]
    return rng.choice([rng.choice(others), rng.choice(others), rng.choice(later or numbers), rng.choice(same or numbers), number, rng.choice(absent),
                       '1023', '1024', '', ' ' + named, '0' + named, named + ' '])


def changed_text(rng, text):
    """A text with one line or word of it changed."""
    lines = text.decode('ascii').split('\n')[:-1]
    place, other = rng.randrange(len(lines)), rng.randrange(len(lines))
    words = lines[place].split(' ')
    at = rng.randrange(len(words))
    chance = rng.random()
    if chance < .1:
        del lines[place]
    elif chance < .2:
        lines.insert(place, rng.choice(ODD_LINES))
    elif chance < .25:
        lines[place], lines[other] = lines[other], lines[place]
    elif chance < .3:
        lines.append(rng.choice(ODD_LINES))
    elif chance < .55:
        words[at] = rng.choice(ODD_WORDS)
        lines[place] = ' '.join(words)
    elif chance < .65:
        words.insert(at + 1, rng.choice(ODD_WORDS))
        lines[place] = ' '.join(words)
    elif chance < .75:
        del words[at]
        lines[place] = ' '.join(words)
    elif chance < .9:
        line = lines[place]
        cut = rng.randrange(len(line) + 1)
        lines[place] = line[:cut] + rng.choice('nglupefao/-,=!$? cdr01') + line[cut + rng.randint(0, 1):]
    else:
        line = lines[place]
        cut = rng.randrange(len(line) + 1)
        lines[place] = line[:cut] + chr(rng.choice(STRANGE_BYTES)) + line[cut:]
    return ('\n'.join(lines) + '\n' * (rng.random() < .98)).encode('latin-1')
