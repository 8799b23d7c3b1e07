"""Counts what arose in the scripts that were played, so that a reader sees how deep they reach."""
from collections import Counter
from contextlib import contextmanager

ARISEN = Counter()


def arose(what):
    """Counts that this arose; what counts is told by its first words."""
    ARISEN[what] += 1


@contextmanager
def uncounted():
    """What arises here is not counted."""
    before = Counter(ARISEN)
    yield
    ARISEN.clear()
    ARISEN.update(before)


def table():
    """The counts as lines of text, two columns of them."""
    rows = ['%9d  %s' % (times, what) for what, times in sorted(ARISEN.items())]
    half = (len(rows) + 1) // 2
    width = max(map(len, rows), default=0)
    right = rows[half:] + [''] * (2 * half - len(rows))
    return '\n'.join(('%-*s  %s' % (width, a, b)).rstrip() for a, b in zip(rows, right))
