"""Pools with their cleanups, and what lies on them: brigades of buckets, and open files.

Part of the reading that scripts.py plays.
"""
from .counts import arose
from .texts import show_text

ROOT = 1
LAST = 2 ** 64 - 1
DATA = ('heap', 'transient', 'immortal', 'pool', 'file')
FREE = ('free', None)            # a home is FREE, ('call', name), ('pool', name) or DEAD
DEAD = ('dead', None)


def never(_):
    """Nothing fails."""
    return False


class Bucket:
    """A bucket: its kind, its bytes or its range (file, start, length), and the home that it must not outlast. A POOL
    bucket has the pool of its bytes."""
    __slots__ = ('kind', 'data', 'home', 'pool', 'range')

    def __init__(self, kind, data=b'', home=FREE, pool=None, span=None):
        self.kind, self.data, self.home, self.pool, self.range = kind, data, home, pool, span


class Brigade:
    """A brigade on a pool; `in` lies on none."""

    def __init__(self, pool=None, buckets=()):
        self.pool, self.buckets, self.passed = pool, list(buckets), False

    def take(self, other):
        """Moves the buckets of another brigade to the tail."""
        self.buckets += other.buckets
        other.buckets = []

    def empty(self):
        self.buckets = []


class Pool:
    """A pool with its payloads, the oldest first: ('label', text), ('brigade', name) or ('file', number); and apart from them those
    that run before the payloads of the pools under it."""

    def __init__(self, parent):
        self.parent, self.payloads, self.pre = parent, [], []


class OpenFile:
    """An opened file with the number of the payloads that refer to it."""

    def __init__(self, name):
        self.name, self.references = name, 0


class Pools:
    """The pools of all connections, and their files. A name is given once, to whichever connection asks."""

    def __init__(self, fails=never, first=1):
        self.fails = fails               # told 'opening', 'read' or 'growth', it says whether that fails now
        self.first = first               # what the name 1 is told as
        self.given = 0                   # how many names of brigades, buckets and calls were given
        self.tree = {ROOT: Pool(None)}
        self.files = {}                  # the bytes of each file
        self.open_files = {}
        self.last = {'pool': ROOT, 'brigade': 0, 'call': 0, 'file': 0}

    def name(self, kind):
        """The next name of this kind."""
        self.last[kind] += 1
        return self.last[kind]

    def lack(self, names, pools=0):
        """Whether so many names of brigades, buckets and calls, or of pools, would reach 2^64 - 1, which is no name."""
        return max(self.given + names, self.last['pool'] + pools) + self.first > LAST

    def make_pool(self, parent):
        name = self.name('pool')
        self.tree[name] = Pool(parent)
        return name

    def open_file(self, name, pool):
        """Opens a file that is there, for as long as the pool lives."""
        number = self.name('file')
        self.open_files[number] = OpenFile(name)
        self.refer(pool, number)
        return number

    def read(self, number, start, length):
        """The bytes of a range of an open file, or None where the file ends before, or the read fails. Of no bytes there is no read."""
        data = self.files[self.open_files[number].name][start:start + length]
        return None if len(data) < length or length > 0 and self.fails('read') else data

    def refer(self, pool, number):
        """Keeps an open file open for as long as the pool lives."""
        self.tree[pool].payloads.append(('file', number))
        self.open_files[number].references += 1

    def forget(self, number):
        """Takes away one reference; with the last one the file is closed."""
        self.open_files[number].references -= 1
        if self.open_files[number].references == 0:
            del self.open_files[number]

    def children(self, pool):
        """The pools right under a pool, the oldest first."""
        return sorted(name for name, other in self.tree.items() if other.parent == pool)

    def lies_under(self, pool, above):
        """Whether a pool is the pool `above`, or lies under it."""
        while pool is not None and pool != above:
            pool = self.tree[pool].parent
        return pool == above

    def under(self, pool):
        """The pools at and under a pool."""
        return {name for name in self.tree if self.lies_under(name, pool)}

    def run_order(self, pool):
        """The payloads at and under a pool in the order in which a clear runs them."""
        order = self.tree[pool].pre[::-1]
        for child in reversed(self.children(pool)):
            order += self.run_order(child)
        return order + self.tree[pool].payloads[::-1]

    def clear(self, pool, destroy):
        """Takes away the pools under a pool, and the pool itself on `destroy`; gives the labels that run, in their order."""
        payloads, gone = self.run_order(pool), self.under(pool)
        for kind, value in payloads:
            if kind == 'file':
                self.forget(value)
        labels = [value for kind, value in payloads if kind == 'label']
        if len(labels) > 1:
            arose('clear with two or more labels')
        if any(self.tree[name].pre for name in gone):
            arose('clear with a pre-cleanup' + (', below the pool too' if any(self.tree[name].pre for name in gone - {pool}) else ''))
        self.tree[pool].payloads, self.tree[pool].pre = [], []
        for name in gone:
            if name != pool or destroy:
                del self.tree[name]
        return labels

    def show(self, pool=ROOT, depth=0):
        """A line for each pool at and under a pool, with its labels, those that run before all under it in front."""
        labels = ['^' + show_text(value) for _, value in self.tree[pool].pre]
        labels += [show_text(value) for kind, value in self.tree[pool].payloads if kind == 'label']
        line = '  ' * depth + ' '.join(['pool %d' % (pool + self.first - 1)] + labels) + '\n'
        return line + ''.join(self.show(child, depth + 1) for child in self.children(pool))
