"""The instance of a module on a connection: its variables, its brigades, and its call while one runs.

Part of the reading that scripts.py plays.
"""
from .counts import arose
from .pools import DEAD, Brigade


class Call:
    """A call of a handler, which stands before the instruction pc. While it waits for the next filter it stands at its pass."""

    def __init__(self, name, pc):
        self.name, self.pc = name, pc
        self.cursors = [None] * 8        # each None, a bucket or the end of a brigade
        self.read_cursor = None          # likewise, set by `read`
        self.buffer = bytearray()
        self.passed = None               # the brigade that it passed last, and the label of that pass


class End:
    """The end of a brigade."""

    def __init__(self, brigade):
        self.brigade = brigade


class Instance:
    """The instance of a module on one connection. Brigades and loose buckets are its own; other filters do not name them."""

    def __init__(self, module, connection):
        self.module, self.connection, self.pools = module, connection, connection.pools
        self.pool_variables = [None] * len(module.pools)
        self.brigade_variables = [None] * len(module.brigades)
        self.numbers = [0] * 8
        self.brigades = {}
        self.sent = False                # it passed an EOS in this request
        self.has_left = False            # it took itself out of the chain in this request
        self.call = None
        self.brought = None              # the brigade `in` of the call
        self.loose = Brigade()           # the loose buckets of the call

    # Calls.

    def enter(self, handler, buckets=None):
        """A call of a handler begins; that of `main` with a brigade of these buckets."""
        self.call = Call(self.pools.name('call'), self.module.start[handler])
        self.brought = None if buckets is None else Brigade(buckets=buckets)

    def finish(self):
        """The call is over. Gives the buckets that are left in `in`."""
        left = self.brought.buckets if self.brought else []
        self.call, self.brought, self.loose = None, None, Brigade()
        return left

    # What the operands name.

    def pool_of(self, pool):
        """The name of the pool that an operand or a declaration means, or None where it is not there."""
        if pool in ('conn', 'req'):
            return self.connection.conn_pool if pool == 'conn' else self.connection.req_pool
        name = self.pool_variables[pool]
        return name if name in self.pools.tree else None

    def own_pools(self):
        """The pools that no other filter clears: those of the connection and the request, and its own that are there."""
        return {self.pool_of(pool) for pool in ['conn', 'req', *range(len(self.pool_variables))]} - {None}

    def brigade_of(self, brigade):
        """The brigade that an operand means, or None where it is not there."""
        if brigade == 'in':
            return self.brought
        return self.brigades.get(self.brigade_variables[brigade])

    def value(self, operand):
        """The value of a number variable or a constant."""
        kind, value = operand
        return self.numbers[value] if kind == 'n' else value

    # Buckets.

    def make_brigade(self, pool):
        name = self.pools.name('brigade')
        self.brigades[name] = Brigade(pool)
        self.pools.tree[pool].payloads.append(('brigade', name))
        return name

    def all_brigades(self):
        """Each brigade of the instance that is there."""
        return list(self.brigades.values()) + ([] if self.brought is None else [self.brought])

    def all_buckets(self):
        """Each bucket of the instance that stands in a brigade or is loose."""
        return [bucket for brigade in self.all_brigades() + [self.loose] for bucket in brigade.buckets]

    def place_of(self, named):
        """Where a bucket or an end is: a brigade or the loose buckets; None where it is not there, or with another filter."""
        if isinstance(named, End):
            places = [brigade for brigade in self.all_brigades() if brigade is named.brigade]
        else:
            places = [place for place in self.all_brigades() + [self.loose] if named in place.buckets]
        return places[0] if places else None

    def length(self, bucket):
        return bucket.range[2] if bucket.kind == 'file' else len(bucket.data)

    # What ends.

    def lose_pools(self, gone):
        """What the end of pools does: brigades on them go, homes die, and POOL buckets become HEAP buckets."""
        for name in [name for name, brigade in self.brigades.items() if brigade.pool in gone]:
            if self.brigades[name].buckets:
                arose('clear of a brigade with buckets')
            del self.brigades[name]
        for bucket in self.all_buckets():
            kind, name = bucket.home
            if kind == 'pool' and name in gone:
                bucket.home = DEAD
                arose('clear of the home of a bucket')
            if bucket.kind == 'pool' and bucket.pool in gone:
                bucket.kind, bucket.pool = 'heap', None
                arose('clear that makes a POOL bucket a HEAP bucket')

    def lose_call(self, name):
        """What the return of a call does: homes die."""
        for bucket in self.all_buckets():
            if bucket.home == ('call', name):
                bucket.home = DEAD
