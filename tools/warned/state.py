"""What is known at a place of a path through a source: where values come from, which reads of globals
are out of date, and which resources are held."""
import collections

Value = collections.namedtuple("Value", "origin reads")
Value.__doc__ = """`origin` is a number, a symbol (a tuple) that stands for one unknown number, or None. `reads` are the
reads of globals on which the value depends."""
UNKNOWN = Value(None, frozenset())

Read = collections.namedtuple("Read", "variable element at depth")
Read.__doc__ = """A read of a global at a place: of which element (the origin of its index, 0 without one), and within
how many calls."""

Held = collections.namedtuple("Held", "how units at depth")
Held.__doc__ = """A resource that was taken at a place: `how` is `held`, `given` (back), `partly` (given back on one
path to here and not on another), or `maybe` (not taken on each path)."""


def joined(one, other):
    """How a resource is held where two paths meet; None is a path on which it wasn't taken."""
    if one is None or other is None:
        known = one or other
        return known if known.how == "given" else known._replace(how="maybe")
    if one.how == other.how or other.how == "maybe":
        return other
    return one if one.how == "maybe" else one._replace(how="partly", at=(one if one.how == "held" else other).at)


class State:
    """`values` of variables; `reads` with the block that makes each out of date, or None, and the resources held
    ever since; `held` resources; `control`, the reads that decided that this place was reached;
    `is_ordered`, whether two unknown values were compared on the way."""

    def __init__(self):
        self.values, self.reads, self.held, self.control, self.is_ordered = {}, {}, {}, frozenset(), False

    def copy(self):
        made = State()
        made.values, made.reads, made.held = dict(self.values), dict(self.reads), dict(self.held)
        made.control, made.is_ordered = self.control, self.is_ordered
        return made

    def become(self, other):
        self.__dict__.update(other.copy().__dict__)

    def join(self, other):
        """Adds what is known on another path that comes to the same place."""
        for variable, value in other.values.items():
            own = self.values.get(variable, value)
            origin = own.origin if own.origin == value.origin else ("mixed", variable)
            self.values[variable] = Value(origin, own.reads | value.reads)
        for read, (block, locks) in other.reads.items():
            own, own_locks = self.reads.get(read, (block, locks))
            self.reads[read] = (own or block, own_locks & locks)
        for key in self.held.keys() | other.held.keys():
            self.held[key] = joined(self.held.get(key), other.held.get(key))
        self.control |= other.control
        self.is_ordered = self.is_ordered or other.is_ordered

    def read(self, read):
        self.reads[read] = (None, frozenset(key for key, it in self.held.items() if it.how == "held"))

    def block(self, block):
        """All reads before a call that blocks are out of date after it."""
        self.reads = {read: (before or block, locks) for read, (before, locks) in self.reads.items()}

    def give(self, key):
        self.reads = {read: (block, locks - {key}) for read, (block, locks) in self.reads.items()}


def met(states):
    """The state where some paths meet, None where there is none."""
    states = [it for it in states if it]
    found = states[0].copy() if states else None
    for it in states[1:]:
        found.join(it)
    return found
