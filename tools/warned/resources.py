"""Warnings about resources: the order in which they are taken, and those that a path doesn't give back.

A resource that some thread gives without having taken it is a signal, as of a mailbox: neither rule looks
at it.
"""
import collections, itertools

from .found import Warning

Taking = collections.namedtuple("Taking", "at held_at root held is_ordered")
MOST_WAYS = 4  # of one step of a circle that are tried
LONGEST_CIRCLE = 7  # resources


class Signals:
    """What is given without having been taken, found by a walk of its own."""

    def __init__(self):
        self.untaken, self.returned = set(), set()

    def holds(self, key):
        """Whether a resource is one: its own key, or maybe one that isn't a number."""
        has_unknown = any(not isinstance(it, int) for it in self.untaken)
        return key in self.untaken or has_unknown and (not isinstance(key, int) or key not in self.returned)


class Orders:
    """Which resource is taken while which is held."""

    def __init__(self, signals, text):
        self.signals, self.text, self.takings = signals, text, collections.defaultdict(list)

    def takes(self, at, key, state, root):
        if key is None or self.signals.holds(key):
            return
        held = {it: how for it, how in state.held.items() if how.how == "held" and not self.signals.holds(it)}
        for before, how in held.items():
            self.takings[before, key].append(Taking(at, how.at, root, frozenset(held), state.is_ordered))

    def warnings(self):
        numbers = {pair: it for pair, it in self.takings.items() if all(isinstance(key, int) for key in pair)}
        yield from self.again(numbers)
        for circle in circles({pair for pair in numbers if pair[0] != pair[1]}):
            steps = list(zip(circle, circle[1:] + circle[:1]))
            ways = itertools.product(*[numbers[step][:MOST_WAYS] for step in steps])
            found = next((it for it in ways if may_meet(it, set(circle))), None)
            if found:
                yield self.circle(steps, found)
        yield from self.unknown()

    def again(self, numbers):
        for (before, key), takings in numbers.items():
            if before == key:
                at, held_at = takings[0][:2]
                why = "it waits for itself if no more units are free"
                yield Warning("order", at, f"takes {key} while it holds {key}, taken at {{0}}: {why}", [held_at])

    def circle(self, steps, takings):
        told = [f"takes {key} while it holds {before}" for before, key in steps]
        rest = ", ".join(f"{{{number}}} {it}" for number, it in enumerate(told[1:]))
        text = f"{told[0]}, {rest}: the threads may wait for one another"
        return Warning("order", takings[0].at, text, [it.at for it in takings[1:]])

    def unknown(self):
        """Pairs of resources whose numbers aren't known, and that were not compared before."""
        pairs = collections.defaultdict(list)
        for (before, key), takings in self.takings.items():
            if before != key and not isinstance(before, int) and not isinstance(key, int):
                for it in takings:
                    pairs[it.at, it.held_at].append(it)
        for (at, held_at), takings in pairs.items():
            is_beside_others = len({it.root for it in takings}) > 1 or takings[0].root.is_many
            if is_beside_others and not any(it.is_ordered for it in takings):
                key, before = self.text(at), self.text(held_at)
                why = "two threads may take the same two in opposite order"
                yield Warning("order", at, f"takes `{key}` while it holds `{before}`, taken at {{0}}: {why}", [held_at])


def circles(pairs):
    """The circles of some steps, each once, from its least resource on."""
    after = collections.defaultdict(list)
    for before, key in sorted(pairs):
        after[before].append(key)
    for first in sorted(after):
        paths = [[first]]
        while paths:
            path = paths.pop()
            for key in after[path[-1]]:
                if key == first:
                    yield path
                elif key > first and key not in path and len(path) < LONGEST_CIRCLE:
                    paths.append([*path, key])


def may_meet(takings, circle):
    """Whether different threads may be at all these places at once: nothing else is held at two of them."""
    for one, other in itertools.combinations(takings, 2):
        if one.root == other.root and not one.root.is_many or one.held & other.held - circle:
            return False
    return True


class Kept:
    """What is taken and not given back on some path."""

    def __init__(self, signals, text):
        self.signals, self.text, self.found = signals, text, {}

    def tell(self, held, text, places):
        self.found.setdefault(held.at, Warning("kept", held.at, f"takes `{self.text(held.at)}`, and {text}", places))

    def call_ends(self, exits, depth):
        """Gives the resources that were held at some ends of a call alone."""
        unclear = set()
        taken = [(it, key, held) for it in exits for key, held in it.state.held.items() if held.depth > depth]
        for key in {key for _, key, _ in taken if not self.signals.holds(key)}:
            ends = [(it, held) for it, other, held in taken if other == key]
            by_how = {how: [(it, held) for it, held in ends if held.how == how] for how in ("held", "given", "partly")}
            if by_how["partly"]:
                end, held = by_how["partly"][0]
                self.tell(held, "gives it back on one path to {0}, but not on another", [end.at])
            elif by_how["held"] and by_how["given"] and not tells_apart(by_how["held"], by_how["given"]):
                end, held = by_how["held"][0]
                self.tell(held, "gives it back on one path, but not where the call ends at {0}", [end.at])
            if by_how["partly"] or by_how["held"] and by_how["given"]:
                unclear.add(key)
        return unclear

    def round_ends(self, loop, state, held_before):
        for key, held in state.held.items():
            if key in held_before or self.signals.holds(key) or is_mixed(key):
                continue
            if held.how in ("held", "partly"):
                path = "on each path" if held.how == "held" else "on one path"
                self.tell(held, f"doesn't give it back {path} before the next round of the loop at {{0}}", [loop.at])

    def thread_ends(self, function, state):
        for key, held in state.held.items():
            if held.how == "held" and not self.signals.holds(key) and not is_mixed(key):
                self.tell(held, "the thread ends at {0} without giving it back", [function.end])

    def warnings(self):
        return self.found.values()


def tells_apart(kept, given):
    """Whether the results tell the caller which way was taken: numbers, and none on both."""
    values = [{it.value.origin for it, _ in ends} for ends in (kept, given)]
    return all(isinstance(it, int) for it in values[0] | values[1]) and not values[0] & values[1]


def is_mixed(key):
    """Whether a key depends on a variable that a loop changes."""
    return isinstance(key, tuple) and (key[:1] == ("mixed",) or any(map(is_mixed, key)))
