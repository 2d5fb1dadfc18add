"""All warnings of a source: what its walks tell (walk.py), held to the rules, and the rules that need no
walk."""
from explained.tokens import closing, tokens_of
from sources import tree

from . import resources
from .channels import Channels
from .found import Warning
from .threads import Reach, roots
from .walk import Walk


class Updates:
    """Globals that are read, and written after a call that may block, by a thread beside which another writes them."""

    def __init__(self, signals, reach, threads):
        self.signals, self.found = signals, {}
        self.writers = {}
        for root in threads:
            for variable in reach.written(root.function):
                self.writers.setdefault(variable, set()).add(root)

    def written(self, variable, element, value, state, at, root):
        writers = self.writers.get(variable, set())
        if not (writers - {root} or root.is_many):
            return
        reads = [it for it in state.reads if it.variable is variable and it.element == element is not None]
        late = {it for it in reads if state.reads[it][0] and all(map(self.signals.holds, state.reads[it][1]))}
        tested = [it for it in reads if it in state.control and variable.size is None]
        for read in late & value.reads:
            self.tell(read, state.reads[read][0], at, "read", "a write in between by another thread is lost")
        if not late & value.reads and tested and all(it in late for it in tested):
            read = max(tested, key=lambda it: it.at)
            self.tell(read, state.reads[read][0], at, "tested", "another thread may write it in between")

    def tell(self, read, block, at, how, why):
        name, path = read.variable.name, block.path
        callee, last = path[min(read.depth, len(path) - 1)], path[-1]
        text = f"{name} is {how}, {callee.name}() may block at {{0}}, then {name} is written at {{1}}: {why}"
        self.found.setdefault((read.at, at), Warning("update", read.at, text, [last.at, at], near=[callee.at]))

    def warnings(self):
        return self.found.values()


class Listener:
    """Hands what a walk tells to the rules."""

    def __init__(self, program, signals, reach, threads, text):
        self.signals, self.root = signals, None
        self.seen = resources.Signals()  # by this walk
        self.updates = Updates(signals, reach, threads)
        self.orders, self.kept = resources.Orders(signals, text), resources.Kept(signals, text)
        self.channels = Channels()

    def written(self, variable, element, value, state, at):
        self.updates.written(variable, element, value, state, at, self.root)

    def blocks(self, call, arguments):
        self.channels.blocks(call, arguments)

    def takes(self, at, key, state):
        self.orders.takes(at, key, state, self.root)

    def gives(self, key, was_taken):
        (self.seen.returned if was_taken else self.seen.untaken).add(key)

    def call_ends(self, exits, depth):
        return self.kept.call_ends(exits, depth)

    def round_ends(self, loop, state, held_before):
        self.kept.round_ends(loop, state, held_before)

    def thread_ends(self, function, state):
        self.kept.thread_ends(function, state)


def spins(program, reach):
    """Loops that do nothing but yield, or nothing at all, until a global changes."""
    for function in program.functions.values():
        for it in tree.all_in(function.body):
            if not isinstance(it, tree.Loop) or it.step or not watches(it.test, program, reach):
                continue
            inside = list(leaves(it.body.statements))
            if not inside:
                yield Warning("spin", it.at, "no other thread runs within this loop: what it tests never changes", [])
            elif all(isinstance(part, tree.Do) and part.call.name == "yield" for part in inside):
                why = "a thread that only yields is always ready, and others may starve"
                yield Warning("spin", it.at, f"{why}: block in `take`, `waitfor` or `sleep` instead", [])


def leaves(statements):
    for it in statements:
        if isinstance(it, tree.Block):
            yield from leaves(it.statements)
        else:
            yield it


def watches(test, program, reach):
    """Whether a test reads a global, itself or in a function, and no call of it may block."""
    nodes = list(tree.all_in([test]))
    calls = [it for it in nodes if isinstance(it, tree.Call)]
    if any(it.name not in program.functions or reach.may_block(it.name) for it in calls):
        return False
    nodes += [inner for it in calls for inner in reach.nodes(it.name)]
    return any(isinstance(it, tree.Use) and it.variable.is_global for it in nodes)


def argument_text(source):
    """For the place of a call, the text of its first argument."""
    tokens = tokens_of(source)
    index_of = {it.at: index for index, it in enumerate(tokens)}

    def text(at):
        start = index_of[at] + 2
        end, last = start, closing(tokens, start - 1)
        while end < last and tokens[end].text != ",":
            end = closing(tokens, end) + 1 if tokens[end].text in "([" else end + 1
        return source[tokens[start].at : tokens[end - 1].at + len(tokens[end - 1].text)].decode()

    return text


def warnings_of(source, traces=(), cut=None):
    """The warnings of a source's bytes; `traces` are names with their lines. The functions whose threads have too many
    paths are added to `cut`, a set: what is told of them isn't all."""
    program = tree.program_of(source)
    reach, threads, text = Reach(program), roots(program), argument_text(source)
    signals = resources.Signals()
    for _ in range(2):  # the first walk finds the signals
        listener = Listener(program, signals, reach, threads, text)
        walk = Walk(program, reach, listener)
        for root in threads:
            listener.root = root
            if not walk.thread(root) and cut is not None:
                cut.add(root.function)
        signals = listener.seen
    found = [*listener.updates.warnings(), *listener.orders.warnings(), *listener.kept.warnings()]
    return found + list(listener.channels.warnings(traces)) + list(spins(program, reach))
