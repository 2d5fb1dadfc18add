"""The ways in which a source may be laid over chunks: for each `--max-path` that changes anything, the bytes
that its calls and threads need, by the command `graph`."""
import collections, subprocess

from runs import many
from runs.places import Places
from sources import tree

MOST = 12  # placements that are tried: the first, the last, and others between them
LARGEST_CHUNK, HEADER = 65_536, 16  # bytes

Placement = collections.namedtuple("Placement", "max_path needs is_linked")
Placement.__doc__ = """`needs` are the bytes of the threads' first functions and of the calls that may link a chunk, in
order; `is_linked` says whether there is such a call."""


class Graph:
    """What `graph` tells of a source at one --max-path."""

    def __init__(self, server, max_path):
        words = ["graph", "--chunk", str(LARGEST_CHUNK), "--max-path", str(max_path), server.source]
        made = subprocess.run([server.program, *words], capture_output=True, text=True)
        if made.returncode:
            raise many.Refused(made.stderr.strip(), made.returncode)
        fields = [line.split() for line in made.stdout.splitlines()]
        self.frames = {it[2]: int(it[4]) for it in fields if it[0] == "function"}
        self.bounds = {it[2]: int(it[6]) for it in fields if it[0] == "function"}
        self.sites = {int(it[1]): it[3] for it in fields if it[0] == "site"}  # plain, over or back


class Calls:
    """The call sites of a source: who calls whom, and where threads start."""

    def __init__(self, source):
        program, self.called = tree.program_of(source), {}
        self.callers = {number: it.function for number, it in enumerate(Places(source).sites)}
        self.started = {"main"}
        nodes = (it for made in program.functions.values() for it in tree.all_in(made.body))
        for call in (it for it in nodes if isinstance(it, tree.Call)):
            if call.name == "spawn":
                self.started.add(call.arguments[0])
            elif call.index:
                self.called[call.site] = program.tables[call.name].members
            elif call.name in program.functions:
                self.called[call.site] = [call.name]


def placements(server, source):
    """All placements, from the least --max-path on."""
    calls, max_path, found = Calls(source), None, []
    while True:
        graph = Graph(server, max_path or LARGEST_CHUNK - HEADER)
        if max_path is None:
            max_path = max(graph.frames.values())
            continue
        needs = {site: max(graph.bounds[it] for it in members) for site, members in calls.called.items()}
        linked = {site for site, kind in graph.sites.items() if kind != "plain"}
        wanted = {graph.bounds[it] for it in calls.started} | {needs[site] for site in linked}
        found.append(Placement(max_path, sorted(wanted), bool(linked)))
        over = [graph.frames[calls.callers[site]] + needs[site] for site in linked if graph.sites[site] == "over"]
        if not over or min(over) > LARGEST_CHUNK - HEADER:
            return thinned(found)
        max_path = min(over)  # at all sizes between these two the same calls may link a chunk


def thinned(found, most=MOST):
    """Some of many, evenly, the first and the last among them."""
    if len(found) <= most:
        return found
    return [found[round(place * (len(found) - 1) / (most - 1))] for place in range(most)]
