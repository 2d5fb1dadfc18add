"""What the search found, as rows: memory, instructions, latency, and for which traces it is enough."""
import collections

from runs import figures

from .plan import NOT_RUN
from .trials import options_of, pool_bytes

ALL, THESE = "all traces", "these traces"
RANKS = ["median", "99th", "greatest"]
DIGITS = 3  # behind the point, of a part that is shown in percent with one digit
Row = collections.namedtuple("Row", "layout pool in_all more latency enough_for options")
Row.__doc__ = """`pool` and `in_all` are bytes; `more` is the instructions above those with one large chunk for each
thread, in parts of them, None without a trace; `latency` has the ranks by name."""


def words(layout):
    return " ".join(f"--{name} {value}" for name, value in options_of(layout).items())


def rows_of(plan, found, safe, threads, reference):
    """The rows of both fronts, the least pool first."""
    costs = {it.layout: it.cost for it in [*found, *safe]}
    rows = []
    for layout in sorted(costs, key=lambda it: (pool_bytes(it), costs[it])):
        budget, _ = plan.budget(layout.max_path, layout.chunk)
        is_safe = bool(threads and budget and layout.chunks >= threads * budget)
        latency = figures.spread(plan.trials.latencies(layout)) if reference else {}
        more = costs[layout] / reference.cost - 1 if reference and reference.cost and costs[layout] != NOT_RUN else None
        in_all = pool_bytes(layout) + sum(plan.image_bytes(layout))
        rows.append(Row(layout, pool_bytes(layout), in_all, more, latency, ALL if is_safe else THESE, words(layout)))
    return list(told_apart(rows))


def told_apart(rows):
    """Those whose instructions are fewer, as they are shown, than those of each row before, and the first that is
    enough for all traces."""
    least, has_all = None, False
    for it in rows:
        more = it.more if it.more is None else round(it.more, DIGITS)
        if more is None or least is None or more < least or it.enough_for == ALL and not has_all:
            yield it
        least = more if least is None else min(least, more if more is not None else least)
        has_all = has_all or it.enough_for == ALL


def table(rows):
    """The rows as aligned lines below their headings."""
    has_runs = any(it.more is not None for it in rows)
    heads = ["pool", "in all"] + (["instructions", *RANKS] if has_runs else []) + ["enough for", "options"]
    cells = [heads]
    for it in rows:
        runs = [shown(it.more, "+.1%"), *[shown(it.latency.get(rank), ",") for rank in RANKS]] if has_runs else []
        cells.append([f"{it.pool:,}", f"{it.in_all:,}", *runs, it.enough_for, it.options])
    widths = [max(map(len, column)) for column in zip(*cells)]
    left = len(heads) - 2  # the columns from here on are words
    for line in cells:
        parts = [it.rjust(width) for it, width in zip(line[:left], widths)]
        parts += [it.ljust(width) for it, width in zip(line[left:], widths[left:])]
        yield "  ".join(parts).rstrip()


def shown(number, form):
    return "-" if number is None else format(number, form)


def best(rows, ram):
    """The row with the fewest instructions that fits, one for all traces before others; without a limit the least
    one of either."""
    fitting = [it for it in rows if ram is None or it.in_all <= ram]
    order = (lambda it: it.pool) if ram is None else (lambda it: it.more or 0)
    return min(fitting, key=lambda it: (it.enough_for != ALL, order(it), it.pool), default=None)
