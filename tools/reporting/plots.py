"""Plots of latencies as SVG: how many requests took how long, and how long requests took that came at which time."""
import bisect, math

from runs import figures

from .columns import number
from .timeline import nice

WIDTH, TALL, LEFT, BOTTOM, TOP = 400, 190, 54, 34, 26
BARS, COLUMNS = 40, 80


def framed(title, body, x_title):
    """A plot with its title and the name of its axis."""
    return (f'<svg class="plot" viewBox="0 0 {WIDTH} {TALL}" width="{WIDTH}" height="{TALL}" role="img" '
            f'aria-label="{title}">'
            f'<text class="title" x="{LEFT}" y="14">{title}</text>{"".join(body)}'
            f'<text class="faint" x="{WIDTH - 6}" y="{TALL - 4}" text-anchor="end">{x_title}</text></svg>')


def y_axis(most):
    """The lines and numbers of the vertical axis from 0, and the function from numbers to heights."""
    height = TALL - TOP - BOTTOM
    at = lambda value: TALL - BOTTOM - value * height / max(most, 1)
    step = nice(most / 3)
    marks = range(0, int(most) + 1, step)
    return [f'<path class="grid" d="M{LEFT} {at(it):.1f}H{WIDTH - 6}"/><text class="faint" x="{LEFT - 5}" '
            f'y="{at(it) + 4:.1f}" text-anchor="end">{number(it)}</text>'
            for it in marks], at


def x_mark(x, text, anchor="middle"):
    return f'<text class="faint" x="{x:.1f}" y="{TALL - BOTTOM + 13}" text-anchor="{anchor}">{text}</text>'


def distribution(latencies, unit):
    """How many requests took how long: bars of equal width on a scale of powers, with p50, p99 and the greatest."""
    ordered = sorted(latencies)
    if not ordered:
        return ""
    low, high = math.log(ordered[0] + 1), math.log(ordered[-1] + 2)
    edges = [math.exp(low + (high - low) * it / BARS) - 1 for it in range(BARS + 1)]
    counts = [bisect.bisect_left(ordered, edges[it + 1]) - bisect.bisect_left(ordered, edges[it]) for it in range(BARS)]
    counts[-1] += len(ordered) - sum(counts)
    body, at = y_axis(max(counts))
    wide = (WIDTH - LEFT - 6) / BARS
    for place, count in enumerate(counts):
        if count:
            body.append(f'<rect class="band" x="{LEFT + place * wide:.1f}" y="{at(count):.1f}" width="{wide - 1:.1f}" '
                        f'height="{TALL - BOTTOM - at(count):.1f}">'
                        f'<title>{number(count)} requests, {unit.shown(math.ceil(edges[place]))} to '
                        f'{unit.shown(math.ceil(edges[place + 1]) - 1)} {unit.name}</title></rect>')
    for name, rank in (("p50", 50), ("p99", 99)):
        value = figures.nearest_rank(ordered, rank)
        x = LEFT + (math.log(value + 1) - low) / max(high - low, 1e-9) * (WIDTH - LEFT - 6)
        body.append(f'<path class="rank" d="M{x:.1f} {TOP}V{TALL - BOTTOM}"/><text x="{x + 3:.1f}" '
                    f'y="{TOP + (9 if rank == 50 else 21)}">{name} {unit.shown(value)}</text>'
                    if x < WIDTH - 80 else
                    (f'<path class="rank" d="M{x:.1f} {TOP}V{TALL - BOTTOM}"/><text x="{x - 3:.1f}" '
                     f'y="{TOP + (9 if rank == 50 else 21)}" text-anchor="end">{name} {unit.shown(value)}</text>'))
    body += [x_mark(LEFT, unit.shown(ordered[0]), "start"), x_mark(WIDTH - 6, unit.shown(ordered[-1]), "end")]
    return framed("Requests by latency", body, f"latency to the last answer, {unit.name}")


def over_time(pairs, unit):
    """How long requests took by the time at which they came: the greatest and p50 of each part of the time."""
    if not pairs:
        return ""
    first, last = min(it[0] for it in pairs), max(it[0] for it in pairs)
    parts = [[] for _ in range(COLUMNS)]
    for arrived, latency in pairs:
        parts[min((arrived - first) * COLUMNS // max(last - first, 1), COLUMNS - 1)].append(latency)
    scale = unit.ticks
    most = max(max(it) for it in parts if it) / scale
    body, at = y_axis(most)
    wide = (WIDTH - LEFT - 6) / COLUMNS
    for place, part in enumerate(parts):
        if part:
            x, ordered = LEFT + (place + .5) * wide, sorted(part)
            middle, top = figures.nearest_rank(ordered, 50) / scale, ordered[-1] / scale
            body.append(f'<path class="span" d="M{x:.1f} {at(ordered[0] / scale):.1f}V{at(top):.1f}"/><circle '
                        f'class="top" cx="{x:.1f}" cy="{at(top):.1f}" r="2"/>'
                        f'<circle class="middle" cx="{x:.1f}" cy="{at(middle):.1f}" r="2"><title>'
                        f'{number(len(part))} requests, p50 {middle:,.0f}, max {top:,.0f}</title></circle>')
    body += [x_mark(LEFT, unit.shown(first), "start"), x_mark(WIDTH - 6, unit.shown(last), "end")]
    return framed(f"Latency over time, {unit.name}", body, f"arrival, {unit.name}; dark: p50, red: max")
