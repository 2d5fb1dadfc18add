"""The first view of a page: what came of the run, its numbers as cards, plots, and tables whose places, threads and
requests lead to the other views."""
import math, re

from . import document as documents, plots, verdict
from .columns import counted, number
from .escape import text as escaped

MOST_ROWS = 200  # of a table
PLACE = re.compile(r"(?P<file>[^\s:]+):(?P<line>\d+):(?P<column>\d+)")


def html_of(document, unit, latencies, busy, timeline):
    """The dashboard of a document, the pairs of arrival and latency of all requests, the busy ticks, and a timeline."""
    good = verdict.of(document) == [verdict.good(document)]
    lines = "".join(f"<p>{linked(it)}</p>" for it in verdict.of(document))
    drawn_circle = "".join(map(circle, document["circles"][:1]))
    banner = f'<div class="banner {"good" if good else "bad"}" role="status"><div>{lines}</div>{drawn_circle}</div>'
    both = plots.distribution([it for _, it in latencies], unit) + plots.over_time(latencies, unit)
    drawn = f'<div class="plots">{both}</div>'
    return "".join([banner, cards(document, unit, busy), drawn, timeline, waits(document, unit),
                    request(document, unit),
                    left(document, unit)])


def linked(text):
    """A text whose places and threads are links."""
    text = PLACE.sub(lambda it: f'<a href="#line={it["line"]}">{it[0]}</a>', escaped(text))
    return re.sub(r"\bthread (\d+)\b", r'<a href="#thread=\1">thread \1</a>', text)


def card(name, value, more=""):
    return f'<div class="card"><b>{value}</b><span>{name}</span><small>{more}</small></div>'


def cards(document, unit, busy):
    """The numbers that one looks at first."""
    requests, latency, chunks = document["requests"], document["latency"]["last"], document["chunks"]
    more = [f"{number(requests[it])} {it}" for it in ("taken", "dropped")]
    if (untaken := requests["came"] - requests["taken"]) > 0:
        more.append(f"{number(untaken)} never taken")
    found = [card("requests answered", f"{number(requests['answered'])} of {number(requests['came'])}",
                  ", ".join(more))]
    if latency:
        named = (("p50", "median"), ("p90", "90th"), ("p99", "99th"))
        ranks = ", ".join(f"{name} {unit.shown(latency[key])}" for name, key in named)
        found.append(card("greatest latency", f"{unit.shown(latency['greatest'])} {unit.name}", ranks))
    found.append(card("busy", f"{100 * busy[0] / max(busy[1], 1):.0f} %",
                      f"{number(busy[0])} of {number(busy[1])} ticks"))
    found.append(card("chunks at the peak", number(chunks["most_held"]),
                      f"of {number(chunks['of'])}, between segments"))
    if gate := document["gate"]:
        found.append(card("ticks the gate was closed", number(gate["ticks"]), counted(gate["times"], "time")))
    return f'<div class="cards">{"".join(found)}</div>'


def circle(steps):
    """The threads and resources of a deadlock around a circle."""
    nodes = [it for step in steps for it in (("thread", step["thread"]), ("resource", step["resource"]))]
    radius, places = 78, []
    for place, (kind, name) in enumerate(nodes):
        angle = 2 * math.pi * place / len(nodes) - math.pi / 2
        x, y = 150 + 1.3 * radius * math.cos(angle), 105 + radius * math.sin(angle)
        text = f'<text x="{x:.0f}" y="{y + 4:.0f}" text-anchor="middle">{kind} {name}</text>'
        shape = f'<rect x="{x - 36:.0f}" y="{y - 13:.0f}" width="72" height="26" rx="{4 if kind == "thread" else 13}"/>'
        places.append(f'<a href="#thread={name}">{shape}{text}</a>' if kind == "thread" else shape + text)
    tips = []
    for place in range(len(nodes)):  # halfway from each to the next, in the direction of the circle
        angle = 2 * math.pi * (place + .5) / len(nodes) - math.pi / 2
        x, y = 150 + 1.3 * radius * math.cos(angle), 105 + radius * math.sin(angle)
        turned = math.degrees(math.atan2(math.cos(angle), -1.3 * math.sin(angle)))
        tips.append(f'<path class="tip" transform="translate({x:.0f} {y:.0f}) rotate({turned:.0f})" d="M-5 -5L5 0L-5 '
                    f'5z"/>')
    ring = f'<ellipse cx="150" cy="105" rx="{1.3 * radius:.0f}" ry="{radius}"/>'
    return (f'<svg class="circle" viewBox="0 0 300 210" width="300" height="210" role="img" aria-label="the circle of '
            f'the deadlock">{ring}{"".join(tips)}{"".join(places)}</svg>')


def table(name, heads, rows, more=""):
    """A table that sorts by the column whose head is clicked. A cell is HTML with the value by which it sorts."""
    head = "".join(f'<th scope="col"><button type="button">{it}</button></th>' for it in heads)
    cell = lambda shown, value: f'<td data-value="{escaped(str(value))}">{shown}</td>'
    body = "".join(f"<tr>{''.join(cell(*it) for it in row)}</tr>" for row in rows)
    return f"<h2>{name}</h2><table class=\"sorts\"><thead><tr>{head}</tr></thead><tbody>{body}</tbody></table>{more}"


def place_cell(place):
    """A place as a link to its line."""
    if "line" not in place:
        return escaped(place.get("text", "")), ""
    name = escaped(documents.shown(place)[len(documents.at(place)):].strip())
    line, column = place["line"], place["column"]
    return f'<a href="#line={line}">{line}:{column}</a> {name}', line * 1000 + column


def waits(document, unit):
    """The waits by place, with a bar for their share of all waiting."""
    found = document["waits"][:MOST_ROWS]
    most = max((it["total"] for it in found), default=0)
    rows = []
    for it in found:
        split = it.get("split")
        bar = f'<i class="bar" style="width:{100 * it["total"] / max(most, 1):.1f}%"></i>{unit.shown(it["total"])}'
        numbers = [(unit.shown(it[key]), it[key]) for key in ("median", "99th", "greatest")]
        ready = (unit.shown(split["ready"]), split["ready"]) if split else ("", -1)
        place = place_cell(it["place"]) if it["place"] else ("queue, from arrival to accept", 0)
        rows.append([place, (number(it["count"]), it["count"]), (bar, it["total"]), ready, *numbers,
                     (f'<a href="#thread={it["thread"]}">{it["thread"]}</a>', it["thread"]),
                     (f'<a href="#clock={it["until"]}">{unit.shown(it["until"])}</a>', it["until"])])
    heads = ("place", "waits", f"{unit.name} in all", "of it ready", "p50", "p99", "max", "longest by thread", "until")
    return table("Waits by place", heads, rows) if rows else ""


def request(document, unit):
    """The parts of a request's time."""
    it = document["request"]
    if not it or "parts" not in it:
        return ""
    most = max((part["ticks"] for part in it["parts"]), default=0)
    rows = []
    for part in it["parts"]:
        what = f"thread {part['thread']} answers" if part["kind"] == "others" else part["kind"]
        place = place_cell(part["place"])[0] if "place" in part else ""
        bar = f'<i class="bar" style="width:{100 * part["ticks"] / max(most, 1):.1f}%"></i>{unit.shown(part["ticks"])}'
        rows.append([(f"{what} {place}", what), (bar, part["ticks"]),
                     (f'<a href="#clock={part["until"]}">{unit.shown(part["until"])}</a>', part["until"])])
    rest = it.get("shorter")
    more = f"<p>and {counted(rest['count'], 'shorter part')}, {unit.counted(rest['ticks'])}</p>" if rest else ""
    slowest = ", the slowest" * it["is_slowest"]
    name = (f'<a href="#request={it["number"]}">Request {number(it["number"])}</a>{slowest}: arrived at '
            f'{unit.shown(it["arrived"])}, <a href="#thread={it["thread"]}">thread {it["thread"]}</a>')
    return table(name, ("part", unit.name, "until"), rows, more)


def left(document, unit):
    """The threads that didn't end, and the resources in use."""
    rows = []
    for it in document["left"]:
        place = place_cell(it["place"]) if "place" in it else ("its segment was cut", 0)
        values = escaped(it.get("values", ""))
        rows.append([(f'<a href="#thread={it["thread"]}">thread {it["thread"]}</a>', it["thread"]), place,
                     (values, values),
                     (unit.shown(it.get("since")), it.get("since", -1))])
    more = document["more_left"]
    rest = f"<p>and {counted(more, 'more thread')}</p>" if more else ""
    found = table("At the end", ("thread", "waits at", "with the values", "since"), rows, rest) if rows else ""
    resources = [[(number(it["resource"]), it["resource"]),
                  (f"{number(it['used'])} of {number(it['cap'])}", it["used"]),
                  (held(it), 0)] for it in document["resources"]]
    return found + (table("Resources in use at the end", ("resource", "units", "held by"),
                          resources) if resources else "")


def held(resource):
    """Who holds units of a resource, as links."""
    if documents.is_semaphore(resource):
        return "taken by some threads and given by others"
    holders = ((it["thread"], number(it["units"])) for it in resource["holders"])
    return ", ".join(f'<a href="#thread={thread}">thread {thread}</a>: {units}' for thread, units in holders)
