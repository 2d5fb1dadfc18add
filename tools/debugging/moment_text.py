"""A moment of a run as text: the document of docs/moment.schema.json, laid out for a terminal."""
import textwrap

WIDTH = 100
SHOWN = 16  # elements of an array without --full


def count(number):
    return f"{number:,}"


def value_text(it, is_full=True):
    """The value of a variable of a document."""
    if "value" in it:
        return str(it["value"])
    values = it["values"] if is_full else it["values"][:SHOWN]
    more = ", .." if len(values) < it.get("words", len(values)) else ""
    return f"{{{', '.join(map(str, values))}{more}}}"


def name_text(it):
    """The name of a variable, or the call of the source whose value a temporary has."""
    if it["name"] is not None:
        return it["name"]
    call = it.get("call")
    return f"{call['name']}(..) at {call['line']}:{call['column']}" if call else None


def variable_text(it, is_full=True):
    return f"{name_text(it)} = {value_text(it, is_full)}"


def shown(variables):
    """The variables that a reader knows: all but the values of parts that aren't calls."""
    return [it for it in variables if name_text(it) is not None]


def call_text(call):
    return f"{call['name']}({', '.join(map(str, call['arguments']))})"


def state_text(thread):
    """What a thread does."""
    call = thread["call"]
    if not call:
        return thread["state"] if thread["state"] == "running" else "ready, hasn't run"
    since = f"since {count(call['since'])}"
    until = f", until {count(call['until'])}" if call["until"] is not None else ""
    verb = "waits at" if thread["state"] == "waiting" else "ready at"
    return f"{verb} {call_text(call)} {since}{until}"


def place_text(frame, name):
    return f"{name}:{frame['line']}:{frame['column']}" if frame["line"] else name


def wrapped(head, words):
    """Words behind a head, with their lines below one another."""
    return textwrap.wrap(
        ", ".join(words) or "none",
        WIDTH,
        initial_indent=head,
        subsequent_indent=" " * len(head),
        break_long_words=False,
        break_on_hyphens=False,
    )


def stack_lines(thread, name, is_full=True):
    """The calls of a thread, the innermost first, with their places and locals."""
    frames = thread["stack"]
    wide = max(len(it["function"]) for it in frames)
    places = [place_text(it, name) for it in frames]
    most, lines = max(map(len, places)), []
    for number, (it, place) in enumerate(zip(frames, places)):
        head = f"  #{number:<2} {it['function']:<{wide}}  {place:<{most}}  "
        words = [variable_text(one, is_full) for one in shown(it["locals"])]
        lines += wrapped(head, words) if words else [head.rstrip()]
    return lines


def shared_lines(document, is_full=True):
    """Globals, queues and resources."""
    lines = wrapped("globals    ", [variable_text(it, is_full) for it in document["globals"]])
    if "arrivals" in document:
        lines += wrapped("arrivals   ", list(map(str, document["arrivals"])))
    for it in document.get("channels", []):
        lines += wrapped(f"channel {it['channel']}: ", list(map(str, it["messages"])))
    for it in document["resources"]:
        holders = [f"{one['units']} by thread {one['thread']}" for one in it.get("holders", [])]
        lines.append(
            f"resource {it['resource']}: {it['used']} of {it['cap']} in use"
            + (f": {', '.join(holders)}" if holders else "")
        )
    return lines


def head_lines(document):
    chunks, steps = document["chunks"], document["steps"]
    place = f"line {count(document['line'])} of the log"
    place += f" and {count(steps)} step{'s' * (steps != 1)} of the segment that begins there" if steps else ""
    runs = "no thread runs" if document["running"] is None else f"thread {document['running']} runs"
    return [
        f"moment     {place}",
        f"clock      {count(document['clock'])}, {runs}, {count(document['cost'])} instructions in the segments before",
        f"chunks     {count(chunks['free'])} of {count(chunks['all'])} free",
    ]


def text_of(document, name, is_full=False):
    """The text of a document; `name` is the source's."""
    lines = head_lines(document)
    for it in document["threads"]:
        lines += ["", f"thread {it['thread']}  {state_text(it)}", *stack_lines(it, name, is_full)]
    return "\n".join([*lines, "", *shared_lines(document, is_full)]) + "\n"
