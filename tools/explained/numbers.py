"""What the numbers of sites and functions stand for, which `graph` and `budget` print."""
from .source import place_of
from .tokens import MODELLED, bodies_of, calls_of, tokens_of

MOST = 100  # notes


def sites(given):
    """The notes on `graph`: where each printed site is. Calls of the language have none of their
    own there."""
    source = given.source() or b""
    calls = [(number, *it) for number, it in enumerate(calls_of(tokens_of(source))) if it[0].text not in MODELLED]
    place = lambda token: ":".join(map(str, place_of(source, token.at)))
    notes = [f"note: site {number} is {given.name(0)}:{place(token)}, {token.text} in {caller}"
             for number, token, caller in calls[:MOST]]
    return notes + [f"note: and {len(calls) - MOST:,} more"] * (len(calls) > MOST)


def functions(given):
    """The note on `budget`: the functions by their numbers."""
    names = [name for name, _, _ in bodies_of(tokens_of(given.source() or b""))]
    shown = ", ".join(f"{number} {name}" for number, name in enumerate(names[:MOST]))
    return [f"note: the functions are {shown}{', ..' * (len(names) > MOST)}"] if names else []
