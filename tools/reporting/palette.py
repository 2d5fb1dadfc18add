"""The colours of all views. Work is dark and waiting is pale, so that work is seen first; the hues are told apart by
people who don't see red and green (Paul Tol's light scheme), and a stripe or dots tell further places apart.
"""
from runs.translation import BLOCKING

ACCEPT = "#dddddd"  # always of `accept`, the wait of a thread that has nothing to do
HUES = ("#77aadd", "#ee8866", "#eedd88", "#ffaabb", "#99ddff", "#44bb99", "#bbcc33", "#aaaa00")
PATTERNS = ("plain", "stripes", "dots")  # so there are 24 styles


class Styles:
    """The style of each call at which threads may block, in the order of the source: the same in all views."""

    def __init__(self, places):
        waits = [at for at, site in enumerate(places.sites) if site.callee in BLOCKING and site.callee != "accept"]
        self.numbers = {site: number % (len(HUES) * len(PATTERNS)) for number, site in enumerate(waits)}

    def of(self, site):
        """The name of the style of a site: `w0` and so on, or `accept`."""
        return f"w{self.numbers[site]}" if site in self.numbers else "accept"


def patterns():
    """The definitions of all styles in SVG: a fill for each, as `url(#w9)`."""
    yield pattern("accept", ACCEPT, "plain")
    for number in range(len(HUES) * len(PATTERNS)):
        yield pattern(f"w{number}", HUES[number % len(HUES)], PATTERNS[number // len(HUES)])


def pattern(name, colour, kind):
    marks = {
        "plain": "",
        "stripes": '<path d="M-1 5L5 -1M-1 9L9 -1M3 9L9 3" stroke="#000" stroke-opacity=".35"/>',
        "dots": '<circle cx="2" cy="2" r="1" fill-opacity=".45"/><circle cx="6" cy="6" r="1" fill-opacity=".45"/>',
    }
    return (f'<pattern id="{name}" width="8" height="8" patternUnits="userSpaceOnUse"><rect width="8" height="8" '
            f'fill="{colour}"/>{marks[kind]}</pattern>')


STYLE = """
text { font: 11px system-ui, sans-serif; fill: #222 }
.title { font-size: 13px; font-weight: 600 }
.faint { fill: #666 }
.grid { stroke: #ccc; stroke-width: .5 }
.paper { fill: #fff }
.run { fill: #1b2a41 }
.ready { fill: #7a4a00; fill-opacity: .55 }
.ended { fill: #cc3311 }
.band { fill: #4477aa }
.gate { fill: #cc3311; fill-opacity: .6 }
.mark { stroke: #4477aa; stroke-width: 1 }
.answer { stroke: #228833; stroke-width: 1 }
.drop { stroke: #cc3311; stroke-width: 2 }
@media (prefers-color-scheme: dark) {
  text { fill: #e6e6e6 }
  .faint { fill: #aaa }
  .grid { stroke: #555 }
  .paper { fill: #16181d }
  .run { fill: #fff }
  .wait { fill-opacity: .45 }
  .ready { fill: #ffb454; fill-opacity: .75 }
  .band { fill: #66aadd }
}
"""
