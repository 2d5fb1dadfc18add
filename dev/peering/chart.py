"""A chart of memory against threads, as SVG: a line for each system, on scales of powers of ten."""
import math, statistics

WIDTH, HEIGHT = 830, 430
LEFT, RIGHT, TOP, BOTTOM = 76, 150, 46, 54
COLOURS = ("#0072b2", "#d55e00", "#009e73", "#cc79a7", "#8c6d1f", "#56b4e9")  # of Okabe and Ito, told apart by all
OWN, OWN_DARK = "#111111", "#f2f2f2"  # of Capriccio, on light and on dark
STYLE = """<style>
text { font: 12px system-ui, sans-serif; fill: #333 } .title { font-size: 15px; font-weight: 600 }
.grid { stroke: #ddd } .own { stroke: %s; fill: %s } text.own { stroke: none; font-weight: 600 }
@media (prefers-color-scheme: dark) { text { fill: #ccc } .grid { stroke: #444 } .own { stroke: %s; fill: %s } }
</style>""" % (OWN, OWN, OWN_DARK, OWN_DARK)


def memory_by_threads(found):
    """For each system its points: a number of threads, and the median bytes of so many that wait."""
    points = {}
    for (task, number, _), rows in found.items():
        for system, results in rows.items() if task == "waiters" else ():
            if good := [its["after"] - its["before"] for its, _ in results if its]:
                points.setdefault(system, []).append((number, statistics.median(good)))
    return {system: sorted(it) for system, it in points.items()}


def bytes_in_words(value):
    for unit, name in ((1_000_000_000, "GB"), (1_000_000, "MB"), (1_000, "kB")):
        if value >= unit:
            return f"{value / unit:g} {name}"
    return f"{value:g} B"


class Scale:
    """Maps a range of numbers, by their logarithms, to a range of pixels."""

    def __init__(self, least, most, start, end):
        self.least, self.most, self.start, self.end = math.log10(least), math.log10(most), start, end

    def __call__(self, value):
        part = (math.log10(value) - self.least) / (self.most - self.least)
        return round(self.start + part * (self.end - self.start), 1)


def power(value, up):
    """The next power of ten from a number on, upwards or downwards."""
    return 10 ** (math.ceil if up else math.floor)(math.log10(value))


def grid(across, upwards, numbers, least, most):
    """The lines of the scales with their labels."""
    value = least
    while value <= most:
        yield f'<path class="grid" d="M{LEFT} {upwards(value)}H{WIDTH - RIGHT}"/>'
        yield f'<text x="{LEFT - 8}" y="{upwards(value) + 4}" text-anchor="end">{bytes_in_words(value)}</text>'
        value *= 10
    for number in numbers:
        yield f'<path class="grid" d="M{across(number)} {TOP}V{HEIGHT - BOTTOM}"/>'
        yield f'<text x="{across(number)}" y="{HEIGHT - BOTTOM + 18}" text-anchor="middle">{number:,}</text>'
    middle = (LEFT + WIDTH - RIGHT) // 2
    yield f'<text x="{middle}" y="{HEIGHT - 12}" text-anchor="middle">threads that wait</text>'


def spread_out(places, least):
    """Heights of labels, moved apart so that none lie over another; `places` are by name."""
    found, before = {}, -math.inf
    for name, place in sorted(places.items(), key=lambda it: it[1]):
        before = max(place, before + least)
        found[name] = before
    return found


def line(system, points, colour, across, upwards, place):
    """The line of a system, with its name at this place."""
    paint = 'class="own"' if colour is None else f'stroke="{colour}" fill="{colour}"'
    path = "L".join(f"{across(number)} {upwards(value)}" for number, value in points)
    width = 3 if colour is None else 2
    yield f'<path {paint} style="fill:none" stroke-width="{width}" d="M{path}"/>'
    for number, value in points:
        said = f"{system}, {number:,} threads: {bytes_in_words(round(value, -3))}"
        spot = f'cx="{across(number)}" cy="{upwards(value)}"'
        yield f'<circle {paint} r="3.5" {spot}><title>{said}</title></circle>'
    name = 'class="own"' if colour is None else f'style="fill:{colour}"'
    yield f'<text {name} x="{place[0]}" y="{place[1] + 4}">{system}</text>'


def places_of_names(systems, most, across, upwards):
    """Where the names of systems stand: right of the chart, or above the end of a line that ends before the right."""
    ends = {system: points[-1] for system, points in systems.items()}
    heights = spread_out({system: upwards(value) for system, (number, value) in ends.items() if number == most}, 15)
    early = {system: (across(number) + 10, upwards(value) - 8)
             for system, (number, value) in ends.items() if number < most}
    return early | {system: (WIDTH - RIGHT + 12, height) for system, height in heights.items()}


def chart(found):
    """The text of the chart."""
    systems = memory_by_threads(found)
    numbers = sorted({number for points in systems.values() for number, _ in points})
    values = [value for points in systems.values() for _, value in points]
    least, most = power(min(values), False), power(max(values), True)
    across = Scale(numbers[0], numbers[-1], LEFT + 24, WIDTH - RIGHT - 8)
    upwards = Scale(least, most, HEIGHT - BOTTOM, TOP)
    places = places_of_names(systems, numbers[-1], across, upwards)
    colours = dict(zip((it for it in systems if it != "Capriccio"), COLOURS))
    parts = [f'<svg xmlns="http://www.w3.org/2000/svg" viewBox="0 0 {WIDTH} {HEIGHT}" width="{WIDTH}" role="img">',
             "<title>Memory of threads that wait, by their number</title>", STYLE,
             f'<text class="title" x="{LEFT}" y="24">Memory of threads that wait</text>',
             *grid(across, upwards, numbers, least, most)]
    for system, points in systems.items():
        parts += line(system, points, colours.get(system), across, upwards, places[system])
    return "\n".join([*parts, "</svg>", ""])
