"""Text in aligned columns: numbers with separators, and lines of at most 100 columns."""
import math, textwrap

WIDTH = 100
LABEL = 12  # columns of the label that begins a line
MOST_DIGITS = 3  # behind the point of a time in a unit of several ticks
BELOW = 6  # columns before a cell that has a line of its own


def number(it):
    """A number with its thousands separated; a dash for one that isn't known."""
    return "-" if it is None else f"{it:,}"


class Unit:
    """The unit in which times are shown: its name, and how many ticks it has."""

    def __init__(self, name="ticks", ticks=1):
        self.name, self.ticks = name, ticks

    def shown(self, ticks):
        """A time without its unit; a dash for one that isn't known."""
        if ticks is None or self.ticks == 1:
            return number(ticks)
        return f"{ticks / self.ticks:,.{min(max(math.ceil(math.log10(self.ticks)), 0), MOST_DIGITS)}f}"

    def counted(self, ticks):
        """A time with its unit."""
        return counted(ticks, "tick") if self.name == "ticks" else f"{self.shown(ticks)} {self.name}"


TICKS = Unit()


def counted(count, noun, plural=None):
    """A number and its noun, as `1 thread` and `2 threads`."""
    return f"{number(count)} {noun if count == 1 else plural or noun + 's'}"


def labelled(label, text):
    """A label and its text, which goes on below itself."""
    return textwrap.wrap(text, WIDTH, initial_indent=f"{label:<{LABEL - 1}} ", subsequent_indent=" " * LABEL,
                         break_long_words=False, break_on_hyphens=False)


def table(headings, rows, texts=(), indent=0):
    """Lines of a table with a heading. The columns at the places in `texts` have their cells to the left, all others
    to the right; the last column is the place in the source, to the left. Where a line is too long, its last cell has
    the next line for itself."""
    sides = ["<" if at in texts or at == len(headings) - 1 else ">" for at in range(len(headings))]
    widths = [max(map(len, column)) for column in zip(headings, *rows)]
    lines = []
    for row in (headings, *rows):
        cells = [f"{cell:{side}{width}}" for cell, side, width in zip(row[:-1], sides, widths)]
        start = " " * indent + "  ".join(cells)
        line = f"{start}  {row[-1]}".rstrip()
        lines += [line] if len(line) <= WIDTH else [start.rstrip(), *below(row[-1])]
    return lines


def below(cell):
    """A cell on lines of its own."""
    return textwrap.wrap(cell, WIDTH, initial_indent=" " * BELOW, subsequent_indent=" " * (BELOW + 2),
                         break_long_words=False, break_on_hyphens=False)
