"""Pages whose lower part a tool makes: all below the line that names the tool is its output."""
import sys

from repository.rooms import TOP


def marker(tool):
    return (
        f"<!-- Below this line {tool} writes:"
        f" change what it reads, then run `{tool} --write`. -->"
    )


def parts(page, tool):
    """The part by hand with the marker's line, and the made part."""
    text = (TOP / page).read_text()
    head, line, made = text.partition(marker(tool) + "\n")
    if not line:
        sys.exit(f"{page} has no line: {marker(tool)}")
    return head + line, made


def write(page, tool, made):
    (TOP / page).write_text(parts(page, tool)[0] + made)


def is_current(page, tool, made):
    return parts(page, tool)[1] == made


def block(tool):
    """The lines around a part of a page, within the part by hand, that the tool makes too."""
    return f"<!-- {tool} writes from here -->\n", "<!-- to here -->\n"


def around(page, tool):
    """The page before its block, the block, and the page behind it."""
    text, (begin, end) = (TOP / page).read_text(), block(tool)
    before, found, rest = text.partition(begin)
    made, closed, behind = rest.partition(end)
    if not found or not closed:
        sys.exit(f"{page} has no lines {begin.strip()} and {end.strip()}")
    return before + begin, made, end + behind


def write_block(page, tool, made):
    before, _, behind = around(page, tool)
    (TOP / page).write_text(before + made + behind)


def is_block_current(page, tool, made):
    return around(page, tool)[1] == made


def cell(text):
    """A text as a cell of a table."""
    return text.replace("|", "\\|")


def row(*cells):
    return f"| {' | '.join(map(cell, cells))} |"


def table(*titles):
    """The two lines above a table's rows."""
    return [row(*titles), "|---" * len(titles) + "|"]
