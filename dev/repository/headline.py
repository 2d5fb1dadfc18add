"""The promises of the headline: the laws of the crate promises, and what has to be read for each.

The premise of a law is a clause of `capriccio`, word for word, and isn't counted.
"""
import re

from repository import rooms, trust
from repository.definitions import CodeType, cited, first_sentence
from repository.pages import row, table

LAWS = "crates/promises/src/parts.rt"
# At most so many definitions stand under a promise.
MOST, MOST_OF = 400, {"pool": 40}


def names():
    """The promises, in the order of the source."""
    return re.findall(r"^pub fn (\w+)", (rooms.TOP / LAWS).read_text(), re.M)


def conclusions(name):
    """The definitions that the law concludes: those of its own crate that its clauses cite."""
    found = [it for it in cited(*trust.contract_of(LAWS, name)) if not isinstance(it, CodeType)]
    return [it for it in found if it.crate == "promises"]


def under(name):
    """The definitions and the types that have to be read for a promise."""
    definitions, types = trust.under_these(conclusions(name))
    return [it for it, _ in definitions.values()], types


def says(name):
    """The first sentence of the law's docstring."""
    text = (rooms.TOP / LAWS).read_text()
    above = re.search(rf"((?:^///.*\n)+)pub fn {name}\b", text, re.M)[1]
    sentence = first_sentence("\n".join(line[3:].strip() for line in above.splitlines()))
    sentence = sentence.removeprefix("Law: ")
    return sentence[:1].upper() + sentence[1:]


def summary():
    """The table of the promises."""
    lines = table("Promise", "Says", "Definition", "Definitions under it", "Lines")
    for name in names():
        definitions, _ = under(name)
        cites = ", ".join(f"`{it.name}`" for it in conclusions(name))
        count, length = f"{len(definitions):,}", f"{trust.lines_of(definitions):,}"
        lines.append(row(f"`{name}`", says(name), cites, count, length))
    return "\n".join(lines) + "\n"


def page(name):
    """What to read for a promise, the lowest crate first."""
    return f"# {name}\n\n{says(name)}.\n\n" + trust.listing(*under(name))


def too_large():
    """A sentence for each promise under which more definitions stand than it may have."""
    for name in names():
        count, most = len(under(name)[0]), MOST_OF.get(name, MOST)
        if count > most:
            yield f"the promise {name} has {count} definitions under it, and {most} are the most"
