"""The calls of a program as text, from the documents of `./report graph` and `./report budget`."""
import json

from . import document as documents
from .columns import counted, number, table


def lines_of(printed):
    """The lines of a document of either command."""
    document = json.loads(printed)
    if "heights" in document:
        return budget(document)
    return [*functions(document), "", *sites(document)] if document["sites"] else list(functions(document))


def functions(document):
    """The functions with their frames and bounds, in bytes."""
    rows = [[str(it["function"]), number(it["frame"]), number(it["bound"]), documents.shown(it["place"])]
            for it in document["functions"]]
    return table(["function", "frame", "bound", "at"], rows)


def sites(document):
    """The calls, each with why it is checkpointed, if it is."""
    rows = [[str(it["site"]), it["kind"], documents.shown(it["place"]) + callees(it) + why(it, document["max_path"])]
            for it in document["sites"]]
    return table(["site", "kind", "at"], rows, texts=(1,))


def callees(site):
    """The functions that a call through a table may call."""
    names = site["callees"]
    return f" calls {' or '.join(names)}" if len(names) > 1 else ""


def why(site, most):
    if site["kind"] == "back":
        return ": it closes a cycle of calls"
    if site["kind"] == "over":
        return f": frame {number(site['frame'])} and bound {number(site['bound'])} exceed the {number(most)} of a path"
    return ""


def budget(document):
    """How many chunks are enough, and the height of each function."""
    rows = [[str(it["function"]), number(it["height"]), documents.shown(it["place"])] for it in document["heights"]]
    verb = "is" if document["chunks"] == 1 else "are"
    return [f"{counted(document['chunks'], 'chunk')} {verb} enough for each live thread", "",
            *table(["function", "height", "at"], rows)]
