"""Expressions, places and names that a user gives, over the source of a run."""
import bisect, re

from explained.tokens import MODELLED, tokens_of
from sources.tree import NotASource, Use

from .expressions import Trap, function_of
from .instructions import CallStep
from .rewriting import holds_call
from .text_tree import Reader


class Unknown(Exception):
    """What is asked for isn't there; the text says what is."""


def listed(names):
    return ", ".join(dict.fromkeys(names)) or "none"


class Expression:
    """An expression of CapC without calls, over the names in scope at an instruction."""

    def __init__(self, text, code, scope, function=None):
        self.text, self.code = text.strip(), code
        self.node = parsed(self.text, code, scope)
        self.slots = (function.slots if function else {}) | {it: number for number, it in enumerate(code.globals)}
        whole = isinstance(self.node, Use) and self.node.index is None and self.node.variable.size
        self.array = self.node.variable if whole else None
        if not whole:
            for it in variables_in_whole(self.node):
                raise Unknown(f"{it.name} is an array: give an index, as in {it.name}[0]")
            self.value = function_of(self.node, self.slots)

    def of(self, words, shared):
        """The value over the words of a frame and the globals: a number, or the list of an array."""
        if self.array:
            return list((shared if self.array.is_global else words)[self.slots[self.array]])
        try:
            return self.value(words, shared)
        except Trap:
            raise Unknown(f"an index of {self.text} is beyond its array") from None

    def of_documents(self, locals_, globals_):
        """The value over the variables of a moment's document."""
        values = {it["name"]: it.get("value", it.get("values")) for it in locals_}
        words = [0] * len(self.slots)
        for variable, slot in self.slots.items():
            if not variable.is_global and variable.name in values:
                words[slot] = values[variable.name]
        return self.of(words, [it.get("value", it.get("values")) for it in globals_])


def parsed(text, code, scope):
    """The tree of an expression over names in scope, the innermost last."""
    tokens = tokens_of(text.encode())
    end = tokens[-1].at + len(tokens[-1].text) if tokens else 0
    if not tokens or text.encode()[end:].strip():
        raise Unknown(f"{text!r} isn't an expression")
    reader = Reader(text.encode())
    reader.program, reader.scopes = code.tree, [dict(code.tree.globals), {it.name: it for it in scope}]
    try:
        node = reader.expression()
    except (NotASource, IndexError, ValueError) as why:
        unknown = re.fullmatch(r"(\w+) isn't declared", str(why))
        names = f"no name {unknown[1]} is in scope here: " if unknown else f"{text!r} isn't an expression; in scope: "
        raise Unknown(names + listed([*(it.name for it in scope), *code.tree.globals])) from None
    if reader.text():
        raise Unknown(f"{text!r} isn't an expression: {reader.text()!r} follows one")
    if holds_call(node):
        raise Unknown(f"{text!r} has a call, which would change the run: give an expression without calls")
    return node


def variables_in_whole(node):
    """The arrays that stand without an index."""
    if isinstance(node, Use) and node.index is None and node.variable.size:
        yield node.variable
    for it in node if isinstance(node, tuple) else ():
        if isinstance(it, tuple):
            yield from variables_in_whole(it)


def calls_of(code, name):
    """The calls of a modelled call."""
    found = [
        it
        for function in code.functions.values()
        for it in function.instructions
        if isinstance(it, CallStep) and it.call.name == name
    ]
    if not found:
        raise Unknown(f"the source has no call of {name}")
    return found


def instructions_at(code, text, current_line=None):
    """The instructions at which a thread stops for a place: a function's name, that of a modelled call, a line, or
    FILE:LINE. Those of the first line with a statement, from the given one on."""
    name = text.strip()
    if name in code.functions:
        return [code.functions[name].first]
    if name in MODELLED:
        return calls_of(code, name)
    number = name.rpartition(":")[2] or str(current_line or "")
    if not number.isdigit():
        raise Unknown(f"{name!r} is neither a line nor a function; the functions are {listed(code.functions)}")
    firsts = {}
    for function in code.functions.values():
        for it in function.instructions:
            if it.begins:
                firsts.setdefault((it.line, function.name), it)
    lines = sorted({line for line, _ in firsts})
    place = bisect.bisect_left(lines, int(number))
    if place == len(lines):
        raise Unknown(f"no statement stands at line {number} or below it: the last one is at line {lines[-1]}")
    return [it for (line, _), it in firsts.items() if line == lines[place]]
