"""Expressions of CapC as functions of Python over the words of a frame and the globals, by docs/LANGUAGE.md, "Meaning".

`function_of(node, slots)` gives a function of two lists, the words of a frame and the globals, in which an array is a
list; `slots` has the index of each variable. It raises `Trap` for an index beyond its array.
"""
from sources.tree import LEVELS, Binary, Choice, Number, Unary, Use

from .text_tree import Group

WRAPPED = "((({}) + 2147483648 & 4294967295) - 2147483648)"
FORMS = {
    "<<": WRAPPED.format("{} << ({} & 31)"),
    ">>": "({} >> ({} & 31))",
    "*": WRAPPED.format("{} * {}"),
    "/": "divided({}, {})",
    "%": "remainder({}, {})",
}
FORMS |= {mark: "(+({} " + mark + " {}))" for mark in ("==", "!=", "<", "<=", ">", ">=")}
UNARY = {"-": WRAPPED.format("-{}"), "+": "{}", "!": "(+(not {}))", "~": "(~{})"}
JOINED = {"||": "(+bool({}))", "&&": "(+bool({}))", "|": "({})", "^": "({})", "&": "({})", "+": WRAPPED, "-": WRAPPED}
WORDS = {"||": "or", "&&": "and"}


class Trap(Exception):
    """A trap, by its name in a log."""


def wrapped(value):
    """A whole number as a word of 32 bits, signed."""
    return (value + 2147483648 & 4294967295) - 2147483648


def divided(left, right):
    if right == 0:
        return -1
    quotient = abs(left) // abs(right)
    return wrapped(quotient if (left < 0) == (right < 0) else -quotient)


def remainder(left, right):
    return left if right == 0 else abs(left) % abs(right) * (-1 if left < 0 else 1)


def element(array, index):
    if not 0 <= index < len(array):
        raise Trap("index")
    return array[index]


NAMES = {"divided": divided, "remainder": remainder, "element": element}


def text_of(node, slots):
    """An expression as text of Python, over `L` and `G`."""
    if isinstance(node, Number):
        return f"({wrapped(node.value)})"
    if isinstance(node, Group):
        return text_of(node.inner, slots)
    if isinstance(node, Use):
        name = f"{'G' if node.variable.is_global else 'L'}[{slots[node.variable]}]"
        return name if node.index is None else f"element({name}, {text_of(node.index, slots)})"
    if isinstance(node, Unary):
        return UNARY[node.mark].format(text_of(node.inner, slots))
    if isinstance(node, Choice):
        test, first, second = (text_of(it, slots) for it in (node.test, node.first, node.second))
        return f"({first} if {test} else {second})"
    if node.mark in JOINED:
        return JOINED[node.mark].format(chain(node, slots))
    return FORMS[node.mark].format(text_of(node.left, slots), text_of(node.right, slots))


def chain(node, slots):
    """Operators of one level one after another, so that a long chain isn't deep."""
    level = next(it for it in LEVELS if node.mark in it)
    found = []
    while isinstance(node, Binary) and node.mark in level:
        found += [text_of(node.right, slots), WORDS.get(node.mark, node.mark)]
        node = node.left
    return " ".join([text_of(node, slots), *reversed(found)])


def function_of(node, slots):
    return eval(f"lambda L, G: {text_of(node, slots)}", NAMES)


def uses_in(node):
    """The variables and elements that an expression may read."""
    if isinstance(node, Use):
        yield node
    for it in node if isinstance(node, tuple) else ():
        if isinstance(it, tuple):
            yield from uses_in(it)
