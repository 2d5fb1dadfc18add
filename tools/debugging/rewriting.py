"""The rewriting of calls inside expressions (docs/LANGUAGE.md, "Calls inside expressions"): each nested call is
assigned to a temporary before its statement, so that a run of the rewritten tree has the steps of the program's own.

`rewritten(statements)` gives the statements in their place. A temporary is a `Temporary`, with the expression whose
value it has.
"""
from sources.tree import (
    Assign,
    Binary,
    Block,
    Call,
    Choice,
    Declare,
    Do,
    If,
    Leave,
    Loop,
    Number,
    Unary,
    Use,
    Variable,
)

from .text_tree import For, Group


class Temporary(Variable):
    """A variable of the rewriting: `of` is the part of the expression whose value it has."""

    def __init__(self, of):
        super().__init__("", False)
        self.of = of


class Made(Block):
    """A block that the rewriting makes: the right side of `&&` or `||`, a side of `?:`, its `break`, a loop's body."""


def holds_call(node):
    """Whether an expression contains a call."""
    if isinstance(node, Call):
        return True
    return any(holds_call(it) for it in node if isinstance(it, tuple)) if isinstance(node, tuple) else False


def arguments_of(call):
    """The arguments that are expressions: all but the function that `spawn` names."""
    return call.arguments[1:] if call.name == "spawn" and call.index is None else call.arguments


def holds_nested(value):
    """Whether a call that isn't whole stands in a right side or a returned value."""
    if isinstance(value, Call):
        return any(map(holds_call, [*arguments_of(value), *([] if value.index is None else [value.index])]))
    return holds_call(value)


def named_part(node, is_before_call):
    """An earlier part: the statements before it, and what is left of it."""
    before, left = nested(node)
    if not is_before_call or isinstance(node, (Number, Call)):
        return before, left
    held = Temporary(node)
    return [*before, Declare(held, left, node.at)], Use(held, None, node.at)


def parts(nodes):
    """Parts that are evaluated one after another: the statements before them, and what is left of each."""
    before, left = [], []
    for number, node in enumerate(nodes):
        more, kept = named_part(node, any(map(holds_call, nodes[number + 1 :])))
        before += more
        left.append(kept)
    return before, left


def whole(call):
    """A call that keeps its place: the statements before it, and the call with what is left of its parts."""
    if call.index is not None:
        before, (index, *arguments) = parts([call.index, *call.arguments])
        return before, call._replace(index=index, arguments=arguments)
    before, arguments = parts(arguments_of(call))
    return before, call._replace(arguments=[*call.arguments[: len(call.arguments) - len(arguments)], *arguments])


def nested(node):
    """An expression: the statements before its own, and what is left of it."""
    if isinstance(node, Call):
        before, call = whole(node)
        held = Temporary(node)
        return [*before, Declare(held, call, node.at)], Use(held, None, node.at)
    if isinstance(node, (Unary, Group)):
        before, inner = nested(node.inner)
        return before, node._replace(inner=inner)
    if isinstance(node, Use) and node.index is not None:
        before, index = nested(node.index)
        return before, node._replace(index=index)
    if isinstance(node, Binary) and node.mark in ("&&", "||"):
        return decided(node)
    if isinstance(node, Binary):
        before, (left, right) = parts([node.left, node.right])
        return before, node._replace(left=left, right=right)
    return chosen(node) if isinstance(node, Choice) else ([], node)


def decided(node):
    """`l && r` or `l || r`."""
    before, left = nested(node.left)
    if not holds_call(node.right):
        return before, node._replace(left=left)
    held = Temporary(node)
    use, more, right = Use(held, None, node.at), *nested(node.right)
    is_true = lambda it: Binary("!=", it, Number(0, node.at), node.at)
    test = use if node.mark == "&&" else Unary("!", use, node.at)
    inner = Made([*more, Assign(held, None, is_true(right), node.right.at)], node.right.at)
    return [*before, Declare(held, is_true(left), node.at), If(test, inner, None, node.at)], use


def chosen(node):
    """`c ? a : b`."""
    before, test = nested(node.test)
    if not holds_call(node.first) and not holds_call(node.second):
        return before, node._replace(test=test)
    held, sides = Temporary(node), []
    for side in (node.first, node.second):
        more, left = nested(side)
        sides.append(Made([*more, Assign(held, None, left, side.at)], side.at))
    return [*before, Declare(held, None, node.at), If(test, *sides, node.at)], Use(held, None, node.at)


def right_side(value):
    """A right side or a returned value, which may be a whole call."""
    return whole(value) if isinstance(value, Call) else nested(value)


def statement(it):
    """The statements that replace one."""
    if isinstance(it, Block):
        return [it._replace(statements=rewritten(it.statements))]
    if isinstance(it, Do):
        before, call = whole(it.call)
        return [*before, it._replace(call=call)]
    if isinstance(it, (Declare, Leave)) and it.value is not None:
        before, value = right_side(it.value)
        return [*before, it._replace(value=value)]
    if isinstance(it, Assign):
        before, index = ([], None) if it.index is None else named_part(it.index, holds_nested(it.value))
        more, value = right_side(it.value)
        return [*before, *more, it._replace(index=index, value=value)]
    if isinstance(it, If):
        before, test = nested(it.test)
        otherwise = body(it.otherwise) if it.otherwise else None
        return [*before, it._replace(test=test, then=body(it.then), otherwise=otherwise)]
    return [loop(it)] if isinstance(it, Loop) else [it]


def body(block):
    return block._replace(statements=rewritten(block.statements))


def loop(it):
    if isinstance(it, For) or not holds_call(it.test):
        return it._replace(body=body(it.body))
    before, test = nested(it.test)
    leaves = If(Unary("!", test, it.test.at), Made([Leave("break", None, it.at)], it.at), None, it.test.at)
    return it._replace(test=Number(1, it.at), body=Made([*before, leaves, body(it.body)], it.at))


def rewritten(statements):
    return [new for it in statements for new in statement(it)]
