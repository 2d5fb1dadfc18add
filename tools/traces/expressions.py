"""Values of rows: an expression over the columns of a recording, in a small part of Python's grammar."""
import ast, operator

from .lines import Refused

OPERATORS = {
    ast.Add: operator.add, ast.Sub: operator.sub, ast.Mult: operator.mul, ast.Div: operator.truediv,
    ast.FloorDiv: operator.floordiv, ast.Mod: operator.mod, ast.USub: operator.neg, ast.UAdd: operator.pos,
    ast.Not: operator.not_, ast.Eq: operator.eq, ast.NotEq: operator.ne, ast.Lt: operator.lt, ast.LtE: operator.le,
    ast.Gt: operator.gt, ast.GtE: operator.ge, ast.In: lambda a, b: a in b, ast.NotIn: lambda a, b: a not in b,
}
CALLS = {"int": int, "round": round, "len": len, "min": min, "max": max, "abs": abs, "float": float, "str": str}


class NoValue(Exception):
    """The expression has no value for a row; the text says why."""


class Expression:
    """An expression over columns: `bytes // 1024`, `status == 404`, `tcp.len`, `col("a b")`, `len(path)`.

    A column that reads as a number is that number, and any other a string.
    """

    def __init__(self, text, columns):
        self.text, self.columns = text, set(columns)
        try:
            self.tree = ast.parse(text.strip(), mode="eval").body
        except SyntaxError as why:
            raise Refused(f"--value {text!r}: {why.msg} at column {why.offset}") from None
        self.check(self.tree)

    def check(self, node):
        """Refuses an expression with an unknown column or a form that isn't in the grammar."""
        name = column_name(node)
        if name is not None:
            if name not in self.columns:
                known = ", ".join(sorted(self.columns))
                raise Refused(f"--value {self.text!r}: there is no column {name!r}; the columns are {known}")
            return
        if isinstance(node, ast.Call):
            if not isinstance(node.func, ast.Name) or node.func.id not in CALLS or node.keywords:
                raise Refused(f"--value {self.text!r}: the functions are {', '.join(CALLS)} and col")
            parts = node.args
        else:
            parts = parts_of(node)
        if parts is None:
            raise Refused(f"--value {self.text!r}: {ast.unparse(node)!r} isn't allowed in an expression over columns")
        for part in parts:
            self.check(part)

    def value(self, row):
        """The value for a row: a whole number."""
        try:
            found = evaluate(self.tree, row)
        except (TypeError, ValueError, ZeroDivisionError) as why:
            raise NoValue(str(why)) from None
        if isinstance(found, bool):
            return int(found)
        if not isinstance(found, int):
            raise NoValue(f"expected a whole number, found {found!r}; use int(..) or round(..) for a fraction")
        return found


def column_name(node):
    """The column that a part names: a name, names joined by dots, or col("NAME")."""
    if isinstance(node, ast.Name):
        return node.id
    if isinstance(node, ast.Attribute):
        before = column_name(node.value)
        return None if before is None else f"{before}.{node.attr}"
    if isinstance(node, ast.Call) and isinstance(node.func, ast.Name) and node.func.id == "col":
        if len(node.args) == 1 and isinstance(node.args[0], ast.Constant):
            return str(node.args[0].value)
    return None


def parts_of(node):
    """The parts of an operation, None of any other form."""
    if isinstance(node, ast.BinOp) and type(node.op) in OPERATORS:
        return [node.left, node.right]
    if isinstance(node, ast.UnaryOp) and type(node.op) in OPERATORS:
        return [node.operand]
    if isinstance(node, ast.Compare) and all(type(it) in OPERATORS for it in node.ops):
        return [node.left, *node.comparators]
    if isinstance(node, ast.BoolOp):
        return node.values
    if isinstance(node, ast.IfExp):
        return [node.test, node.body, node.orelse]
    if isinstance(node, ast.Constant) and isinstance(node.value, (int, float, str)):
        return []
    return None


def number_or_text(text):
    for kind in (int, float):
        try:
            return kind(text)
        except ValueError:
            pass
    return text


def evaluate(node, row):
    name = column_name(node)
    if name is not None:
        return number_or_text(row[name])
    if isinstance(node, ast.Constant):
        return node.value
    if isinstance(node, ast.IfExp):
        return evaluate(node.body if evaluate(node.test, row) else node.orelse, row)
    if isinstance(node, ast.BoolOp):
        wanted = isinstance(node.op, ast.Or)
        for part in node.values:
            found = evaluate(part, row)
            if bool(found) == wanted:
                return found
        return found
    if isinstance(node, ast.Compare):
        return compare(node, row)
    parts = [evaluate(it, row) for it in (node.args if isinstance(node, ast.Call) else parts_of(node))]
    return (CALLS[node.func.id] if isinstance(node, ast.Call) else OPERATORS[type(node.op)])(*parts)


def compare(node, row):
    left = evaluate(node.left, row)
    for sign, part in zip(node.ops, node.comparators):
        right = evaluate(part, row)
        if not OPERATORS[type(sign)](left, right):
            return False
        left = right
    return True
