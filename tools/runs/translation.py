"""A source in CapC as Python, by docs/LANGUAGE.md: each function that may block is a generator, which
yields at each call that blocks.

`translated(source)` gives the text. It uses `put`, `give`, `spawn` and `self_` of whoever runs it
(replay.py), and yields the name of a blocking call with its arguments; what is sent back is the
call's result.
"""
from explained.tokens import MODELLED, tokens_of

BLOCKING = ("accept", "wait", "waitfor", "sleep", "yield", "take")
LEVELS = [("||",), ("&&",), ("|",), ("^",), ("&",), ("==", "!="), ("<", "<=", ">", ">="), ("<<", ">>"), ("+", "-"),
          ("*", "/", "%")]
WRAPPED = "(({}) + 2147483648 & 4294967295) - 2147483648"
RUNTIME = '''
class Trap(Exception):
    pass
def trap():
    raise Trap
def divided(a, b):
    if b == 0:
        return -1
    quotient = abs(a) // abs(b)
    return ((quotient if (a < 0) == (b < 0) else -quotient) + 2147483648 & 4294967295) - 2147483648
def remainder(a, b):
    return a if b == 0 else abs(a) % abs(b) * (-1 if a < 0 else 1)
'''


class Untranslated(Exception):
    """The source isn't one, or is beyond what Python takes."""


class Translation:
    """Reads the tokens of a source from the left, and writes Python. The source is one that the program has
    taken, so nothing is checked."""

    def __init__(self, source):
        self.tokens, self.at, self.lines, self.depth = [it.text for it in tokens_of(source)] + [""], 0, [], 0
        self.scopes, self.names, self.steps = [{}], 0, []
        self.blocking = functions_that_block(self.tokens)

    def next(self):
        self.at += 1
        return self.tokens[self.at - 1]

    def sees(self, *texts):
        return self.tokens[self.at] in texts

    def takes(self, text):
        found = self.sees(text)
        self.at += found
        return found

    def put(self, line):
        self.lines.append("    " * self.depth + line)

    def declare(self, name, form):
        """A name of its own for what is declared, as `form` has it: of a global, a table or a function the same for all its
        declarations."""
        if len(self.scopes) > 1:
            self.names += 1
            form = f"{form}{self.names}"
        self.scopes[-1][name] = f"{form}_{name}"
        return self.scopes[-1][name]

    def named(self, name):
        return next(scope[name] for scope in reversed(self.scopes) if name in scope)

    def number(self):
        word = int(self.next(), 0)
        return word - (1 << 32) if word >= 1 << 31 else word

    def program(self):
        globals_at = len(self.lines)
        while self.tokens[self.at]:
            kind, name, mark = self.tokens[self.at : self.at + 3]
            self.at += 1
            if mark == "*":
                self.table()
            elif mark == "(":
                self.function(name)
            else:
                self.globals_()
        return "\n".join([RUNTIME, *self.lines[globals_at:]])

    def globals_(self):
        while not self.takes(";"):
            self.takes(",")
            name = self.declare(self.next(), "g")
            if self.takes("["):
                self.put(f"{name} = [0] * {self.number()}")
                self.at += 1
            elif self.takes("="):
                sign = "-" if self.takes("-") else ""
                self.put(f"{name} = {WRAPPED.format(f'{sign}({self.number()})')}")
            else:
                self.put(f"{name} = 0")

    def table(self):
        """`int (*name[2])(int) = { f, g };`, of which the first word is read. Its members are looked up when it is called, as they
        may be defined below it."""
        name = self.tokens[self.at + 2]
        self.at = self.tokens.index("{", self.at) + 1
        members = []
        while not self.takes("}"):
            self.takes(",")
            members.append(f"f_{self.next()}")
        self.at += 1
        self.put(f"{self.declare(name, 't')} = lambda: ({', '.join(members)},)")

    def function(self, name):
        self.at += 2
        parameters = []
        self.scopes[0][name] = f"f_{name}"
        self.scopes.append({})
        while not self.takes(")"):
            word = self.next()
            if word not in ("int", "void", ","):
                parameters.append(self.declare(word, "v"))
        if self.takes(";"):
            self.scopes.pop()
            return
        self.put(f"def f_{name}({', '.join(parameters)}):")
        self.depth += 1
        assigned = [f"g_{it}" for it in dict.fromkeys(self.assigned_in_body()) if self.scopes[0].get(it) == f"g_{it}"]
        if assigned:
            self.put(f"global {', '.join(assigned)}")
        if name in self.blocking:
            self.put("if 0: yield")
        self.at += 1
        while not self.takes("}"):
            self.statement()
        self.put("return 0")
        self.depth -= 1
        self.scopes.pop()

    def assigned_in_body(self):
        """The names that stand before a `=` up to the end of the function."""
        depth, at = 0, self.at
        while True:
            depth += (self.tokens[at] == "{") - (self.tokens[at] == "}")
            if self.tokens[at + 1] == "=":
                yield self.tokens[at]
            if depth == 0:
                return
            at += 1

    def statement(self):
        word = self.tokens[self.at]
        does = {"{": self.block, "int": self.locals_, "if": self.if_, "while": self.while_, "for": self.for_,
                "return": self.return_}
        does |= {"break": self.break_, "continue": self.continue_, ";": lambda: None}
        if word in does:
            does[word]()
        else:
            self.simple()
        if word not in ("{", "if", "while", "for"):
            self.at += 1  # the semicolon

    def block(self):
        self.at += 1
        self.scopes.append({})
        while not self.takes("}"):
            self.statement()
        self.scopes.pop()

    def inner(self):
        """A statement of its own scope, as the body of another."""
        self.depth += 1
        self.scopes.append({})
        before = len(self.lines)
        self.statement()
        if len(self.lines) == before:
            self.put("pass")
        self.scopes.pop()
        self.depth -= 1

    def locals_(self):
        self.at += 1
        while True:
            name = self.next()
            if self.takes("["):
                size = self.number()
                self.at += 1
                self.put(f"{self.declare(name, 'v')} = [0] * {size}")
            else:
                value = self.expression() if self.takes("=") else "0"
                self.put(f"{self.declare(name, 'v')} = {value}")
            if not self.takes(","):
                return

    def if_(self):
        self.at += 2
        condition = self.expression()
        self.at += 1
        self.put(f"if {condition}:")
        self.inner()
        if self.takes("else"):
            self.put("else:")
            self.inner()

    def while_(self):
        self.at += 2
        condition = self.expression()
        self.at += 1
        self.put(f"while {condition}:")
        self.steps.append([])
        self.inner()
        self.steps.pop()

    def for_(self):
        self.at += 2
        self.scopes.append({})
        if self.sees("int"):
            self.locals_()
        elif not self.sees(";"):
            self.simple()
        self.at += 1
        condition = "1" if self.sees(";") else self.expression()
        self.at += 1
        step = self.lines_of(lambda: None if self.sees(")") else self.simple())
        self.at += 1
        self.put(f"while {condition}:")
        self.steps.append(step)
        self.inner()
        self.steps.pop()
        self.put_all(step)
        self.scopes.pop()

    def lines_of(self, read):
        """What `read` writes, without a place."""
        lines, depth, self.lines, self.depth = self.lines, self.depth, [], 0
        read()
        written, self.lines, self.depth = self.lines, lines, depth
        return written

    def put_all(self, lines):
        self.depth += 1
        for it in lines:
            self.put(it)
        self.depth -= 1

    def break_(self):
        self.at += 1
        self.put("break")

    def continue_(self):
        self.at += 1
        for it in self.steps[-1]:
            self.put(it)
        self.put("continue")

    def return_(self):
        self.at += 1
        self.put("return 0" if self.sees(";") else f"return {self.expression()}")

    def simple(self):
        """An assignment, or a call alone."""
        name = self.tokens[self.at]
        if self.tokens[self.at + 1] == "=":
            self.at += 2
            self.put(f"{self.named(name)} = {self.expression()}")
            return
        start = self.at
        self.at += 1
        if self.takes("["):
            index = self.expression()
            self.at += 1
            if self.takes("="):
                self.names += 1
                place, value = f"at{self.names}_", f"value{self.names}_"
                self.put(f"{place} = {index}")
                self.put(f"{value} = {self.expression()}")
                self.put(f"{self.named(name)}[{place} if {place} >= 0 else trap()] = {value}")
                return
        self.at = start
        self.put(self.expression())

    def expression(self):
        condition = self.chain(0)
        if not self.takes("?"):
            return condition
        first = self.expression()
        self.at += 1
        return f"({first} if {condition} else {self.expression()})"

    def chain(self, level):
        """Operators of a level, which group to the left."""
        if level == len(LEVELS):
            return self.unary()
        found = self.chain(level + 1)
        if not self.sees(*LEVELS[level]):
            return found
        parts = [found]
        while self.sees(*LEVELS[level]):
            parts += [self.next(), self.chain(level + 1)]
        return JOINS[level](parts)

    def unary(self):
        mark = self.tokens[self.at]
        if mark in ("-", "+", "!", "~"):
            self.at += 1
            form = {"-": f"({WRAPPED.format('-{}')})", "+": "{}", "!": "(+(not {}))", "~": "(~{})"}[mark]
            return form.format(self.unary())
        return self.primary()

    def primary(self):
        if self.takes("("):
            inside = self.expression()
            self.at += 1
            return f"({inside})"
        if self.tokens[self.at][0].isdigit():
            return f"({self.number()})"
        at, name = self.at, self.next()
        if self.sees("("):
            return self.call(name)
        if not self.takes("["):
            return self.named(name)
        index = self.expression()
        self.at += 1
        if self.sees("("):
            return self.table_call(name, index, at)
        return f"({self.named(name)}[index_] if (index_ := {index}) >= 0 else trap())"

    def arguments(self):
        found = []
        self.at += 1
        while not self.takes(")"):
            self.takes(",")
            found.append(self.expression())
        return found

    def call(self, name):
        if name == "spawn":
            self.at += 1
            function = self.next()
            self.at += 1
            argument = self.expression()
            self.at += 1
            return f"spawn(f_{function}, {argument})"
        arguments = ", ".join(self.arguments())
        if name in BLOCKING:
            return f"(yield ({name!r}, {arguments}))"
        if name in MODELLED:
            return f"{'self_' if name == 'self' else name}({arguments})"
        return f"(yield from f_{name}({arguments}))" if name in self.blocking else f"f_{name}({arguments})"

    def table_call(self, name, index, at):
        """A call through a table, whose name is the token at this place."""
        member = f"{self.named(name)}()[index_ if (index_ := {index}) >= 0 else trap()]({', '.join(self.arguments())})"
        return f"(yield from {member})" if name in self.blocking else member


def folded(forms):
    """Joins one by one, from the left."""

    def join(parts):
        found = parts[0]
        for mark, part in zip(parts[1::2], parts[2::2]):
            found = forms[mark].format(found, part)
        return found

    return join


def compared(mark):
    return "(+({} " + mark + " {}))"


JOINS = [
    lambda parts: f"(+bool({' or '.join(parts[::2])}))",
    lambda parts: f"(+bool({' and '.join(parts[::2])}))",
    *[lambda parts: f"({' '.join(parts)})"] * 3,
    *[folded({mark: compared(mark) for mark in level}) for level in LEVELS[5:7]],
    folded({"<<": f"({WRAPPED.format('{} << ({} & 31)')})", ">>": "({} >> ({} & 31))"}),
    lambda parts: f"({WRAPPED.format(' '.join(parts))})",
    folded({"*": f"({WRAPPED.format('{} * {}')})", "/": "divided({}, {})", "%": "remainder({}, {})"}),
]


def functions_that_block(tokens):
    """The functions and tables in which a thread may block: a name stands in the body of one, or among the members of one, that
    blocks. Names of other things are among them, and do no harm."""
    inside, name, depth = {}, None, 0
    for at, token in enumerate(tokens):
        if depth == 0 and tokens[at + 1 : at + 2] in (["("], ["["]) and token.isidentifier() and token not in ("int", "void"):
            name = token
        depth += (token == "{") - (token == "}")
        if depth:
            inside.setdefault(name, set()).add(token)
    found = set(BLOCKING)
    while more := {name for name, tokens_in in inside.items() if name not in found and tokens_in & found}:
        # the members of a table that blocks are called in one way, so all are as those that block
        found |= more | {it for name in more for it in inside[name] if is_table(tokens, name) and it in inside}
    return found


def is_table(tokens, name):
    return any(tokens[at - 2 : at + 1] == ["(", "*", name] for at, token in enumerate(tokens) if token == name)


def translated(source, translation=Translation):
    try:
        return translation(source).program()
    except (IndexError, StopIteration, ValueError) as why:
        raise Untranslated from why
