"""A source in CapC as a tree, by the grammar and the scopes of docs/LANGUAGE.md, with the place of
each name.

`program_of(source)` reads a source that the program has taken, so little is checked; `NotASource` is
raised where the text is none. Call sites are numbered in the order of the calls' names, as the
program numbers them.
"""
import collections, functools

from explained.tokens import MODELLED, tokens_of

LEVELS = [("||",), ("&&",), ("|",), ("^",), ("&",), ("==", "!="), ("<", "<=", ">", ">="), ("<<", ">>"), ("+", "-"),
          ("*", "/", "%")]


class NotASource(Exception):
    """The text isn't a source that the program takes."""


class Variable:
    """A declared variable: a global with its value at the start, a parameter or a local; `size` is the
    words of an array, or None."""

    def __init__(self, name, is_global, size=None):
        self.name, self.is_global, self.size, self.initial = name, is_global, size, 0

    def __repr__(self):
        return self.name


class Function:
    """A function with its parameters and its body, a list of statements; `end` is the place of its last brace."""

    def __init__(self, name):
        self.name, self.parameters, self.body, self.end = name, [], None, 0


class Table:
    """A table of functions, by their names."""

    def __init__(self, name, members):
        self.name, self.members = name, members


Number = collections.namedtuple("Number", "value at")
Use = collections.namedtuple("Use", "variable index at")  # `index` is None without one
Unary = collections.namedtuple("Unary", "mark inner at")
Binary = collections.namedtuple("Binary", "mark left right at")
Choice = collections.namedtuple("Choice", "test first second at")
Call = collections.namedtuple("Call", "name arguments at site index")
Call.__doc__ = "`index` is that of a call through a table. The first argument of `spawn` is the function's name."

Block = collections.namedtuple("Block", "statements at")
Declare = collections.namedtuple("Declare", "variable value at")
Assign = collections.namedtuple("Assign", "variable index value at")
Do = collections.namedtuple("Do", "call at")
If = collections.namedtuple("If", "test then otherwise at")
Loop = collections.namedtuple("Loop", "start test step body at")  # a `while` has neither start nor step
Leave = collections.namedtuple("Leave", "word value at")  # `break`, `continue` or `return`


class Program:
    """The functions, tables and globals of a source by name."""

    def __init__(self):
        self.functions, self.tables, self.globals = {}, {}, {}


class Reader:
    """Reads the tokens of a source from the left."""

    def __init__(self, source):
        self.tokens, self.at, self.sites = tokens_of(source), 0, 0
        self.program, self.scopes = Program(), [{}]

    def text(self, ahead=0):
        index = self.at + ahead
        return self.tokens[index].text if index < len(self.tokens) else ""

    def place(self):
        return self.tokens[min(self.at, len(self.tokens) - 1)].at

    def next(self):
        self.at += 1
        return self.tokens[self.at - 1].text

    def takes(self, *texts):
        found = self.text() in texts
        self.at += found
        return found

    def wants(self, text):
        if not self.takes(text):
            raise NotASource(f"{text!r} is missing")

    def declare(self):
        """The variable of a name that is declared here, with its size if one follows."""
        variable = Variable(self.next(), len(self.scopes) == 1)
        if self.takes("["):
            variable.size = int(self.next(), 0)
            self.wants("]")
        self.scopes[-1][variable.name] = variable
        return variable

    def variable(self, name):
        for scope in reversed(self.scopes):
            if name in scope:
                return scope[name]
        raise NotASource(f"{name} isn't declared")

    def whole(self):
        while self.text():
            if self.text() not in ("int", "void"):
                raise NotASource("no declaration")
            if self.text(1) == "(" and self.text(2) == "*":
                self.table()
            elif self.text(2) == "(":
                self.function()
            else:
                self.globals()
        if "main" not in self.program.functions:
            raise NotASource("there is no main")
        return self.program

    def globals(self):
        self.wants("int")
        while True:
            variable = self.declare()
            self.program.globals[variable.name] = variable
            if self.takes("="):
                sign = -1 if self.takes("-") else 1
                variable.initial = sign * int(self.next(), 0)
            if not self.takes(","):
                return self.wants(";")

    def table(self):
        self.at += 3
        name, members = self.next(), []
        while self.next() != "{":
            pass
        while not self.takes("}"):
            self.takes(",")
            members.append(self.next())
        self.wants(";")
        self.program.tables[name] = Table(name, members)

    def function(self):
        self.at += 1
        made = Function(self.next())
        self.wants("(")
        self.scopes.append({})
        while not self.takes(")"):
            self.takes("int", "void", ",")
            if self.text() not in (")", "int", "void", ","):
                made.parameters.append(self.declare())
        if not self.takes(";"):
            self.wants("{")
            self.program.functions[made.name] = made
            made.body = self.statements()
            made.end = self.tokens[self.at - 1].at
        self.scopes.pop()

    def statements(self):
        found = []
        while not self.takes("}"):
            found += self.statement()
        return found

    def body(self):
        """The statements of a body with a scope of its own."""
        self.scopes.append({})
        at, found = self.place(), self.statement()
        self.scopes.pop()
        return Block(found, at)

    def statement(self):
        """The statements that begin here: several of a declaration, none of a semicolon."""
        word, at = self.text(), self.place()
        if self.takes("{"):
            self.scopes.append({})
            found = [Block(self.statements(), at)]
            self.scopes.pop()
            return found
        if self.takes("if"):
            return [self.if_(at)]
        if self.takes("while"):
            self.wants("(")
            test = self.expression()
            self.wants(")")
            return [Loop([], test, [], self.body(), at)]
        if self.takes("for"):
            return [self.for_(at)]
        found = []
        if self.takes("break", "continue", "return"):
            value = self.expression() if word == "return" and self.text() != ";" else None
            found = [Leave(word, value, at)]
        elif word != ";":
            found = self.part()
        self.wants(";")
        return found

    def if_(self, at):
        self.wants("(")
        test = self.expression()
        self.wants(")")
        then = self.body()
        return If(test, then, self.body() if self.takes("else") else None, at)

    def for_(self, at):
        self.wants("(")
        self.scopes.append({})
        start = [] if self.text() == ";" else self.part()
        self.wants(";")
        test = Number(1, at) if self.text() == ";" else self.expression()
        self.wants(";")
        step = [] if self.text() == ")" else self.part()
        self.wants(")")
        found = Loop(start, test, step, self.body(), at)
        self.scopes.pop()
        return found

    def part(self):
        """A declaration, an assignment, or a call alone."""
        if self.takes("int"):
            return self.locals()
        at = self.place()
        if self.text(1) == "=":
            variable = self.variable(self.next())
            self.wants("=")
            return [Assign(variable, None, self.expression(), at)]
        found = self.primary()
        if isinstance(found, Use) and self.takes("="):
            return [Assign(found.variable, found.index, self.expression(), at)]
        if not isinstance(found, Call):
            raise NotASource("neither an assignment nor a call")
        return [Do(found, at)]

    def locals(self):
        found = []
        while True:
            at = self.place()
            variable = Variable(self.next(), False)
            if self.takes("["):
                variable.size = int(self.next(), 0)
                self.wants("]")
            value = self.expression() if self.takes("=") else None
            self.scopes[-1][variable.name] = variable  # its scope begins after its own value
            found.append(Declare(variable, value, at))
            if not self.takes(","):
                return found

    def expression(self):
        test, at = self.chain(0), self.place()
        if not self.takes("?"):
            return test
        first = self.expression()
        self.wants(":")
        return Choice(test, first, self.expression(), at)

    def chain(self, level):
        """Operators of a level, which group to the left."""
        if level == len(LEVELS):
            return self.unary()
        found = self.chain(level + 1)
        while self.text() in LEVELS[level]:
            at, mark = self.place(), self.next()
            found = Binary(mark, found, self.chain(level + 1), at)
        return found

    def unary(self):
        at = self.place()
        if self.text() in ("-", "+", "!", "~"):
            return Unary(self.next(), self.unary(), at)
        return self.primary()

    def primary(self):
        at = self.place()
        if self.takes("("):
            inside = self.expression()
            self.wants(")")
            return inside
        if self.text()[:1].isdigit():
            return Number(int(self.next(), 0), at)
        name = self.next()
        if self.text() == "(":
            return self.call(name, at, None)
        if not self.takes("["):
            return Use(self.variable(name), None, at)
        is_table = name in self.program.tables and not any(name in scope for scope in self.scopes[1:])
        site, self.sites = self.sites, self.sites + is_table
        index = self.expression()
        self.wants("]")
        return self.call(name, at, index, site) if is_table else Use(self.variable(name), index, at)

    def call(self, name, at, index, site=None):
        if site is None:
            site, self.sites = self.sites, self.sites + 1
        self.wants("(")
        arguments = []
        if name == "spawn":
            arguments.append(self.next())
            self.wants(",")
        while not self.takes(")"):
            self.takes(",")
            arguments.append(self.expression())
        return Call(name, arguments, at, site, index)


@functools.lru_cache(maxsize=8)
def program_of(source):
    """The tree of a source's bytes."""
    try:
        return Reader(source).whole()
    except (IndexError, ValueError, RecursionError) as why:
        raise NotASource("it isn't one that the program takes") from why


def is_blocking(name):
    """Whether a modelled call of this name blocks."""
    return name in MODELLED and name not in ("put", "give", "spawn", "self")


def parts_of(node):
    """The expressions and statements directly within one."""
    for it in node if isinstance(node, tuple) else ():
        if isinstance(it, list):
            yield from (inner for inner in it if isinstance(inner, tuple))
        elif isinstance(it, tuple):
            yield it


def all_in(nodes):
    """Each node within some, themselves first."""
    for it in nodes:
        yield it
        yield from all_in(parts_of(it))
