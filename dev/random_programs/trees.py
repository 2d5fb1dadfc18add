"""Random programs without blocking calls, as trees of tuples: the first part of each is its form,
as `printers` prints them.

No loop is endless and no function calls back, so that each program ends; what it may cost is
bounded on the way. A few indices may lie outside their arrays.
"""
import contextlib

SIZE = 8  # of an array and of a table
UNARY = "-+!~"
BINARY = "+ - * / % << >> < > <= >= == != & ^ | && ||".split()
WORDS = [0, 1, 2, 3, 7, 8, 31, 32, 33, 255, 65536, 0x7FFFFFFF, 0x80000000, 0x80000001, 0xFFFFFFFE, 0xFFFFFFFF]
MAIN_TURNS = 8
MOST_COST = 20_000  # of a function, roughly in expressions
STRAY_INDEX = 0.002  # of the indices that may lie outside


class Function:
    def __init__(self, name, parameters, gives, body, cost):
        self.name, self.parameters, self.gives, self.body, self.cost = name, parameters, gives, body, cost


class Program:
    """Globals with their starting values, arrays by name, functions in the order of their
    definitions (the last is main), and one table of functions."""

    def __init__(self, chance):
        self.chance = chance
        self.scalars = {f"g{number}": chance.choice([0, 5, -3, 1000]) for number in range(4)}
        self.arrays = ["a0", "a1"]
        self.functions = []
        for number in range(chance.randint(3, 6)):
            count = 1 if number < 2 else chance.randint(0, 4)
            self.functions.append(Body(self, f"f{number}", count, True).function())
        self.members = [chance.choice(["f0", "f1"]) for _ in range(SIZE)]
        self.functions.append(Body(self, "worker", 1, False, has_table=True).function())
        self.functions.append(Body(self, "main", 0, True, has_table=True, puts=10).function())


class Body:
    """The body of one function as it grows."""

    def __init__(self, program, name, parameters, gives, has_table=False, puts=2):
        self.program, self.chance, self.name, self.gives, self.has_table, self.puts = program, program.chance, name, gives, has_table, puts
        self.parameters = [f"p{number}" for number in range(parameters)]
        self.readable = [*self.parameters, *program.scalars]  # scalars in scope
        self.writable = list(self.readable)
        self.arrays = list(program.arrays)
        self.cost, self.times, self.names, self.loops = 0, 1, 0, 0

    def function(self):
        if self.name == "main":
            body = [self.loop(1, lambda name, turns, body: ("for", name, turns, body), MAIN_TURNS, self.puts)]
            body += [("spawn", "worker", self.expression(2)) for _ in range(self.chance.randint(1, 6))]
        else:
            body = self.putting(self.puts, 2)
        body.append(("return", self.expression(3)) if self.gives else ("put", self.expression(3)))
        return Function(self.name, self.parameters, self.gives, body, self.cost)

    def putting(self, puts, depth):
        """Some statements before each of so many outputs."""
        return [it for _ in range(puts) for it in (*self.statements(3, depth), ("put", self.expression(4)))]

    def new_name(self, kind):
        self.names += 1
        return f"{kind}{self.names}"

    # expressions

    def expression(self, depth, calls=True):
        self.cost += self.times
        if depth == 0 or self.chance.random() < 0.15:
            return self.leaf()
        form = self.chance.choices(["binary", "unary", "cond", "index", "call"], [10, 3, 2, 2, 3])[0]
        below = lambda: self.expression(depth - 1, calls)
        if form == "unary":
            return ("unary", self.chance.choice(UNARY), below())
        if form == "cond":
            return ("cond", below(), below(), below())
        if form == "index":
            return ("index", self.chance.choice(self.arrays), self.index(depth - 1, calls))
        if form == "call" and calls and (call := self.call(depth - 1)):
            return call
        return ("binary", self.chance.choice(BINARY), below(), below())

    def leaf(self):
        if self.chance.random() < 0.4:
            return ("number", self.chance.choice(WORDS) if self.chance.random() < 0.5 else self.chance.randrange(100))
        return ("name", self.chance.choice(self.readable)) if self.chance.random() < 0.95 else ("self",)

    def index(self, depth, calls=True):
        inside = ("binary", "&", self.expression(depth, calls), ("number", SIZE - 1))
        return self.expression(depth, calls) if self.chance.random() < STRAY_INDEX else inside

    def call(self, depth):
        """A call of a function above, or through the table; None where none is cheap enough."""
        able = [it for it in self.program.functions if it.gives and (it.cost + 10) * self.times + self.cost < MOST_COST]
        if not able:
            return None
        if self.has_table and self.chance.random() < 0.3:
            self.cost += self.times * max(it.cost for it in self.program.functions[:2])
            return ("table", self.index(depth), self.expression(depth))
        called = self.chance.choice(able)
        self.cost += self.times * called.cost
        return ("call", called.name, [self.expression(depth) for _ in called.parameters])

    # statements

    def statements(self, most, depth):
        """Some statements that open their own scope where they stand in a block."""
        return [self.statement(depth) for _ in range(self.chance.randint(1, most))]

    @contextlib.contextmanager
    def scope(self):
        """What is declared within it is known there alone."""
        kept = list(self.readable), list(self.writable), list(self.arrays)
        yield
        self.readable, self.writable, self.arrays = kept

    def block(self, depth):
        with self.scope():
            return self.open_block(depth)

    def open_block(self, depth):
        body = self.statements(3, depth)
        if self.loops and self.chance.random() < 0.4:
            body.append(("if", self.expression(1), [(self.chance.choice(["break", "continue"]),)], None))
            body += self.statements(1, 0)
        return body

    def statement(self, depth):
        forms = ["let", "array", "set", "store", "call", "put", "if", "for", "while", "block"]
        form = self.chance.choices(forms, [3, 1, 6, 3, 1, 1, *[2 if depth else 0] * 4])[0]
        return getattr(self, f"make_{form}")(depth)

    def make_let(self, _):
        value = self.expression(3) if self.chance.random() < 0.8 else None
        name = self.new_name("x")
        self.readable.append(name)
        self.writable.append(name)
        return ("let", name, value)

    def make_array(self, _):
        name = self.new_name("b")
        self.arrays.append(name)
        return ("array", name)

    def make_set(self, _):
        return ("set", self.chance.choice(self.writable), self.expression(4))

    def make_store(self, _):
        return ("store", self.chance.choice(self.arrays), self.index(2), self.expression(3))

    def make_call(self, _):
        call = self.call(2)
        return ("do", call) if call else self.make_set(_)

    def make_put(self, _):
        return ("put", self.expression(3))

    def make_if(self, depth):
        return ("if", self.expression(3), self.block(depth - 1), self.block(depth - 1) if self.chance.random() < 0.5
                else None)

    def make_block(self, depth):
        return ("block", self.block(depth - 1))

    def make_for(self, depth):
        return self.loop(depth, lambda name, turns, body: ("for", name, turns, body))

    def make_while(self, depth):
        condition = self.expression(2)
        return self.loop(depth, lambda name, turns, body: ("while", name, turns, condition, body))

    def loop(self, depth, form, turns=None, puts=None):
        """A loop with a counter that only it changes."""
        name, turns = self.new_name("i"), turns or self.chance.randint(1, 5)
        self.readable.append(name)
        self.times, self.loops = self.times * turns, self.loops + 1
        with self.scope():
            body = self.putting(puts, depth) if puts else self.open_block(depth - 1)
        self.times, self.loops = self.times // turns, self.loops - 1
        return form(name, turns, body)
