"""What the refusals of names mean: `Unknown`, `Twice`, `Arity` and `Kind`, told by what the source
declares."""
from .text import nearest, some
from .tokens import MODELLED, arguments_between, bodies_of, closing, declarations_of, tokens_of

# calls of C's libraries, and what does the same
OF_C = {
    "printf": "`put(x)` writes a number",
    "puts": "`put(x)` writes a number",
    "putchar": "`put(x)` writes a number",
    "scanf": "`accept()` takes a request, `wait(c)` a message",
    "read": "`wait(c)` takes a message",
    "recv": "`wait(c)` takes a message",
    "malloc": "declare an array",
    "calloc": "declare an array",
    "free": "",
    "memcpy": "write a loop",
    "memset": "write a loop",
    "exit": "`main` and each thread end by `return`",
    "abort": "",
    "assert": "",
    "rand": "the same trace gives the same run: write a generator of your own",
    "time": "`waitfor(c, n)` and `sleep(n)` wait by the clock",
    "usleep": "`sleep(n)` waits for n ticks",
    "nanosleep": "`sleep(n)` waits for n ticks",
    "sched_yield": "`yield()` lets another thread run",
    "pthread_create": "`spawn(f, x)` starts a thread that calls f(x)",
    "pthread_self": "`self()` is the number of the thread",
    "pthread_mutex_lock": "`take(r, 1)` takes a resource that `--caps r=1` gives one unit",
    "pthread_mutex_unlock": "`give(r, 1)` returns it",
}
CONSTANTS = {"true": "1", "false": "0", "NULL": "0", "TRUE": "1", "FALSE": "0"}
A_OR_AN = {"array": "an array", "scalar": "a variable", "parameter": "a parameter", "function": "a function",
           "prototype": "a function", "table": "a table"}


class Place:
    """A place in a source: the token there, those beside it, and what is declared."""

    def __init__(self, source, at):
        self.source, self.tokens = source, tokens_of(source)
        self.index = next(i for i, it in enumerate(self.tokens) if it.at == at)
        self.token = self.tokens[self.index]
        self.declared = declarations_of(self.tokens)
        # (the parameters stand before the body, and belong to it)
        self.inside = next(((name, last) for name, first, last in bodies_of(self.tokens) if first <= at < last), None)
        self.inside = self.inside or next((it.inside for it in self.declared if it.what == "parameter" and it.at == at),
                                          None)

    def text(self, steps):
        index = self.index + steps
        return self.tokens[index].text if 0 <= index < len(self.tokens) else ""

    def line(self, at):
        return self.source.count(b"\n", 0, at) + 1

    def before(self):
        """The last declaration of this name that can be meant here, or None."""
        alike = [it for it in self.declared if it.name == self.token.text and it.at < self.token.at
                 and it.inside in (None, self.inside)]
        return alike[-1] if alike else None

    def known(self):
        """The names that can be meant here; those of calls, where this is one, first of all."""
        declared = [it.name for it in self.declared if it.at < self.token.at and it.inside in (None, self.inside)]
        return [*MODELLED, *declared] if self.text(1) == "(" else declared

    def arguments(self):
        """How many arguments the call here has, behind an index if there is one."""
        start = self.index + 1
        if self.text(1) == "[":
            start = closing(self.tokens, start) + 1
        return arguments_between(self.tokens, start, closing(self.tokens, start))


def meant(kind, source, at):
    """What the refusal means at that place, a line each."""
    place = Place(source, at)
    return {"Unknown": unknown, "Twice": twice, "Arity": arity, "Kind": kind_of}[kind](place)


def unknown(place):
    name = place.token.text
    alike = [it for it in place.declared if it.name == name]
    here = next((it for it in alike if it.at == place.token.at), None)
    if here:
        return [f"this prototype of `{name}` has no definition: the source has no function `{name}` with a body"]
    later = next((it for it in alike if it.at > place.token.at and it.inside in (None, place.inside)), None)
    if later:
        how = f": move it up, or write a prototype above this line: `{'int' if later.gives else 'void'} {name}({', '.join(['int'] * later.count)});`" if later.what == "function" else ""
        return [f"`{name}` is declared in line {place.line(later.at)}; a name can be used only after its declaration{how}"]
    own = next((it for it in alike if it.at < place.token.at
                and not any(token.text in ",;" for token in place.tokens if it.at < token.at < place.token.at)), None)
    if own:
        return [f"`{name}` can be used only after its own initialiser"]
    if alike:
        return [f"`{name}` is declared in line {place.line(alike[-1].at)}, in a scope that ends before this place"]
    if name in OF_C:
        return [f"CapC has no library, so no `{name}`{': ' * bool(OF_C[name])}{OF_C[name]}",
                f"the built-in calls are {', '.join(MODELLED)}"]
    if name in CONSTANTS:
        return [f"CapC has no `{name}`: write {CONSTANTS[name]}"]
    return [f"`{name}` is not declared{nearest(name, place.known())}"]


def twice(place):
    alike = [it for it in place.declared if it.name == place.token.text and it.at < place.token.at
             and it.inside == place.inside]
    where = f", in line {place.line(alike[0].at)} as {A_OR_AN[alike[0].what]}" if len(alike) == 1 else ""
    return [f"`{place.token.text}` is already declared in the same scope{where}"]


def arity(place):
    name, first = place.token.text, place.before()
    here = next((it for it in place.declared if it.at == place.token.at), None)
    if here and here.what == "table":
        return [f"the size of the table `{name}` must be the number of its members, {here.count}, and at least 1"]
    if here:
        of = f" in line {place.line(first.at)}" if first else ""
        return [f"`{name}` differs from its declaration{of} in its result or its number of parameters"]
    if name in MODELLED:
        return [f"`{name}` takes {some(MODELLED[name], 'argument')}, found {place.arguments()}"
                + (": the function, and the value that it is called with" if name == "spawn" else "")]
    takes = 1 if first and first.what == "table" else first.count if first else None
    through = "a call through a table" if first and first.what == "table" else f"`{name}`"
    return [f"{through} takes {some(takes, 'argument')}, found {place.arguments()}"] if takes is not None else []


def kind_of(place):
    name = place.token.text
    if name == "return":
        return ["an `int` function must return a value, and a `void` function must not: " + ("a value is missing here" if place.text(1) == ";" else "leave the value out, or make the function `int`")]
    if name in ("break", "continue"):
        return [f"`{name}` must be inside a loop"]
    here = next((it for it in place.declared if it.at == place.token.at), None)
    if here:
        return declared_so(place, here)
    if name == "spawn":
        return ["the first argument of `spawn` must be the name of a function, and nothing else"]
    return used_so(place, name, place.before())


def declared_so(place, here):
    """Of a name where it is declared."""
    if here.name in MODELLED:
        return [f"`{here.name}` is a built-in call and can't be declared"]
    if here.name == "main":
        return ["`main` has no parameters"]
    return [f"an array must have 1 to 65,536 words; `{here.name}` has {here.count:,}"] if here.what == "array" else []


def used_so(place, name, first):
    """Of a name where it is used."""
    if place.text(-1) == "(" and place.text(-2) == "spawn":
        return [f"`spawn` takes a function with one parameter; `{name}` " + (f"has {first.count}" if first and first.what in ("function", "prototype") else "is not a function")]
    if name in MODELLED and place.text(1) != "(":
        return [f"`{name}` is a built-in call: write it with its arguments, as `{name}(..)`"]
    if name in MODELLED or first and first.what in ("function", "prototype") and place.text(1) == "(":
        return [f"`{name}` has no result, so its value can't be used"]
    if not first:
        return []
    said = f"`{name}` is {A_OR_AN[first.what]} (line {place.line(first.at)})"
    if place.inside is None:
        return [f"{said}; a member of a table is an `int` function with one parameter"]
    if place.text(1) == "(":
        return [f"{said}" + ("; a table is called with an index, as `t[i](x)`" if first.what == "table"
                             else "; only a function can be called")]
    if place.text(1) == "[":
        return [f"{said}; only an array or a table can be indexed"]
    if first.what == "array":
        return [f"{said}; use an element, as in `{name}[i]`"]
    return [f"{said}, not a value; " + ("call it" if first.what != "table" else "a table is called, as `t[i](x)`")]
