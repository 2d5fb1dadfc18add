"""The tokens of a source with their places, as docs/LANGUAGE.md has them, and what a source
declares: enough to say what stands at a place."""
import functools, os, re

GAP = re.compile(rb"(?:[ \t\n\v\f\r]|//[^\n]*|/\*.*?\*/)*", re.S)
MARKS = sorted("( ) { } [ ] ; , = ? : + - * / % == != < > <= >= && || & | ^ << >> ! ~ ++ -- += -= *= /= %= &= |= ^= <<= >>= ->".split(), key=len, reverse=True)
TOKEN = re.compile(rb"[A-Za-z0-9_]+|" + b"|".join(re.escape(it.encode()) for it in MARKS))
KEYWORDS = set(
    "auto break case char const continue default do double else enum extern float for goto if inline int long register restrict return short signed sizeof static struct"
    " switch typedef union unsigned void volatile while _Alignas _Alignof _Atomic _Bool _Complex _Generic _Imaginary _Noreturn _Static_assert _Thread_local".split()
)
HERE = os.path.dirname(os.path.realpath(__file__))
# the crate's table of the modelled calls other than `spawn`; tools/install puts a copy beside this file
TABLES = [os.path.join(HERE, it) for it in ("modelled_calls.rt", "../../crates/cap_word/src/modelled_calls.rt")]


def modelled_calls():
    """The modelled calls with the number of their arguments, in the order of the table but that a
    name stands behind the one that it begins with."""
    with open(next(filter(os.path.exists, TABLES))) as file:
        text = file.read()
    names = re.findall(r'ModelledCall::(\w+) => "(\w+)"', text)
    arms = re.findall(r"([\w:|\s]+) => (\d+),", text[text.index("fn parameters") : text.index("fn gives_result")])
    count = {call: int(number) for calls, number in arms for call in re.findall(r"ModelledCall::(\w+)", calls)}
    ordered = sorted(names, key=lambda it: next(at for at, (_, first) in enumerate(names) if it[1].startswith(first)))
    return {**{name: count[call] for call, name in ordered}, "spawn": 2}


MODELLED = modelled_calls()


class Token:
    """A token: its text, and its place in bytes from 0."""

    def __init__(self, text, at):
        self.text, self.at = text, at

    def is_name(self):
        return (self.text[0].isalpha() or self.text[0] == "_") and self.text not in KEYWORDS

    def is_number(self):
        return self.text[0].isdigit()

    def value(self):
        """The value of a number."""
        return int(self.text, 0)


@functools.lru_cache(maxsize=1)
def tokens_of(source):
    """The tokens up to the first place where none begins."""
    found, at = [], GAP.match(source).end()
    while at < len(source):
        token = TOKEN.match(source, at)
        if not token:
            break
        found.append(Token(token[0].decode(), at))
        at = GAP.match(source, token.end()).end()
    return found


class Declared:
    """What a name is declared as: `function`, `prototype`, `table`, `array`, `scalar` or
    `parameter`; its place, the function that it stands in, if any, and how many parameters or
    members it has."""

    def __init__(self, name, what, at, inside=None, count=0, gives=True):
        self.name, self.what, self.at, self.inside, self.count, self.gives = name, what, at, inside, count, gives


def closing(tokens, start):
    """The index of the mark that closes the one at `start`, or the end."""
    depth = 0
    for index in range(start, len(tokens)):
        depth += tokens[index].text in "([{"
        depth -= tokens[index].text in ")]}"
        if depth == 0:
            return index
    return len(tokens)


def arguments_between(tokens, start, end):
    """How many parts stand between the marks at `start` and `end`, apart by commas of their own
    level."""
    if end == start + 1:
        return 0
    depth, count = 0, 1
    for token in tokens[start + 1 : end]:
        depth += token.text in "([{"
        depth -= token.text in ")]}"
        count += token.text == "," and depth == 0
    return count


def bodies_of(tokens):
    """The functions that have a body: name, and the places of the body's two braces."""
    found, index = [], 0
    while index < len(tokens):
        behind = tokens[index + 1 : index + 3]
        if tokens[index].text in ("int", "void") and len(behind) > 1 and behind[0].is_name() and behind[1].text == "(":
            start = closing(tokens, index + 2) + 1
            if start < len(tokens) and tokens[start].text == "{":
                last = closing(tokens, start)
                found.append((behind[0].text, tokens[start].at, tokens[last].at if last < len(tokens) else 1 << 40))
                index = last
        index += 1
    return found


def declarations_of(tokens):
    """What the source declares, in the order of the text."""
    found, index, inside = [], 0, None
    while index < len(tokens):
        text = tokens[index].text
        behind = tokens[index + 1 : index + 4]
        if text in ("int", "void") and len(behind) > 1 and behind[0].is_name() and behind[1].text == "(":
            index, inside = function(found, tokens, index)
            continue
        if text == "int" and len(behind) > 2 and behind[0].text == "(" and behind[1].text == "*":
            name, end = behind[2], index
            while end < len(tokens) and tokens[end].text != "{" and tokens[end].text != ";":
                end += 1
            found.append(Declared(name.text, "table", name.at, None,
                                  arguments_between(tokens, end, closing(tokens, end))))
            index = closing(tokens, end) + 1
            continue
        if text == "int" and behind and behind[0].is_name():
            index = variables(found, tokens, index + 1, inside)
            continue
        if text == "}" and inside is not None and tokens[index].at == inside[1]:
            inside = None
        index += 1
    return found


def function(found, tokens, index):
    """Adds a function or a prototype with its parameters; gives the index behind its parentheses,
    and the function that what follows stands in."""
    name, start = tokens[index + 1], index + 2
    end = closing(tokens, start)
    is_void = end == start + 2 and tokens[start + 1].text == "void"
    count = 0 if is_void else arguments_between(tokens, start, end)
    is_definition = end + 1 < len(tokens) and tokens[end + 1].text == "{"
    found.append(Declared(name.text, "function" if is_definition else "prototype", name.at, None, count,
                          tokens[index].text == "int"))
    if not is_definition:
        return end + 1, None
    last = closing(tokens, end + 1)
    inside = (name.text, tokens[last].at if last < len(tokens) else 1 << 40)
    found += [Declared(it.text, "parameter", it.at, inside) for it in tokens[start:end] if it.is_name()]
    return end + 1, inside


def variables(found, tokens, index, inside):
    """Adds the names of a declaration `int a, b[3], c = 1;`; gives the index of its end."""
    depth, is_next = 0, True
    while index < len(tokens) and not (depth == 0 and tokens[index].text in (";", ")")):
        token = tokens[index]
        if is_next and depth == 0 and token.is_name():
            is_array = index + 1 < len(tokens) and tokens[index + 1].text == "["
            size = tokens[index + 2].text if is_array and index + 2 < len(tokens) else "1"
            words = int(size, 0) if re.fullmatch(r"0|[1-9][0-9]*|0[xX][0-9a-fA-F]+", size) else 1
            found.append(Declared(token.text, "array" if is_array else "scalar", token.at, inside, words))
        depth += token.text in "([{"
        depth -= token.text in ")]}"
        is_next = token.text == "," and depth == 0
        index += 1
    return index


def calls_of(tokens):
    """The calls in the functions' bodies in the order of the text, which is that of the numbers of
    their sites: the name's token, and the caller's name."""
    found, bodies = [], bodies_of(tokens)
    for index, token in enumerate(tokens):
        while bodies and bodies[0][2] < token.at:
            bodies.pop(0)
        caller = bodies[0][0] if bodies and bodies[0][1] < token.at else None
        if caller and token.is_name():
            behind = index + 1
            if behind < len(tokens) and tokens[behind].text == "[":
                behind = closing(tokens, behind) + 1
            if behind < len(tokens) and tokens[behind].text == "(":
                found.append((token, caller))
    return found
