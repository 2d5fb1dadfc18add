"""The forms of C that CapC hasn't: which of them stands at a refused place, and what to write in
its place."""
from .text import visible
from .tokens import KEYWORDS, closing

OPERATORS = "* / % << >> < > <= >= == != & ^ | && || + -".split()
USED = {"int", "void", "if", "else", "while", "for", "break", "continue", "return"}
ONE_TYPE = "the only type is `int`, a signed word of 32 bits"
# keywords and marks of C that CapC hasn't, and what to write
INSTEAD = {
    "++": "write `x = x + 1`",
    "--": "write `x = x - 1`",
    "do": "write `while (1) { .. if (..) break; }`",
    "switch": "write a table of functions, `int (*t[3])(int) = {f, g, h};`, and call `t[i](x)`; for a few cases `if (..) .. else if (..) ..`",
    "case": "write a table of functions, or `if (..) .. else if (..) ..`",
    "default": "write a table of functions, or `if (..) .. else ..`",
    "goto": "loops have `break` and `continue`",
    "->": "there are no structures and no pointers",
    "struct": "write a variable or an array for each member",
    "union": "write a variable for each member",
    "enum": "write the numbers",
    "typedef": ONE_TYPE,
    "sizeof": "every value is one word, and an array has as many words as its declaration says",
    "const": "leave it out",
    "static": "leave it out: no name is visible outside the source",
    "extern": "leave it out: a program is one source",
    "inline": "leave it out",
    "register": "leave it out",
    "volatile": "leave it out: threads change only at blocking calls",
    "unsigned": ONE_TYPE + "; `>>` keeps the sign, and `&` masks it off",
    "float": ONE_TYPE + "; count in thousandths",
    "double": ONE_TYPE + "; count in thousandths",
}
TYPES = {"bool", "string", "size_t", "byte", "uint",
         *(f"{sign}int{size}_t" for sign in ("", "u") for size in (8, 16, 32, 64))}
WORDS_FOR_OPERATORS = {"and": "&&", "or": "||", "not": "!"}
BYTES = {
    ord('"'): "CapC has no strings; `put(x)` writes a number",
    ord("'"): "CapC has no characters; write the number, as 65 for A",
    ord("#"): "CapC has no preprocessor: no `#include`, no `#define`; a global can hold a constant",
    ord("\\"): "`\\` does not continue a line: a line break is white space like any other",
}


def of_byte(source, at):
    """What the byte means at which no token begins."""
    byte = source[at]
    if byte == ord("."):
        return of_dot(source, at)
    if byte >= 128:
        return of_character(source, at)
    return BYTES.get(byte, f"no token begins with {visible(chr(byte))}" if byte > 32
                     else f"no token begins with the byte {byte:#04x}")


def of_dot(source, at):
    before, behind = source[at - 1 : at], source[at + 1 : at + 2]
    if source[at : at + 3] == b"...":
        return "CapC has no functions with a variable number of arguments"
    if behind.isdigit() and (before.isdigit() or not before.isalnum()) or before.isdigit():
        return "CapC has no fractions; count in thousandths, as 3500 for 3.5"
    return "CapC has no structures, so no members; write a variable or an array for each"


def of_character(source, at):
    """What a byte outside ASCII is part of."""
    if source.startswith(b"\xef\xbb\xbf", at):
        return "the file begins with a byte order mark; store it as plain ASCII or UTF-8 without one"
    found = source[at : at + 4].decode("utf-8", "ignore")[:1]
    shown = f"the character {visible(found)} (U+{ord(found):04X})" if found else f"the byte {source[at]:#04x}"
    return f"{shown} is not ASCII; it is allowed only in a comment"


def of_number(text):
    """Why a word that begins with a digit is no number."""
    if text[0] == "0" and text[1:].isdigit():
        octal = f" (as an octal number it would be {int(text, 8)})" if set(text) <= set("01234567") else ""
        return f"a number has no leading zero{octal}"
    digits = text.rstrip("uUlL")
    if digits != text and digits.isdigit():
        return f"a number has no suffix: write {digits}"
    if text.isdigit() or text[:2] in ("0x", "0X") and all(it in "0123456789abcdefABCDEF" for it in text[2:]) and text[2:]:
        return "a number is at most 4,294,967,295"
    if text[:2] in ("0b", "0B") and set(text[2:]) <= set("01") and text[2:]:
        return f"CapC has no binary numbers: write {int(text, 2)}"
    return "a number is decimal, or hexadecimal as in 0xff, and no letters may follow it"


class Around:
    """A refused token with those beside it, and where it stands."""

    def __init__(self, tokens, index, inside):
        self.tokens, self.index, self.inside = tokens, index, inside
        self.text = self.at(0)

    def at(self, steps):
        index = self.index + steps
        return self.tokens[index].text if 0 <= index < len(self.tokens) else ""

    def is_name(self, steps):
        index = self.index + steps
        return 0 <= index < len(self.tokens) and self.tokens[index].is_name()

    def is_value(self, steps):
        """Whether an operand may end there."""
        index = self.index + steps
        return 0 <= index < len(self.tokens) and (self.tokens[index].is_name() or self.tokens[index].is_number()
                                                  or self.at(steps) in (")", "]"))

    def opening(self):
        """The steps to the parenthesis, bracket or brace that is open here, or None."""
        depth = 0
        for steps in range(-1, -self.index - 1, -1):
            text = self.at(steps)
            depth += text in (")", "]", "}")
            if text in ("(", "[", "{"):
                if depth == 0:
                    return steps
                depth -= 1
        return None

    def statement(self):
        """The tokens of the statement or declaration so far."""
        start = self.index
        while start > 0 and self.tokens[start - 1].text not in (";", "{", "}"):
            start -= 1
        return [it.text for it in self.tokens[start : self.index]]

    def is_declaration(self):
        return self.statement()[:1] == ["int"]


def of_token(tokens, index, inside):
    """What the form of C is that stands at the refused token, and what to write; nothing where none
    is known. `inside`: within a function's body."""
    here = Around(tokens, index, inside)
    for form in FORMS:
        found = form(here)
        if found:
            return found
    return None


def keyword_or_mark(here):
    text = here.text
    if text in INSTEAD:
        return f"CapC has no `{text}`: {INSTEAD[text]}"
    if text.endswith("=") and text[:-1] in OPERATORS and text not in OPERATORS:
        return f"CapC has no `{text}`: write `x = x {text[:-1]} ..`"
    return f"CapC has no `{text}`: {ONE_TYPE}" if text in KEYWORDS - USED else None


def cast(here):
    if here.inside and here.text in ("int", "void") and here.at(-1) == "(" and here.at(-2) != "for":
        return f"CapC has no casts: {ONE_TYPE}"
    return None


def pointer(here):
    if here.text == "*" and (here.at(-1) in ("int", "void") or not here.is_value(-1)):
        return "CapC has no pointers; an index into an array does the same"
    if here.text == "&" and not here.is_value(-1):
        return "CapC has no addresses, so no `&x`; a function returns its result, or writes a global"
    if here.text == ")" and here.at(-2) == "*" and here.at(-3) == "(" and here.at(-4) == "int":
        return "a table of functions has its size after its name, as in `int (*t[2])(int) = {f, g};`; there are no other function pointers"
    return None


def array(here):
    """Arrays: of more than one dimension, with an initialiser, as a parameter, of a computed
    size."""
    if here.text == "[" and here.at(-1) == "]":
        return "an array has one dimension: `a[i * 4 + j]` in place of `a[i][j]`, with the product of both sizes"
    if here.text == "=" and here.at(-1) == "]" and here.is_declaration():
        return "an array can't have an initialiser: its words start at 0; assign them one by one"
    opening = here.opening()
    if opening is None or here.at(opening) != "[" or not is_size(here, opening):
        return "an array cannot be a parameter; make it global" if here.text == "[" and here.at(-2) == "int" and opening is not None and not here.inside else None
    return "the size of an array must be one number, for example 16 instead of 2 * 8"


def is_size(here, opening):
    """Whether the bracket is that of a declared array or table."""
    return here.at(opening - 2) in ("int", ",", "*") and here.statement()[:1] == ["int"] and here.is_name(opening - 1) and "=" not in here.statement()


def assignment(here):
    """An assignment as an expression, and more than one in a statement."""
    if here.text == "=":
        opening = here.opening()
        is_for = opening is not None and here.at(opening - 1) == "for" and "=" not in here.statement()
        if is_for or opening is not None and here.at(opening) == "(" and here.at(opening - 1) in ("if", "while"):
            return "an assignment is a statement: to compare write `==`; to assign do it before the condition"
        if opening is not None and here.at(opening) == "(" and here.at(opening - 1) != "for":
            return "an assignment is a statement and has no value: write it before, as in `c = accept();`"
        if "=" in here.statement():
            return "a statement has one assignment: `a = b = 3;` is `b = 3; a = b;`"
    if here.text in ("<", ">") and here.at(-1) == "=":
        return f"the operator is `{here.text}=`"
    if here.text == "," and here.inside and here.is_value(-1) and not here.is_declaration():
        return "CapC has no comma operator: write two statements; in a `for` put the second before the loop or at the end of its body"
    return "write `int` once: `int x, y;`" if here.text == "int" and here.at(-1) == "," and here.is_declaration() else None


def missing_parts(here):
    """What is left out: a type, a parenthesis, an `if`, and words of other languages."""
    for text in (here.text, here.at(-1)):
        if here.is_name(0) and text in TYPES:
            return f"CapC has no `{text}`: {ONE_TYPE}"
    if here.is_name(0) and not here.inside and here.at(-1) in ("", ";", "}"):
        return "a function begins with `int` or `void`, and a global with `int`"
    if here.text in WORDS_FOR_OPERATORS and here.is_value(-1):
        return f"write `{WORDS_FOR_OPERATORS[here.text]}`"
    if here.at(-1) in ("if", "while", "for") and here.text != "(":
        return f"`{here.at(-1)}` must be followed by `(`"
    if here.text == "else":
        return "an `else` must come right after the one statement of its `if`; put several statements in braces"
    if here.text == ":" and here.is_name(-1) and here.at(-2) in (";", "{", "}"):
        return "CapC has no labels and no `goto`"
    return None


def top_level(here):
    """Functions and globals: functions inside functions, initialisers of globals."""
    if here.inside and here.text == "(" and here.is_name(-1) and here.at(-2) in ("int", "void"):
        return "a function must be defined at the top level, not inside another function"
    if not here.inside and "=" in here.statement() and here.is_declaration():
        return "a global is initialised with one number, as in `int x = 5;` or `int x = -5;`: compute others in `main`"
    return None


def idle_value(here):
    """A statement that is only a value."""
    statement = here.statement()
    begins = not statement and (here.text in ("-", "+", "!", "~", "(") or here.tokens[here.index].is_number())
    goes_on = len(statement) == 1 and here.is_value(-1) and (here.text in OPERATORS or here.text == ";")
    if here.inside and (begins or goes_on):
        return "an expression alone is not a statement: write an assignment, a call or a declaration, or begin with a keyword"
    return None


FORMS = (keyword_or_mark, cast, pointer, array, assignment, missing_parts, top_level, idle_value)


def missing_end(tokens, index, source, inside):
    """Where a `;` or a `}` seems to be missing, by the lines, or nothing."""
    line = lambda place: source.count(b"\n", 0, tokens[place].at) + 1
    if index >= len(tokens):
        opened = [place for place, it in enumerate(tokens) if it.text in ("{", "(", "[")
                  and closing(tokens, place) >= len(tokens)]
        return f"the `{tokens[opened[-1]].text}` in line {line(opened[-1])} is not closed" if opened else None
    here = Around(tokens, index, inside)
    begins = here.is_name(0) or here.text in KEYWORDS or here.text == "}"
    is_head = not inside and here.at(-1) == ")"
    if index and line(index - 1) < line(index) and here.is_value(-1) and begins and not is_head:
        return f"a `;` seems to be missing at the end of line {line(index - 1)}"
    return None
