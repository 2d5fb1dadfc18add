"""Prints a random program as CapC, and as C of the same meaning.

CapC has no more parentheses than its grammar needs, so its reading of precedence is tested. In the
C text every operation is a call of a helper or stands in parentheses of its own, and operands are
computed one after another, from left to right.
"""
import pathlib

from .trees import SIZE

LEVELS = ["||", "&&", "|", "^", "&", "== !=", "< <= > >=", "<< >>", "+ -", "* / %"]  # from the loosest
LEVEL = {mark: level for level, marks in enumerate(LEVELS, 1) for mark in marks.split()}
COND, UNARY, PRIMARY = 0, 11, 12
PRELUDE = (pathlib.Path(__file__).parent / "prelude.h").read_text()
HELPER = {"/": "quotient", "%": "rest", "<<": "left", ">>": "right"}


class CapC:
    """The text of a program in CapC."""

    def program(self, program):
        lines = [f"int {name} = {value};" for name, value in program.scalars.items()] + [f"int {name}[{SIZE}];" for name in program.arrays]
        lines += [self.function(it) for it in program.functions[:-2]]
        lines.append(self.table(program))
        return "\n".join([*lines, *[self.function(it) for it in program.functions[-2:]], ""])

    def table(self, program):
        return f"int (*t[{SIZE}])(int) = {{ {', '.join(program.members)} }};"

    def function(self, it):
        parameters = ", ".join(f"int {name}" for name in it.parameters) or "void" * (it.name != "main")
        return f"{'int' if it.gives else 'void'} {it.name}({parameters}) {self.body(it.body)}"

    def body(self, statements):
        return "{\n" + "".join(self.statement(it) + "\n" for it in statements) + "}"

    def statement(self, it):
        return getattr(self, f"put_{it[0]}")(*it[1:])

    def value(self, it, least=COND):
        """An expression, in parentheses where its level is below the least that may stand there."""
        level, text = getattr(self, f"of_{it[0]}")(*it[1:])
        return text if level >= least else f"({text})"

    # expressions: each with its level

    def of_number(self, word):
        return PRIMARY, str(word)

    def of_name(self, name):
        return PRIMARY, name

    def of_self(self):
        return PRIMARY, "self()"

    def of_index(self, name, index):
        return PRIMARY, f"{name}[{self.value(index)}]"

    def of_unary(self, mark, part):
        text = self.value(part, UNARY)
        return UNARY, f"{mark} {text}" if text[0] == mark else f"{mark}{text}"

    def of_binary(self, mark, left, right):
        level = LEVEL[mark]
        return level, f"{self.value(left, level)} {mark} {self.value(right, level + 1)}"

    def of_cond(self, test, one, other):
        return COND, f"{self.value(test, COND + 1)} ? {self.value(one)} : {self.value(other)}"

    def of_call(self, name, arguments):
        return PRIMARY, f"{name}({', '.join(map(self.value, arguments))})"

    def of_table(self, index, argument):
        return PRIMARY, f"t[{self.value(index)}]({self.value(argument)})"

    # statements

    def put_let(self, name, value):
        return f"int {name};" if value is None else f"int {name} = {self.value(value)};"

    def put_array(self, name):
        return f"int {name}[{SIZE}];"

    def put_set(self, name, value):
        return f"{name} = {self.value(value)};"

    def put_store(self, name, index, value):
        return f"{name}[{self.value(index)}] = {self.value(value)};"

    def put_do(self, call):
        return f"{self.value(call)};"

    def put_put(self, value):
        return f"put({self.value(value)});"

    def put_spawn(self, name, value):
        return f"spawn({name}, {self.value(value)});"

    def put_if(self, test, one, other):
        return f"if ({self.value(test)}) {self.body(one)}" + (f" else {self.body(other)}" if other else "")

    def put_block(self, body):
        return self.body(body)

    def put_for(self, name, turns, body):
        return f"int {name};\nfor ({name} = 0; {name} < {turns}; {name} = {name} + 1) {self.body(body)}"

    def put_while(self, name, turns, test, body):
        inner = self.body(body).removeprefix("{")
        return f"int {name} = {turns};\nwhile ({name} > 0 && ({self.value(test)})) {{\n{name} = {name} - 1;{inner}"

    def put_break(self):
        return "break;"

    def put_continue(self):
        return "continue;"

    def put_return(self, value):
        return f"return {self.value(value)};"


class C(CapC):
    """The text of a program in C."""

    def program(self, program):
        return PRELUDE + super().program(program).replace("int main()", "int capc_main(void)")

    def of_number(self, word):
        return PRIMARY, f"((int){word}u)"

    def of_self(self):
        return PRIMARY, "running"

    def of_index(self, name, index):
        return PRIMARY, f"{name}[inside({self.value(index)}, {SIZE}, \"index\")]"

    def of_unary(self, mark, part):
        return PRIMARY, f"({mark} {self.value(part, PRIMARY)})"

    def of_binary(self, mark, left, right):
        if mark in ("&&", "||"):
            return PRIMARY, f"({self.value(left, PRIMARY)} {mark} {self.value(right, PRIMARY)})"
        both = f"{HELPER[mark]}(l, r)" if mark in HELPER else f"l {mark} r"
        return PRIMARY, f"({{ int l = {self.value(left)}; int r = {self.value(right)}; {both}; }})"

    def of_cond(self, test, one, other):
        return PRIMARY, f"({self.value(test, PRIMARY)} ? {self.value(one)} : {self.value(other)})"

    def of_call(self, name, arguments):
        names = [f"v{number}" for number in range(len(arguments))]
        first = "".join(f"int {name} = {self.value(it)}; " for name, it in zip(names, arguments))
        return PRIMARY, f"({{ {first}{name}({', '.join(names)}); }})"

    def of_table(self, index, argument):
        return PRIMARY, f"({{ int v0 = {self.value(index)}; int v1 = {self.value(argument)}; t[inside(v0, {SIZE}, \"table\")](v1); }})"

    def put_let(self, name, value):
        return super().put_let(name, value or ("number", 0))

    def put_array(self, name):
        return f"int {name}[{SIZE}] = {{0}};"

    def put_for(self, name, turns, body):
        return super().put_for(name, turns, body).replace(f"int {name};", f"int {name} = 0;", 1)

    def put_store(self, name, index, value):
        return f"{{ int v0 = {self.value(index)}; int v1 = {self.value(value)}; {name}[inside(v0, {SIZE}, \"index\")] = v1; }}"
