"""Calls inside expressions: in conditions, in indices, in arguments, wide, deep, and as many as
there may be. What each puts follows from docs/LANGUAGE.md: evaluation is from left to right, and
each call takes a name of the function's frame."""
from .form import case, puts, refused

# `next` puts each number that it returns, so the order of calls is seen.
HEAD = (
    b"int g; int f(int x) { return x; } int up(int x) { return x + 1; } int next() { g = g + 1; put(g); return g; } void none() { } "
    b"int six(int a, int b, int c, int d, int e, int h) { return a + 10 * (b + 10 * (c + 10 * (d + 10 * (e + 10 * h)))); } "
    b"int fib(int n) { if (n < 2) return n; return fib(n - 1) + fib(n - 2); } "
    b"int ack(int m, int n) { if (m == 0) return n + 1; if (n == 0) return ack(m - 1, 1); return ack(m - 1, ack(m, n - 1)); } "
    b"int endless(int n) { return 1 + endless(n + 1); } void worker(int n) { put(n + 100); } "
    b"int (*t[2])(int) = {f, up}; int main() { int x; int i; int a[4]; "
)
FRAME_WORDS = 508  # 2,032 bytes, the largest frame
OPEN = 64  # constructs that may be open


def program(body):
    return HEAD + body + b" return 0; }"


def order_cases():
    for name, body, values in (
        ("in a difference and a product", b"put(next() - next() * next());", [1, 2, 3, -5]),
        ("a global to the left of a call", b"g = 5; put(g + next());", [6, 11]),
        ("in the condition of a while", b"while (next() < 4) ; put(g);", [1, 2, 3, 4, 4]),
        ("in the condition of a while with continue", b"while (next() < 4) continue; put(9);", [1, 2, 3, 4, 9]),
        ("joined by && in the condition of a while", b"while (next() < 3 && next() < 9) put(7);", [1, 2, 7, 3]),
        ("joined by || in the condition of a while", b"while (next() < 2 || next() < 5) put(7);",
         [1, 7, 2, 3, 7, 4, 5]),
        ("in a while inside a while", b"while (next() < 5) while (next() < 3) put(0);", [1, 2, 0, 3, 4, 5, 6]),
        ("in a conditional", b"put(next() == 1 ? next() : next() + 100);", [1, 2, 2]),
        ("whole, as parts of a for", b"for (i = f(0); i < 3; i = up(i)) put(i);", [0, 1, 2]),
        ("whole, declared in a for", b"for (int j = up(1); j < 4; j = up(j)) put(j);", [2, 3]),
        ("in the body of a for", b"for (i = 0; i < 2; i = i + 1) x = next() + next();", [1, 2, 3, 4]),
        ("as index and right side", b"a[next()] = next(); put(a[1]);", [1, 2, 2]),
        ("as index of an index of an index", b"a[0] = 1; a[1] = 2; a[2] = 3; put(a[a[a[f(0)]]]);", [3]),
        ("as index and argument of a table", b"put(t[f(1)](t[f(0)](f(5))));", [6]),
        ("as each of six arguments", b"put(six(next(), next(), next(), next(), next(), next()));",
         [1, 2, 3, 4, 5, 6, 654321]),
        ("in the argument of a spawn", b"spawn(worker, next() + f(1));", [1, 102]),
        ("in initialisers", b"int y = next() + next(), z = y * next(); put(z);", [1, 2, 3, 9]),
        ("of itself twice, to 15", b"put(fib(15));", [610]),
        ("of itself as its own argument", b"put(ack(2, 3));", [9]),
    ):
        yield puts(f"calls {name}", program(body), values)


def stop_cases():
    yield puts("a call as index beyond an array, and one as right side", program(b"a[f(4)] = next();"), [1],
               b"stop trap 0 index ", 11)
    yield puts("a call as index beyond an array, and one behind it", program(b"put(a[f(4)] + next());"), [],
               b"stop trap 0 index ", 11)
    yield puts("a call as index below an array", program(b"put(a[f(-1)]);"), [], b"stop trap 0 index ", 11)
    yield puts("a call as index beyond a table, and one as argument", program(b"put(t[f(2)](next()));"), [1],
               b"stop trap 0 table ", 11)
    yield puts("a call without an end inside a sum", program(b"put(endless(0));"), [], b"stop nochunk 0 ", 12)
    yield puts("a call in a while without an end", program(b"while (f(1)) ;"), [], b"stop fuel 0 ", 13,
               ("serve", "--fuel", "1000", "S"))
    yield puts("waits in a sum", program(b"put(wait(0) + wait(1) * 10);"), [34], stdin=b"data 5 1 3\ndata 7 0 4\n")
    yield puts("an accept in the condition of a while", program(b"while (accept() > 0) put(1);"), [1, 1],
               stdin=b"arrive 5 1\narrive 5 2\narrive 5 0\n")
    yield puts("calls as arguments of take and give", program(b"take(f(1), up(0)); put(1); give(f(1), f(1));"), [1],
               words=("serve", "--caps", "1=1", "S"))
    yield puts("calls as arguments of a take that is refused", program(b"take(f(2), next());"), [1],
               b"stop trap 0 resource ", 11, ("serve", "--caps", "1=1", "S"))


def refusal_cases():
    for name, body, refusal in (
        ("in the condition of a for", b"for (; @f(1); ) ;", "NestedCall"),
        ("in the step of a for", b"for (;; i = @f(1) + 1) ;", "NestedCall"),
        ("in parentheses at the start of a for", b"for (i = (@f(1)); ; ) ;", "NestedCall"),
        ("as an argument in a for", b"for (i = f(@f(1)); ; ) ;", "NestedCall"),
        ("as an index in a for", b"for (a[@f(1)] = 0; ; ) ;", "NestedCall"),
        ("in a for, and a mark that fits nowhere", b"for (; f(1); ) ; @]", "Unexpected"),
        ("without a result", b"put(1 + @none());", "Kind"), ("as the function of a spawn", b"@spawn(f(1), 2);", "Kind"),
        ("with an argument too many, in an index", b"x = a[@f(1, 2)];", "Arity"),
        ("of no function, in a condition", b"while (f(@h(1))) ;", "Unknown"),
    ):
        place = len(HEAD) + body.index(b"@")
        yield refused(f"a call {name}", program(body.replace(b"@", b"")), f"source: {refusal} at {place}")


def deep_cases():
    """The body of `main` and the parentheses of `put` are two open constructs."""
    for name, opens, innermost, closes, value in (
        ("arguments", b"up(", b"0", b")", OPEN - 2), ("indices", b"a[", b"f(0)", b"]", 0),
        ("arguments of a table", b"t[1](", b"0", b")", OPEN - 2),
        ("parentheses around a call", b"(", b"up(0)", b")", 1),
        ("minus signs before a call", b"- ", b"up(0)", b"", None),
    ):
        count = OPEN - 2 - innermost.count(b"(")
        source = lambda count: program(b"put(" + opens * count + innermost + closes * count + b");")
        yield puts(f"{OPEN} constructs open, {name}", source(count), [1 - 2 * (count % 2) if value is None else value])
        place = len(HEAD) + len(b"put(") + len(opens) * count
        place += len(opens) + innermost.index(b"(") if b"(" in innermost else min(opens.find(it) % len(opens) for it in (b"[", b"("))
        yield refused(f"{OPEN + 1} constructs open, {name}", source(count + 1), f"source: TooDeep at {place}")


def wide_cases():
    """A sum groups to the left, so each call has a name, and so has each sum but the whole one: n
    calls have 2n - 2. Beside them stand x, y, z, two temporaries and the return address."""

    def total(calls, names=b"int x;"):
        return b"int f(int x) { return x; } int main() { " + names + b" x = " + b"+".join([b"f(1)"] * calls) + b"; return 0; }"

    most = (FRAME_WORDS - 2) // 2
    rows = b"function 0 f frame 16 bound 16\nfunction 1 main frame 2032 bound 2032\n" + b"".join(b"site %d main over\n" % it for it in range(most))
    yield case(f"a sum of {most} calls, the largest frame", ["graph", "S"], {"S": total(most)}, 0, "", rows)
    yield refused(f"a sum of {most + 1} calls", total(most + 1), "limit: frame of main is 2048 bytes", status=5)
    yield refused("a sum of 2,048 calls, 4,096 names", total(2_048, b"int x; int y;"),
                  "limit: frame of main is 16400 bytes", status=5)
    yield refused("a sum of 2,048 calls, 4,097 names", total(2_048, b"int x; int y; int z;"), "source: Limit locals")
    yield puts(f"a sum of {most} calls, run", total(most).replace(b"return 0", b"put(x); return 0"), [most])


def site_cases():
    """As many sites as there may be, in functions of which each fits a frame, and one more."""
    most = 65_535
    for name, statement, sites, one in (
        ("in conditions of while", b"while (f(0)) ;", 1, b"f(0);"), ("in indices", b"a[f(0)] = f(0);", 2, b"f(0);"),
        ("of tables and in their arguments", b"t[f(0)](f(0));", 3, b"f(0);"),
    ):
        whole, left = divmod(most, sites)
        parts = [statement] * whole + [one] * left
        source = lambda more: b"int f(int x) { return x; } int (*t[1])(int) = {f}; " + b"".join(
            b"void h%d() { int a[1]; %s } " % (at, b"".join(parts[at : at + 150])) for at in range(0, len(parts), 150)
        ) + b"int main() { " + one * more + b"return 0; }"
        yield case(f"65,535 calls {name}", ["graph", "S"], {"S": source(0)}, 0, "",
                   lambda out: out.count(b"site ") == out.count(b" plain\n") == most)
        yield refused(f"65,536 calls {name}", source(1), "source: Limit sites")
    head = b"int f(int x) { return x; } int (*t[1])(int) = {f}; int main() { int a[1]; "
    for name, statement in (("conditions of while", b"while(f(0));"), ("indices", b"a[f(0)]=f(0);"),
                            ("arguments of tables", b"t[f(0)](f(0));")):
        yield refused(f"a megabyte of calls in {name}", head + statement * (1_048_000 // len(statement) - 10) + b"}",
                      "source: Limit sites")
    yield refused("a megabyte of calls in conditions of for", head + b"for(;f(0););" * 87_000 + b"}",
                  f"source: NestedCall at {len(head) + 5}")


def joined_cases():
    """A megabyte of calls joined into one expression, wherever it may stand. Its parts are resolved
    as soon as they are made, and none is kept beyond the limit of calls."""
    head = b"int f() { return 1; } int g(int x) { return x; } int main() { int a[2]; "
    for operator in (b"&&", b"||", b"+"):
        joined = operator.join([b"f()"] * 209_000)
        for name, statement in (
            ("returned", b"return %s;"), ("as an argument", b"g(%s);"), ("as an index", b"a[%s] = 0;"),
            ("declared", b"int x = %s;"), ("in the condition of an if", b"if (%s) g(0);"),
            ("in the condition of a while", b"while (%s) ;"), ("in an inner block", b"{ g(%s); }"),
            ("in an if", b"if (1) g(%s);"), ("in an else", b"if (1) ; else g(%s);"),
            ("in a while", b"while (1) g(%s);"),
            ("in a while whose condition has a call", b"while (f()) g(%s);"), ("in a for", b"for (;;) g(%s);"),
            ("in three statements", b"while (f()) { if (f()) { g(%s); } }"),
            ("on the right of &&", b"return f() && (%s);"), ("chosen by ?:", b"return f() ? 1 : (%s);"),
        ):
            yield refused(f"a megabyte of calls joined by {operator.decode()}, {name}",
                          head + statement % joined + b" return 0; }", "source: Limit sites", megabytes=160)


def cases():
    for group in (order_cases, stop_cases, refusal_cases, deep_cases, wide_cases, site_cases, joined_cases):
        yield from group()
