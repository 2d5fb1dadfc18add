"""Each limit of docs/LANGUAGE.md, docs/FORMATS.md and docs/WRITING.md met, and passed by one, where
dev/hostile itself hasn't both."""
from .form import LEAST, LOG, case, puts, refused

USAGE = "usage: capriccio serve SRC, run SRC IMG CRT, build SRC IMG CRT, check SRC IMG CRT, graph SRC, demo N, audit SRC LOG, budget SRC IMG CRT\n"
SERVER = b"int main() { int x; while (1) { x = accept(); put(x); } }"
LISTENER = b"int main() { while (1) put(wait(63)); }"


def source_cases():
    names = lambda count: b", ".join(b"int a%d" % it for it in range(count))
    yield case("six parameters", ["graph", "S"], {"S": b"int f(" + names(6) + b") { return a5; } " + LEAST}, 0, "",
               lambda out: out.count(b"\n") == 2)
    yield refused("seven parameters", b"int f(" + names(7) + b") { return a6; } " + LEAST, "source: Limit params")
    yield refused("80,000 parameters", b"int f(" + names(80_000) + b"); " + LEAST, "source: Unknown at 4")
    table = lambda count: b"int f(int x) { return x; } int (*t[%d])(int) = {" % count + b",".join([b"f"] * count) + b"}; int main() { put(t[%d](7)); return 0; }" % (count - 1)
    yield puts("a table of 65,536, called at its last", table(65_536), [7])
    yield refused("a table of 65,537", table(65_537), "source: Limit tables")
    yield refused("an array of 65,537 words", b"int a[65537]; " + LEAST, "source: Kind at 4")
    yield refused("an array of 4,294,967,295 words", b"int a[4294967295]; " + LEAST, "source: Kind at 4")
    yield refused("an array of no word", b"int a[0]; " + LEAST, "source: Kind at 4")
    yield puts("the last of 65,536 global words",
               b"int g[65536]; int main() { g[65535] = 3; put(g[65535]); return 0; }", [3])
    yield puts("a word behind 65,536 global ones", b"int g[65536]; int main() { g[65536] = 3; return 0; }", [],
               b"stop trap 0 index ", 11)
    yield refused("a call of 500,000 arguments",
                  b"void f(int x) { } int main() { f(" + b"1," * 499_999 + b"1); return 0; }", "source: Arity at 31")
    yield refused("17 blocks of 256 words", b"int main() {" + b"{ int a[256]; }" * 17 + b"return 0; }",
                  "source: Limit locals")


def code_cases():
    """Code of 200,000 words and of one more: a sum has 3 words for its first number and 7 for each
    other, `x=1;` has 5, and 28 stand around them."""
    source = lambda terms, more: b"int main() { int x; " + b"x=1;" * more + b"x = " + b"+".join([b"1"] * terms) + b"; put(x); return 0; }"
    yield case("code of 200,000 words", ["build", "S", "I", "C"], {"S": source(28_568, 0)}, 0, "",
               b"built code 200000 globals 0 tables 0\n")
    yield refused("code of 200,001 words", source(28_566, 3), "limit: code is 200001 words", ("build", "S", "I", "C"),
                  5)


def frame_cases():
    array = lambda words: b"int main() { int a[%d]; return 0; }" % words  # a temporary and the return address beside it
    yield case("a frame of 2,032 bytes", ["graph", "S"], {"S": array(506)}, 0, "",
               b"function 0 main frame 2032 bound 2032\n")
    yield refused("a frame of 2,048 bytes", array(507), "limit: frame of main is 2048 bytes", status=5)
    small = ("graph", "--chunk", "64", "--max-path", "48", "S")
    yield case("a frame of 48 bytes with --max-path 48", list(small), {"S": array(10)}, 0, "",
               b"function 0 main frame 48 bound 48\n")
    yield refused("a frame of 64 bytes with --max-path 48", array(11), "limit: frame of main is 64 bytes", small, 5)


def option_cases():
    """Each option's least and greatest value, and one beyond on either side."""
    for option, inside, outside in (
        ("--chunk", (64, 65_536), (0, 48, 63, 65, 65_552)), ("--max-path", (16, 4_080), (0, 15, 4_081)),
        ("--chunks", (1, 65_536), (0, 65_537)), ("--extra", (0, 65_536), (65_537,)),
        ("--extra-size", (32, 65_536), (0, 16, 31, 33, 65_552)), ("--fuel", (11, 1_000_000_000), (1_000_000_001,)),
        ("--backlog", (1, 4_096), (0, 4_097)),
        ("--high", (701, 1_000), (0, 1_001)), ("--low", (0, 899), (900,)), ("--knee", (0, 999), (1_000,)),
    ):
        for value in inside:
            other = ["--chunks", "16"] if option == "--chunk" else ["--chunk", "64"] if option == "--chunks" else ["--chunk", "64", "--chunks", "16"] if option.startswith("--extra") else []
            yield puts(f"{option} {value}", LEAST, [], words=("serve", *other, option, str(value), "S"))
        for value in (*outside, 2**32, 2**64):
            yield case(f"{option} {value}, out of range", ["serve", option, str(value), "S"], {"S": LEAST}, 1, USAGE,
                       b"")
    for option, words, status in (
        ("--caps of seven resources", ["--caps", ",".join(f"{it}=1000000" for it in range(1, 8))], 0),
        ("--caps of one unit too many", ["--caps", "1=1000001"], 1), ("--caps of none", ["--caps", "1=0"], 1),
        ("--caps of resource 0", ["--caps", "0=1"], 1), ("--caps of resource 8", ["--caps", "8=1"], 1),
        ("--caps that fall", ["--caps", "2=1,1=1"], 1), ("--caps twice one", ["--caps", "1=1,1=1"], 1),
        ("--tickets of 64 threads", ["--rule", "stride", "--tickets", ",".join(f"{it}=1024" for it in range(64))], 0),
        ("--tickets of 65 threads", ["--rule", "stride", "--tickets", ",".join(f"{it}=1" for it in range(65))], 1),
        ("--tickets of thread 1,000,000", ["--rule", "stride", "--tickets", "1000000=1"], 0),
        ("--tickets of thread 1,000,001", ["--rule", "stride", "--tickets", "1000001=1"], 1),
        ("--tickets of 0", ["--rule", "stride", "--tickets", "1=0"], 1),
        ("--tickets of 1,025", ["--rule", "stride", "--tickets", "1=1025"], 1),
        ("--tickets under the graph's rule", ["--tickets", "1=1"], 1),
        ("a pool of 67,108,864 bytes",
         ["--chunk", "65536", "--chunks", "512", "--extra", "512", "--extra-size", "65536"], 0),
        ("a pool of 67,108,896 bytes",
         ["--chunk", "65536", "--chunks", "1023", "--extra", "2049", "--extra-size", "32"], 1),
         ("--high at --low", ["--high", "700"], 1),
    ):
        yield case(option, ["serve", *words, "S"], {"S": LEAST}, status, USAGE if status else "", b"" if status
                   else lambda out: out.endswith(b"stop done\n"))
    yield puts("no fuel", LEAST, [], b"stop fuel 0 0 ", 13, ("serve", "--fuel", "0", "S"))
    yield puts("fuel of one instruction too few", LEAST, [], b"stop fuel 0 10 ", 13, ("serve", "--fuel", "10", "S"))
    for count in (0, 1_001):
        yield case(f"demo {count}", ["demo", str(count)], {}, 1, USAGE, b"")
    for count in (1, 1_000):
        yield case(f"demo {count}", ["demo", str(count)], {}, 0, "",
                   lambda out, count=count: b"\noutputs %d\n" % count in out and out.endswith(b"\nstop done\n"))


def trace_cases():
    last = 10**15
    for line, values in ((f"arrive {last} 5", [5]), ("arrive 0 -2147483648", [-(2**31)]),
                         ("arrive 0 2147483647", [2**31 - 1]), ("arrive 0 0", [0])):
        yield puts(f"trace: {line}", SERVER, values, b"stop idle", 10, stdin=line.encode())
    yield puts("trace: the last channel", LISTENER, [-(2**31), 2**31 - 1], b"stop idle", 10,
               stdin=f"data 0 63 -2147483648\ndata {last} 63 2147483647\n".encode())
    for line in (
        f"arrive {last + 1} 5", f"arrive {2**64} 5", "arrive 0 2147483648", "arrive 0 -2147483649", "data 0 64 1",
        "data 0 -1 1", "arrive -1 1", "arrive 00 1", "arrive 0 01", "arrive 0 -0", "arrive 0 +1",
        "arrive  0 1", "arrive 0 1 ", " arrive 0 1", "arrive 0", "arrive 0 1 1", "data 0 1", "Arrive 0 1",
        "arrive\t0 1", "arrive 0 1\r", "", "arrive 0 1" + " " * 54, "arrive 0 1\0",
    ):
        yield puts(f"trace: {line[:30]!r}", SERVER, [], b"stop trace 2", 4,
                   stdin=f"arrive 0 7\n{line}\narrive {last} 9\n".encode())
    yield puts("trace: a time that falls by one", SERVER, [], b"stop trace 2", 4, stdin=b"arrive 5 7\narrive 4 8\n")
    yield puts("trace: a NUL alone", SERVER, [], b"stop trace 1", 4, stdin=b"\0")
    yield puts("trace: UTF-8 digits", SERVER, [], b"stop trace 1", 4, stdin="arrive 0 \u0661\n".encode())
    for more, dropped in ((0, 0), (1, 1)):
        events = b"arrive 5 1\n" * (4_096 + more)
        count = lambda out, dropped=dropped: (out.count(b"event "), out.count(b"drop "), out.count(b"out 0 1\n")) == (4_096, dropped, 4_096)
        yield case(f"a backlog of 4,096, and {4_096 + more} arrivals at once", ["serve", "--backlog", "4096", "S"],
                   {"S": SERVER}, 10, "", count, events)


def log_cases():
    lawful = b"run 0 0 0\nend 0 11 1024\nedge 0 1 1 2816 -256\nstop done\n"
    words = ["audit", "S", "L"]
    for name, log, verdict in (
        ("lawful", lawful, "lawful"), ("of no byte", b"", "unlawful 1"),
        ("without its last LF", lawful[:-1], "unlawful 4"), ("with an empty line behind", lawful + b"\n", "unlawful 5"),
        ("with a cost of 0", lawful.replace(b"end 0 11", b"end 0 0"), "unlawful 2"),
        ("with more free chunks than there are", lawful.replace(b"1024", b"1025"), "unlawful 2"),
        ("of another thread", lawful.replace(b"run 0 0", b"run 0 1"), "unlawful 1"),
        ("without a stop", lawful[: -len(b"stop done\n")], "unlawful 4"),
        ("with another stop", lawful.replace(b"done", b"idle"), "unlawful 4"),
        ("of 64 MB of NUL", bytes(LOG), "unlawful 1"), ("of 64 MB of LF", b"\n" * LOG, "unlawful 1"),
    ):
        status = 0 if verdict == "lawful" else 15
        yield case(f"a log {name}", words, {"S": LEAST, "L": log}, status, "", verdict.encode() + b"\n")
    yield case("a log of a byte too many", words, {"S": LEAST, "L": bytes(LOG + 1)}, 4, "log: TooLong\n", b"")
    for steps, status in {100: 0, 0: 16}.items():
        yield case(f"an audit of {steps} steps", ["audit", "--steps", str(steps), "S", "L"], {"S": LEAST, "L": lawful},
                   status, "", b"lawful\n" if status == 0 else b"steps 2\n")
    yield case("an audit of too many steps", ["audit", "--steps", "1000000001", "S", "L"], {"S": LEAST, "L": lawful}, 1,
               USAGE, b"")


def cases():
    for group in (source_cases, code_cases, frame_cases, option_cases, trace_cases, log_cases):
        yield from group()
