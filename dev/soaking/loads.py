"""Loads: threads that spawn, block and end, messages on all channels, and a pool of one chunk; under
both rules, with one size of chunks and with two."""
import dataclasses, random

MOST_THREADS = 65_535
FUEL = 1_000_000_000
TRACE_LINES = 1_000_000
CHANNELS = 64

# A worker blocks in one of five ways, some turns long, starts its successor, and ends. `main` waits,
# so together with the successor as many threads live as may. The numbers are those of a generator
# by Lehmer's rule modulo 2^32, from the seed.
CHURN = """
int s = SEED; int ended;
int draw(int n) { s = s * 1664525 + 1013904223; return (s >> 8 & 8388607) % n; }
void worker(int n) {
  int turns; int i; int k;
  turns = draw(4);
  while (turns > 0) {
    for (i = 0; i < WORK; i = i + 1) k = k + i;
    k = draw(5);
    if (k == 0) yield();
    if (k == 1) sleep(draw(5000));
    if (k == 2) { take(1, 1); yield(); give(1, 1); }
    if (k == 3) k = waitfor(draw(64), draw(5000));
    if (k == 4) sleep(0);
    turns = turns - 1;
  }
  ended = ended + 1;
  if (ended % 65536 == 0) put(ended);
  spawn(worker, n + 1);
}
int main() { int i; for (i = 0; i < THREADS; i = i + 1) spawn(worker, 0); while (1) sleep(1000000000); return 0; }
"""
LISTENERS = """
int heard; int sum;
void listen(int c) { int v; while (1) { v = wait(c); sum = sum + v; heard = heard + 1; if (heard % 4096 == 0) put(sum); } }
int main() { int c; for (c = 0; c < 64; c = c + 1) spawn(listen, c); while (1) { c = accept(); put(c); } return 0; }
"""
ALONE = """
int mix(int x) { int y; y = x * 31 + 7; return y ^ y >> 3; }
int main() { int x; int n; while (1) { x = accept(); n = n + 1; x = mix(mix(x)); if (n % 4096 == 0) put(x); } return 0; }
"""
ALONE_LOOP = "int mix(int x) { return x * 31 + 7; } int main() { int x; while (1) { x = mix(x); if (x == 12345) yield(); } return 0; }"


@dataclasses.dataclass
class Load:
    """A run under load: source, options, events of its trace, the stop that it comes to, and its
    status. `is_audited` where the rule is that of an audit."""

    name: str
    source: str
    options: tuple
    trace: tuple
    stop: str
    status: int
    is_audited: bool = True


def churn(seed, threads, work):
    return CHURN.replace("SEED", str(seed % 2**31)).replace("THREADS", str(threads - 2)).replace("WORK", str(work))


def messages(seed, count, arrivals=0.01):
    """Lines of a trace: messages on all channels, and arrivals now and then."""
    chance, time = random.Random(seed), 0
    for _ in range(count):
        time += chance.randrange(0, 200)
        value = chance.randrange(-(2**31), 2**31)
        yield f"arrive {time} {value}\n" if chance.random() < arrivals else f"data {time} {chance.randrange(CHANNELS)} {value}\n"


def arrivals(seed, count):
    chance, time = random.Random(seed), 0
    for _ in range(count):
        time += chance.randrange(0, 100)
        yield f"arrive {time} {chance.randrange(-(2**31), 2**31)}\n"


def loads(seed, scale, threads=MOST_THREADS):
    """The loads, of which instructions and lines are divided by `scale`."""
    fuel, lines = FUEL // scale, TRACE_LINES // scale
    with_fuel = ("--fuel", str(fuel))
    one = (*with_fuel, "--chunk", "64", "--max-path", "48", "--chunks", "65536", "--caps", "1=3")
    two = (*with_fuel, "--chunk", "64", "--max-path", "48", "--chunks", "32768", "--extra", "32768", "--extra-size",
           "80", "--caps", "1=3")
    stride = ("--rule", "stride", "--tickets", "0=1024,7=64,1000=3")
    yield Load(f"{threads:,} threads, by the graph, one size", churn(seed, threads, 40), one, (), "stop fuel", 13)
    yield Load(f"{threads:,} threads, by the graph, two sizes", churn(seed + 1, threads, 40), two, (), "stop fuel", 13)
    # A choice by strides asks each thread that waits, so there are fewer choices, with more work between them.
    yield Load(f"{threads:,} threads, by strides, one size", churn(seed + 2, threads, 4_000), (*one, *stride), (),
               "stop fuel", 13, False)
    yield Load(f"{threads:,} threads, by strides, two sizes", churn(seed + 3, threads, 4_000), (*two, *stride), (),
               "stop fuel", 13, False)
    yield Load("messages on 64 channels, by the graph", LISTENERS, with_fuel, tuple(messages(seed, lines)), "stop idle",
               10)
    yield Load("messages on 64 channels, by strides", LISTENERS, (*with_fuel, "--rule", "stride", "--extra", "64"),
               tuple(messages(seed + 1, lines)), "stop idle", 10, False)
    yield Load("arrivals in a pool of one chunk", ALONE,
               (*with_fuel, "--chunks", "1", "--chunk", "256", "--max-path", "128"), tuple(arrivals(seed, lines)),
               "stop idle", 10)
    yield Load("a loop in a pool of one chunk", ALONE_LOOP,
               (*with_fuel, "--chunks", "1", "--chunk", "64", "--max-path", "48"), (), "stop fuel", 13)
