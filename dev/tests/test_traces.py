"""Traces keep the rules of docs/FORMATS.md, and have the shape that was asked for."""
import collections, itertools, pathlib, random, re, statistics, subprocess, sys, unittest

from traces import arrivals, connections, lines

MAKE_TRACE = pathlib.Path(__file__).resolve().parent.parent.parent / "tools/make_trace"
# by docs/FORMATS.md: a canonical decimal, and the two lines
NUMBER = r"(0|[1-9][0-9]*)"
LINE = re.compile(rf"arrive {NUMBER} (0|-?[1-9][0-9]*)\n|data {NUMBER} {NUMBER} (0|-?[1-9][0-9]*)\n")
SHAPES = {
    "constant": ["constant", "--gap", "7", "--count", "50"],
    "poisson": ["poisson", "--gap", "100", "--count", "50", "--values=-5..5"],
    "bursts": ["bursts", "--gap", "500", "--size", "4", "--count", "50"],
    "closed": ["closed", "--clients", "3", "--think", "100", "--answer", "20", "--count", "50"],
    "connections": ["poisson", "--gap", "400", "--count", "50", "--messages", "3", "--last", "0", "--channels", "20"],
}


def made(*words, given=""):
    return subprocess.run([sys.executable, MAKE_TRACE, *words], input=given, capture_output=True, text=True)


def times_of(text):
    return [int(it.split()[1]) for it in text.splitlines()]


class Traces(unittest.TestCase):
    def test_each_shape_makes_lines_of_a_trace_whose_times_never_fall(self):
        for name, words in SHAPES.items():
            with self.subTest(shape=name):
                text = made(*words).stdout
                for line in text.splitlines(True):
                    self.assertRegex(line, LINE)
                    self.assertLessEqual(len(line), 65)
                self.assertEqual(times_of(text), sorted(times_of(text)))
                self.assertEqual(sum(it.startswith("arrive") for it in text.splitlines()), 50)

    def test_one_seed_always_gives_one_trace_and_another_gives_another(self):
        words = SHAPES["connections"]
        self.assertEqual(made(*words).stdout, made(*words).stdout)
        self.assertNotEqual(made(*words, "--seed", "2").stdout, made(*words).stdout)

    def test_constant_times_are_multiples_of_the_gap(self):
        self.assertEqual(list(itertools.islice(arrivals.constant(2.5, 10), 5)), [10, 12, 15, 17, 20])

    def test_poisson_gaps_have_the_mean_and_the_spread_of_an_exponential(self):
        times = list(itertools.islice(arrivals.poisson(1000, 0, random.Random(1)), 20_000))
        gaps = [b - a for a, b in zip(times, times[1:])]
        self.assertAlmostEqual(statistics.fmean(gaps) / 1000, 1, delta=0.03)
        self.assertAlmostEqual(statistics.pstdev(gaps) / 1000, 1, delta=0.03)

    def test_each_burst_comes_at_one_time(self):
        counts = collections.Counter(itertools.islice(arrivals.bursts(1e6, 8, 0, random.Random(1)), 800))
        self.assertEqual(set(counts.values()), {8})

    def test_no_more_than_the_clients_are_under_way(self):
        """With no chance in an answer's time, no window of that length has more requests than there
        are clients."""
        fixed = random.Random(1)
        fixed.expovariate = lambda rate: 1 / rate
        times = list(itertools.islice(arrivals.closed(3, 50, 100, 0, fixed), 300))
        for index in range(len(times) - 3):
            self.assertGreaterEqual(times[index + 3] - times[index], 150)

    def test_a_channel_has_one_connection_at_a_time(self):
        under_way = {}
        said = connections.Messages(3, 10, lambda: 1, 0, 16)
        for time, channel, value in connections.connections(range(0, 1000, 5), said):
            if channel is None:
                self.assertNotIn(value, under_way)
                under_way[value] = 4
            else:
                under_way[channel] -= 1
                self.assertEqual(value == 0, under_way[channel] == 0)
                if not under_way[channel]:
                    del under_way[channel]
        self.assertEqual(under_way, {})

    def test_a_csv_gives_its_times_in_order(self):
        told = made("csv", "--column", "at", "--ticks", "1000", "--value-column", "n", "--start", "5",
                    given="n,at\n7,2.5\n8,1.25\n9,2.5\n")
        self.assertEqual(told.stdout, "arrive 5 8\narrive 1255 7\narrive 1255 9\n")

    def test_what_is_no_trace_is_refused(self):
        refused = [
            ["constant", "--gap", "1", "--count", "1000001"],
            ["constant", "--gap", "1000000000000", "--count", "1002"],
            ["constant", "--gap", "1", "--count", "2", "--values", "2147483648"],
            ["constant", "--gap", "1", "--count", "2", "--messages", "1", "--channels", "1"],
            ["constant", "--gap", "0", "--count", "2"],
            ["csv", "--column", "no"],
        ]
        for words in refused:
            with self.subTest(words=words):
                self.assertNotEqual(made(*words, given="a\n1\n").returncode, 0)

    def test_the_limits_themselves_are_taken(self):
        taken = list(lines.lines_of([(0, None, -(2**31)), (10**15, 63, 2**31 - 1)]))
        self.assertEqual(taken, ["arrive 0 -2147483648\n", "data 1000000000000000 63 2147483647\n"])


if __name__ == "__main__":
    unittest.main()
