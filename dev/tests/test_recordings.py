"""Recordings become traces: times, values and connections as they stand in logs, and refusals with their places."""
import csv, pathlib, re, shlex, subprocess, sys, tempfile, unittest
from decimal import Decimal

from traces import instants

TOP = pathlib.Path(__file__).resolve().parent.parent.parent
MAKE_TRACE = TOP / "tools/make_trace"
# The example of the combined format in the manual of the Apache HTTP Server ("Log Files"), and two lines after it.
ACCESS = r"""127.0.0.1 - frank [10/Oct/2000:13:55:36 -0700] "GET /apache_pb.gif HTTP/1.0" 200 2326 "http://www.example.com/start.html" "Mozilla/4.08 [en] (Win98; I ;Nav)"
127.0.0.1 - - [10/Oct/2000:13:55:38 -0700] "POST /a\"b HTTP/1.1" 404 - "-" "-"
10.0.0.7 - - [10/Oct/2000:20:55:37 +0000] "GET / HTTP/1.1" 200 5 "-" "-"
"""
CSV = "time;client;kind;size\n2026-12-01T10:00:00.5Z;a;GET;6.5\n2026-12-01T10:00:00Z;b;PUT;7\n2026-12-01T11:00:01.25+01:00;a;GET;8\n"
# What `tshark -T fields -E header=y -e frame.time_epoch -e tcp.stream -e tcp.len` writes.
TSHARK = "frame.time_epoch\ttcp.stream\ttcp.len\n1700000000.250000000\t0\t10\n1700000000.000000000\t1\t20\n1700000001.000000000\t0\t30\n"


def made(*words, given):
    content = given if isinstance(given, bytes) else given.encode()
    ran = subprocess.run([sys.executable, MAKE_TRACE, "log", *words], input=content, capture_output=True)
    return ran.returncode, ran.stdout.decode().splitlines(), ran.stderr.decode().strip()


class Times(unittest.TestCase):
    def test_forms_of_one_moment(self):
        # (date -u -d 2000-10-10T20:55:36Z +%s)
        for text in ("971211336", "2000-10-10T20:55:36Z", "2000-10-10 20:55:36", "2000-10-10T13:55:36-0700",
                     "[10/Oct/2000:13:55:36 -0700]"):
            with self.subTest(text=text):
                self.assertEqual(instants.seconds_of(text), Decimal(971211336))

    def test_fractions_are_exact(self):
        self.assertEqual(instants.seconds_of("1700000000.123456789"), Decimal("1700000000.123456789"))
        self.assertEqual(instants.seconds_of("1970-01-01T00:00:01.123456789Z"), Decimal("1.123456789"))
        self.assertEqual(instants.seconds_of("1500", "ms"), Decimal("1.5"))

    def test_what_is_no_time(self):
        for text in ("", "yesterday", "2000-13-10T00:00:00Z", "31/Foo/2000:00:00:00 +0000", "nan"):
            with self.subTest(text=text):
                self.assertIsNone(instants.seconds_of(text))


class Rows(unittest.TestCase):
    def test_access_log_by_time(self):
        status, lines, _ = made("--ticks", "1000", "--value", "bytes", given=ACCESS)
        self.assertEqual((status, lines), (0, ["arrive 0 2326", "arrive 1000 5", "arrive 2000 0"]))

    def test_columns_of_an_access_log(self):
        value = "1000 * (method == 'POST') + status + len(path)"
        _, lines, _ = made("--ticks", "1", "--value", value, given=ACCESS)
        # 14 characters in /apache_pb.gif, 1 in /, 5 in /a\"b
        self.assertEqual(lines, ["arrive 0 214", "arrive 1 201", "arrive 2 1409"])

    def test_delimiter_and_mark_are_found(self):
        for text in (CSV, CSV.replace(";", ","), CSV.replace(";", "\t")):
            for mark in (b"", b"\xef\xbb\xbf"):
                with self.subTest(text=text[:6], mark=mark):
                    _, lines, _ = made("--map", "kind", given=mark + text.encode())
                    self.assertEqual(lines, ["arrive 0 1", "arrive 500000 2", "arrive 1250000 2"])

    def test_numbers_of_names(self):
        _, lines, _ = made("--map", "kind=GET:7,PUT:-3", given=CSV)
        self.assertEqual(lines, ["arrive 0 -3", "arrive 500000 7", "arrive 1250000 7"])

    def test_connections(self):
        words = ("--ticks", "1000", "--connection", "tcp.stream", "--value", "tcp.len", "--last", "-1", "--end", "63=9",
                 "--end-after", "5")
        _, lines, _ = made(*words, given=TSHARK)
        self.assertEqual(lines, [
            "arrive 0 0", "data 0 0 20", "data 0 0 -1",
            "arrive 250 1", "data 250 1 10", "data 1000 1 30", "data 1000 1 -1",
            "data 1005 63 9",
        ])  # fmt: skip

    def test_more_connections_than_channels(self):
        text = "time,c\n" + "".join(f"{i},{i}\n" for i in range(65)) + "".join(f"{99 + i},{i}\n" for i in range(65))
        status, _, said = made("--connection", "c", given=text)
        self.assertEqual((status, said),
                         (1, "make_trace: standard input:66: more than 64 connections are open at once"))

    def test_rows_lead_back(self):
        with tempfile.TemporaryDirectory() as folder:
            file = pathlib.Path(folder) / "rows.csv"
            made("--rows", str(file), "--map", "kind", given=CSV)
            with open(file, newline="") as rows:
                found = [(it["request"], it["trace line"], it["row line"], it["client"]) for it in csv.DictReader(rows)]
        self.assertEqual(found, [("1", "1", "3", "b"), ("2", "2", "2", "a"), ("3", "3", "4", "a")])


class Page(unittest.TestCase):
    def test_the_example_of_the_page(self):
        page = (TOP / "docs/WRITING.md").read_text()
        part = page[page.index("### Recordings") : page.index("### Many runs")]
        log, trace, said = part.split("```\n")[1::2]
        words = shlex.split(re.search(r"`tools/make_trace log access.log (.*?)` makes", part)[1])
        self.assertEqual(made(*words, given=log)[1], trace.splitlines())
        spoiled = made(*words, given=log.replace("Dec/2026:09:00:02", "Foo/2026:09:00:02"))[2]
        self.assertEqual(spoiled.replace("standard input", "access.log"), said.strip())


class Refusals(unittest.TestCase):
    ROWS = (
        (("--value", "size"), CSV,
         "standard input:2: --value 'size': expected a whole number, found 6.5; use int(..) or round(..) for a fraction"),
        (("--value", "sise"), CSV,
         "--value 'sise': there is no column 'sise'; the columns are client, kind, size, time"),
        (("--value", "open('x')"), CSV,
         "--value \"open('x')\": the functions are int, round, len, min, max, abs, float, str and col"),
        (("--value", "9 ** 9"), CSV, "--value '9 ** 9': '9 ** 9' isn't allowed in an expression over columns"),
        (("--value", "1 << 99"), CSV, "--value '1 << 99': '1 << 99' isn't allowed in an expression over columns"),
        (("--map", "kind=GET:1"), CSV, "standard input:3: column kind: expected one of GET, found 'PUT'"),
        (("--time", "size"), CSV.replace("8\n", "x\n"),
         "standard input:4: column size: expected a number of seconds or a date with its time, found 'x'"),
        (("--time", "when"), CSV, "there is no column 'when'; the columns are time, client, kind, size"),
        ((), CSV + "1;2\n", "standard input:5: expected 4 columns, found 2"),
        ((), "a,b\n1,2\n", "no column is called like a time: name one by --time; the columns are a, b"),
        ((), "", "standard input:1: expected a line of headings, found the end of the file"),
        ((), b"time\n1\n\xff\n", "standard input:3: expected utf-8 text, found the byte 0xff"),
        (("--format", "common"), "x\n", "standard input:1: expected a line of the common log format, found 'x'"),
        (("--value", "3000000000"), CSV, "standard input:3: --value '3000000000': 3,000,000,000 has more than 32 bits"),
    )

    def test_each(self):
        for words, given, said in self.ROWS:
            with self.subTest(words=words, said=said):
                self.assertEqual(made(*words, given=given), (1, [], f"make_trace: {said}"))

    def test_a_csv_shape_names_the_line(self):
        ran = subprocess.run([sys.executable, MAKE_TRACE, "csv", "--column", "t"], input="t\n1\nx\n",
                             capture_output=True, text=True)
        self.assertEqual(ran.stderr, "make_trace: standard input:3: column t: expected a number, found 'x'\n")


class OfThisMachine(unittest.TestCase):
    """An access log that nginx wrote and fields that tshark printed of the same twelve requests by curl."""

    FOLDER = TOP / "dev/tests/recordings"

    def test_an_access_log_of_nginx(self):
        text = (self.FOLDER / "nginx.log").read_text()
        status, lines, said = made("--ticks", "1000", "--value", "bytes", given=text)
        self.assertEqual((status, said, len(lines)), (0, "", 12))
        # /f2 at 19:29:07 has 1,800 bytes, /f3 and a missing file come a second later
        self.assertEqual(lines[:3], ["arrive 0 1800", "arrive 1000 2700", "arrive 1000 153"])
        _, lines, _ = made("--value", "status == 404", given=text)
        self.assertEqual(sum(it.endswith(" 1") for it in lines), text.count('" 404 '))

    def test_fields_of_tshark(self):
        text = (self.FOLDER / "tshark.tsv").read_text()
        status, lines, said = made("--connection", "tcp.stream", "--value", "int(tcp.len)", given=text)
        self.assertEqual((status, said), (0, ""))
        # the first connection: the request of 80 bytes, and 271 microseconds later the answer of 2,040
        self.assertEqual(lines[:3], ["arrive 0 0", "data 0 0 80", "data 271 0 2040"])
        self.assertEqual(sum(it.startswith("arrive") for it in lines), 12)
        self.assertEqual(sum(it.startswith("data") for it in lines), len(text.splitlines()) - 1)


if __name__ == "__main__":
    unittest.main()
