"""The line at which a trace is refused, where the log can't be seen: the first one with a cause."""
import unittest, unittest.mock

from explained import traces

GOOD = [b"arrive 0 1", b"data 10 63 -5", b"arrive 10 -2147483648"]


class RefusedLines(unittest.TestCase):
    def test_a_trace_without_a_fault_has_none(self):
        self.assertEqual(traces.first_refused([]), 0)
        self.assertEqual(traces.first_refused(GOOD), 0)

    def test_the_first_refused_line_is_found(self):
        for line in (b"", b"arrive 11 1\r", b"# a comment", b"arrive 9 1", b"data 11 64 1", b"arrive 11 1.5",
                     b"arrive  11 1", b"arrive 11", b"x" * 65, b"\xff"):
            with self.subTest(line=line):
                self.assertEqual(traces.first_refused([*GOOD, line, line]), 4)

    def test_a_line_beyond_the_most_is_found(self):
        with unittest.mock.patch.object(traces, "MOST_LINES", 3):
            self.assertEqual(traces.first_refused([*GOOD, GOOD[0]]), 4)
