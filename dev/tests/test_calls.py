"""What `./report graph` and `./report budget` print of their documents; numbers are those of examples/calculator."""
import json, unittest

from reporting import calls


def place(line, column, name, **more):
    return {"file": "server.c", "line": line, "column": column, "name": name, **more}


GRAPH = {
    "version": 1, "max_path": 64,
    "functions": [{"function": 3, "frame": 32, "bound": 48, "place": place(30, 5, "product")},
                  {"function": 4, "frame": 48, "bound": 64, "place": place(40, 5, "sum")}],
    "sites": [
        {"site": 6, "kind": "back", "callees": ["factor"],
         "place": place(32, 11, "factor", text="factor(channel)", function="product")},
        {"site": 9, "kind": "over", "callees": ["product"], "frame": 48, "bound": 48,
         "place": place(43, 11, "product", text="product(channel)", function="sum")},
        {"site": 10, "kind": "plain", "callees": ["step", "skip"], "place": place(46, 5, "table", function="sum")},
    ],
}


class Calls(unittest.TestCase):
    def test_the_calls_of_a_program(self):
        self.assertEqual("\n".join(calls.lines_of(json.dumps(GRAPH))), """\
function  frame  bound  at
       3     32     48  server.c:30:5 product
       4     48     64  server.c:40:5 sum

site  kind   at
   6  back   server.c:32:11 factor(channel) in product: it closes a cycle of calls
   9  over   server.c:43:11 product(channel) in sum: frame 48 and bound 48 exceed the 64 of a path
  10  plain  server.c:46:5 table in sum calls step or skip""")

    def test_a_budget(self):
        budget = {"version": 1, "chunks": 2, "heights": [{"function": 0, "height": 1, "place": place(6, 5, "slot_of")}]}
        self.assertEqual(calls.lines_of(json.dumps(budget)), ["2 chunks are enough for each live thread", "",
                                                              "function  height  at", "       0       1  server.c:6:5 "
                                                                                      "slot_of"])


if __name__ == "__main__":
    unittest.main()
