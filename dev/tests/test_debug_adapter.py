"""Whole sessions of an editor with tools/debug_adapter, forwards and backwards. Each message is checked against the
types of the Debug Adapter Protocol that Debian's package python3-pydevd has, where it is installed."""
import os, pathlib, tempfile, unittest

from . import debug_protocol

TOP = pathlib.Path(__file__).resolve().parent.parent.parent
BANK = TOP / "examples/bank/server.c"
STORIES = TOP / "docs/stories"
PROGRAM = os.path.join(os.environ.get("CAPRICCIO_PROGRAMS", "no folder"), "capriccio_cli")
SCHEMA = debug_protocol.schema_file()
TYPES = debug_protocol.Types(SCHEMA) if os.path.exists(SCHEMA) else None


class Session(unittest.TestCase):
    def begin(self, breakpoints=(), functions=(), filters=("traps", "stops"), launch=None, data=()):
        """A client whose run is launched: the log of examples/bank, unless another run is named."""
        bank = {
            "source": str(BANK),
            "trace": str(BANK.parent / "trace"),
            "log": str(BANK.parent / "log"),
            "options": ["--caps", "1=1,2=1"],
        }
        client = debug_protocol.Client(TYPES)
        self.addCleanup(client.__exit__)
        self.client, self.source = client, {"path": (launch or bank)["source"]}
        client.ask("initialize", adapterID="capriccio", linesStartAt1=True, columnsStartAt1=True)
        client.ask("launch", **(launch or bank))
        client.event("initialized")
        self.points = client.ask("setBreakpoints", source=self.source, breakpoints=list(breakpoints))["breakpoints"]
        client.ask("setFunctionBreakpoints", breakpoints=[{"name": it} for it in functions])
        client.ask("setDataBreakpoints", breakpoints=[{"dataId": it} for it in data])
        client.ask("setExceptionBreakpoints", filters=list(filters))
        client.ask("configurationDone")
        return client

    def tearDown(self):
        self.assertEqual(self.client.wrong, [])


class Bank(Session):
    def test_steps_forwards_and_backwards(self):
        client = self.begin([{"line": 8}])
        stop, place = client.stop()
        self.assertEqual(
            (stop["reason"], place, stop["hitBreakpointIds"]), ("breakpoint", ("transfer", 8), [self.points[0]["id"]])
        )
        thread = stop["threadId"]
        self.assertEqual(client.values("Locals", thread), {"from": "1", "to": "2", "amount": "5"})
        self.assertEqual(
            [client.move("next", threadId=thread)[1] for _ in range(3)],
            [("transfer", 9), ("transfer", 10), ("transfer", 11)],
        )
        self.assertEqual(client.values("Globals", thread), {"balances": "{0, -5, 5}"})
        self.assertEqual(
            [client.move("stepBack", threadId=thread)[1] for _ in range(2)], [("transfer", 10), ("transfer", 9)]
        )
        self.assertEqual(client.values("Globals", thread), {"balances": "{0, 0, 0}"})
        stop, place = client.move("stepOut", threadId=thread)
        self.assertEqual((stop["reason"], place), ("step", ("teller", 18)))
        self.assertEqual(client.move("reverseContinue", threadId=thread)[1], ("transfer", 8))
        self.assertEqual(client.move("reverseContinue", threadId=thread)[0]["reason"], "entry")

    def test_threads_frames_scopes_and_elements(self):
        client = self.begin(functions=["transfer"])
        thread = client.stop()[0]["threadId"]
        names = {it["id"]: it["name"] for it in client.ask("threads")["threads"]}
        self.assertEqual(names, {2: "1 teller: running", 3: "2 teller: waits at accept() since 57"})
        frames = client.ask("stackTrace", threadId=thread)
        self.assertEqual(
            [(it["name"], it["line"], it["column"]) for it in frames["stackFrames"]],
            [("transfer", 6, 3), ("teller", 20, 5)],
        )
        self.assertEqual(client.values("Queues", thread), {"arrivals": "{}"})
        self.assertEqual(
            client.values("Resources", thread), {"resource 1": "0 of 1 in use", "resource 2": "0 of 1 in use"}
        )
        scopes = client.ask("scopes", frameId=frames["stackFrames"][1]["id"])["scopes"]
        self.assertEqual(
            client.ask("variables", variablesReference=scopes[0]["variablesReference"])["variables"][1]["value"], "12"
        )
        array = client.ask("variables", variablesReference=scopes[1]["variablesReference"])["variables"][0]
        elements = client.ask("variables", variablesReference=array["variablesReference"], start=1, count=2)[
            "variables"
        ]
        self.assertEqual([(it["name"], it["value"]) for it in elements], [("[1]", "0"), ("[2]", "0")])
        info = client.ask("dataBreakpointInfo", variablesReference=array["variablesReference"], name="[2]")
        self.assertEqual(info["dataId"], "balances[2]")
        info = client.ask("dataBreakpointInfo", variablesReference=scopes[0]["variablesReference"], name="request")
        self.assertEqual(info["dataId"], "teller.request")

    def test_conditions_with_a_thread_and_counts(self):
        client = self.begin(
            [{"line": 6, "condition": "thread 2"}, {"line": 7, "condition": "from == 1", "hitCondition": "== 2"}]
        )
        self.assertEqual(
            client.ask("evaluate", expression="from", frameId=self.frame(client.stop()[0]))["result"], "2"
        )
        stop, place = client.move("continue", threadId=1)
        self.assertEqual(place, ("transfer", 7))
        self.assertEqual(client.ask("evaluate", expression="from * 10 + to", frameId=self.frame(stop))["result"], "12")

    def frame(self, stop):
        return self.client.ask("stackTrace", threadId=stop["threadId"])["stackFrames"][0]["id"]

    def test_data_breakpoints_and_the_deadlock(self):
        client = self.begin(data=["balances[2]"])
        stop, place = client.stop()
        self.assertEqual(
            (stop["reason"], stop["description"], place), ("data breakpoint", "balances[2]: 0 -> 5", ("transfer", 11))
        )
        client.ask("setDataBreakpoints", breakpoints=[])
        stop, place = client.move("continue", threadId=1)
        self.assertEqual((stop["reason"], stop["text"], place), ("exception", "stop idle", ("transfer", 8)))
        self.assertEqual(client.ask("exceptionInfo", threadId=1)["exceptionId"], "stop idle")
        self.assertEqual(client.values("Resources", 2), {"resource 1": "1 of 1 in use", "resource 2": "1 of 1 in use"})
        client.ask("continue", threadId=1)
        client.event("terminated")

    def test_goto_by_place_and_by_clock(self):
        client = self.begin([{"line": 8}])
        client.stop()
        targets = client.ask("gotoTargets", source=self.source, line=6)["targets"]
        self.assertEqual([it["label"] for it in targets], ["next: clock 500, thread 2", "before: clock 100, thread 1"])
        self.assertEqual(client.move("goto", threadId=2, targetId=targets[1]["id"])[1], ("transfer", 6))
        client.send("evaluate", expression="goto 1040", context="repl")
        self.assertEqual(client.stop()[1], ("transfer", 7))
        shown = client.ask("evaluate", expression="info resources", context="repl")["result"]
        self.assertEqual(shown, "resource 1  1 of 1 in use: 1 by thread 1\nresource 2  0 of 1 in use")

    def test_sources(self):
        client = self.begin(functions=["main"])
        client.stop()
        self.assertEqual(client.ask("loadedSources")["sources"], [{"name": "server.c", "path": str(BANK)}])
        self.assertEqual(client.ask("source", sourceReference=0)["content"], BANK.read_text())
        self.assertEqual(
            client.ask("breakpointLocations", source=self.source, line=1, endLine=7)["breakpoints"],
            [{"line": 6}, {"line": 7}],
        )

    def test_what_is_asked_wrongly_is_refused_with_what_there_is(self):
        client = self.begin([{"line": 8}, {"line": 99}, {"line": 8, "condition": "balance > 1"}])
        client.stop()
        self.assertEqual([it["verified"] for it in self.points], [True, False, False])
        self.assertIn("the last one is at line 28", self.points[1]["message"])
        self.assertIn("no name balance is in scope here: from, to, amount, balances", self.points[2]["message"])
        for command, arguments, why in (
            ("evaluate", {"expression": "put(1)"}, "without calls"),
            ("scopes", {"frameId": 999}, "999"),
            ("setVariable", {"name": "x"}, "knows"),
            ("goto", {"threadId": 1, "targetId": 7}, "earlier moment"),
        ):
            with self.assertRaisesRegex(ValueError, why):
                client.ask(command, **arguments)
        other = client.ask("setBreakpoints", source={"path": "/other.c"}, breakpoints=[{"line": 1}])["breakpoints"]
        self.assertFalse(other[0]["verified"])

    def test_it_ends_when_the_editor_does(self):
        client = self.begin([{"line": 8}])
        client.stop()
        client.ask("disconnect")
        client.event("terminated")
        self.assertEqual(client.process.wait(timeout=20), 0)


class Endless(Session):
    def test_a_pause_ends_a_move_that_takes_long(self):
        with tempfile.TemporaryDirectory() as folder:
            source, log = pathlib.Path(folder, "server.c"), pathlib.Path(folder, "log")
            source.write_text("int main() {\n  int i = 0;\n  while (1) i = i + 1;\n  return 0;\n}\n")
            log.write_text("run 0 0 0\nstop fuel 0 1000000000 1023\n")
            client = self.begin(launch={"source": str(source), "log": str(log)})  # which runs at once
            client.send("pause", threadId=1)
            stop, place = client.stop()
            self.assertEqual((stop["reason"], place), ("pause", ("main", 3)))
            self.assertGreaterEqual(int(client.values("Locals", 1)["i"]), 0)


class Refused(Session):
    def setUp(self):
        self.client = debug_protocol.Client(TYPES)
        self.addCleanup(self.client.__exit__)
        self.client.ask("initialize", adapterID="capriccio")

    def test_a_launch_without_a_source_a_file_or_a_log_that_fits(self):
        with tempfile.TemporaryDirectory() as folder:
            log = pathlib.Path(folder, "log")
            log.write_text("run 0 0 0\n")
            for arguments, why in (
                ({}, "source"),
                ({"source": "/none.c", "log": str(log)}, "no file /none.c"),
                ({"source": str(BANK), "log": str(log)}, "stop"),
                ({"source": str(BANK), "log": "/none"}, "no file"),
            ):
                with self.assertRaisesRegex(ValueError, why):
                    self.client.ask("launch", **arguments)
        with self.assertRaisesRegex(ValueError, "before launch"):
            self.client.ask("threads")


@unittest.skipUnless(os.access(PROGRAM, os.X_OK), "the program isn't built")
class Stories(Session):
    def test_a_wrong_answer(self):
        """The value of a page that isn't there is the status 404, to which the query is added."""
        client = self.begin(
            functions=["output 456"],
            launch={"source": str(STORIES / "pages.c"), "trace": str(STORIES / "pages.trace")},
        )
        stop, place = client.stop()
        self.assertEqual((stop["reason"], place), ("breakpoint", ("worker", 19)))
        thread = stop["threadId"]
        client.ask("setBreakpoints", source=self.source, breakpoints=[{"line": 15}])
        self.assertEqual(client.move("reverseContinue", threadId=thread)[1], ("answer", 15))
        self.assertEqual(client.values("Locals", thread), {"channel": "5", "page": "7", "query": "52"})
        self.assertEqual(client.move("stepIn", threadId=thread)[1], ("value_of", 6))
        self.assertEqual(client.move("stepIn", threadId=thread)[1], ("value_of", 6))  # at `return 404`
        self.assertEqual(client.move("stepOut", threadId=thread)[1], ("answer", 15))
        self.assertEqual(client.values("Locals", thread)["value_of(..) at 15:10"], "404")

    def test_a_lost_update(self):
        with tempfile.TemporaryDirectory() as folder:
            trace = pathlib.Path(folder, "trace")
            trace.write_text("arrive 500 583\narrive 560 721\narrive 1500 0\n")
            client = self.begin(data=["total"], launch={"source": str(STORIES / "till.c"), "trace": str(trace)})
            stop, _ = client.stop()
            self.assertEqual(stop["description"], "total: 0 -> 641")  # 583 with a tenth of it
            stop, _ = client.move("continue", threadId=1)
            self.assertEqual(stop["description"], "total: 641 -> 793")  # 721 with a tenth: what was 641 is lost
            self.assertEqual(client.values("Locals", stop["threadId"])["before"], "0")


@unittest.skipUnless(TYPES, f"the package python3-pydevd is missing ({SCHEMA})")
class Types(unittest.TestCase):
    def test_a_wrong_message_is_seen(self):
        good = {"seq": 1, "type": "event", "event": "stopped", "body": {"reason": "step", "threadId": 1}}
        self.assertEqual(TYPES.wrong_message(good), [])
        for body in (
            {"threadId": 1},
            {"reason": "step", "threadId": "1"},
            {"reason": "step", "thread": 1},
            {"reason": 5},
        ):
            self.assertNotEqual(TYPES.wrong_message(good | {"body": body}), [])
        answer = {"seq": 1, "type": "response", "request_seq": 1, "success": True, "command": "stackTrace"}
        frame = {"id": 1, "name": "f", "line": 1, "column": 1}
        self.assertEqual(TYPES.wrong_message(answer | {"body": {"stackFrames": [frame]}}), [])
        self.assertNotEqual(TYPES.wrong_message(answer | {"body": {"stackFrames": [frame | {"line": "1"}]}}), [])
        self.assertNotEqual(TYPES.wrong_message(answer | {"body": {}}), [])


if __name__ == "__main__":
    unittest.main()
