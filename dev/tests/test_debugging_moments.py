"""The moments of the replay fit docs/moment.schema.json."""
import json, pathlib, unittest

from debugging import moments

from . import test_debugging

TOP = pathlib.Path(__file__).resolve().parent.parent.parent
SCHEMA = TOP / "docs/moment.schema.json"
MOST = 120  # moments of an example
EXAMPLES = ("bank", "bounded", "calculator", "relay", "store")

try:
    import jsonschema
except ImportError:
    jsonschema = None


def moments_of(log):
    """The first moments of a stored log, by the replay: lines, steps and document."""
    made, found = test_debugging.of_example(log), []
    while len(found) < MOST and not made.now.stop:
        found.append((*made.now.moment, moments.Replayed(made_chunks(log)).at(made.now, made.now.code)))
        made.advance()
    return found


def made_chunks(log):
    return test_debugging.words_of(log).chunks()


class Moments(unittest.TestCase):
    @unittest.skipUnless(jsonschema and SCHEMA.exists(), "python3-jsonschema or docs/moment.schema.json is missing")
    def test_they_fit_the_schema(self):
        checks = jsonschema.Draft202012Validator(json.loads(SCHEMA.read_text()))
        for name in EXAMPLES:
            for line, steps, document in moments_of(TOP / "examples" / name / "log"):
                shown = {key: it for key, it in document.items() if key not in ("arrivals", "channels")}
                with self.subTest(example=name, line=line, steps=steps):
                    self.assertEqual([it.message for it in checks.iter_errors(shown)], [])


if __name__ == "__main__":
    unittest.main()
