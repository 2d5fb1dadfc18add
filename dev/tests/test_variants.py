"""Variants of a trace keep what they have to keep, whatever the chance."""
import collections, random, unittest

from traces import events, variants
from traces.lines import Refused

CONNECTIONS = "".join(f"arrive {100 * it} {it % 4}\n" + "".join(f"data {100 * it + 20 * said} {it % 4} {10 * it + said}\n" for said in (1, 2, 3)) for it in range(12))
APART = "arrive 10 1\narrive 20 2\narrive 30 3\narrive 9000 4\narrive 9010 5\n"
SEEDS = range(12)


def made(kind, text, seed):
    varied = variants.Varied(events.read(text))
    return varied, variants.CHANGES[kind](varied, varied.events, random.Random(seed))


def sent(found):
    return collections.Counter((it.channel, it.value) for it in found)


class Changes(unittest.TestCase):
    def test_a_variant_is_a_trace(self):
        for kind in variants.CHANGES:
            for text in (CONNECTIONS, APART, "", "arrive 5 1\n"):
                for seed in SEEDS:
                    with self.subTest(kind=kind, seed=seed):
                        _, found = made(kind, text, seed)
                        written = events.text_of(found)
                        self.assertEqual(events.text_of(events.read(written)), written)

    def test_what_is_sent_stays_but_for_faults(self):
        for kind in variants.CHANGES:
            counts = [sent(made(kind, CONNECTIONS, seed)[1]) for seed in SEEDS]
            whole = sent(events.read(CONNECTIONS))
            self.assertEqual(all(it == whole for it in counts), kind not in variants.FAULTS, kind)

    def test_a_peer_keeps_its_order(self):
        for kind in ("times", "order", "bursts", "late"):
            for seed in SEEDS:
                varied, found = made(kind, CONNECTIONS, seed)
                for peer in varied.peers:
                    self.assertEqual(*[[(it.channel, it.value) for it in some if varied.peer(it) == peer]
                                       for some in (varied.events, found)])

    def test_lines_know_what_they_stand_for(self):
        for kind in variants.CHANGES:
            for seed in SEEDS:
                varied, found = made(kind, CONNECTIONS, seed)
                for it in found:
                    if it.line is not None:
                        self.assertEqual((it.channel, it.value),
                                         (varied.events[it.line].channel, varied.events[it.line].value))

    def test_lines_that_are_far_apart_stay_so(self):
        for kind in ("times", "order", "bursts"):
            for seed in SEEDS:
                _, found = made(kind, APART, seed)
                self.assertEqual({it.value for it in found[:3]}, {1, 2, 3})
                self.assertGreater(found[3].time - found[2].time, 8000)

    def test_something_changes(self):
        for kind in variants.CHANGES:
            texts = {events.text_of(made(kind, CONNECTIONS, seed)[1]) for seed in SEEDS}
            self.assertGreater(len(texts), 5, kind)

    def test_loss_takes_lines_out_and_doubles_add_some(self):
        whole = sent(events.read(CONNECTIONS))
        for seed in SEEDS:
            self.assertLessEqual(sent(made("loss", CONNECTIONS, seed)[1]), whole)
            doubled = made("doubles", CONNECTIONS, seed)[1]
            self.assertEqual(sent(it for it in doubled if it.line is not None), whole)
            self.assertTrue(all(count <= 2 * whole[it] for it, count in sent(doubled).items()))

    def test_a_silent_peer_is_silent_up_to_its_next_arrival(self):
        for seed in SEEDS:
            varied, found = made("silent", CONNECTIONS, seed)
            gone = [it for it in varied.events if it not in found]
            self.assertEqual(len({it.channel for it in gone}), 1)
            self.assertIn([it.value % 10 for it in gone], ([1, 2, 3], [2, 3], [3]))

    def test_one_chance_gives_one_variant(self):
        varied = variants.Varied(events.read(CONNECTIONS))
        drawn = lambda seed: variants.variant(varied, list(variants.CHANGES), random.Random(seed))
        self.assertEqual(drawn("1 7"), drawn("1 7"))
        self.assertNotEqual(drawn("1 7"), drawn("1 8"))


class Reading(unittest.TestCase):
    def test_what_is_no_trace_is_refused(self):
        for text in ("arrive 1\n", "arrive 1 2 3\n", "data 1 2\n", "arrive 01 2\n", "walk 1 2\n",
                     "arrive 5 1\narrive 4 1\n", "data 1 64 0\n", "arrive 1 2147483648\n", "\n"):
            with self.subTest(text=text), self.assertRaises(Refused):
                events.read(text)


if __name__ == "__main__":
    unittest.main()
