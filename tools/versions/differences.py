"""How two runs differ: request by request, in the outputs that answer none, and in their stops."""
import collections

from .side import arrivals

MOST_SHOWN = 20  # requests that are named
SAYS = {
    "unanswered": "taken, no output",
    "untaken": "not taken",
    "dropped": "dropped",
    "unsent": "not sent before the stop",
}

Difference = collections.namedtuple("Difference", "what old new")  # what each side has there, as text, with its place


class Differences:
    def __init__(self, old, new):
        self.old, self.new = old, new
        (ours, self.old_others), (theirs, self.new_others) = old.answers(), new.answers()
        self.requests = len(ours)
        self.unlike = [number for number, (one, other) in enumerate(zip(ours, theirs), 1) if one[:2] != other[:2]]
        self.answers = [(ours[number - 1], theirs[number - 1]) for number in self.unlike[:1]]
        pairs = [(old, self.old_others), (new, self.new_others)]
        self.others = [[side.outcome.outputs[it][1] for it in numbers] for side, numbers in pairs]
        self.is_stop_equal = old.stop() == new.stop()

    def are_equal(self):
        return not self.unlike and self.others[0] == self.others[1] and self.is_stop_equal

    def first(self):
        """The first difference of each kind."""
        found = []
        if self.unlike:
            number = self.unlike[0]
            line = arrivals(self.old.trace)[number - 1]
            told = [self.answer(side, it, number) for side, it in zip((self.old, self.new), self.answers[0])]
            what = f"request {number}, line {line + 1} of the trace: {self.old.trace[line].strip()}"
            found.append(Difference(what, *told))
        if self.others[0] != self.others[1]:
            place = first_unequal(*self.others)
            told = [self.other(self.old, self.old_others, place), self.other(self.new, self.new_others, place)]
            found.append(Difference(f"output {place + 1} of those that answer no request", *told))
        if not self.is_stop_equal:
            found.append(Difference("the stop", *map(self.stop, (self.old, self.new))))
        return found

    def answer(self, side, it, number):
        if it.state == "answered":
            unequal = first_unequal(*[other.values for other in self.answers[0]])
            at = it.numbers[min(unequal, len(it.values) - 1)]
            more = " .." if len(it.values) > MOST_SHOWN else ""
            return f"{' '.join(map(str, it.values[:MOST_SHOWN]))}{more}, put at {side.put_at(at)}"
        line = arrivals(side.trace)[number - 1]
        waits = side.waits_at(side.outcome.delivered.index(line)) if it.state == "unanswered" else None
        return SAYS[it.state] + (f", its thread waits at {waits}" if waits else "")

    def other(self, side, numbers, place):
        if place >= len(numbers):
            return "none"
        return f"{side.outcome.outputs[numbers[place]][1]}, put at {side.put_at(numbers[place])}"

    def stop(self, side):
        at = side.cut_at()
        return "stop " + " ".join(side.outcome.stop) + (f", in a segment from {at}" if at else "")


def first_unequal(ours, theirs):
    """The first place in which two lists differ: the length of the shorter one if it begins the other."""
    unequal = (place for place, (one, other) in enumerate(zip(ours, theirs)) if one != other)
    return next(unequal, min(len(ours), len(theirs)))
