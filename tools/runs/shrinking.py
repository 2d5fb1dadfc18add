"""Makes a run smaller as long as the same is found in it: fewer lines, then small and round times and values, then options
at their defaults.
"""
import collections, itertools, time

from traces import events, variants
from traces.lines import CHANNELS

from . import finds, many, story

ROUND = sorted({0, *(digit * 10**power for digit in (1, 2, 5) for power in range(10))})  # numbers that are easily read
GATE = ("high", "low", "knee")
TOGETHER = 8  # runs that are made side by side: the same on each machine, so that the result is

Case = collections.namedtuple("Case", "events first options")
Case.__doc__ = """A run: the events of its trace, those of the first run that it is compared with (empty if it isn't), and
its options. An event's `line` is the place in `first` of the event that it stands for, or None."""

Edit = collections.namedtuple("Edit", "gone gaps values")
Edit.__doc__ = "A change of a case by the places of its events: those that go, and other gaps and values."
NOTHING = Edit(frozenset(), {}, {})


class Search:
    """Looks for what is wanted in runs of a server (many.py), by a looker (finds.py). The find has to be at the same place."""

    def __init__(self, server, looker, first_options):
        self.server, self.looker, self.first_options, self.where = server, looker, first_options, None

    def find(self, case):
        """What is found in a run, or None. The first call says where it has to be from then on."""
        run = self.server.run(case.options, events.text_of(case.events).encode())
        try:
            found = self.looker.finds(run.log, case.options, self.first(case))
        except story.Unfit:
            return None
        found = [it for it in found if self.where is None or it.where == self.where]
        return found[0] if found else None

    def first(self, case):
        """What a run is compared with."""
        if not case.first:
            return None
        outputs = self.looker.outputs_by_line(self.server.run(self.first_options, events.text_of(case.first).encode()).log)
        return finds.First(outputs, [it.line for it in case.events])


def has_find(search, case):
    """The work of a process."""
    return search.find(case) is not None


class Shrinking:
    """A case that gets smaller, with the number of runs that this took. `show` is called after each batch of runs."""

    def __init__(self, search, case, jobs, seconds, show):
        self.search, self.case, self.jobs, self.show = search, case, jobs, show
        self.before, self.runs, self.began, self.seconds = len(case.events), 1, time.monotonic(), seconds
        self.far = variants.FAR * variants.Varied(case.first).gap if case.first else float("inf")

    def taken(self):
        return time.monotonic() - self.began

    def shrink(self):
        """Makes the case as small as it gets, or as small as it is when the time is over."""
        with many.Workers(self.jobs, self.search) as workers:
            self.workers = workers
            count = None
            while count is None or not self.is_late():
                self.fewer_lines()
                if len(self.case.events) == count:
                    return
                for step in (self.rounder_times, self.lower_channels, self.rounder_values, self.fewer_options):
                    step()
                count = len(self.case.events)  # (with other values and options, more lines may go)

    def is_late(self):
        return self.seconds is not None and self.taken() >= self.seconds

    def tried(self, cases):
        """Which of some cases have the find."""
        good = list(self.workers.each(has_find, cases))
        self.runs += len(cases)
        self.show(self)
        return good

    def simplest(self, cases):
        """Goes on from the first of some cases that has the find. Answers whether one has it."""
        cases = [it for it in cases if it != self.case]
        for start in range(0, len(cases), TOGETHER):
            if self.is_late():
                return False
            batch = cases[start : start + TOGETHER]
            good = self.tried(batch)
            if True in good:
                self.case = batch[good.index(True)]
                return True
        return False

    def together(self, edits):
        """Makes all of some edits that alone leave the find, if together they do, or else the first of them. Gives the
        edit that was made."""
        edits = [it for it in edits if edited(self.case, it) != self.case and self.is_fair(it)]
        good = [it for it, is_good in zip(edits, self.tried([edited(self.case, it) for it in edits])) if is_good]
        if not good:
            return NOTHING
        joined = Edit(frozenset().union(*[it.gone for it in good]), merged(it.gaps for it in good),
                      merged(it.values for it in good))
        is_good = len(good) == 1 or self.is_fair(joined) and self.tried([edited(self.case, joined)])[0]
        made = joined if is_good else good[0]
        self.case = edited(self.case, made)
        return made

    def is_fair(self, edit):
        """Beside a first run, values that differ stay different: a request isn't made another one, as a sale of 0 is."""
        count = lambda case: len({it.value for it in case.events})
        return not (self.case.first and edit.values) or count(edited(self.case, edit)) == count(self.case)

    def in_pieces(self, size, edit_of):
        """Tries the edit of each piece of so many events. Answers whether one was made."""
        start, is_made = 0, False
        while start < len(self.case.events) and not self.is_late():
            stop = min(start + size * TOGETHER, len(self.case.events))
            made = self.together([edit_of(range(it, min(it + size, stop))) for it in range(start, stop, size)])
            start, is_made = stop - len(made.gone), is_made or made != NOTHING
        return is_made

    def in_all_pieces(self, edit_of):
        """Tries an edit of all events, of pieces, and of single events."""
        size = len(self.case.events)
        while size:
            self.in_pieces(size, edit_of)
            size = size // 4 if size == 1 else max(1, size // 4)

    def fewer_lines(self):
        """Takes out pieces, from half of the lines to single lines, until no line can go."""
        gone = lambda piece: NOTHING._replace(gone=frozenset(piece))
        size = max(1, len(self.case.events) // 2)
        while size > 1 or self.in_pieces(1, gone):
            if size > 1:
                self.in_pieces(size, gone)
                size //= 2
            if self.is_late():
                return

    def rounder_times(self):
        """All times as multiples of the largest power of ten that can be, and then each gap as small and round as it can be."""
        rounded = lambda step: gaps_of([it.time // step * step for it in self.case.events])
        allowed = lambda gaps: [max(gap, self.least(place)) for place, gap in enumerate(gaps)]
        self.simplest([with_gaps(self.case, allowed(rounded(step))) for step in (10_000, 1_000, 100, 10)])
        self.in_all_pieces(lambda piece: NOTHING._replace(gaps={place: self.least(place) for place in piece}))
        for place, gap in enumerate(self.gaps()):
            least = max(gap // 1000, self.least(place))
            self.simplest([edited(self.case, NOTHING._replace(gaps={place: it})) for it in ROUND if least <= it < gap])

    def gaps(self):
        return gaps_of([it.time for it in self.case.events])

    def least(self, place):
        """The least that the gap before an event may become. Where a run is compared with a first run, lines that are far apart stay so, as
        in the variants of a trace: what comes late there isn't made to come in the midst of the others."""
        gap = self.gaps()[place]
        return 0 if place == 0 or gap <= self.far else min(gap, next(it for it in ROUND if it > self.far))

    def lower_channels(self):
        """Low numbers of channels, also where an arrival's value is one."""
        for channel in sorted({it.channel for it in self.case.events if it.channel is not None}):
            others = {it.channel for it in self.case.events}
            self.simplest([with_channel(self.case, channel, it) for it in range(min(channel, CHANNELS))
                           if it not in others])

    def rounder_values(self):
        """Values with fewer digits behind which they have zeros, or of one digit."""
        digits = max((len(str(abs(it.value))) for it in self.case.events), default=0)
        for power in range(digits, 0, -1):
            cut = lambda place, power=power: cut_at(self.case.events[place].value, 10**power)
            self.in_all_pieces(lambda piece: NOTHING._replace(values={place: cut(place) for place in piece}))
        for value in range(1, 3):
            is_larger = lambda place: abs(self.case.events[place].value) > value
            self.in_all_pieces(lambda piece: NOTHING._replace(values={place: value for place in piece if is_larger(place)}))

    def fewer_options(self):
        """Options at their defaults, several together where one depends on another, and then tickets of single threads."""
        for names in (GATE, ("rule", "tickets"), *[(it,) for it in self.case.options]):
            left = {name: value for name, value in self.case.options.items() if name not in names}
            self.simplest([self.case._replace(options=left)])
        for ticket in str(self.case.options.get("tickets", "")).split(","):
            left = [it for it in str(self.case.options.get("tickets", "")).split(",") if it != ticket]
            if ticket and left:
                self.simplest([self.case._replace(options=self.case.options | {"tickets": ",".join(left)})])


def merged(values):
    """One value of several."""
    found = {}
    for it in values:
        found |= it
    return found


def cut_at(value, step):
    """A value without the digits below a power of ten."""
    return value // step * step if value >= 0 else -(-value // step * step)


def gaps_of(times):
    """The gap before each time, of the first from 0 on."""
    return [time - before for before, time in zip([0, *times], times)]


def with_gaps(case, gaps):
    return case._replace(events=[it._replace(time=time) for it, time in zip(case.events, itertools.accumulate(gaps))])


def edited(case, edit):
    """A case with an edit made."""
    if edit.gaps:
        gaps = gaps_of([it.time for it in case.events])
        case = with_gaps(case, [edit.gaps.get(place, gap) for place, gap in enumerate(gaps)])
    if edit.values:
        case = with_values(case, edit.values)
    return without(case, edit.gone) if edit.gone else case


def without(case, gone):
    """A case without the events at some places, and without those that they stand for in the first run."""
    kept = [it for place, it in enumerate(case.events) if place not in gone]
    if not case.first:
        return case._replace(events=kept)
    lines = {case.events[it].line for it in gone} - {it.line for it in kept}
    places, first = {}, []
    for place, it in enumerate(case.first):
        if place not in lines:
            places[place] = len(first)
            first.append(it)
    return case._replace(events=[it._replace(line=places.get(it.line)) for it in kept], first=first)


def with_channel(case, channel, other):
    """A case with another number of a channel."""
    is_arrival_of = lambda it: it.channel is None and it.value == channel
    moved = lambda it: it._replace(channel=other) if it.channel == channel else it._replace(value=other) if is_arrival_of(it) else it
    return case._replace(events=list(map(moved, case.events)), first=list(map(moved, case.first)))


def with_values(case, values):
    """A case with other values at some places, and in the events that they stand for in the first run."""
    lines = {case.events[place].line: value for place, value in values.items()}
    found = [it._replace(value=values.get(place, it.value)) for place, it in enumerate(case.events)]
    return case._replace(events=found,
                         first=[it._replace(value=lines.get(place, it.value)) for place, it in enumerate(case.first)])


def paired(found, first):
    """Events with their places in a first trace: the k-th event of one channel and value stands for the k-th there."""
    places = collections.defaultdict(collections.deque)
    for place, it in enumerate(first):
        places[it.channel, it.value].append(place)
    take = lambda it: places[it.channel, it.value].popleft() if places[it.channel, it.value] else None
    return [it._replace(line=take(it)) for it in found]
