"""Variants of a trace: the same events at other times, in another order, some lost or doubled.

Each change takes events (events.py) and a source of chance, and gives events whose times never fall. What keeps its
order is what one peer sends: the messages of a channel, and the arrivals whose value is its number, if it has messages.
Where two lines are far apart, with ten times the usual gap between them, they stay so: what the lines before set off is
over by then, in the trace that is given and in each variant.
"""
import collections, statistics

from .lines import LAST_TIME

FAR = 10  # times the usual gap
MOST_BURST = 32  # lines of one burst


class Varied:
    """A trace to be varied, with what its changes are measured by."""

    def __init__(self, events):
        self.events = list(events)
        gaps = [after.time - before.time for before, after in zip(self.events, self.events[1:])]
        self.gap = max(1, int(statistics.median([it for it in gaps if it] or [1])))
        channels = {it.channel for it in self.events if it.channel is not None}
        self.peers = sorted(channels)
        self.is_peer = channels.__contains__

    def peer(self, event):
        """The channel of the peer that sends an event, or None of one that stands alone."""
        if event.channel is not None:
            return event.channel
        return event.value if self.is_peer(event.value) else None

    def ticks(self, chance, most):
        """A number of ticks from 1 to `most` usual gaps, of each size as likely."""
        return int(2 ** chance.uniform(0, max(self.gap * most, 2).bit_length()))

    def is_far(self, before, after):
        return after.time - before.time > FAR * self.gap

    def phases(self, events):
        """The events in pieces that are far apart."""
        pieces = [[]]
        for event in events:
            if pieces[-1] and self.is_far(pieces[-1][-1], event):
                pieces.append([])
            pieces[-1].append(event)
        return pieces if events else []

    def with_peers(self, given, shuffled):
        """Shuffled events, of which those of a peer change places so that they come as they were given."""
        by_peer = collections.defaultdict(collections.deque)
        for it in given:
            by_peer[self.peer(it)].append(it)
        return [it if self.peer(it) is None else by_peer[self.peer(it)].popleft()._replace(time=it.time)
                for it in shuffled]


def times(varied, events, chance):
    """Other gaps between the lines, whose order stays: all larger or smaller, each by chance, or each line moved a little."""
    how = chance.choice(("rate", "gaps", "moves"))
    rate, most = 2 ** chance.uniform(-3, 2), varied.ticks(chance, 2)
    found, before = [], None
    for event in events:
        gap = event.time - before.time if before else event.time
        if before and gap <= FAR * varied.gap:
            gap = {"rate": gap * rate, "gaps": gap * chance.expovariate(1), "moves": max(0, gap + chance.randint(-most, most))}[how]
        time = (found[-1].time if found else 0) + int(gap)
        found.append(event._replace(time=min(time, LAST_TIME)))
        before = event
    return found


def order(varied, events, chance):
    """Lines of one time in any order, and lines moved past one another."""
    most = chance.choice((0, varied.ticks(chance, 4)))
    found = []
    for piece in varied.phases(events):
        first, last = piece[0].time, piece[-1].time
        moved = [it._replace(time=min(max(it.time + chance.randint(-most, most), first), last)) for it in piece]
        found += varied.with_peers(piece, sorted(moved, key=lambda it: (it.time, chance.random())))
    return found


def bursts(varied, events, chance):
    """Some runs of lines that come at one time, that of their first or of their last."""
    found, pieces = [], varied.phases(events)
    for piece in pieces:
        for _ in range(chance.randint(1, 3)):
            size = min(chance.randint(2, MOST_BURST), len(piece))
            start = chance.randint(0, len(piece) - size)
            time = piece[chance.choice((start, start + size - 1))].time
            piece[start : start + size] = [it._replace(time=time) for it in piece[start : start + size]]
        found += piece
    return found


def late(varied, events, chance):
    """A peer whose lines come later from one of them on; of a trace without messages, one line."""
    if not events:
        return events
    first = chance.randrange(len(events))
    peer, ticks = varied.peer(events[first]), varied.ticks(chance, 100)
    is_late = lambda place, it: place == first or place > first and peer is not None and varied.peer(it) == peer
    moved = [it._replace(time=min(it.time + ticks, LAST_TIME)) if is_late(place, it) else it
             for place, it in enumerate(events)]
    return sorted(moved, key=lambda it: it.time)


def silent(varied, events, chance):
    """A peer that falls silent: its messages are missing, from one of them to its next arrival."""
    places = [place for place, it in enumerate(events) if it.channel is not None]
    if not places:
        return events
    first, found, is_silent = chance.choice(places), [], False
    peer = events[first].channel
    for place, it in enumerate(events):
        is_silent = place == first or is_silent and not (it.channel is None and it.value == peer)
        if not (is_silent and it.channel == peer):
            found.append(it)
    return found


def loss(varied, events, chance):
    """Lines that are lost, each as likely as any other."""
    share = 2 ** chance.uniform(-8, -1)
    return [it for it in events if chance.random() >= share]


def doubles(varied, events, chance):
    """Lines that come twice, the second time at once or later."""
    share = 2 ** chance.uniform(-8, -1)
    found = []
    for it in events:
        found.append(it)
        if chance.random() < share:
            ticks = chance.choice((0, varied.ticks(chance, 10)))
            found.append(it._replace(time=min(it.time + ticks, LAST_TIME), line=None))
    return sorted(found, key=lambda it: it.time)


CHANGES = {it.__name__: it
           for it in (loss, silent, doubles, late, order, times, bursts)}  # in the order in which they are made
FAULTS = ("loss", "silent", "doubles")  # those that change what is sent


def variant(varied, kinds, chance):
    """A variant of a trace by some of these kinds of change, at least one if there is any."""
    drawn = [it for it in CHANGES if it in kinds and chance.random() < 0.5]
    events = varied.events
    for kind in drawn or [chance.choice([it for it in CHANGES if it in kinds])] if kinds else ():
        events = CHANGES[kind](varied, events, chance)
    return events
