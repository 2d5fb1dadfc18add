"""The events of a trace: an arrival for each time, and behind it the messages of its connection."""
import heapq, itertools

from .lines import CHANNELS, Refused


class Messages:
    """The messages of each connection: `count` of them, the first `gap` ticks behind the arrival
    and `gap` between them, with values from `values()`. `last`, if it isn't None, is the value of
    one more, behind them."""

    def __init__(self, count, gap, values, last, channels=CHANNELS):
        self.count, self.gap, self.values, self.last, self.channels = count, gap, values, last, channels

    def of(self, time, channel):
        """The messages of a connection that came at this time."""
        said = [self.values() for _ in range(self.count)] + ([] if self.last is None else [self.last])
        return [(time + (number + 1) * self.gap, channel, value) for number, value in enumerate(said)]


def connections(times, messages):
    """An arrival for each time, whose value is the number of a channel, and the messages of that
    connection. A channel is used again only when its messages have all come, the one that is free
    for the longest time first."""
    free = [(0, channel) for channel in range(messages.channels)]  # since when, and which
    coming = []
    order = itertools.count()  # events of one time stay in the order in which they were made
    for time in times:
        while coming and coming[0][0] <= time:
            yield event_of(heapq.heappop(coming))
        since, channel = heapq.heappop(free)
        if since > time:
            raise Refused(f"at time {time:,} all {messages.channels} channels still have messages to come: ask for fewer or faster messages, or rarer arrivals")
        yield time, None, channel
        said = messages.of(time, channel)
        for at, _, value in said:
            heapq.heappush(coming, (at, next(order), channel, value))
        heapq.heappush(free, (said[-1][0] if said else time, channel))
    while coming:
        yield event_of(heapq.heappop(coming))


def event_of(entry):
    time, _, channel, value = entry
    return time, channel, value
