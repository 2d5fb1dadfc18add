"""A run that can be moved forwards and backwards: it keeps copies of some of its moments, and goes back by running
again from the last copy before."""
from .replayed import Replayed

MOST_COPIES, FIRST_INTERVAL = 64, 4096


class Timeline:
    """`now` is the run at a moment."""

    def __init__(self, code, caps, log, chunks):
        self.now = Replayed(code, caps, log, chunks)
        self.copies, self.interval, self.end = [self.now.copy()], FIRST_INTERVAL, None
        self.is_interrupted = lambda: False

    def advance(self):
        """Makes a move, and keeps a copy now and then. Answers whether there was a move to make."""
        now = self.now
        if not now.advance():
            self.end = now.time
            return False
        if now.time >= self.copies[-1].time + self.interval:
            self.copies.append(now.copy())
            if len(self.copies) > MOST_COPIES:
                self.copies, self.interval = self.copies[::2], self.interval * 2
        return True

    def back_to(self, is_before):
        """Goes back to the last copy that is before a moment."""
        self.now = next(it for it in reversed(self.copies) if is_before(it)).copy()

    def go_to_time(self, time):
        if not self.copies[0].time <= self.now.time <= time or self.copies[-1].time > self.now.time:
            self.back_to(lambda it: it.time <= time)
        while self.now.time < time and self.advance():
            pass

    def go_to_line(self, line, steps=0):
        """Goes to the moment after so many lines of the log and steps. Answers whether the run comes there."""
        wanted = (line, steps)
        self.back_to(lambda it: (it.line, it.steps) <= wanted)
        while (self.now.line, self.now.steps) < wanted and self.advance():
            pass
        return (self.now.line, self.now.steps) == wanted

    def forward(self, search):
        """Makes at least one move, up to the first hit of a search (stops.py). Answers it: None at the end of the run,
        "interrupted" if that is so."""
        search.begin(self.now)
        while self.advance():
            if found := search.changed(self.now) or search.at(self.now):
                return found
            if not self.now.time & 4095 and self.is_interrupted():
                return "interrupted"
        return None

    def backward(self, search):
        """Goes back to the last hit before this moment, at a watch to the moment before the change. Answers it: None at
        the start of the run, where it then is."""
        limit, start = self.now.time, self.now.time
        while limit > 0:
            self.back_to(lambda it: it.time < limit)
            begun, last = self.now.time, None
            search.begin(self.now)
            while True:
                if self.now.time < limit and (found := search.at(self.now)):
                    last = (self.now.time, found)
                if self.now.time >= limit or not self.advance():
                    break
                if found := search.changed(self.now):
                    last = (self.now.time - 1, found)
            if last:
                self.go_to_time(last[0])
                return last[1]
            if self.is_interrupted():
                self.go_to_time(start)
                return "interrupted"
            limit = begun
        self.go_to_time(0)
        return None
