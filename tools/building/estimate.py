"""How long a build still takes, by what its first crates took on this machine."""
FEWEST = 5  # crates, before which no estimate is given
LEAST = 1.5  # minutes of the table that they make up


class Estimate:
    """`usual` has the minutes that the proof of each crate took when all were measured, `chains` the minutes of the
    longest chain of proofs from each crate up to the program."""

    def __init__(self, usual, chains, processors):
        self.usual, self.chains, self.processors = usual, chains, processors
        self.took = {}

    def note(self, name, seconds):
        """Takes in that the proof of a crate took so many seconds."""
        self.took[name] = seconds

    def factor(self):
        """How many times as long as usual a proof takes here, or nothing if too few are done."""
        usual = sum(self.usual[it] for it in self.took)
        return sum(self.took.values()) / 60 / usual if len(self.took) >= FEWEST and usual >= LEAST else None

    def minutes_left(self, left):
        """The minutes that the crates take which are left or under way, or nothing if no estimate can be given: as
        long as the longest chain of them at the least, and as long as all of them take on all processors."""
        factor = self.factor()
        if factor is None or not left:
            return None
        return factor * max(max(self.chains[it] for it in left), sum(self.usual[it] for it in left) / self.processors)

    def in_words(self, left):
        """What is added to a line of progress."""
        minutes = self.minutes_left(left)
        return "" if minutes is None else f", about {max(1, round(minutes))} min left" if minutes >= 1 else ", less than a minute left"
