"""Orders of threads by chance: which of the ready threads runs next.

In most orders each thread has a priority by chance, the ready thread with the greatest runs, and at a few choices the
one that would run falls behind all others: a mistake that needs few unlucky switches is likely to meet them (Burckhardt
et al., "A randomized scheduler with probabilistic guarantees of finding bugs", ASPLOS 2010). In the others each choice
is by chance alone.
"""
import random

MOST_FALLS = 5  # of threads with the greatest priority, in an order


class Order:
    """An order, drawn from a number; `lines` are those of the trace, by which the length of a run is guessed."""

    def __init__(self, number, lines):
        self.chance = random.Random(f"order {number}")
        self.is_by_priority = self.chance.random() < 0.75
        longest = 3 * lines + 30
        self.falls = {self.chance.randrange(longest) for _ in range(self.chance.randint(0, MOST_FALLS))}
        self.priorities, self.lowest, self.choices = {}, 0, 0

    def choose(self, ready):
        """The thread that runs next, of some that are ready, which are in the order of their numbers."""
        if not self.is_by_priority:
            return self.chance.choice(ready)
        for thread in ready:
            self.priorities.setdefault(thread, self.chance.random())
        if self.choices in self.falls:
            self.fall(max(ready, key=self.priorities.get))
        self.choices += 1
        return max(ready, key=self.priorities.get)

    def fall(self, thread):
        """Puts a thread behind all others, as one that yields."""
        self.lowest -= 1
        self.priorities[thread] = self.lowest
