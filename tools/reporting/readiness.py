"""Since when a thread that is chosen was ready: the second part of its wait. The source is replayed beside the log."""
from runs.finds import caps_of
from runs.following import Readiness
from runs.story import Segment


class Ready(Readiness):
    """Tells for each segment since when its thread was ready. A thread at `accept` is never ready before it is chosen:
    there the request waits."""

    def __init__(self, source, options):
        super().__init__(source, caps_of({"caps": options.get("--caps", "")}))
        self.since = None

    def tell(self, it):
        if isinstance(it, Segment):
            self.since = it.start
            if it.cut:
                self.look(it.start)
                self.note(it.thread, it.start)
                return
        super().tell(it)

    def note(self, thread, clock):
        since = self.ready_from.get(thread, clock)
        super().note(thread, clock)
        if not self.replay.is_lost:
            self.since = min(since, clock)

    def uses(self):
        """The units in use of each resource; none where the source can't be replayed."""
        return {} if self.replay.is_lost else self.replay.uses
