"""Names of threads, nodes and stacks, for what a reader sees."""
from .places import MOST_SITES_IN_A_KEY
from .story import END, START

MAIN = 0  # the number of main's thread


class Names:
    """Names over the places of a source and the keys that its log has told so far."""

    def __init__(self, places, keys):
        self.places, self.keys = places, keys
        self.functions = {MAIN: "main"}  # thread: the function that it started in, where it is known

    def node(self, node):
        return "start" if node == START else "end" if node == END else self.places.described(self.keys[node])

    def wait(self, node):
        """The call at a node alone, as `accept 14:19`."""
        site = self.places.sites[self.keys[node][0]]
        return f"{site.callee} {site.place()}"

    def learn(self, segment):
        """Notes the function of a segment's thread. Answers whether it is known only now."""
        if segment.thread in self.functions or segment.end_node is None or segment.end_node <= END:
            return False
        key = self.keys[segment.end_node]
        if len(key) >= MOST_SITES_IN_A_KEY:
            return False  # calls above these may be missing
        self.functions[segment.thread] = self.places.path(key)[0]
        return True

    def function(self, thread):
        """The function that a thread started in; where no wait has told it, the only one that the
        source can start, or None."""
        only = list(self.places.starters)
        return self.functions.get(thread) or (only[0] if len(only) == 1 else None)

    def thread(self, thread):
        function = self.function(thread)
        return f"{thread} {function}" if function else str(thread)

    def forget(self, thread):
        """Of a thread that has ended nothing more is asked."""
        self.functions.pop(thread, None)
