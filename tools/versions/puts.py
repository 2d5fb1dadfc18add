"""Which `put` of a source made each output of a run: the source is run once more along its log."""
from explained.tokens import tokens_of
from runs import replay, translation
from runs.places import line_starts, site_of
from runs.story import Segment


class Sited(translation.Translation):
    """Hands each `put` the number of its token too."""

    def call(self, name):
        token, text = self.at - 1, super().call(name)
        return f"put({token}, {text.removeprefix('put(')}" if name == "put" else text


def sited(source):
    """The translation of a source in which each `put` says where it stands."""
    return translation.translated(source, Sited)


class Puts(replay.Replay):
    """A replay that notes the token of each `put`, in order."""

    def __init__(self, source):
        self.tokens = []
        super().__init__(source, sited)

    def put(self, token, value):
        self.tokens.append(token)
        return super().put(value)


def place_of_output(number, source, happenings):
    """The place of the `put` of an output, counted from 0, as a site; None where the replay doesn't come so far."""
    puts, outputs = Puts(source), 0
    for it in happenings:
        puts.tell(it)
        if isinstance(it, Segment):
            outputs += len(it.outputs)
            if outputs > number:
                break
    if puts.is_lost or len(puts.tokens) <= number:
        return None
    token = tokens_of(source)[puts.tokens[number]]
    return site_of(token, None, line_starts(source))
