"""All changes of a variable along a run, and all hits of a breakpoint, in one pass."""
import collections

from .stops import Search

Change = collections.namedtuple("Change", "clock moment thread place old new read writes")
Change.__doc__ = """A change: the clock at which its segment began, the moment after it, its thread and the place of its
step, both values, the last moment at which the thread read the variable before it, as a clock and a place, and the
writes of other threads since then, each as clock, thread and value."""


def place_of(run, name):
    """The place of the next step, and None between segments."""
    frame = run.frame_now()
    return f"{name}:{frame.does.line}:{frame.does.column}" if frame else None


def changes(session, watch):
    """Each change of what a watch looks at, from this moment to the end of the run."""
    timeline, reads, writes, readers = session.timeline, {}, [], {}
    watch.begin(timeline.now)
    while True:
        run = timeline.now
        place, thread = place_of(run, session.name), run.running and run.running.number
        if place and is_read(watch, run, readers):
            reads[thread] = (run.clock, place, len(writes))
        clock = run.clock
        if not timeline.advance():
            return
        if change := watch.change(run):
            if thread is None:  # the result of a blocking call, which arrives as its thread is chosen
                thread, clock, place = run.running.number, run.clock, place_of(run, session.name)
            *read, since = reads.get(thread, (len(writes),))
            others = [it for it in writes[since:] if it[1] != thread]
            writes.append((clock, thread, change[1]))
            yield Change(clock, run.moment, thread, place, *change, tuple(read) or None, others)


def is_read(watch, run, readers):
    """Whether the next step may read what is watched; `readers` keeps the instructions that have it at all."""
    does = run.running.frames[-1].does
    if does not in readers:
        readers[does] = any(it.variable in watch.variables for it in does.reads)
    return readers[does] and watch.is_read(run)


def hits(session, breakpoint_):
    """Each hit of a breakpoint from this moment to the end of the run: clock, moment, thread, place and locals."""
    search = Search([breakpoint_], [])
    while session.timeline.forward(search):
        run = session.timeline.now
        yield run.clock, run.moment, run.running.number, place_of(run, session.name), run.running.frames[-1]


def row_of(change, shown):
    """A change as cells of a table."""
    read = f"read at {change.read[0]:,}, {change.read[1]}" if change.read else "not read before"
    between = "".join(
        f"; thread {thread} wrote {shown(value)} between, at {clock:,}" for clock, thread, value in change.writes
    )
    return [
        f"{change.clock:,}",
        str(change.thread),
        change.place,
        f"{shown(change.old)} -> {shown(change.new)}",
        read + between,
    ]


def hit_row(hit, slots_shown):
    clock, _, thread, place, frame = hit
    names = [it for it in frame.does.scope if it.name]
    values = ", ".join(f"{it.name} = {slots_shown(frame.words[frame.function.slots[it]])}" for it in names)
    return [f"{clock:,}", str(thread), place, values]


def table(heads, rows):
    """The lines of a table: its columns below their heads, the first two to the right."""
    cells = [heads, *rows]
    widths = [max(len(it[column]) for it in cells) for column in range(len(heads))]
    for line in cells:
        aligned = [
            it.rjust(wide) if column < 2 else it.ljust(wide) for column, (it, wide) in enumerate(zip(line, widths))
        ]
        yield "  ".join(aligned).rstrip()
