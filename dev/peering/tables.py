"""The tables of dev/peers: for each task a row a system."""
import statistics


def spread(values, form):
    """The median, and the least and the greatest in brackets."""
    median = form.format(statistics.median(values))
    return median if len(values) == 1 else f"{median} ({form.format(min(values))} to {form.format(max(values))})"


COLUMNS = {
    "waiters": (
        ("bytes a thread", "{:,.0f}", lambda its, number: (its["after"] - its["before"]) / number),
        ("seconds to start", "{:.3f}", lambda its, number: its["start"]),
        ("seconds to wake", "{:.3f}", lambda its, number: its["wake"]),
    ),
    "handing": (("switches a second", "{:,.0f}", lambda its, number: 2 * number / its["seconds"]),),
    "pool": (("requests a second", "{:,.0f}", lambda its, number: number / its["seconds"]),),
    "deep": (("MB at the deepest", "{:.2f}", lambda its, number: (its["deep"] - its["before"]) / 1e6),),
    "day": (("", "{:,.2f}", lambda its, number: its["value"]),),
}
TITLES = {
    "waiters": "{:,} threads that wait",
    "handing": "Two threads that hand over {:,} times each",
    "pool": "{:,} requests through a pool of 16",
    "deep": "{:,} threads that wait, one recursion 10,000 deep",
    "day": "A developer's day with Capriccio, logs of {:,} requests",
}


def tables(found):
    """The lines of all tables, in Markdown."""
    for (task, number, stack), rows in found.items():
        fixed = "" if task != "deep" else f", fixed stacks of {stack:,} KiB"
        yield f"\n{TITLES[task].format(number)}{fixed}\n"
        names = [name for name, _, _ in COLUMNS[task]]
        yield f"| {'What' if task == 'day' else 'System'} | " + " | ".join(names) + " |"
        yield "|---" * (len(names) + 1) + "|"
        for system, results in rows.items():
            good = [its for its, _ in results if its]
            if not good:
                yield f"| {system} | {results[0][1]} |" + " |" * (len(names) - 1)
                continue
            cells = [spread([of(its, number) for its in good], form) for _, form, of in COLUMNS[task]]
            missed = "" if len(good) == len(results) else f", {len(good)} of {len(results)} rounds"
            yield f"| {system}{missed} | " + " | ".join(cells) + " |"
