"""A part of the runs of tools/explore or tools/sweep, on a machine to which runs/hosts.py has handed it: prints a line of
JSON for each run."""
import json, os

from . import exploring, sweeping


def main(folder, start, stop):
    with open(os.path.join(folder, "work.json"), encoding="utf-8") as file:
        given = json.load(file)
    source = os.path.join(folder, "source.c")
    traces = [os.path.join(folder, f"trace_{number}") for number in range(given["traces"])]
    run = {"explore": explored, "sweep": swept}[given["work"]](given["value"], folder, source, traces)
    for number in range(start, stop):
        print(json.dumps([number, run(number)]), flush=True)


def explored(value, folder, source, traces):
    exploration = exploring.begun(value, folder, source, traces)
    return lambda number: exploration.run(number)


def swept(value, folder, source, traces):
    """A row: the number of its trace, and its options."""
    return lambda number: sweeping.one_run(source, traces[value["rows"][number][0]], value["answers"],
                                           value["rows"][number][1])
