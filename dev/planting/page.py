"""The made part of docs/MUTANTS.md."""
import re

from planting import bugs
from repository import pages

REFUSED = ("refused", "named", "limit")


def table():
    """A row for each crate, then each bug that no proof refuses."""
    known, all_bugs = bugs.results(), bugs.all_bugs()
    rows, left = [], []
    for crate in sorted({it.crate for it in all_bugs}):
        own = [it for it in all_bugs if it.crate == crate]
        came = {it.name: bugs.result_of(it, known) for it in own}
        tried = [it for it in own if came[it.name]]
        proof = [it for it in tried if came[it.name].came in REFUSED]
        past = [it for it in tried if it not in proof]
        by_test = [it for it in past if it.test]
        rows.append(pages.row(f"`{crate}`",
                              *map(str, (len(own), len(tried), len(proof), len(by_test), len(past) - len(by_test)))))
        left += [pages.row(f"`{crate}`", it.name, it.what, it.free or (f"`{it.test}` refuses it" if it.test else "open")) for it in past]
    total = [sum(int(row.split(" | ")[at].rstrip(" |")) for row in rows) for at in range(1, 6)]
    planted = [it for it in known.values() if it.came == "planted"]
    lines = [*totals(total, planted), "## Bugs written by hand", "",
             *pages.table("Crate", "bugs", "tried", "refused by proof", "by a test", "survived"), *rows,
             pages.row("all", *map(str, total)), ""]
    if left:
        lines += ["## What no proof refuses", "",
                  *pages.table("Crate", "Bug", "What it changes", "Why it is free, or what refuses it"), *left, ""]
    if planted:
        lines += [
            "## Wrong bodies by `rt plant`",
            "",
            "A function counts as untested if no body that gives up could be judged: most of these are laws, which return nothing."
            " One without a clause promises nothing.",
            "`met` counts the bodies that the contract allows."
            " They mean the same as the real one (`either_holds_call` of `hoist_parts` with its arguments swapped);"
            " report out of memory, which may happen at any time (`put_all`, `CleanSink` and `CleanShelf` of `cap_io`);"
            " return needs that are always met, or no value where another call finds it, which costs time alone (`Needs::of` and `ReadyTree::needs` of `ready_tree`, `short_value` of `source_items`);"
            " give up in `run_history`, where only `History::tell` has a clause about when (a report of a run would fail then, and `dev/check_examples` refuses that);"
            " or are in `report` and `report_text`: a text may end early if memory runs out, and most of what they append is only tested (docs/PROOFS.md).",
            "`others` counts those that weren't judged: they don't compile, take too long, miss only a callee's `requires`, or weren't reached within three to ten minutes a crate.",
            "",
        ]
        heads = "Crate", "functions", "untested", "without a clause", "wrong bodies", "refused", "met", "others"
        all_plants = [sum(column) for column in zip(*map(plants_numbers, planted))]
        lines += [*pages.table(*heads), *map(plants_row, planted), pages.row("all", *map(str, all_plants)), ""]
    return "\n".join(lines)


def totals(by_hand, planted):
    """The section with the totals of both kinds, of the total row by hand and of the results of `rt plant`."""
    bugs_by_hand, tried, proof, by_test, survived = by_hand
    share = f"{proof:,}, {proof / tried:.1%} of those tried" if tried else "none"
    *_, bodies, refused, met, others = [sum(column) for column in zip(*map(plants_numbers, planted))] or [0] * 7
    return [
        "## Totals",
        "",
        *pages.table("Bugs", "Number", "Refused by proof", "Refused by a test", "Not refused", "Not judged"),
        pages.row("by hand", f"{bugs_by_hand:,}", share, f"{by_test:,}", f"{survived:,}", f"{bugs_by_hand - tried:,}"),
        pages.row("by `rt plant`", f"{bodies:,}", f"{refused:,}, {refused / (refused + met):.1%} of those judged"
                  if refused else "none", "not tried", f"{met:,}", f"{others:,}"),
        "",
    ]


def plants_numbers(result):
    """The numbers of a crate's row, of the last line of `rt plant`: words of the form KIND=COUNT."""
    count = {kind: int(number) for kind, number in re.findall(r"([a-z-]+)=(\d+)", result.line)}
    refused, met = count["refused"], count["proves"] + count["same"]
    others = sum(count[it] for it in ("elsewhere", "not-judged", "not-source", "not-run"))
    return count["planted-in"], count["untested"], count["no-ensures"], refused + met + others, refused, met, others


def plants_row(result):
    return pages.row(f"`{result.crate}`", *map(str, plants_numbers(result)))
