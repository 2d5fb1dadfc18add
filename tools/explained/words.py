"""Why some words are not a command line: the first that is wrong, and what it may be."""
import re

from .commands import COMMANDS, MOST_POOL, OPTIONS, READING, REPORT_OPTIONS, form_of
from .text import listed, nearest, quoted, some
from reporting.asked import wrong_value as wrong_layout

TICKETS_FORM = "expected T=N,.. as in 1=3,2=1: at most 64 threads from 0 to 1,000,000 in increasing order, each with 1 to 1,024 tickets"
RUNS = ("serve", "run")  # the commands that are runs
OF_RUNS = ("--timeline", "--graph", "--html", "--trace", "--folded", "--requests", "--coverage", "--json", "--all", "--by",
           "--expect", "--unit")  # the options of the report that need one
CAPS_FORM = "expected R=N,.. as in 1=4,3=10: resources from 1 to 7 in increasing order, each with 1 to 1,000,000 units"


def number_of(text):
    """The number that a canonical decimal spells, or None."""
    return int(text) if re.fullmatch(r"0|[1-9][0-9]{0,18}", text) else None


def forms():
    return ["note: the commands are", *[f"        {form_of(it)}" for it in COMMANDS],
            "note: `--help` explains each option"]


def without_report(words):
    """The words behind the options of the report, those options by name, and what is wrong with the
    first that is none."""
    own, rest = {}, list(words)
    while rest and rest[0].startswith("-"):
        word = rest.pop(0)
        if word not in REPORT_OPTIONS:
            return own, rest, wrong_report_option(word)
        if REPORT_OPTIONS[word][0] is None:
            own[word] = None
        elif rest:
            own[word] = rest.pop(0)
            if fault := wrong_report_value(word, own[word]):
                return own, rest, fault
        else:
            return own, rest, f"`{word}` must be followed by {BEHIND[REPORT_OPTIONS[word][0]]}"
    return own, rest, None


BEHIND = {  # what stands behind an option of the report
    "FILE": "the name of a file",
    "LOG": "the name of a log",
    "N": "the number of a request, from 1",
    "CLOCK": "a clock",
    "HOW": "first or value",
    "WAY": "output, input or function",
    "WHAT": "answered, no-drops or no-deadlock",
    "UNIT": "a unit and its ticks, as in us=10",
}


def wrong_report_value(name, text):
    """Why the value behind an option of the report isn't as it should be, if it isn't."""
    kind = REPORT_OPTIONS[name][0]
    if kind == "HOW" and text not in ("first", "value"):
        return f"{quoted(f'{name} {text}')}: expected first, for outputs in the order of the requests, or value, for outputs with their values"
    if fault := wrong_layout(name[2:], text):
        return f"{quoted(f'{name} {text}')}: {fault}"
    if kind in ("N", "CLOCK"):
        least = 0 if name == "--from" else 1
        if number_of(text) is None:
            return f"{quoted(f'{name} {text}')}: expected a plain decimal number from {least}, without a sign or a leading zero"
        if number_of(text) < least:
            return f"{quoted(f'{name} {text}')}: the minimum is {least}"
    return None


def wrong_report_option(word):
    """Why a word before the command is no option of the report."""
    if word in OPTIONS:
        return f"`{word}` is an option of the run: it goes after the command"
    name, sign, value = word.partition("=")
    if sign and name in REPORT_OPTIONS:
        return f"{quoted(word)}: the value is a separate argument: {name} {value}"
    return f"{quoted(word)} is not an option of report{nearest(word, REPORT_OPTIONS)}"


def why_report(given):
    """What is wrong with the words of the report, a line each."""
    return wrong_before_run(given) or why(without_report(given)[1])


def wrong_before_run(given):
    """What is wrong with the options of the report and the command behind them, a line each; nothing
    where the words behind the command decide."""
    own, rest, fault = without_report(given)
    fault = fault or wrong_window(own)
    if fault:
        return [f"note: {fault}"]
    if not rest:
        return ["note: a command is missing after the options of report: serve or run; `report --help` lists all options"]
    late = [it for it in rest[1:] if it in REPORT_OPTIONS]
    if late:
        return [f"note: `{late[0]}` is an option of report: it goes before the command"]
    if rest[0] not in COMMANDS:
        return [f"note: `{name}` takes `{value}` as the name of its file: is one missing before `{value}`?" for name, value in own.items() if value in COMMANDS][:1]
    if "--log" in own and rest[0] not in RUNS:
        return [f"note: after `--log {own['--log']}`, expected the arguments of the run that made the log, serve or run; found {quoted(rest[0])}"]
    needs = [it for it in OF_RUNS if it in own]
    if needs and rest[0] not in RUNS:
        return [f"note: `{needs[0]}` needs a run: expected serve or run, found {quoted(rest[0])}"]
    return []


def wrong_window(own):
    """Why the window of a report is none, if it is none."""
    if "--from" in own and "--to" in own and number_of(own["--to"]) < number_of(own["--from"]):
        return f"`--to {own['--to']}` is below `--from {own['--from']}`"
    return None


def why(given):
    """What is wrong with the words, a line each."""
    if not given:
        return ["note: a command is missing", *forms()]
    command = given[0]
    if command in REPORT_OPTIONS:
        return [f"note: `{command}` is an option of ./report, not of ./capriccio"]
    if command not in COMMANDS:
        return [f"note: {quoted(command)} is not a command{nearest(command, COMMANDS)}", *forms()]
    named, options, fault = split(command, given[1:])
    fault = fault or wrong_names(command, named) or wrong_values(command, options)
    return [f"note: {fault or 'invalid combination of arguments'}", f"        {form_of(command)}"]


def split(command, rest):
    """The names and the options among the words behind the command, and what is wrong with the
    first word that is neither."""
    named, options, words = [], {}, list(rest)
    while words:
        word = words.pop(0)
        if not word.startswith("-") and word:
            named.append(word)
            continue
        fault = wrong_option(command, word, options, words)
        if fault:
            return named, options, fault
        options[word] = words.pop(0)
    return named, options, None


def wrong_option(command, word, options, words):
    """Why the word is no option with a value behind it, if it is none."""
    if not word:
        return "an argument is empty"
    name, sign, value = word.partition("=")
    if sign and name in OPTIONS:
        return f"{quoted(word)}: the value is a separate argument: {name} {value}"
    if word in REPORT_OPTIONS:
        return f"`{word}` is an option of ./report: it goes before the command"
    if word not in OPTIONS:
        return f"{quoted(word)} is not an option{nearest(word, OPTIONS)}" if word.startswith("--") else f"{quoted(word)}: options begin with `--`, and a file name does not begin with `-`"
    if command not in OPTIONS[word].commands:
        return f"`{word}` is not an option of `{command}`, but of {listed(OPTIONS[word].commands)}"
    if word in options:
        return f"`{word}` is given twice"
    if not words or words[0].startswith("-"):
        return f"`{word}` has no value"
    return None


def wrong_names(command, named):
    """Why these aren't the names that the command takes, if they aren't."""
    wanted = COMMANDS[command].names
    if len(named) != len(wanted):
        return f"`{command}` takes {some(len(wanted), 'argument')} ({' '.join(wanted)}), found {len(named)}"
    if command == "demo" and not 1 <= (number_of(named[0]) or 0) <= 1000:
        return f"{quoted(named[0])}: expected a number from 1 to 1,000 in plain decimal digits, without a leading zero"
    return None


def wrong_values(command, options):
    """What is wrong with the first value that isn't as its option wants it."""
    chunk = number_of(options.get("--chunk", "4096")) or 4096
    high = number_of(options.get("--high", "900")) or 900
    for name, text in options.items():
        fault = wrong_value(name, text, options, chunk, high)
        if fault:
            return fault
    if command in READING and "--low" not in options and high <= 700:
        return f"`--low` is 700 by default and must be below `--high`, {high}: set it too"
    return wrong_pool(chunk, options) if command == "serve" else None


def wrong_pool(chunk, options):
    """Why all chunks together are too large, if they are."""
    chunks, extra, size = (number_of(options.get(name, str(OPTIONS[name].default)))
                           for name in ("--chunks", "--extra", "--extra-size"))
    added = f" and {extra:,} of {size:,}" if extra else ""
    pool = chunk * chunks + size * extra
    return f"{chunks:,} chunks of {chunk:,} bytes{added} are {pool:,} bytes, more than the maximum of {MOST_POOL:,}" if pool > MOST_POOL else None


def wrong_value(name, text, options, chunk, high):
    """Why the value isn't as its option wants it, if it isn't."""
    if name == "--rule":
        return None if text in ("graph", "stride") else f"{quoted('--rule ' + text)}: expected graph, the default, or stride"
    if name == "--tickets" and options.get("--rule") != "stride":
        return "`--tickets` needs `--rule stride`"
    if name == "--tickets":
        return wrong_tickets(text)
    return wrong_caps(text) if name == "--caps" else wrong_number(name, text, chunk, high)


def wrong_number(name, text, chunk, high):
    option = OPTIONS[name]
    most = {"--max-path": chunk - 16, "--low": high - 1}.get(name, option.most)
    number, word = number_of(text), quoted(f"{name} {text}")
    if number is None:
        return f"{word}: expected a plain decimal number from {option.least:,} to {most:,}, without a sign or a leading zero"
    if not option.least <= number <= most:
        return f"{word}: the range is {option.least:,} to {most:,}"
    if number % option.step:
        return f"{word}: it must be a multiple of {option.step}"
    return None


def wrong_caps(text):
    below = 0
    for cap in text.split(","):
        resource, sign, units = cap.partition("=")
        if not sign or number_of(resource) is None or number_of(units) is None:
            return f"{quoted('--caps ' + text)}: {CAPS_FORM}"
        if not below < number_of(resource) <= 7 or not 1 <= number_of(units) <= 1_000_000:
            return f"{quoted('--caps ' + text)}: {CAPS_FORM}"
        below = number_of(resource)
    return None


def wrong_tickets(text):
    pairs, least = text.split(","), 0
    for pair in pairs:
        thread, sign, tickets = pair.partition("=")
        if not sign or number_of(thread) is None or not least <= number_of(thread) <= 1_000_000 or not 1 <= (number_of(tickets) or 0) <= 1024:
            return f"{quoted('--tickets ' + text)}: {TICKETS_FORM}"
        least = number_of(thread) + 1
    return f"{len(pairs)} threads have tickets: {TICKETS_FORM}" if len(pairs) > 64 else None
