"""The finds of many runs, in groups: how often each came, and the run with the shortest trace."""
import os, pathlib, re, shlex, shutil, subprocess

from traces import events

from . import finds, free_server, many, program

DEBUGGER = "tools/debug"
OWN = re.compile(r"[a-z]+_\d+\.(trace|first|options|log)")  # names of the files that are stored


class Group:
    """Finds of one kind at one place."""

    def __init__(self, kind, where):
        self.kind, self.where, self.count = kind, where, 0
        self.best = self.detail = None

    def add(self, size, find):
        """Counts a find. `size` orders the runs, the shortest first."""
        self.count += 1
        if self.best is None or size < self.best:
            self.best, self.detail = size, find.detail


class Groups:
    """All groups of an exploration, with what it takes to repeat and to store their runs."""

    def __init__(self, exploration, trace_names):
        self.exploration, self.trace_names, self.found, self.runs = exploration, trace_names, {}, 0
        self.seconds = {"program": 0.0, "reading": 0.0}
        self.lost = 0
        self.refused = None  # what the program says to a run that it refuses

    def add(self, result):
        self.runs += 1
        self.seconds["program"] += result.seconds
        self.seconds["reading"] += result.reading
        self.lost += result.lost
        self.refused = self.refused or result.refused
        for find in result.finds:
            _, _, options = self.exploration.variant(result.number)
            size = (result.lines, len(options), result.number)
            self.found.setdefault((find.kind, find.where), Group(find.kind, find.where)).add(size, find)

    def ordered(self):
        return sorted(self.found.values(), key=lambda it: (-it.count, it.kind, it.where))

    def counts(self):
        """How often each kind came, in a few words."""
        kinds = {}
        for it in self.found.values():
            kinds[it.kind] = kinds.get(it.kind, 0) + it.count
        return ", ".join(f"{kind} {count:,}" for kind, count in kinds.items()) or "none"

    def stored(self, folder):
        """Stores each group's shortest trace, and gives a value for each group."""
        pathlib.Path(folder).mkdir(parents=True, exist_ok=True)
        for name in os.listdir(folder):
            if OWN.fullmatch(name):
                os.remove(os.path.join(folder, name))
        numbers = {}
        for group in self.ordered():
            numbers[group.kind] = numbers.get(group.kind, 0) + 1
            yield self.value(group, os.path.join(folder, f"{group.kind}_{numbers[group.kind]}"))

    def value(self, group, stem):
        """A group as a value, whose files begin with `stem`."""
        lines, _, number = group.best
        given, found, options = self.exploration.variant(number)
        put(f"{stem}.trace", events.text_of(found))
        words = many.words_of(options)
        put(f"{stem}.options", " ".join(words) + "\n" if words else "")
        value = {"kind": group.kind, "where": group.where, "detail": group.detail, "runs": group.count, "run": number}
        value |= {"given_trace": self.trace_names[number % len(self.trace_names)], "trace": f"{stem}.trace",
                  "lines": lines, "options": words}
        needs_first = group.kind == "outputs" or group.kind == "unanswered" and not group.where
        if needs_first:
            put(f"{stem}.first", events.text_of(self.exploration.first_of(given, found)))
        if "any-order" in options:
            value |= self.beyond_the_rules(options, stem)
        return value | {"repeat": repeated(self.exploration, words, stem),
                        "shrink": self.shrunk(group, words, stem, needs_first)}

    def beyond_the_rules(self, options, stem):
        """Stores the log of a run that no rule need choose, and tells what the audit and the report take of it."""
        server = self.exploration.server
        with open(f"{stem}.trace", "rb") as trace:
            log = server.run(options, trace.read()).log
        put(f"{stem}.log", log)
        own = many.words_of({name: options[name] for name in free_server.HAS_EFFECT if name in options})
        with open(f"{stem}.trace", "rb") as trace:
            audit = subprocess.run([program.itself(), "audit", *own, server.source, f"{stem}.log"], stdin=trace,
                                   capture_output=True, text=True)
        told = {"log": f"{stem}.log", "audit": audited(audit.stdout.strip() or audit.stderr.strip(), log)}
        words = [nearest(program.TOP / "report"), "--log", f"{stem}.log", "serve", *own, server.source]
        told |= {"report": f"{shlex.join(words)} < {shlex.quote(f'{stem}.trace')}"}
        if (program.TOP / DEBUGGER).exists():
            words = [nearest(program.TOP / DEBUGGER), "--log", f"{stem}.log", "--trace", f"{stem}.trace", "serve"]
            words += ["--rule", "stride"]  # (of that rule no choice is audited)
            told |= {"debug": shlex.join([*words, *own, server.source])}
        return told

    def shrunk(self, group, words, stem, needs_first):
        """The line that makes the trace of a group smaller."""
        looker, own = self.exploration.looker, ["--until", group.kind]
        if needs_first:
            first_options = shlex.join(many.words_of(self.exploration.options))
            own += ["--first", f"{stem}.first", *(["--first-options", first_options] if first_options else [])]
        if group.kind == "command":
            own += ["--command", looker.command]
        own += ["--answers", looker.answers] if looker.answers else []
        own += ["--patience", str(looker.patience)] if looker.patience != finds.PATIENCE else []
        tool = nearest(program.TOP / "tools/shrink")
        return f"{shlex.join([tool, *own, 'serve', *words, self.exploration.server.source])} < {shlex.quote(f'{stem}.trace')} > small"


def repeated(exploration, words, stem):
    """The line that makes a stored run again."""
    script = nearest(program.TOP / script_for(words))
    return f"{shlex.join([script, 'serve', *words, exploration.server.source])} < {shlex.quote(f'{stem}.trace')}"


def script_for(words):
    """What makes a run with these options, by its path from the top."""
    return "tools/any_order" if "--any-order" in words else "capriccio"


def audited(verdict, log):
    """The verdict of the proved audit on a log of a run that no rule need choose."""
    word, *line = verdict.split(" ")
    if word == "lawful":
        return "lawful: the priority rule chooses so too"
    said = log.splitlines()[int(line[0]) - 1] if word == "unlawful" else ""
    if said.startswith("run "):
        return f"lawful up to line {int(line[0]) - 1} of the log; then the priority rule doesn't choose `{said}`"
    return f"{verdict} {said}".strip()


def nearest(path):
    """A script or tool of this checkout, as a command: by its name if it is installed, and else by a path, from this
    folder if it lies below it."""
    path = pathlib.Path(path)
    installed = program.TOP.parent.parent / "bin" / command_of(path.name)
    if installed.exists() and installed.resolve() == path.resolve():
        return installed.name if shutil.which(installed.name) == str(installed) else str(installed)
    near = os.path.relpath(path)
    return os.fspath(path) if near.startswith("..") else near if os.sep in near else f".{os.sep}{near}"


def command_of(name):
    """The name that tools/install gives to a script or tool."""
    return name if name == "capriccio" else f"capriccio-{name.replace('_', '-')}"


def put(name, text):
    with open(name, "w", encoding="utf-8") as file:
        file.write(text)
