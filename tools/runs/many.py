"""Runs one server many times, on all processors: the source is built once, and each run starts from the stored pair.

`Server(source, folder).run(options, trace)` makes one run. `Workers(jobs, given).each(work, tasks)` calls
`work(given, task)` in as many processes as `jobs`, and gives the results in the order of the tasks.
"""
import collections, itertools, multiprocessing, multiprocessing.connection, os, signal, sys

from . import program

PLACEMENT = ("chunk", "max-path")  # the options that `build` takes; the pair has them in it

Run = collections.namedtuple("Run", "log status said")
Run.__doc__ = "A run: its log and what it wrote to standard error, both as text, and its status."

class Refused(Exception):
    """The program refuses the source or its options; the text is the program's, and `status` its status."""

    def __init__(self, text, status):
        super().__init__(text)
        self.status = status


class Server:
    """A source that is built once for each --chunk and --max-path. The pairs lie in a folder of the caller's.
    Options are given by name, without dashes, as {"rule": "stride", "caps": "1=2"}."""

    def __init__(self, source, folder):
        self.source, self.folder, self.program = os.fspath(source), os.fspath(folder), program.itself()

    def pair(self, options):
        """The paths of the image and the certificate for the placement in these options."""
        placement = {name: str(options[name]) for name in PLACEMENT if name in options}
        stem = os.path.join(self.folder, "_".join(["pair", *itertools.chain(*placement.items())]))
        files = [f"{stem}.image", f"{stem}.certificate"]
        if not os.path.exists(files[1]):
            made = [f"{it}.{os.getpid()}" for it in files]
            built = started([self.program, "build", self.source, *made, *words_of(placement)])
            if built.status:
                raise Refused(built.said.strip(), built.status)
            for temporary, file in zip(made, files):  # (the certificate last: whoever sees it has both)
                os.replace(temporary, file)
        return files

    def run(self, options, trace=b""):
        """One run on a trace, which is bytes. The log is that of `serve` with these options."""
        own = {name: value for name, value in options.items() if name not in PLACEMENT}
        return started([self.program, "run", self.source, *self.pair(options), *words_of(own)], trace)


def words_of(options):
    """Options by name as words of a command line."""
    return [it for name, value in options.items() for it in (f"--{name}", str(value))]


def started(words, given=b""):
    """Runs a program to its end. Its streams are files in memory, which costs less than pipes."""
    streams = [os.memfd_create(name) for name in ("stdin", "stdout", "stderr")]
    try:
        os.write(streams[0], given)  # (to a file in memory, whole)
        os.lseek(streams[0], 0, os.SEEK_SET)
        actions = [(os.POSIX_SPAWN_DUP2, file, number) for number, file in enumerate(streams)]
        number = os.posix_spawn(words[0], words, os.environ, file_actions=actions)
        _, ended = os.waitpid(number, 0)
        log, said = (os.pread(it, os.fstat(it).st_size, 0).decode("utf-8", "replace") for it in streams[1:])
        return Run(log, os.waitstatus_to_exitcode(ended), said)
    finally:
        for it in streams:
            os.close(it)


class WorkerEnded(Exception):
    """A process ended before its work did, as where memory is short."""


class Workers:
    """Processes that work side by side, ended at the end of a `with`, with the programs that they wait for. `given` is
    handed to each call of the work."""

    def __init__(self, jobs, given):
        self.processes = {}  # by our end of the pipe to each
        for _ in range(jobs):
            ours, theirs = multiprocessing.Pipe()
            words = (theirs, [ours, *self.processes], given)
            self.processes[ours] = multiprocessing.get_context("fork").Process(target=work_on, args=words, daemon=True)
            self.processes[ours].start()
            theirs.close()

    def each(self, work, tasks, together=1):
        """The result of each task, in their order, as they come. So many tasks are handed out `together`, and none is
        taken before a process is there for it."""
        batches = iter(lambda tasks=iter(tasks): list(itertools.islice(tasks, together)), [])
        numbered, idle, busy, results, wanted = enumerate(batches), set(self.processes), {}, {}, 0
        while True:
            while idle and (next_one := next(numbered, None)):
                pipe = idle.pop()
                busy[pipe] = next_one[0]
                pipe.send((work, next_one[1]))
            if not busy:
                return
            for pipe in multiprocessing.connection.wait(busy):
                results[busy.pop(pipe)] = received(pipe)
                idle.add(pipe)
            while wanted in results:
                yield from results.pop(wanted)
                wanted += 1

    def __enter__(self):
        return self

    def __exit__(self, *_):
        for process in self.processes.values():
            try:
                os.killpg(process.pid, signal.SIGKILL)
            except ProcessLookupError:
                process.kill()  # (it has no group of its own yet)
            process.join()


def received(pipe):
    """What a worker gives for a batch."""
    try:
        results = pipe.recv()
    except EOFError:
        raise WorkerEnded("a process of this tool ended before its work did") from None
    if isinstance(results, BaseException):
        raise results
    return results


def work_on(pipe, others, given):
    """The life of a worker. It and its programs are a process group, which Ctrl-C doesn't reach."""
    os.setpgid(0, 0)
    for it in others:
        it.close()
    while True:
        try:
            work, tasks = pipe.recv()
            try:
                results = [work(given, it) for it in tasks]
            except Exception as why:
                results = why
            pipe.send(results)
        except (EOFError, BrokenPipeError):
            return  # the process that gives the work has ended


def say(text):
    """Writes a line on standard error, if that can be done."""
    try:
        print(text, file=sys.stderr, flush=True)
    except OSError:
        pass
