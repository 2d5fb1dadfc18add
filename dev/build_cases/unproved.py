"""How tools/try has its program compiled, and when."""
import os, pathlib, shutil, signal, subprocess, time

from .clone import PATIENCE, wait_for

TRY = ["tools/try", "serve", "x"]
RAN = "ran serve x\n"
COMPILED = ["unproved"]


def wants(clone, compiled, words=TRY, out=RAN):
    """What is wrong where the next call should compile so often and then run the program."""
    given, said, status = clone.call(words)
    seen = clone.proved()
    wrong = [f"built {seen}, not {compiled}"] if seen != compiled else []
    wrong += [f"status {status}, output {given!r}, said {said[-500:]!r}"] if (given, status) != (out, 0) else []
    return wrong + ([f"said {said!r}"] if not compiled and said else [])


def calls(clone):
    """A first call compiles, a second doesn't; ./capriccio takes no notice of the unproved program."""
    folder = clone.at / "built/unproved"
    wrong = wants(clone, COMPILED) + wants(clone, [])
    wrong += ["the program isn't in built/unproved"] if not (folder / "capriccio_cli").exists() else []
    wrong += [f"left {it.name}" for it in folder.glob("compile.*")]
    clone.source().write_text("// other, for ./capriccio\n")
    given, _, status = clone.call()
    proved = clone.proved()
    wrong += [f"./capriccio built {proved}, {given!r}"] if proved != ["capriccio_cli", "low"] or status else []
    return wrong + wants(clone, COMPILED)


def report(clone):
    words = ["tools/try", "report", "serve", "x"]
    return wants(clone, COMPILED, words) + wants(clone, [], words)


def report_for_viewers(clone):
    """A report for another viewer takes both programs."""
    shutil.rmtree(clone.at / "built/unproved", ignore_errors=True)
    clone.call(["tools/try", "report", "--html", "page", "serve", "x"])
    seen = clone.proved()
    return [f"built {seen}"] if seen != COMPILED * 2 else []


def contents(clone):
    """Only other content of a source is compiled; a proof is no source."""
    clone.call(TRY)
    clone.proved()
    os.utime(clone.source())
    wrong = wants(clone, [])
    other = clone.at / "other"
    other.write_bytes(clone.source().read_bytes())
    os.replace(other, clone.source())
    wrong += wants(clone, [])
    clone.source("apart").write_text("// apart\n")
    (clone.at / "crates/low/proofs/more.antt").write_text("-- a proof\n")
    wrong += wants(clone, [])
    clone.source().write_text("// unproved, other\n")
    wrong += wants(clone, COMPILED) + wants(clone, [])
    more = clone.at / "crates/low/src/more.rt"
    more.write_text("// more\n")
    wrong += wants(clone, COMPILED)
    more.unlink()
    return wrong + wants(clone, COMPILED)


def mistake(clone):
    """Sources that can't be compiled: the compiler's words, status 70, and the program of before is not run."""
    clone.source().write_text("// a mistake\n")
    out, said, status = clone.call(TRY)
    clone.proved()
    clone.source().write_text("// mended\n")
    wrong = [] if status == 70 and not out and "error: a mistake in low" in said else [f"status {status}, {out!r}, {said!r}"]
    return wrong + wants(clone, COMPILED)


def two_at_once(clone):
    """The second call waits for the first, says so, and compiles nothing again."""
    clone.source().write_text("// unproved, at once\n")
    first, second = clone.start_held(TRY), clone.start(TRY)
    said = second.stderr.readline()
    clone.let_go()
    outs = [it.communicate(timeout=PATIENCE)[0] for it in (first, second)]
    seen = clone.proved()
    wrong = [f"built {seen}"] if seen != COMPILED else []
    wrong += [f"outputs {outs}"] if outs != [RAN] * 2 else []
    return wrong + ([f"the second said {said!r}"] if "another call compiles" not in said else [])


def ended(clone, number):
    """A signal ends what the call started; the next call compiles."""
    clone.source().write_text(f"// unproved, ended by {number}\n")
    run = clone.start_held(TRY)
    run.send_signal(number)
    _, said = run.communicate(timeout=PATIENCE)
    left = [] if wait_for(lambda: not clone.provers(), 60) else clone.provers()
    clone.let_go()
    clone.proved()
    wrong = [f"still at work: {left}"] if left else []
    wrong += [f"status {run.returncode}, said {said[-300:]!r}"] if run.returncode != 130 else []
    wrong += [f"left {it.name}" for it in (clone.at / "built/unproved").glob("compile.*")]
    return wrong + wants(clone, COMPILED)


def ended_at_the_parts(clone):
    """A signal ends the call too while it optimizes the parts of the module."""
    clone.source().write_text("// unproved, ended at the parts\n")
    at_work = lambda: [it for it in clone.processes() if b"-flto=thin" in it]
    clone.hold_parts.touch()
    run = clone.start(TRY)
    wrong = [] if wait_for(lambda: at_work() or run.poll() is not None) and at_work() else ["no part is compiled"]
    run.send_signal(signal.SIGINT)
    try:
        run.communicate(timeout=60)
    except subprocess.TimeoutExpired:
        wrong.append("it goes on")
    finally:
        clone.hold_parts.unlink()
    run.communicate(timeout=PATIENCE)
    clone.proved()
    wrong += [f"status {run.returncode}"] if run.returncode != 130 else []
    wrong += ["parts are still compiled"] if not wait_for(lambda: not at_work(), 60) else []
    return wrong + wants(clone, COMPILED)


def disk_full(clone):
    clone.source().write_text("// unproved, the disk is full\n")
    clone.full.touch()
    out, said, status = clone.call(TRY)
    clone.full.unlink()
    wrong = [] if status == 70 and not out and "No space left" in said and "make room" in said else [f"status {status}, said {said!r}"]
    return wrong + wants(clone, COMPILED)


def folder_not_written(clone):
    """Where the folder of programs can't be made. (A file in its place, since nobody refuses root.)"""
    clone.call(TRY)
    clone.proved()
    built = clone.at / "built"
    built.rename(clone.at / "away")
    built.write_text("no folder\n")
    out, said, status = clone.call(TRY)
    built.unlink()
    (clone.at / "away").rename(built)
    return [] if status == 70 and not out and "built" in said and not clone.proved() else [f"status {status}, said {said!r}"]


def from_elsewhere(clone):
    """Through a symbolic link, from another folder, by the search path: the words stay the caller's."""
    room = clone.at.parent / "elsewhere"
    room.mkdir(exist_ok=True)
    wrong = []
    for script, out in (("tools/try", RAN), ("capriccio", RAN)):
        link = room / pathlib.Path(script).name
        link.unlink(missing_ok=True)
        link.symlink_to(clone.at / script)
        environment = {**clone.environment, "PATH": f"{room}:{clone.environment['PATH']}"}
        for words in ([str(link)], [f"./{link.name}"], [link.name], [str(clone.at / script)]):
            run = subprocess.run([*words, "serve", "x"], cwd=room, env=environment, stdin=subprocess.DEVNULL,
                                 capture_output=True, text=True)
            wrong += [f"{words}: {run.returncode} {run.stdout!r} {run.stderr[-200:]!r}"] if (run.stdout, run.returncode) != (out, 0) else []
    clone.proved()
    return wrong


def said_on_a_terminal(clone):
    """On a terminal each call says once that the program is unproved."""
    clone.call(TRY)
    run = subprocess.run(["script", "-qec", "tools/try serve x", "/dev/null"], cwd=clone.at, env=clone.environment,
                         stdin=subprocess.DEVNULL, capture_output=True, text=True)
    clone.proved()
    return [] if run.stdout.count("unproved") == 1 and "ran serve x" in run.stdout else [f"{run.stdout!r}"]


def toolchain_missing(clone):
    clone.source().write_text("// unproved, no toolchain\n")
    (clone.kit / "bin/rt").rename(clone.kit / "bin/away")
    before = clone.environment["PATH"]
    clone.environment["PATH"] = ":".join(it for it in before.split(":") if not os.path.exists(f"{it}/rt"))
    out, said, status = clone.call(TRY)
    (clone.kit / "bin/away").rename(clone.kit / "bin/rt")
    clone.environment["PATH"] = before
    return [] if status == 70 and not out and "toolchain is missing" in said else [f"status {status}, said {said!r}"]


CASES = {
    "calls of tools/try": calls,
    "tools/try report": report,
    "tools/try report for another viewer": report_for_viewers,
    "tools/try and contents": contents,
    "tools/try of a mistake": mistake,
    "tools/try, two at once": two_at_once,
    "tools/try ended by TERM": lambda clone: ended(clone, signal.SIGTERM),
    "tools/try ended by INT": lambda clone: ended(clone, signal.SIGINT),
    "tools/try ended by HUP": lambda clone: ended(clone, signal.SIGHUP),
    "tools/try ended while it optimizes": ended_at_the_parts,
    "tools/try, the disk full": disk_full,
    "tools/try, a folder that can't be written": folder_not_written,
    "from another folder": from_elsewhere,
    **({"said on a terminal": said_on_a_terminal} if shutil.which("script") else {}),
    "tools/try, the toolchain missing": toolchain_missing,
}
