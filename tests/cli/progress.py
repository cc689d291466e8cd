"""The first use on a terminal: one line shows which crate is being proved, and it is erased before the listing."""
import contextlib
import fcntl
import os
import pathlib
import re
import select
import signal
import termios

import firstuse
from door import Live, below, ends_of, left_in, run, session_of, stands_still, wait_for
from firstuse import BUILDING, BUILDS, LISTING, RT_SAYS, STREAM, Checkout

NAMES = ["base", "frame", "listing", "list_program"]  # as firstuse.CRATES has them
NOTICE = "trogonreed: proving and building the listing program; this can take some minutes"
# A stand-in for rt that says the lines of a named pipe, until one of them has it build or fail.
SAYS = f"""exec 3<"$CALLS.said"
while read -r line <&3; do
    case $line in
    build) {BUILDS}; exit ;;
    fail) exit 1 ;;
    *) printf '%s\\n' "$line" ;;
    esac
done"""
PROVED = "logic=proved functions=1"  # what rt says at a crate's end


def begins(name):
    """What rt says when it begins with a crate that is not kept."""
    return f"rt: chose --jobs 2 for {name}"


# What rt says where frame is not proved.
NOT_PROVED = [
    begins("base"),
    PROVED,
    begins("frame"),
    "src/lib.rt:1:1: error: a goal is left",
    "logic=not-proved",
    "rt: the library frame did not build, so nothing above it was checked",
]
PROGRAM_NOT_PROVED = [
    *(line for name in NAMES[:-1] for line in (begins(name), PROVED)),
    begins(NAMES[-1]),
    "logic=not-proved",
]
RUN_FAILED = [*(line for name in NAMES for line in (begins(name), PROVED)), "rt: running out/list_program"]
# Where a source is no program text: with libraries that are kept, and with none.
NOT_COMPILED = [
    begins("frame"),
    "src/reader.rt:11:48: error[unknown-name]: unresolved import",
    "{place}/crates/frame/src/reader.rt:11:48: error[unknown-name]: unresolved import",
    "rt: the library frame did not build, so nothing above it was checked",
]
NOTHING_KEPT = [
    "{place}/crates/frame/src/reader.rt:11:48: error[unknown-name]: unresolved import",
    "{place}/crates/listing/src/lines.rt:1:1: error[unknown-name]: unresolved import",
    "rt: mend these first: no library was built",
]
MORE_READ = [
    "{place}/crates/base/src/lib.rt:1:1: error[unknown-name]: unresolved import",
    "rt: the quick pass above also reads functions that this crate may not reach",
    *(line for name in NAMES[:2] for line in (begins(name), PROVED)),
    begins("listing"),
    "logic=not-proved",
    "rt: the library listing did not build, so nothing above it was checked",
]


def all_uses(test, root, room):
    counts(test, checkout(root, room, "counts"))
    real_crates(test, root, checkout(root, room, "real crates"))
    dependencies(test, checkout(root, room, "dependencies"))
    one_terminal(test, checkout(root, room, "one terminal"), room)
    no_progress(test, root, room)
    fails(test, root, room)
    stopped(test, checkout(root, room, "stopped"))
    signals(test, checkout(root, room, "signals"))
    waits_for_another(test, checkout(root, room, "waits"))
    leaves_a_process(test, Checkout(root, room, "leaves"))
    logs(test, Checkout(root, room, "logs"))


def checkout(root, room, name):
    """A fresh checkout whose rt says what the test has it say."""
    fresh = Checkout(root, room, name)
    fresh.rt(SAYS)
    os.mkfifo(f"{fresh.calls}.said")
    fresh.said = os.open(f"{fresh.calls}.said", os.O_RDWR)
    return fresh


def say(fresh, *lines):
    os.write(fresh.said, "".join(f"{line}\n" for line in lines).encode())


def rows_of(written):
    """What a terminal shows of these bytes, row by row."""
    rows, column = [""], 0
    for part in re.findall("\r|\n|\x1b\\[K|[^\r\n\x1b]+|\x1b", written.decode("ascii", "backslashreplace")):
        row = rows[-1]
        if part == "\r":
            column = 0
        elif part == "\n":
            rows.append("")
        elif part == "\x1b[K":
            rows[-1] = row[:column]
        else:
            rows[-1] = row[:column].ljust(column) + part + row[column + len(part) :]
            column += len(part)
    return rows


class Screen:
    """The terminal of a run, and what is written to it."""

    def __init__(self):
        self.master, self.slave = os.openpty()
        self.written, self.is_closed = b"", False

    def rows(self):
        """What can be seen now."""
        while select.select([self.master], [], [], 0)[0]:
            try:
                self.written += os.read(self.master, 65536)
            except OSError:
                self.is_closed = True
                break
        return rows_of(self.written)

    def shows(self, *rows):
        """Whether these rows are all that can be seen, at once or soon."""
        return wait_for(lambda: self.rows() == list(rows))

    def last(self):
        """What can be seen when no process has the terminal open any more."""
        wait_for(lambda: self.rows() and self.is_closed)
        return self.rows()

    def type(self, data):
        os.write(self.master, data)

    def __str__(self):
        return f"the terminal shows {self.rows()}, written {self.written!r}"


@contextlib.contextmanager
def at_terminal(fresh, words=("list",), places=("stderr",), **env):
    """A first use with a terminal of its own, which is open at these places."""
    screen = Screen()
    given = {"env": {"TERM": "xterm"} | fresh.env | env, "start_new_session": True}
    given |= dict.fromkeys(places, screen.slave)
    given["preexec_fn"] = lambda: fcntl.ioctl(2, termios.TIOCSCTTY, 0)
    wire = {"wire": None} if "stdin" not in places else {"wire": os.dup(screen.master)}
    with Live([fresh.place / "bin/trogonreed", *words], **wire, **given) as live:
        os.close(screen.slave)
        yield screen, live
    os.close(screen.master)


def feed(live):
    live.send(STREAM)
    live.close_wire()


def proving(name, number, total=len(NAMES)):
    return f"trogonreed: proving {name} ({number} of {total})"


def counts(test, fresh):
    with at_terminal(fresh) as (screen, live):
        feed(live)
        for number, name in enumerate(NAMES, 1):
            say(fresh, begins(name))
            test(f"{name} is being proved", screen.shows(NOTICE, proving(name, number)), str(screen))
            say(fresh, f"fn {name}::one: proved", PROVED)
        say(fresh, "build")
        found = live.ended()
        test("the listing after the progress", (found.status, found.out) == (0, LISTING), str(found))
        test("the progress is erased", screen.last() == [NOTICE, ""], str(screen))
        drawn = re.findall(rb"\r\x1b\[K([^\r\n]+)", screen.written)
        right = drawn == [proving(name, number).encode() for number, name in enumerate(NAMES, 1)]
        test("each crate is drawn once, over the one before", right, str(screen))
    with at_terminal(fresh) as (screen, live):
        feed(live)
        found = live.ended()
        test("the second use draws nothing", found.status == 0 and screen.last() == [""], f"{found}, {screen}")
    passes_over(test, fresh)


def passes_over(test, fresh):
    """What is already proved takes no time, and the count still rises to the total."""
    fresh.program.unlink()
    with at_terminal(fresh) as (screen, live):
        feed(live)
        say(fresh, begins(NAMES[-1]))
        test("proved crates are skipped", screen.shows(NOTICE, proving(NAMES[-1], 4)), str(screen))
        say(fresh, PROVED, "build")
        found = live.ended()
        right = (found.status, found.out) == (0, LISTING) and screen.last() == [NOTICE, ""]
        test("proved crates are skipped, the listing", right, f"{found}, {screen}")


def needed(crates, name):
    """A crate and what it needs, as rt proves them: those that need the fewest levels below them first.

    Where two need as many, that of crates.txt comes first.
    """
    def level(crate):
        return 1 + max((level(dependency) for dependency in crates[crate] if dependency in crates), default=-1)

    def reached(crate):
        return {crate}.union(*(reached(dependency) for dependency in crates[crate] if dependency in crates))

    return sorted((crate for crate in crates if crate in reached(name)), key=level)


def real_crates(test, root, fresh):
    """The repository's own crates.txt."""
    text = (root / "crates.txt").read_text()
    (fresh.place / "crates.txt").write_text(text)
    crates = {name: needs.split() for name, needs in (line.split(":") for line in text.splitlines())}
    names = needed(crates, "list_program")
    with at_terminal(fresh) as (screen, live):
        feed(live)
        for number, name in enumerate(names, 1):
            say(fresh, begins(name))
            right = screen.shows(NOTICE, proving(name, number, len(names)))
            test(f"{name} of the repository is being proved", right, str(screen))
            say(fresh, PROVED)
        say(fresh, "build")
        found = live.ended()
        test("the repository's crates, the listing", (found.status, found.out) == (0, LISTING), str(found))


def dependencies(test, fresh):
    """A crate more in crates.txt is counted, and is a source of the program."""
    more = firstuse.CRATES.replace("frame: base", "frame: base extra").replace("message:", "extra:\nmessage:")
    (fresh.place / "crates.txt").write_text(more)
    (fresh.place / "crates/extra/src").mkdir(parents=True)
    with at_terminal(fresh) as (screen, live):
        feed(live)
        for number, name in enumerate(["base", "extra", "frame"], 1):
            say(fresh, begins(name))
            test(f"{name} of 5 is being proved", screen.shows(NOTICE, proving(name, number, 5)), str(screen))
            say(fresh, PROVED)
        say(fresh, "build")
        found = live.ended()
        test("a crate more, the listing", (found.status, found.out) == (0, LISTING), str(found))
    fresh.called()
    fresh.rt(BUILDS)
    firstuse.make_older(fresh.place, 1000)
    (fresh.place / "crates/extra/src/lib.rt").write_text("a new source\n")
    fresh.tries(test, "a source of the crate more is newer: built again", [BUILDING], 1, True)
    # Nobody can prove a cycle, and it must not hang the front door.
    (fresh.place / "crates.txt").write_text(firstuse.CRATES.replace("base:", "base: listing"))
    fresh.tries(test, "a cycle in crates.txt", [BUILDING], 1, True)
    (fresh.place / "crates.txt").unlink()
    fresh.tries(test, "what is built needs no crates.txt", [], 0, True)


def one_terminal(test, fresh, room):
    """As a person uses it: standard input, output and error are the same terminal."""
    stream = room / "a frame on first use"
    stream.write_bytes(STREAM)
    with at_terminal(fresh, ["list", stream], ["stdin", "stdout", "stderr"]) as (screen, live):
        say(fresh, begins("frame"))
        test("one terminal, the progress", screen.shows(NOTICE, proving("frame", 2)), str(screen))
        say(fresh, "build")
        found = live.ended()
        rows = [NOTICE, *LISTING.decode().splitlines(), ""]
        test("one terminal, the listing", found.status == 0 and screen.last() == rows, f"{found}, {screen}")


def no_progress(test, root, room):
    """Where nothing can be rewritten, the notice is all."""
    for what, term in [("a dumb terminal", "dumb"), ("a terminal of no type", "")]:
        fresh = checkout(root, room, what)
        with at_terminal(fresh, TERM=term) as (screen, live):
            feed(live)
            say(fresh, begins("base"), begins("frame"), "build")
            found = live.ended()
            right = (found.status, found.out) == (0, LISTING) and screen.last() == [NOTICE, ""]
            test(what, right and b"\x1b" not in screen.written, f"{found}, {screen}")
    fresh = checkout(root, room, "no terminal")
    say(fresh, *(begins(name) for name in NAMES), "build")
    found = fresh.use()
    test("no terminal: the notice alone", found.err.decode() == NOTICE + "\n" and found.out == LISTING, str(found))
    fresh = checkout(root, room, "standard error is closed")
    say(fresh, begins("frame"), "build")
    found = run(["sh", "-c", '"$0" list 2>&-', fresh.place / "bin/trogonreed"], data=STREAM, env=fresh.env)
    test("standard error is closed", found.is_quiet(LISTING), str(found))


def fails(test, root, room):
    """The line that says so names the crate that failed first, and the log."""
    for what, lines, named in [
        ("a proof fails", NOT_PROVED, ": frame failed"),
        ("a run fails", RUN_FAILED, ": list_program failed"),
        ("the program is not proved", PROGRAM_NOT_PROVED, ": list_program failed"),
        ("a library is not compiled", NOT_COMPILED, ": frame failed"),
        ("a library is not compiled and nothing is kept", NOTHING_KEPT, ": frame failed"),
        ("a pass over the sources reads more than is proved", MORE_READ, ": listing failed"),
        ("rt fails and says nothing of a crate", ["rt: crates.txt: line 1: expected NAME"], ""),
    ]:
        fresh = checkout(root, room, what)
        lines = [line.format(place=fresh.place) for line in lines]
        logged, end = [*RT_SAYS, *lines], "fail"
        if what == "a run fails":
            for name in ("stdin", "stdout"):  # it prints more than it is given
                (fresh.place / "crates/list_program" / name).write_bytes(STREAM)
            logged, end = [*logged, "trogonreed: a run failed: list_program"], "build"
        line = f"trogonreed: the listing program could not be proved and built{named}; see {fresh.log}"
        for way in ("on a terminal", "again"):
            with at_terminal(fresh) as (screen, live):
                feed(live)
                say(fresh, *lines, end)
                found = live.ended()
                right = (found.status, found.out) == (2, b"") and screen.last() == [NOTICE, line, ""]
                test(f"{what}, {way}", right, f"{found}, {screen}")
        said = fresh.log.read_text()
        test(f"{what}, the log has one run", said.splitlines() == logged, said)
        say(fresh, *lines, end)
        found = fresh.use()
        right = (found.status, found.err.decode()) == (2, f"{NOTICE}\n{line}\n")
        test(f"{what}, not on a terminal", right, str(found))


def stopped(test, fresh):
    """As by Ctrl-Z, and then fg."""
    with at_terminal(fresh) as (screen, live):
        feed(live)
        test("before the stop", screen.shows(NOTICE, proving("base", 1)), str(screen))
        os.killpg(live.process.pid, signal.SIGSTOP)
        test("a first use can be stopped", stands_still(live.process.pid))
        say(fresh, begins("frame"))
        os.killpg(live.process.pid, signal.SIGCONT)
        test("after the stop", screen.shows(NOTICE, proving("frame", 2)), str(screen))
        say(fresh, "build")
        found = live.ended()
        right = (found.status, found.out) == (0, LISTING) and screen.last() == [NOTICE, ""]
        test("a first use that was stopped goes on", right, f"{found}, {screen}")


def signals(test, fresh):
    """Whatever ends a first use, the terminal is left with an empty row, and no process is left."""
    for number, typed in [(signal.SIGINT, b"\x03"), (signal.SIGQUIT, b"\x1c")]:
        ends(test, fresh, f"{number.name} is typed", number, lambda screen, _, typed=typed: screen.type(typed))
    for number in (signal.SIGINT, signal.SIGTERM, signal.SIGHUP, signal.SIGQUIT, signal.SIGKILL):
        for who, send in [("the front door", os.kill), ("all of the run", os.killpg)]:
            name = f"{number.name} to {who} at a terminal"
            ends(test, fresh, name, number, lambda _, pid, send=send, number=number: send(pid, number))
    say(fresh, begins("frame"), "build")
    fresh.called()
    fresh.tries(test, "the next use after all these", [BUILDING], 1, True)


def ends(test, fresh, name, number, send):
    with at_terminal(fresh) as (screen, live):
        drawn = screen.shows(NOTICE, proving("base", 1))
        rt = below(live.process.pid, "rt")
        session = session_of(rt)
        wait_for(lambda: firstuse.busy(fresh).exists())
        send(screen, live.process.pid)
        found = live.ended()
        row = "" if number != signal.SIGKILL else proving("base", 1)  # nobody can erase it then
        right = found.status in ends_of(number) and found.out == b"" and screen.last() == [NOTICE, row]
        test(name, drawn and right, f"{found}, {screen}")
        gone = wait_for(lambda: not left_in(session) and not left_in(live.process.pid))
        test(f"{name}: nothing is left", rt and gone, f"{left_in(session)}, {left_in(live.process.pid)}")
    if firstuse.busy(fresh).exists():
        firstuse.busy(fresh).rmdir()


def waits_for_another(test, fresh):
    """A use that waits for the first use elsewhere to end shows the notice, and can be ended at any time."""
    with at_terminal(fresh) as (screen, live):
        feed(live)
        test("the first of several", screen.shows(NOTICE, proving("base", 1)), str(screen))
        for number in (signal.SIGINT, signal.SIGTERM, signal.SIGHUP, signal.SIGKILL):
            with at_terminal(fresh) as (waiting, use):
                ends_waiting(test, use, number, "a terminal")
                test(f"{number.name} to a use that waits: the terminal", waiting.last() == [NOTICE, ""], str(waiting))
            with fresh.live() as use:
                ends_waiting(test, use, number, "no terminal")
        with at_terminal(fresh) as (other, second):
            feed(second)
            waits = below(second.process.pid, "flock")
            say(fresh, begins("frame"))
            right = screen.shows(NOTICE, proving("frame", 2)) and other.shows(NOTICE, "")
            test("only the use that proves shows the progress", waits and right, f"{screen}, {other}")
            said = fresh.log.read_text()
            test("the log is that use's", said.endswith(f"\n{begins('frame')}\n"), said)
            say(fresh, "build")
            for what, use, its in [("proves", live, screen), ("waits", second, other)]:
                found = use.ended()
                right = (found.status, found.out) == (0, LISTING) and its.last() == [NOTICE, ""]
                test(f"the use that {what} lists", right, f"{found}, {its}")
    calls = fresh.called()
    test("several first uses at terminals build once", calls == 1, str(calls))


def ends_waiting(test, live, number, where):
    name = f"{number.name} to a use that waits for another, {where}"
    lock = below(live.process.pid, "flock")
    session = session_of(lock)
    os.kill(live.process.pid, number)
    found = live.ended()
    test(name, lock and found.status in ends_of(number) and found.out == b"", str(found))
    gone = wait_for(lambda: not left_in(session) and not left_in(live.process.pid))
    test(f"{name}: nothing is left", gone, f"{left_in(session)}, {left_in(live.process.pid)}")


def leaves_a_process(test, fresh):
    """A process that rt leaves does not keep the front door from its end, and is ended."""
    for what, more in [("", ":"), (", in the middle of a line", "printf half")]:
        fresh.rt(f'sleep 600 & echo $! >"$CALLS.left"; {BUILDS}; {more}')
        found = fresh.use()
        test(f"rt leaves a process{what}", found.out == LISTING and found.status == 0, str(found))
        session = session_of(int(pathlib.Path(f"{fresh.calls}.left").read_text()))
        gone = wait_for(lambda: session is None or not left_in(session))
        test(f"rt leaves a process{what}: it is ended", gone, str(session and left_in(session)))
        fresh.program.unlink()


def logs(test, fresh):
    """The log has all that rt says, whatever it is."""
    long = "number=0; while [ $number -lt 3000 ]; do printf '%060d\\n' $number; number=$((number + 1)); done"
    fresh.rt(f"{long}; {BUILDS}")
    found = fresh.use()
    lines = fresh.log.read_text().splitlines()
    right = found.out == LISTING and lines == [*RT_SAYS, *(f"{number:060d}" for number in range(3000))]
    test("rt says more than a pipe can hold", right, f"{found}, {len(lines)} lines")
    fresh.program.unlink()
    fresh.rt(r"printf '%s\n' ' blanks, \n and \\ stay  ' ''; printf 'half a line'; exit 1")
    found = fresh.use()
    said = fresh.log.read_text()
    expected = [*RT_SAYS, r" blanks, \n and \\ stay  ", "", "half a line", ""]
    right = found.status == 2 and said.split("\n") == expected
    test("rt ends in the middle of a line", right, f"{found}, {said!r}")
    fresh.log.unlink()
    fresh.log.mkdir()
    fresh.rt(BUILDS)
    found = fresh.use()
    right = (found.status, found.out, found.err.decode()) == (0, LISTING, NOTICE + "\n")
    test("the log cannot be written", right, str(found))
