"""The first use in a fresh checkout, with a stand-in for rt: what it builds and says; no run disturbs another."""
import itertools
import os
import pathlib
import shutil
import signal
import time

import model
from door import Live, ends_of, is_line, left_in, run, session_of, wait_for

SOURCES = [
    "crates.txt",
    "crates/base/src/lib.rt",
    "crates/frame/src/lib.rt",
    "crates/listing/specs/Lines.antt",
    "crates/list_program/src/main.rt",
]
# Which crate needs which; io is a library of the kit.
CRATES = """\
base:
list_program: base listing io # frame comes by listing, and message does not belong to it
frame: base
message: base frame
listing: base frame
"""
OTHER_SOURCE = "crates/message/src/lib.rt"
NO_SOURCES = ["crates/frame/must-fail/fault.edit", "crates/list_program/stdout"]  # in the folders of sources
TOOLS = "sh cat cp dirname find flock mkdir od readlink rm rmdir setsid sleep stty touch tr wc mv".split()
STREAM = model.wire(7, 1)
LISTING = model.listing(STREAM).encode()

# What each stand-in for rt does, in the folder where it is called; $PROGRAM is the listing program.
BUILDS = 'mkdir -p $out && cp "$PROGRAM" $out/$name && : >$out/$name.stamp'
LEAVES = ": >$out/$name.stamp"
FAILS = "exit 1"
FAILS_LATE = f"{BUILDS}; rm $out/$name.stamp; exit 1"
SLOW = f"sleep 0.5; {BUILDS}"
STUCK = "sleep 600"
STUBBORN = "trap '' HUP INT QUIT TERM; sleep 600"
# rt leaves a program alone that it has proved, as its stamp says.
BY_STAMP = f"[ -e $out/$name ] || {{ {BUILDS}; }}; : >$out/$name.stamp"
# A program whose sources change while rt runs is built and run, and has no stamp.
UNSTAMPED = f"{BUILDS}; rm $out/$name.stamp"
SECOND = f"[ -e $out/$name ] && {{ {BUILDS}; exit; }}; {UNSTAMPED}"


def skeleton(root, place):
    """A repository with this front door and some sources, all of them older than what is built from now on."""
    for name in [*SOURCES, OTHER_SOURCE]:
        (place / name).parent.mkdir(parents=True, exist_ok=True)
        (place / name).write_text("some source\n")
    (place / "crates.txt").write_text(CRATES)
    (place / "bin").mkdir()
    for name in ("bin/trogonreed", "VERSION"):
        shutil.copy(root / name, place / name)
    (place / "linked").symlink_to("bin/trogonreed")
    make_older(place, 1000)
    return place


def make_older(place, seconds):
    then = time.time() - seconds
    for path in [place, *place.rglob("*")]:
        os.utime(path, (then, then), follow_symlinks=False)


def give_program(root, place):
    (place / "target/bin").mkdir(parents=True)
    shutil.copy(root / "target/bin/list_program", place / "target/bin/list_program")


class Checkout:
    """A fresh checkout, and a PATH that has only the tools needed, and the stand-in for rt where there is one."""

    def __init__(self, root, room, name):
        self.place = skeleton(root, room / "fresh" / name)
        self.tools = room / "tools" / name
        self.tools.mkdir(parents=True)
        for tool in TOOLS:
            (self.tools / tool).symlink_to(shutil.which(tool))
        self.calls = self.tools / "calls"
        self.calls.write_text("")
        self.env = {"PATH": str(self.tools), "PROGRAM": str(root / "target/bin/list_program"), "CALLS": str(self.calls)}
        self.program = self.place / "target/bin/list_program"
        self.kept = self.place / "crates/list_program/out/list_program"
        self.log = self.place / "target/trogonreed.log"

    def rt(self, action):
        # It reads its input, says something on both outputs, and allows no other run at the same time.
        lines = ["#!/bin/sh", 'echo "$PWD $*" >>"$CALLS"', "name=${PWD##*/} out=crates/${PWD##*/}/out", "cd ../.."]
        lines += ['echo $$ >"$CALLS.pid"', "cat"]
        lines += [f"echo {RT_SAYS[0]}", f"echo {RT_SAYS[1]} >&2"]
        lines += ['mkdir "$CALLS.busy" || exit 1', f"( {action} )", "status=$?", 'rmdir "$CALLS.busy"', "exit $status"]
        (self.tools / "rt").write_text("\n".join(lines) + "\n")
        (self.tools / "rt").chmod(0o755)

    def called(self):
        """How often rt was called since the last count, or which calls were wrong."""
        calls = self.calls.read_text().splitlines()
        self.calls.write_text("")
        wrong = [call for call in calls if call != f"{self.place}/crates/list_program run"]
        return wrong or len(calls)

    def use(self, *words, **more):
        return run([self.place / "bin/trogonreed", *(words or ["list"])], data=STREAM, env=self.env, **more)

    def live(self):
        return Live([self.place / "bin/trogonreed", "list"], env=self.env, start_new_session=True)

    def tries(self, test, name, said, calls, listed):
        """One use: how often it calls rt, whether it lists, and its lines on standard error by parts of them."""
        found, count = self.use(), self.called()
        lines = found.err.splitlines(True)
        right = len(lines) == len(said) and all(is_line(line, part) for line, part in zip(lines, said))
        right = right and (found.status, found.out) == ((0, LISTING) if listed else (2, b""))
        test(name, right and count == calls, f"{found}, calls of rt: {count}")


RT_SAYS = ["out of rt", "on the side"]
BUILDING, FAILED, MISSING = "proving and building", "target/trogonreed.log", "rt is not on the PATH"


def all_uses(test, root, room):
    builds(test, Checkout(root, room, "builds"))
    rebuilds(test, Checkout(root, room, "rebuilds"))
    fails(test, Checkout(root, room, "fails"))
    runs(test, Checkout(root, room, "runs"))
    lacks(test, Checkout(root, room, "lacks"))
    two_at_once(test, Checkout(root, room, "two at once"))
    broken_off(test, Checkout(root, room, "broken off"))
    not_whole(test, Checkout(root, room, "not whole"))


def builds(test, fresh):
    fresh.rt(BUILDS)
    found = fresh.use("--help")
    test("--help builds nothing", found.status == 0 and fresh.called() == 0, str(found))
    found = fresh.use("list", "lost")
    right = found.is_refusal("lost") and fresh.called() == 0
    test("a missing file is refused before anything is built", right, str(found))
    fresh.tries(test, "the first use builds, and leaves its standard input alone", [BUILDING], 1, True)
    said = fresh.log.read_text()
    test("what rt says is in the log", said == "".join(f"{line}\n" for line in RT_SAYS), said)
    fresh.tries(test, "the second use does not", [], 0, True)
    (fresh.tools / "rt").unlink()
    fresh.tries(test, "what is built needs no rt", [], 0, True)


def rebuilds(test, fresh):
    fresh.rt(BUILDS)
    fresh.use()
    fresh.called()
    for name in SOURCES:
        for what, action in [("newer", BUILDS), ("newer and says the same", LEAVES)]:
            fresh.rt(action)
            make_older(fresh.place, 1000)
            then = time.time() - 500
            os.utime(fresh.place / name, (then, then))
            fresh.tries(test, f"{name} is {what}: built again", [BUILDING], 1, True)
            fresh.tries(test, f"{name} was {what}: not again", [], 0, True)
    os.utime(fresh.place / OTHER_SOURCE)
    for name in NO_SOURCES:
        (fresh.place / name).parent.mkdir(exist_ok=True)
        (fresh.place / name).write_text("")
    fresh.tries(test, "what it is not made of is newer: not again", [], 0, True)
    make_older(fresh.place, 1000)
    os.utime(fresh.place / SOURCES[0], (time.time() - 500,) * 2)
    later = fresh.tools / "later"
    later.write_text("")
    os.utime(later, (time.time() + 5,) * 2)
    fresh.rt(f"{BUILDS}; touch -r '{later}' {SOURCES[-1]} && touch -r '{later}' $out/$name")
    fresh.tries(test, "a source is newer", [BUILDING], 1, True)
    fresh.tries(test, "a source was saved while rt ran: built again", [BUILDING], 1, True)


def fails(test, fresh):
    fresh.rt(FAILS)
    fresh.tries(test, "rt fails", [BUILDING, FAILED], 1, False)
    test("what rt says is in the log that is named", b"out of rt" in fresh.log.read_bytes())
    fresh.tries(test, "rt fails again", [BUILDING, FAILED], 1, False)
    fresh.rt(FAILS_LATE)
    fresh.tries(test, "rt fails and leaves a program", [BUILDING, FAILED], 1, False)
    fresh.tries(test, "that program is not used", [BUILDING, FAILED], 1, False)
    fresh.rt(BUILDS)
    fresh.tries(test, "rt passes at last", [BUILDING], 1, True)
    fresh.program.unlink()
    fresh.kept.unlink()
    fresh.rt(LEAVES)
    fresh.tries(test, "rt passes and leaves no program", [BUILDING, "remove"], 1, False)
    fresh.rt(SECOND)
    fresh.tries(test, "rt passes and does not call the program proved: once more", [BUILDING], 2, True)
    fresh.program.unlink()
    fresh.rt(UNSTAMPED)
    fresh.tries(test, "nor does it then", [BUILDING, FAILED], 2, False)


def runs(test, fresh):
    """A program is used only if it prints what the stored output has, where there is stored input."""
    stored = fresh.place / "crates/list_program"
    (stored / "stdin").write_bytes(STREAM)
    for name, data, listed in [("another text", b"clean 0\n", False), ("its text", LISTING, True)]:
        (stored / "stdout").write_bytes(data)
        fresh.rt(BUILDS)
        said = [BUILDING] if listed else [BUILDING, ": list_program failed; see "]
        fresh.tries(test, f"a program that prints {name}", said, 1, listed)
    fresh.tries(test, "a program that printed its text: not again", [], 0, True)
    fresh.program.unlink()
    for name, data in [("a line break less", LISTING[:-1]), ("a line break more", LISTING + b"\n"), ("nothing", b"")]:
        (stored / "stdout").write_bytes(data)
        fresh.tries(test, f"the stored output has {name}", [BUILDING, ": list_program failed; see "], 1, False)


def lacks(test, fresh):
    fresh.tries(test, "there is no rt", [MISSING], 0, False)
    fresh.rt(BUILDS)
    for tool in ("flock", "setsid"):
        (fresh.tools / tool).unlink()
        fresh.tries(test, f"there is no {tool}", [f"{tool} is not on the PATH"], 0, False)
        (fresh.tools / tool).symlink_to(shutil.which(tool))
    (fresh.place / "target").write_text("")
    (fresh.place / "target").chmod(0o444)
    fresh.tries(test, "target is not a folder", ["target cannot be written"], 0, False)
    (fresh.place / "crates.txt").unlink()
    fresh.tries(test, "there is no crates.txt", ["crates.txt"], 0, False)


def two_at_once(test, fresh):
    fresh.rt(SLOW)
    with fresh.live() as one, fresh.live() as two:
        for live in (one, two):
            live.send(STREAM)
            live.close_wire()
        for name, live in [("the first", one), ("the second", two)]:
            found = live.ended()
            right = (found.status, found.out) == (0, LISTING) and is_line(found.err, BUILDING)
            test(f"two first uses at once, {name}", right, str(found))
    calls = fresh.called()
    test("two first uses at once build once", calls == 1, str(calls))


def broken_off(test, fresh):
    """However a use is ended while rt runs, nothing of rt is left."""
    receivers = [("the front door", os.kill), ("all of the run, as by a terminal", os.killpg)]
    numbers = (signal.SIGINT, signal.SIGTERM, signal.SIGHUP, signal.SIGQUIT, signal.SIGKILL)
    for number, (who, send), action in itertools.product(numbers, receivers, (STUCK, STUBBORN)):
        fresh.rt(action)
        breaks_off(test, fresh, number, who, send)
    fresh.called()
    fresh.rt(BUILDS)
    fresh.tries(test, "a use that was broken off does not hinder the next", [BUILDING], 1, True)


def busy(fresh):
    """A folder that is there while rt runs."""
    return pathlib.Path(f"{fresh.calls}.busy")


def breaks_off(test, fresh, number, who, send):
    name = f"{number.name} to {who} while rt runs"
    with fresh.live() as live:
        wait_for(busy(fresh).exists)
        session = session_of(int(pathlib.Path(f"{fresh.calls}.pid").read_text()))
        running = left_in(session)
        send(live.process.pid, number)
        found = live.ended()
        test(name, found.status in ends_of(number) and found.out == b"" and is_line(found.err), str(found))
        gone = wait_for(lambda: not left_in(session))
        test(f"{name}: it is ended too", running and gone, f"{running} ran, and {left_in(session)} is left")
    if busy(fresh).exists():
        busy(fresh).rmdir()


def not_whole(test, fresh):
    """What a full disk or a crash leaves of a program is built again, although rt's stamp says that it is proved."""
    fresh.rt(BY_STAMP)
    fresh.tries(test, "the first use", [BUILDING], 1, True)
    size = fresh.program.stat().st_size
    for name, data in [
        ("of size 0", b""),
        ("cut to half", fresh.program.read_bytes()[: size // 2]),
        ("cut by a byte", fresh.program.read_bytes()[:-1]),
        ("of zeros", bytes(size)),
        ("of a few bytes", b"\x7fELF"),
    ]:
        fresh.program.write_bytes(data)
        fresh.tries(test, f"a program {name} is built again", [BUILDING], 1, True)
        fresh.tries(test, f"a program that was {name}: not again", [], 0, True)
    fresh.program.unlink()
    fresh.tries(test, "a program that is gone is built again", [BUILDING], 1, True)
    fresh.program.write_bytes(b"")
    fresh.kept.write_bytes(b"")
    fresh.rt(LEAVES)
    fresh.tries(test, "rt leaves no whole program", [BUILDING, "remove"], 1, False)
