#!/usr/bin/env python3
"""Uses bin/trogonreed, and through it the proved programs, as a person or a device would.

check.py ROOT [SEED [COUNT]]: the repository, and COUNT random streams. The last line is 'N passed, M failed'.
"""
import os
import pathlib
import re
import sys
import tempfile

import boxing
import firstuse
import listener
import live
import model
import progress
import replaying
import table
import version
import whole
from commands import COMMANDS
from door import as_started_by_a_person, run
from listing import WORDS  # tests/model, whose folder `model` adds
from model import HEADING

sys.path.insert(0, str(pathlib.Path(__file__).resolve().parent.parent / "lib"))
from checks import Checks, Dead, seed_and_count

checks = Checks("cli")
test = checks.test
FIRST_BUILD = 3600  # seconds
REFUSED = {"short", "long", "stuff", "stufflate", "cut", "sum"}  # the kinds of a refused frame


# Streams whose listing is written by hand: a name, the bytes, and the lines under the heading.

HEARTBEAT = "FF FF 00 05 07 01 00 00 0D"
SUM_FF = "FF FF 00 05 07 F3 00 00 FF 55"
STATED = [
    (
        "a frame, a cut one and a frame",
        f"FF {HEARTBEAT} FF FF 00 05 07 {SUM_FF}",
        ["frame 1 10 7 1 0 0", "cut 10 17 - - - -", "frame 15 25 7 243 0 0", "clean 25"],
    ),
    ("empty", "", ["clean 0"]),
    ("one byte", "00", ["clean 1"]),
    ("one FF", "FF", ["clean 1"]),
    ("a header alone", "FF FF", ["open 0"]),
    ("FF only", "FF FF FF FF FF", ["open 3"]),
    ("half a frame", "FF FF 00 05 07", ["open 0"]),
    ("a frame but for its last byte", "FF FF 00 05 07 01 00 00", ["open 0"]),
    ("a sum FF without its 55", "FF FF 00 05 07 F3 00 00 FF", ["open 0"]),
    ("number FF", "FF FF 00 05 07 FF 55 00 00 0B", ["frame 0 10 7 255 0 0", "clean 10"]),
    (
        "volume 3, leaf 255",
        "FF FF 00 0E 05 02 00 00 04 05 00 03 00 00 00 FF 55 00 20",
        ["frame 0 19 5 2 0 9", "clean 19"],
    ),
    ("flags", "FF FF 00 05 07 01 80 01 8E", ["frame 0 9 7 1 32769 0", "clean 9"]),
    ("short", "FF FF 00 04", ["short 0 4 - - - -", "clean 4"]),
    ("long", "FF FF 04 01", ["long 0 4 - - - -", "clean 4"]),
    ("long, by a length FF 55", "FF FF FF 55 00", ["long 1 5 - - - -", "clean 5"]),
    ("the greatest length", "FF FF 04 00", ["open 0"]),
    ("stuff", "FF FF 00 05 07 FF 00", ["stuff 0 7 - - - -", "clean 7"]),
    ("stuff in the length", "FF FF 00 FF 05", ["stuff 0 5 - - - -", "clean 5"]),
    ("stuff after 5 body bytes", "FF FF 00 05 07 01 00 FF 00", ["stuff 0 9 - - - -", "clean 9"]),
    ("stuff after 5 body bytes, one stuffed", "FF FF 00 05 07 FF 55 00 FF 01", ["stuff 0 10 - - - -", "clean 10"]),
    ("stufflate after 6 body bytes", "FF FF 00 06 07 01 00 00 FF 00", ["stufflate 0 10 - - - -", "clean 10"]),
    ("stufflate after 6, one stuffed", "FF FF 00 06 07 01 00 FF 55 FF 54", ["stufflate 0 11 - - - -", "clean 11"]),
    ("stufflate at the sum, no payload", "FF FF 00 05 07 01 00 00 FF 00", ["stufflate 0 10 - - - -", "clean 10"]),
    (
        "stufflate at the sum of a report, then a frame",
        f"FF FF 00 0E 05 02 00 00 04 05 00 03 00 00 00 DE 00 FF 0A {HEARTBEAT}",
        ["stufflate 0 19 - - - -", "frame 19 28 7 1 0 0", "clean 28"],
    ),
    (
        "stufflate in the payload after a stuffed FF",
        "FF FF 00 0E 05 02 00 00 04 05 00 03 00 00 FF 55 FF 00 1F",
        ["stufflate 0 18 - - - -", "clean 19"],
    ),
    ("cut after 6 body bytes", "FF FF 00 05 07 01 00 00 FF FF", ["cut 0 10 - - - -", "open 8"]),
    ("cut", "FF FF 00 05 FF FF", ["cut 0 6 - - - -", "open 4"]),
    ("sum", "FF FF 00 05 07 01 00 00 0E", ["sum 0 9 - - - -", "clean 9"]),
    ("a frame, then an open one", f"{HEARTBEAT} FF FF 00", ["frame 0 9 7 1 0 0", "open 9"]),
    ("noise after a refused frame", "FF FF 00 04 07 01 00 00 0D", ["short 0 4 - - - -", "clean 9"]),
    ("noise with FF 55 in it", f"FF 55 00 FF 55 {HEARTBEAT} FF", ["frame 5 14 7 1 0 0", "clean 15"]),
]


def text_of(lines):
    return "".join(f"{line}\n" for line in [HEADING, *lines])


class Door:
    """The front door of one repository."""

    def __init__(self, root):
        self.root, self.path = root, str(root / "bin" / "trogonreed")

    def __call__(self, *words, **more):
        return run([self.path, *words], **more)

    def list_both_ways(self, name, data, expected, room):
        """As a file and on standard input."""
        path = room / "stream"
        path.write_bytes(data)
        for way, found in [("a file", self("list", path)), ("standard input", self("list", data=data))]:
            test(f"{name}, by {way}", found.is_quiet(expected.encode()), str(found))


def listings(door, room):
    for name, text, lines in STATED:
        data, expected = bytes.fromhex(text), text_of(lines)
        test(f"the model's listing of '{name}'", model.listing(data) == expected, model.listing(data))
        door.list_both_ways(name, data, expected, room)


def descriptors(door, room, command):
    """Inputs by the names of descriptors, those that the front door uses itself among them: a pipe, and a file."""
    data, expected = command.one, command.listing(command.one)
    (room / "stream").write_bytes(data)
    numbers = (number for number in range(10) if number not in (1, 2))
    for name in ["/dev/stdin", *(f"/dev/fd/{number}" for number in numbers), "/proc/self/fd/3"]:
        number = name[-1] if name[-1].isdigit() else "0"
        for way, words in [
            ("a pipe", f'cat "$4" | "$1" "$2" "$3" {number}<&0'),
            ("a file", f'"$1" "$2" "$3" {number}<"$4"'),
        ]:
            found = run(["sh", "-c", words, "sh", door.path, command.name, name, room / "stream"])
            test(f"{command.name} {name}, {way}", found.is_quiet(expected), str(found))
    found = run(["sh", "-c", '"$1" "$2" /dev/fd/3 3<&-', "sh", door.path, command.name])
    test(f"{command.name} /dev/fd/3, closed", found.is_refusal("/dev/fd/3"), str(found))
    found = door(command.name, "-", data=data)
    test(f"{command.name} -", found.is_quiet(expected), str(found))


def sample(door, samples):
    data = (samples / "bench.bin").read_bytes()
    expected = (samples / "bench.txt").read_bytes()
    test("bench.bin is what bench.hex says", data == model.hex_bytes((samples / "bench.hex").read_text()))
    test("bench.bin has 400 to 900 bytes", 400 <= len(data) <= 900, f"{len(data)}")
    test("the model's listing of bench.bin", model.listing(data).encode() == expected)
    found = door("list", samples / "bench.bin")
    test("the listing of bench.bin", found.is_quiet(expected), str(found))
    kinds = {line.split()[0] for line in expected.decode().splitlines()[1:-1]}
    test("every kind is in the sample", kinds == {"frame", *REFUSED}, str(kinds))
    last = expected.decode().splitlines()[-2]
    test("the sample ends in a frame", last.startswith("frame") and last.split()[2] == str(len(data)), last)


# Random streams.


def frames(rand):
    """Whole frames, few or many FF in them, close together."""
    heavy = rand.choice([[255], [255, 85, 0], range(256)])
    for _ in range(rand.randrange(1, 9)):
        payload = bytes(rand.choices(heavy, k=rand.choice([0, 1, 9, 66, 1018, 1019])))
        yield model.wire(rand.randrange(256), rand.randrange(256), payload, rand.randrange(65536))


def broken(rand):
    """Frames, of which some lose, gain or change a byte."""
    for frame in frames(rand):
        at = rand.randrange(len(frame))
        change = rand.choice([frame[at : at + 1], b"", bytes([rand.randrange(256)]), b"\xff", b"\x55", b"\xff\xff"])
        yield frame[:at] + change + frame[at + rand.randrange(2) :]


def tokens(rand):
    """The bytes that decide things, in any order."""
    lengths = [b"\x00\x05", b"\x00\x04", b"\x04\x00", b"\x04\x01"]
    parts = [b"\xff", b"\xff\xff", b"\x55", b"\x00", *lengths, model.wire(7, 1)]
    return rand.choices(parts, k=rand.randrange(1, 40))


def noise(rand):
    yield rand.randbytes(rand.randrange(1, 3000))


# How many streams of a thousand each has.
FAMILIES = [("frames", frames, 300), ("broken frames", broken, 400), ("tokens", tokens, 250), ("noise", noise, 50)]


def random_streams(door, seed, count):
    for place, rand, family in checks.inputs(FAMILIES, seed, count, "stream"):
        data = b"".join(family(rand))
        found, expected = door("list", data=data), model.listing(data)
        wrong = f"{found}\n  bytes: {data.hex(' ')}\n  should be: {expected!r}"
        checks.test_random(place, "" if found.is_quiet(expected.encode()) else wrong)


# Inputs that fail.


def broken_ends(door, room, command):
    folder = os.open(room, os.O_RDONLY)
    found = door(command.name, stdin=folder)
    os.close(folder)
    right = found.is_refusal("standard input", "Is a directory", status=1, out=command.heading)
    test(f"{command.name}, standard input is a directory", right, str(found))
    with open(room / "written", "wb") as written:
        found = door(command.name, stdin=written)
    right = found.is_refusal("standard input", "Bad file descriptor", status=1, out=command.heading)
    test(f"{command.name}, standard input cannot be read", right, str(found))
    found = run(["sh", "-c", '"$0" "$1" <&-', door.path, command.name])
    test(f"{command.name}, standard input is closed", found.is_refusal("standard input"), str(found))
    found = door(command.name, "/dev/tty", start_new_session=True)
    right = found.is_refusal("/dev/tty", "opened")
    test(f"{command.name}, a file that may be read and cannot be opened", right, str(found))


# The command line.


def command_line(door, room):
    usage = door("--help")
    words = [b"list [FILE]", b"listen DEVICE", b"replay [FILE]", b"--help", b"--version", b"Ctrl-C", b"one listener"]
    words += [b"  0  ", b"  1  ", b"  2  ", b"  141  "]
    test("--help", usage.status == 0 and usage.err == b"" and all(word in usage.out for word in words), str(usage))
    test("--help fits a terminal of 80 columns", max(map(len, usage.out.splitlines())) < 80)
    for word in ("-h", "help", "list --help", "listen --help", "replay --help"):
        found = door(*word.split())
        test(f"{word} is --help", (found.status, found.out, found.err) == (0, usage.out, b""), str(found))

    kinds_explained(door.root, usage.out.decode())

    (room / "plain").write_bytes(b"")
    os.mkfifo(room / "fifo")
    refused = [
        ("no words", [], "usage", "list [FILE]", "listen DEVICE", "replay [FILE]", "--help", "--version"),
        ("an unknown word", ["lost"], "lost", "--help"),
        ("a word after --help", ["--help", "list"], "--help"),
        ("a word after --version", ["--version", "list"], "--version"),
        ("an empty word", [""], "--help"),
        ("an unknown option", ["--lost"], "--lost"),
        ("two words in one", ["list --help"], "list --help"),
        ("no device", ["listen"], "DEVICE"),
        ("two devices", ["listen", "/dev/null", "/dev/null"], "DEVICE"),
        ("a missing device", ["listen", room / "lost"], "lost"),
        ("listening to a file", ["listen", room / "plain"], "plain", "serial"),
        ("listening to a directory", ["listen", room], str(room)),
        ("listening to a pipe", ["listen", room / "fifo"], "fifo", "serial"),
        ("listening to /dev/null", ["listen", "/dev/null"], "/dev/null", "serial"),
        ("listening to -", ["listen", "-"]),
    ]
    for name, words, *parts in [*refused, *(case for command in COMMANDS for case in refused_files(command, room))]:
        found = door(*words)
        test(name, found.is_refusal(*parts), str(found))


def kinds_explained(root, usage):
    """What the first word of a line says, in --help and in docs/COMMAND.md."""
    shown = set(re.findall(r"^([a-z]+) \d", usage, re.MULTILINE))
    test("--help shows a line of a frame and both ends", {"frame", "clean", "open"} <= shown, str(shown))
    named = words_in(re.findall(r"^ +([a-z]+(?:, [a-z]+)*)  +\S", usage, re.MULTILINE))
    test("--help explains every kind of a refused frame", named == REFUSED, str(named))
    page = (root / "docs" / "COMMAND.md").read_text()
    table = page.partition("\n| kind | what is known |")[2].partition("\n\n")[0]
    named = words_in(re.findall(r"^\| (`[^|]*`) \|", table, re.MULTILINE))
    test("COMMAND.md explains every kind of a refused frame", named == REFUSED, str(named))
    test("the listing has no other kind", set(WORDS.values()) == {"frame", *REFUSED}, str(WORDS))


def words_in(texts):
    return {word for text in texts for word in re.findall(r"\w+", text)}


def refused_files(command, room):
    name = command.name
    yield f"{name}, an unknown option", [name, "--lost"], "--lost"
    yield f"{name}, two files", [name, room / "plain", room / "plain"], "FILE"
    yield f"{name}, a word after --help", [name, "--help", "--help"], "FILE"
    yield f"{name}, a missing file", [name, room / "lost"], "lost"
    yield f"{name}, an empty name", [name, ""]
    yield f"{name}, a missing file with a line break in its name", [name, "lo\nst"], "lo"
    yield f"{name}, a directory", [name, room], str(room), "directory"


def unreadable(root, room):
    """Root may read everything, so that this is tried as nobody."""
    if os.getuid() != 0:
        who = {}
    else:
        who = {"user": 65534, "group": 65534, "extra_groups": []}
        room.chmod(0o755)
    copy = firstuse.skeleton(root, room / "open to all")
    firstuse.give_program(root, copy)
    secret = room / "secret"
    secret.write_bytes(b"")
    secret.chmod(0)
    found = run([copy / "bin/trogonreed", "list", secret], **who)
    test("a file without permission", found.is_refusal("secret", "permission"), str(found))


# Where it is called from.


def places(door, root, room):
    expected = text_of(STATED[0][2]).encode()
    for name in ("stream", "-", "a file with  spaces"):
        (room / name).write_bytes(bytes.fromhex(STATED[0][1]))
    for way, words, more in ways(door, root, room):
        found = run(words, **more)
        test(f"called {way}", found.is_quiet(expected), str(found))


def ways(door, root, room):
    stream = room / "stream"
    yield "from another folder", [door.path, "list", "stream"], {"cwd": room}
    yield "from the top folder", [door.path, "list", stream], {"cwd": "/"}
    yield "by a relative name", ["../bin/trogonreed", "list", stream], {"cwd": root / "samples"}
    yield "by sh and a bare name", ["sh", "trogonreed", "list", stream], {"cwd": root / "bin"}
    path = f"{root / 'bin'}:{os.environ['PATH']}"
    yield "by the PATH", ["sh", "-c", "trogonreed list stream"], {"cwd": room, "env": os.environ | {"PATH": path}}

    links = room / "links"
    (links / "deep").mkdir(parents=True)
    (links / "one").symlink_to(door.path)
    (links / "deep" / "two").symlink_to("../one")
    (links / "three").symlink_to("deep/two")
    yield "by a link", [links / "one", "list", stream], {}
    yield "by a link to a link", [links / "deep" / "two", "list", stream], {}
    yield "by a relative link, from its folder", ["./three", "list", "../stream"], {"cwd": links}
    (room / "house").symlink_to(root)
    yield "through a link to the repository", [room / "house/bin/trogonreed", "list", stream], {}

    copy = firstuse.skeleton(root, room / "a folder with  spaces")
    firstuse.give_program(root, copy)
    yield "in a folder with spaces", [copy / "bin/trogonreed", "list", stream], {}
    yield "in a folder with spaces, by a link", [copy / "linked", "list", stream], {}
    yield "for a file whose name is -", [door.path, "list", "./-"], {"cwd": room}
    yield "for a file with spaces in its name", [door.path, "list", "a file with  spaces"], {"cwd": room}


def is_built(door):
    """The first use of a program may have to prove and build; no later use may."""
    for command in COMMANDS:
        found = door(command.name, data=command.one, patience=FIRST_BUILD)
        if found.out != command.listing(command.one):
            raise Dead(f"{command.name}: {found}")
        found = door(command.name, data=command.one)
        test(f"{command.name}, the second use says nothing", found.is_quiet(command.listing(command.one)), str(found))


def main():
    root = pathlib.Path(sys.argv[1]).resolve()
    seed, count = seed_and_count(sys.argv[2:], 120)
    as_started_by_a_person()
    door = Door(root)
    with tempfile.TemporaryDirectory() as name, checks.unless_dead():
        room = pathlib.Path(name).resolve()
        is_built(door)
        listings(door, room)
        sample(door, root / "samples")
        random_streams(door, seed, count)
        live.wires(test, door.path, root / "samples" / "bench.bin", seed)
        live.signals(test, door.path, room)
        live.memory(test, door.path, seed)
        for command in COMMANDS:
            descriptors(door, room, command)
            broken_ends(door, room, command)
        whole.all_outputs(test, door.path, root / "target/bin", room)
        listener.all_uses(test, door.path, room)
        replaying.all_uses(test, root / "bin/trogonreed", root / "target/bin", room, seed)
        boxing.all_uses(test, root, seed)
        command_line(door, room)
        unreadable(root, room)
        places(door, root, room)
        firstuse.all_uses(test, root, room)
        progress.all_uses(test, root, room)
        table.all_uses(test, root, room)
        version.all_uses(test, root, room)
    return checks.end()


if __name__ == "__main__":
    sys.exit(main())
