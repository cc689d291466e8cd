"""The table of commands: each command builds and runs its own program, and one more entry is one more command."""
import os

import firstuse
import model
from commands import FRAME, REPLAY
from door import run


def all_uses(test, root, room):
    first_use(test, root, room)
    one_entry(test, root, room)


def first_use(test, root, room):
    """Each command builds its own program, and no other."""
    fresh = firstuse.Checkout(root, room, "replay")
    crates = "\nreplay: listing extra\nextra:\nreplay_program: replay io\n"
    (fresh.place / "crates.txt").write_text(firstuse.CRATES + crates)
    folder = root / "target/bin"
    (fresh.place / "crates/replay_program").mkdir()
    fresh.rt(f'mkdir -p $out; cp "{folder}/$name" $out/$name; : >$out/$name.stamp')
    notice = "trogonreed: proving and building the {} program; this can take some minutes\n"
    capture = fresh.place / "capture"
    capture.write_bytes(REPLAY.one)
    listing = REPLAY.listing(REPLAY.one)

    def uses(name, words, out, said, calls):
        found, called = fresh.use(*words), fresh.calls.read_text().splitlines()
        fresh.calls.write_text("")
        right = (found.status, found.out, found.err.decode()) == (0, out, said)
        test(name, right and called == [f"{fresh.place}/crates/{call} run" for call in calls], f"{found}, {called}")

    uses("the first replay", ["replay", capture], listing, notice.format("replay"), ["replay_program"])
    uses("the second replay", ["replay", capture], listing, "", [])
    uses("the first list after it", ["list"], firstuse.LISTING, notice.format("listing"), ["list_program"])
    firstuse.make_older(fresh.place, 1000)
    source = fresh.place / "crates/extra/src/lib.rt"
    source.parent.mkdir(parents=True)
    source.write_text("a new source\n")
    uses("a source of replay alone is newer: list", ["list"], firstuse.LISTING, "", [])
    uses("a source of replay alone is newer", ["replay", capture], listing, notice.format("replay"), ["replay_program"])
    fresh.rt("exit 1")
    os.utime(source, (os.stat(source).st_mtime + 1000,) * 2)
    found = fresh.use("replay", capture)
    last = f"trogonreed: the replay program could not be proved and built; see {fresh.log}\n"
    right = (found.status, found.out, found.err.decode()) == (2, b"", notice.format("replay") + last)
    test("the replay program is not proved", right, str(found))


def one_entry(test, root, room):
    """One more entry is one more command, with its words, its help and its program."""
    place = firstuse.skeleton(root, room / "one more command")
    firstuse.give_program(root, place)
    door = place / "bin/trogonreed"
    entry = """    "$1" second 'NUMBER [FILE]' list_program 'the listing program' take_second 'lists as list does'\n"""
    text = door.read_text()
    table = text.index("each_command() {")
    end = text.index("}\n", table)
    check = 'take_second() {\n    shift\n    take_file "$@"\n}\n'
    door.write_text(text[:end] + entry + "}\n" + check + text[end + 2 :])
    (room / "a frame for it").write_bytes(FRAME)
    found = run([door, "second", "1", room / "a frame for it"])
    test("one more command", found.is_quiet(model.listing(FRAME).encode()), str(found))
    found = run([door, "second", "1"], data=FRAME)
    test("one more command, standard input", found.is_quiet(model.listing(FRAME).encode()), str(found))
    for words in (["second"], ["second", "1", "2", "3"]):
        found = run([door, *words])
        test(f"{words} of one more command", found.is_refusal("'second' takes NUMBER [FILE]"), str(found))
    found = run([door])
    test("one more command in the usage line", found.is_refusal("trogonreed second NUMBER [FILE] |"), str(found))
    found = run([door, "second", "--help"])
    lines = f"\ntrogonreed second NUMBER [FILE]\n{'':26}lists as list does\ntrogonreed --help "
    right = found.status == 0 and lines in found.out.decode()
    test("one more command in the help", right, str(found))
