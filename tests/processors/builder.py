"""bin/firmware: what it writes, and what it refuses, each with one line and nothing written.

builder.py FOLDER: in FOLDER are the archives that bin/firmware wrote, a folder for each triple. Most runs have a
stand-in for rt (place.py); one has the real rt, and a crate that is not proved.
"""
import os
import pathlib
import re
import shutil
import signal
import subprocess
import sys
import time

HERE = pathlib.Path(__file__).resolve().parent
sys.path[1:1] = [str(HERE.parent / name) for name in ("lib", "cli")]
from checks import Checks  # noqa: E402
from door import as_started_by_a_person  # noqa: E402
from module import FIRST, FOR_HOST, OTHERWISE, bitcode_of, changed, module_of, text_of, with_layout  # noqa: E402
from page import PAGE, page_rows  # noqa: E402
from place import (BIN, DAMAGED, FAILS, HOST, NO_MODULE, PATIENCE, ROOT, SAYS_NOTHING, SLOW, TOOLS,  # noqa: E402
                   TWO_MODULES, WHOLE, Place, Run, kit_of)

TRIPLE = "thumbv6m-none-eabi"
FILES = ["libfirmware.a", "trogonreed.h"]
PROVED = ["base", "frame", "firmware"]  # the writer, and what it is made of
PAIR = re.compile(r"^  (%\w+) = load \{ (i64, i8|i8, i64) \}, ptr (%\w+), align 8\n", re.M)


def written(test, place, module, folder):
    """What a whole run writes: the two files, the same bytes each time, and nothing else."""
    place.stand_in(WHOLE, module)
    found = place.run(TRIPLE, str(place.out))
    names = "".join(f"{place.out}/{name}\n" for name in FILES)
    test("it names the files that it wrote", found.status == 0 and found.out == names and found.err == "", str(found))
    test("it writes two files", place.left() == set(FILES), str(place.left()))
    same = all((place.out / name).read_bytes() == (folder / TRIPLE / name).read_bytes() for name in FILES)
    test("the same module gives the same files", same)
    test("the header is that of the repository",
         (place.out / "trogonreed.h").read_bytes() == (ROOT / "include/trogonreed.h").read_bytes())
    (place.out / "main.c").write_text("kept\n", encoding="utf-8")
    (place.out / "libfirmware.a").write_text("old\n", encoding="utf-8")
    found = place.run(TRIPLE, "out", cwd=place.folder)
    right = (place.out / "libfirmware.a").read_bytes() == (folder / TRIPLE / "libfirmware.a").read_bytes()
    test("it replaces its files in a folder that is named from elsewhere", found.status == 0 and right, str(found))
    test("it leaves the other files alone", place.left() == {*FILES, "main.c"}, str(place.left()))
    shutil.rmtree(place.out)
    found = place.run(TRIPLE)
    default = place.root / "target/firmware" / TRIPLE
    names = [f"{default}/{name}" for name in FILES]
    test("without OUT it writes below target", found.out.splitlines() == names, str(found))
    found = place.run("host", "-out", cwd=place.folder)
    right = found.status == 0 and (place.folder / "-out/libfirmware.a").stat().st_size > 0
    test("for the host, into a folder with a dash", right, str(found))
    shutil.rmtree(place.folder / "-out")
    with open("/dev/full", "wb") as full:
        found = place.run(TRIPLE, str(place.out), stdout=full)
    right = found.status == 1 and found.err.count("\n") == 1 and place.left() == set(FILES)
    test("names that cannot be printed", right, str(found))
    shutil.rmtree(place.out)


def words(test, place):
    """Words that it does not take."""
    listed = place.run("--list")
    test("--list", listed.status == 0 and TRIPLE in listed.out.split() and listed.err == "", str(listed))
    shown = place.run("--help")
    right = shown.status == 0 and all(name in shown.out for name in listed.out.split())
    test("--help names each triple", right, str(shown))
    for what, line, word in [
        ("no words", [], "usage"),
        ("too many words", [TRIPLE, "out", "more"], "one OUT"),
        ("an option", ["--fast"], "no option"),
        ("a word after --list", ["--list", TRIPLE], "no words"),
        ("a triple that clang does not know", ["no-such-thing"], "does not know the triple 'no-such-thing'"),
        ("a triple that this clang has no target for", ["sparc-unknown-elf"], "does not know the triple"),
        ("a triple in two lines", ["thumb\nv6m"], "does not know the triple"),
        ("a triple that is not tested", ["riscv64-unknown-elf"], "not among the triples"),
        ("the high byte first", ["armebv7-none-eabi"], "not among the triples"),
        ("a folder that has no folder around it", [TRIPLE, str(place.out / "a/b")], "there is no folder"),
        ("a folder that is a file", [TRIPLE, place.door], "not a folder"),
        ("a folder without a name", [TRIPLE, ""], "no name"),
    ]:
        found = place.run(*line)
        test(f"{what}: one line", found.is_refusal(word), str(found))
        test(f"{what}: nothing is written", place.left() == set(), str(place.left()))
    (place.out / "libfirmware.a").mkdir(parents=True)
    found = place.run(TRIPLE, str(place.out))
    test("a folder in the place of the archive", found.is_refusal("is not a file"), str(found))
    shutil.rmtree(place.out)


def kits(test, place, module):
    """Kits that are not as they should be."""
    for what, text, word in [
        ("a crate that is not proved", FAILS, "frame is not proved"),
        ("rt says nothing and fails", SAYS_NOTHING, "firmware is not proved"),
        ("a kit that made no module", NO_MODULE, "made no module"),
        ("a kit that made two modules", TWO_MODULES, "more than one module"),
        ("a module that is none", DAMAGED, "is not one for"),
    ]:
        refused(test, place, what, text, module, word)
    for tool in TOOLS:
        path = place.kit / BIN / tool
        kept = path.readlink()
        path.unlink()
        refused(test, place, f"a kit without {tool}", WHOLE, module, f"no {tool}")
        path.symlink_to(kept)
    stacks(test, place, module)
    counted(test, place, module)
    found = Run([place.door, TRIPLE], env={**place.environment, "PATH": "/usr/bin:/bin"})
    is_there = shutil.which("rt", path="/usr/bin:/bin")
    test("without rt", is_there or found.is_refusal("rt is not on the PATH"), str(found))


def counted(test, place, module):
    """What clang counts of the stack, with the arguments, is what was measured: the page's figures."""
    place.stand_in(WHOLE, module)
    clang = place.kit / BIN / "clang"
    kept, count = clang.readlink(), place.kit / "counted"
    clang.unlink()
    clang.write_text(f'#!/bin/sh\n{kept} "$@" || exit\nfor word; do\n    case $word in\n'
                     f'    */firmware.o) cp "${{word%.o}}.su" "{count}" ;;\n    esac\ndone\n', encoding="utf-8")
    clang.chmod(0o755)
    rows = page_rows(PAGE.read_text("utf-8"))
    for triple in place.run("--list").out.split():
        if triple != "host":  # it is compiled by rt
            found = place.run(triple, str(place.out))
            stack, arguments = (int(cell.replace(",", "")) for cell in rows[f"`{triple}`"][4:])
            size = int(count.read_text("utf-8").split()[1]) if found.status == 0 else 0
            test(f"{triple}: clang counts as was measured", size == stack - arguments, f"{size}, {found}")
    clang.unlink()
    clang.symlink_to(kept)
    shutil.rmtree(place.out)


def stacks(test, place, module):
    """What clang counts of the stack: too much, a use that depends on the input, two functions, none."""
    clang = place.kit / BIN / "clang"
    kept = clang.readlink()
    clang.unlink()
    for counted in ["f 1024 static", "f 960 static", "f 100 dynamic", "f 100 static\ng 8 static", "f x static", ""]:
        clang.write_text(f'#!/bin/sh\n{kept} "$@" || exit\nfor word; do\n    case $word in\n    */firmware.o) '
                         f"echo '{counted}' >\"${{word%.o}}.su\" ;;\n    esac\ndone\n", encoding="utf-8")
        clang.chmod(0o755)
        refused(test, place, f"a stack that is counted as {counted!r}", WHOLE, module, "the stack of the archive")
    clang.unlink()
    clang.symlink_to(kept)


def refused(test, place, what, stand_in, module, word):
    """A run that is refused leaves OUT as it was, with its archive of before."""
    place.stand_in(stand_in, module)
    before(place)
    found = place.run(TRIPLE, str(place.out))
    test(f"{what}: one line", found.is_refusal(word), str(found))
    test(f"{what}: all is as before", place.left() == set(FILES) and is_before(place), str(place.left()))
    shutil.rmtree(place.out)


def modules(test, place, tools, module):
    """A module that looks otherwise is refused, whatever it is; clang would compile each."""
    text = text_of(tools, module)
    layout = re.search(r'^target datalayout = "(.*)"$', text, re.M)[1]
    other = layout.replace("-S128", "-S256")
    refused(test, place, "another layout", WHOLE, with_layout(module, layout, other), "different data layouts")
    for target in ["x86_64-unknown-linux-musl", "x86_64-unknown-linux-gnux32", "aarch64-unknown-linux-gnu"]:
        refused(test, place, f"a module for {target}", WHOLE, bitcode_of(tools, text, target), "is not one for")
    for what, old, new, word in OTHERWISE:
        refused(test, place, what, WHOLE, bitcode_of(tools, changed(text, old, new)), word)
    retargeted(test, place, text, layout)


def retargeted(test, place, text, layout):
    """The change itself: three places of the module, each pair that is loaded whole, and no other line."""
    exported = re.search(r"^(define noundef i32 @trogonreed_write_frame.*) #", text, re.M)[1]
    places = {"layout": layout, "triple": HOST, "to_layout": "LAYOUT", "to_triple": "TRIPLE", "exported": exported}
    words = ["awk", *(word for name, value in places.items() for word in ("-v", f"{name}={value}"))]
    file = place.kit / "module.ll"

    def run(module):
        file.write_text(module, encoding="ascii")
        programs = [word for name in ("memory", "retarget") for word in ("-f", place.root / f"cross/{name}.awk")]
        return Run([*words, *programs, file, file])
    found = run(text)
    wants = text.replace(f'"{layout}"', '"LAYOUT"').replace(f'"{HOST}"', '"TRIPLE"').replace(f" {FOR_HOST}", "")
    wants, pairs = PAIR.subn(in_parts, wants)
    right = found.status == 0 and found.out == wants and wants.count("x86") == 0
    test("three places change, and each pair, and no other", right and pairs == text.count("= load {") > 0)
    found = run(changed(text, FIRST, FIRST + "  %z = alloca [33 x i8], align 8\n"
                        "  %y = load { i8, ptr, i16, i64, i1 }, ptr %z, align 8\n"))
    parts = re.findall(r"^  %y\.place\d = getelementptr i8, ptr %z, i64 (\d+)$", found.out, re.M)
    test("parts are loaded from their places on x86-64", parts == ["0", "8", "16", "24", "32"], str(found)[-300:])
    words += ["-v", 'more=module asm "x"']
    found = run(text)
    test("a line is added at the end", found.status == 0 and found.out == wants + 'module asm "x"\n')
    layout_line, triple_line = f'target datalayout = "{layout}"\n', f'target triple = "{HOST}"\n'
    for what, old, new in [
        ("no layout", layout_line, ""), ("two layouts", layout_line, layout_line * 2),
        ("another layout", layout_line, layout_line.replace("S128", "S64")),
        ("no triple", triple_line, ""), ("two triples", triple_line, triple_line * 2),
        ("another triple", triple_line, triple_line.replace("gnu", "musl")),
        ("a call of nothing", FIRST, FIRST + "  call void @none()\n"),
        ("two groups", "attributes #1", f"attributes #3 = {{ nounwind {FOR_HOST} }}\nattributes #1"),
        ("parameters with other names", "i64 noundef %a1) #0", "i64 noundef %a2) #0"),
        ("two functions of one name", 'noundef i64 @"frame::writer::width"', 'noundef i64 @"frame::writer::put_byte"'),
        ("a copy that is not declared", "declare void @llvm.memmove", "; declare void @llvm.memmove"),
        ("zeros that are not declared", "declare void @llvm.memset", "; declare void @llvm.memset"),
        ("nothing", text, ""),
    ]:
        found = run(text.replace(old, new, 1))
        right = found.status == 1 and found.err.count("\n") == 1 and found.out == ""
        test(f"{what}: refused in one line", right, str(found)[-300:])


def in_parts(found):
    """A pair that was loaded whole is loaded part by part, from its places."""
    result, pair, pointer = found.groups()
    lines, made = [], "poison"
    for i, (part, place) in enumerate(zip(pair.split(", "), (0, 8)), 1):
        name = result if i == 2 else f"{result}.with{i}"
        lines += [f"  {result}.place{i} = getelementptr i8, ptr {pointer}, i64 {place}\n",
                  f"  {result}.part{i} = load {part}, ptr {result}.place{i}, align 1\n",
                  f"  {name} = insertvalue {{ {pair} }} {made}, {part} {result}.part{i}, {i - 1}\n"]
        made = name
    return "".join(lines)


def interrupted(test, place):
    """A signal ends it and what it started; nothing stands where it was to write."""
    place.stand_in(SLOW)
    for number in (signal.SIGTERM, signal.SIGINT, signal.SIGHUP):
        sleeping = place.root / "crates/firmware/out/sleeping"
        sleeping.unlink(missing_ok=True)
        temporary = place.folder / "temporary"
        temporary.mkdir()
        with subprocess.Popen([place.door, TRIPLE, place.out], env={**place.environment, "TMPDIR": str(temporary)},
                              stderr=subprocess.PIPE, preexec_fn=os.setsid) as run:
            end = time.monotonic() + PATIENCE
            while not (sleeping.exists() and sleeping.read_text("utf-8").strip()) and time.monotonic() < end:
                time.sleep(0.02)
            run.send_signal(number)
            status = run.wait(PATIENCE)
            said = run.stderr.read()
        test(f"{number.name} ends it", status == -number and said == b"", f"status {status}, {said!r}")
        test(f"{number.name} leaves nothing", not place.out.exists() and not any(temporary.iterdir()))
        test(f"{number.name} ends rt too", is_gone(int(sleeping.read_text("utf-8"))))
        shutil.rmtree(temporary)


def renamed(test, place, module, folder):
    """The files get their names by renaming: a signal then waits, and a full disk changes nothing."""
    place.stand_in(WHOLE, module)
    mv = place.kit / "bin/mv"
    mv.write_text(f'#!/bin/sh\nkill -s TERM "$PPID"\nexec {shutil.which("mv")} "$@"\n', encoding="utf-8")
    mv.chmod(0o755)
    before(place)
    found = place.run(TRIPLE, str(place.out))
    same = place.left() == set(FILES) and all(
        (place.out / name).read_bytes() == (folder / TRIPLE / name).read_bytes() for name in FILES)
    test("a signal waits until both files have their names", found.status == 0 and same, f"{found}, {place.left()}")
    mv.unlink()
    shutil.rmtree(place.out)
    place.out.mkdir()
    if subprocess.run(["mount", "-t", "tmpfs", "-o", "size=16k", "none", place.out], capture_output=True).returncode:
        return "skipped: a full disk is not tried, because none can be mounted"
    try:
        before(place)
        (place.out / "rest").write_bytes(bytes(8 << 10))
        found = place.run(TRIPLE, str(place.out))
        test("a full disk: one line", found.is_refusal("cannot be written"), str(found))
        test("a full disk: all is as before", place.left() == {*FILES, "rest"} and is_before(place), str(place.left()))
    finally:
        subprocess.run(["umount", place.out], check=True)
    shutil.rmtree(place.out)
    return ""


def before(place):
    """Files of an earlier run."""
    place.out.mkdir(exist_ok=True)
    for name in FILES:
        (place.out / name).write_text("before\n", encoding="utf-8")


def is_before(place):
    return all((place.out / name).read_text("utf-8") == "before\n" for name in FILES)


def is_gone(process):
    end = time.monotonic() + 10
    while time.monotonic() < end:
        try:
            state = pathlib.Path(f"/proc/{process}/stat").read_text("utf-8").rpartition(")")[2].split()[0]
        except OSError:
            return True
        if state == "Z":
            return True
        time.sleep(0.02)
    return False


def left_out(folder, _):
    """Of the other crates, what was built."""
    folder = pathlib.Path(folder)
    return ["out"] if folder.parent == ROOT / "crates" and folder.name not in PROVED else []


def not_proved(test, place):
    """The real rt, and a writer that has another number for PAYLOAD."""
    shutil.copytree(ROOT / "crates", place.root / "crates", ignore=left_out, dirs_exist_ok=True)
    shutil.copy(ROOT / "crates.txt", place.root)
    source = place.root / "crates/firmware/src/lib.rt"
    text = source.read_text("utf-8")
    assert text.count("REFUSED + u32") == 1
    source.write_text(text.replace("REFUSED + u32", "REFUSED + 1 + u32"), encoding="utf-8")
    found = Run([place.door, TRIPLE, str(place.out)])
    test("another number for PAYLOAD: one line", found.is_refusal("firmware is not proved"), str(found))
    test("another number for PAYLOAD: nothing is written", place.left() == set(), str(place.left()))


def main(words_given):
    checks = Checks("processors")
    as_started_by_a_person()
    folder = pathlib.Path(words_given[0]).resolve()
    (folder / "builder").mkdir()
    tools = kit_of()
    place = Place(folder / "builder", tools)
    module = module_of(place, tools)
    written(checks.test, place, module, folder)
    words(checks.test, place)
    kits(checks.test, place, module)
    modules(checks.test, place, tools, module)
    interrupted(checks.test, place)
    skipped = renamed(checks.test, place, module, folder)
    if skipped:
        checks.say(skipped)
    not_proved(checks.test, place)
    return checks.end()


if __name__ == "__main__":
    sys.exit(main(sys.argv[1:]))
