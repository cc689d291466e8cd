"""The stack of the writer: no array above 16 bytes in its sources, and less than 1,024 bytes used by the archive for C.

check.py FOLDER [SEED]: the folder has the programs that tests/stack/run builds. Of the other calls the use is compared
with docs/STACK.md, so that the page is true, and has no limit.
"""
import pathlib
import re
import shutil
import subprocess
import sys

import check_arrays
import check_mir
import machine
import mir
from arrays import WIDEST, arrays_of, reached
from rattle import Sources, Unreadable

HERE = pathlib.Path(__file__).resolve().parent
ROOT = HERE.parents[1]
sys.path.insert(0, str(HERE.parent / "lib"))
from checks import Checks, seed_and_count  # noqa: E402

KIT = pathlib.Path(shutil.which("rt") or "").resolve().parents[1]  # rt is in its bin/, the sources of std in rattle/
MAX_ARRAY = 16  # bytes
MAX_VARIABLE = 32  # bytes of one variable of the writer: a slice has 16, an answer 24, a body 1,026
PATIENCE = 300  # seconds
COUNT = re.compile(r"^(\d+) passed, (\d+) failed$")
USE = re.compile(r"^stack: (.*): (\d+) bytes, (\d+) of them arguments", re.M)
ROW = re.compile(r"^\| ([^|]*?) \| (\d[\d,]*) \| (\d+) \|", re.M)
REFUSED = re.compile(r"^stack: .* payloads, .*: too much stack, or another answer$")
# Writers that copy: each is an edit of a real source, of which the array has to be found.
COPYING = [
    ("a copy of the body", "frame/src/writer.rt", "out[0] = 0xFF;", "let body = [0u8; 1026]; out[0] = 0xFF;"),
    ("a copy in what it calls", "base/src/writes.rt", "match self {", "let c = [0u64; 3]; match self {"),
    ("a copy in a method of a trait", "frame/src/writer.rt", "Some(self.len())", "let c = [0u64; 3]; Some(self.len())"),
    ("a struct with a body", "frame/src/writer.rt", "sum: u8,\n}", "sum: u8, body: [u8; LIMIT + 2],\n}"),
    ("a reader", "firmware/src/lib.rt", "let head =", "let r = frame::Reader::new(); let head ="),
]


def text_of(path, edits=()):
    """The text of a module: of the repository's crates, or of the kit's libraries; None where there is none."""
    inner = "/".join(path[1:]) or "lib"
    for folder in (ROOT / "crates", KIT / "rattle"):
        file = folder / path[0] / "src" / f"{inner}.rt"
        if file.is_file():
            text = file.read_text(encoding="utf-8")
            for name, old, new in edits:
                text = text.replace(old, new, 1) if file == ROOT / "crates" / name else text
            return text
    return None


def sources_of(edits=()):
    """The sources of all crates; of the kit's libraries only what is named."""
    return Sources(lambda path: text_of(path, edits), lambda crate: (ROOT / "crates" / crate).is_dir())


def too_long(sources, item):
    """The arrays above the limit that an item reaches."""
    found = arrays_of(sources, item)
    return [f"{size} bytes in {inner.name}: {text}" for inner, text, size in found if size > MAX_ARRAY]


def functions(sources, items):
    """The functions that items reach, by their names."""
    found = [each for item in items for each in reached(sources, item) if each.kind == "fn"]
    return {sources.compiled_name(each): each for each in found}


def check_writer(checks):
    """The exported writer, from its sources."""
    sources = sources_of()
    exported = sources.exported("firmware")
    names = [item.name for item in exported]
    checks.test("one function is exported", names == ["firmware::trogonreed_write_frame"], str(names))
    for item in exported:
        found = too_long(sources, item)
        checks.test(f"{item.name} reaches no array above {MAX_ARRAY} bytes", not found, "; ".join(found))
    largest = max((size for item in exported for _, _, size in arrays_of(sources, item)), default=0)
    count = len(functions(sources, exported))
    checks.say(f"the writer reaches {count} functions; their largest array has {largest} bytes")
    for what, *edit in COPYING:
        wrong = sources_of([edit])
        checks.test(f"{what} is found", any(too_long(wrong, item) for item in wrong.exported("firmware")))


def check_compiler(checks, crate, folder):
    """The functions that the compiler has are those that the sources have, and none of its arrays is missing there.

    Of the kit's functions the sources may know the word alone, so these are compared by their arrays. The sources may
    have a method that is not called, beside one of its name that is, since they do not say of which type a value is;
    and larger arrays, where they do not say how wide an element is. An array of at most WIDEST bytes, as of a number's
    bytes, is not looked for. Returns the compiler's functions.
    """
    sources, top = sources_of(), folder / "mir" / crate
    if not mir.build(ROOT, crate, top):
        checks.test(f"{crate} is built as a library", False)
        return []
    exported = sources.exported(crate)
    program = mir.Libraries(top / "crates", KIT).reached(item.name for item in exported)
    ours = functions(sources, exported)
    theirs = {written_as(sources, ours, name) for name, _ in program} - {None}
    lost = {name for name in theirs - ours.keys() if name in ours or sources.is_whole(name.partition("::")[0])}
    called = {name.rpartition("::")[2] for name in theirs & ours.keys() if ours[name].owner}
    more = {name for name in ours.keys() - theirs if not (ours[name].owner and name.rpartition("::")[2] in called)}
    checks.test(f"{crate}: the compiler has the same functions", not lost and not more, f"{lost}, {more}")
    found = {size for item in exported for _, _, size in arrays_of(sources, item)}
    arrays = {size for _, function in program for size in mir.arrays_in(function)}
    wide = sorted(size for size in arrays - found if size > WIDEST)
    checks.test(f"{crate}: the compiler has no other arrays", not wide, str(wide))
    return program


def written_as(sources, ours, name):
    """The function of the sources that a name of the compiler's means; None for what the compiler makes itself.

    That is what a type derives, and what lets go of a value that needs nothing. A closure is in the function whose text
    has it.
    """
    crate, _, rest = name.partition("::")
    if rest == "Destruct++none::drop" or name.rpartition("::")[0] in sources.derived_names(crate):
        return None
    if "::fn::" in name:
        plain = name.replace("::fn::", "::")
        return next((each for each in ours if plain.startswith(each + "::")), name)
    return name


def check_variables(checks, program):
    """No variable of the writer is so wide that it could have a copy of the body, of whatever type it is."""
    widest = [(max(mir.variables_in(function), default=0), name) for name, function in program]
    wide = [f"{name}: {size}" for size, name in widest if size > MAX_VARIABLE]
    checks.test(f"the writer has no variable above {MAX_VARIABLE} bytes", widest and not wide, str(wide))
    checks.say(f"by the compiler the largest variable of the writer has {max(widest, default=(0,))[0]} bytes")


def run(program, *words):
    """The status and the lines of a program, and its count."""
    done = subprocess.run([program, *map(str, words)], capture_output=True, text=True, timeout=PATIENCE, check=False)
    lines = done.stdout.splitlines()
    count = COUNT.match(lines[-1]) if lines else None
    return done.returncode, lines, [int(number) for number in count.groups()] if count else None


def check_program(checks, uses, program, *words):
    """Adds the count of a program that has to pass, prints its lines, and notes the uses that it prints."""
    status, lines, count = run(program, *words)
    for line in lines[:-1]:
        print(line)
    if count is None or (status != 0) != (count[1] > 0):
        checks.test(f"{program.name} ends with status {status}", False, "\n".join(lines[-3:]))
        return
    checks.passed, checks.failed = checks.passed + count[0], checks.failed + count[1]
    uses.update(uses_in("\n".join(lines), USE))


def check_copying(checks, program, limit):
    """The test of the writer refuses one that copies the body, for its stack and for nothing else."""
    status, lines, count = run(program)
    refused = [line for line in lines if REFUSED.match(line)]
    both_ways = 2 * 3 * 4  # by painting and by steps: kinds of payload, and of room
    checks.test("a writer that copies the body is refused", status == 1 and count and count[1] == both_ways, str(count))
    checks.test("and for nothing else", len(refused) == both_ways, "\n".join(lines))
    use, _ = next(iter(uses_in("\n".join(lines), USE).values()), (0, 0))
    checks.test("and its use is measured", limit <= use < 2 * limit, str(use))


def uses_in(text, pattern):
    """The use of each call and the size of its arguments, as a program prints them or a page has them."""
    found = pattern.findall(text)
    return {name.replace("`", ""): (int(use.replace(",", "")), int(arguments)) for name, use, arguments in found}


def check_page(checks, uses):
    """docs/STACK.md has a row for each call, with what was measured."""
    page = uses_in((ROOT / "docs" / "STACK.md").read_text(encoding="utf-8"), ROW)
    checks.test("a row is read", uses_in("| `f`, a call | 1,024 | 16 | yes |\n", ROW) == {"f, a call": (1024, 16)})
    for name in sorted(uses.keys() | page.keys()):
        found, stated = uses.get(name), page.get(name)
        checks.test(f"docs/STACK.md: {name}", found == stated, f"{found} is measured, the page has {stated}")


def check_header(checks, uses):
    """The header has the limit that the writer is tested for, and what was measured; both."""
    header = (ROOT / "include" / "trogonreed.h").read_text(encoding="utf-8")
    limit = int(re.search(r"^#define TROGONREED_STACK (\d+)ul$", header, re.M).group(1))
    checks.test("the header has the limit", limit == 1024, str(limit))
    measured = re.search(r"(\d+) bytes were measured", re.sub(r"\s+\*\s+", " ", header))
    found = uses.get("trogonreed_write_frame", (0, 0))[0]
    checks.test("the header has what was measured", measured and int(measured.group(1)) == found, str(found))
    return limit, found


def main():
    checks, uses, folder = Checks("stack"), {}, pathlib.Path(sys.argv[1])
    seed, _ = seed_and_count(sys.argv[2:], 0)
    try:
        check_arrays.check(checks)
        check_mir.check(checks)
        check_writer(checks)
        check_variables(checks, check_compiler(checks, "firmware", folder))
        check_compiler(checks, "stack_driver", folder)
    except (Unreadable, mir.Strange, ValueError, LookupError) as error:
        checks.test("the sources can be read", False, str(error))
    check_program(checks, uses, folder / "writer", seed)
    check_program(checks, uses, folder / "calls")
    limit, measured = check_header(checks, uses)
    check_copying(checks, folder / "copying", limit)
    machine.check(checks, ROOT / "crates" / "firmware" / "out" / "libfirmware.a", limit, measured)
    check_page(checks, uses)
    return checks.end()


if __name__ == "__main__":
    sys.exit(main())
