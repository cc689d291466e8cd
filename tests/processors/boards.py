"""The writer's archive on each processor that bin/firmware names: what is in it, what it does, and its stack.

boards.py FOLDER SEED COUNT: the folder has libfirmware.a and trogonreed.h in a folder of each triple. A program without
a C library (board/) is built for each one and run on an emulated processor; the second implementation, which has to be
built, checks its random calls. Where an emulator or another compiler is missing, a line says what is skipped.
"""
import collections
import concurrent.futures
import os
import pathlib
import subprocess
import sys
import tempfile

HERE = pathlib.Path(__file__).resolve().parent
ROOT = HERE.parents[1]
sys.path.insert(0, str(HERE.parent / "lib"))
from checks import Checks  # noqa: E402
import archives  # noqa: E402
import elf  # noqa: E402
import images  # noqa: E402
import page  # noqa: E402
import watching  # noqa: E402
import wrongs  # noqa: E402
from running import COUNTED, SECOND, USED, faults_in, number_in, run  # noqa: E402
from targets import HOST, TARGETS, missing  # noqa: E402

LIMIT = 1024  # TROGONREED_STACK
LARGEST = {"thumbv6m-none-eabi": 1500}  # an archive is smaller than this, in bytes
WRONG_CALLS = 500  # of a wrong writer: enough for each fault to show
# What was found of a triple by one compiler: its run, or why there is none; and the same for the steps.
Found = collections.namedtuple("Found", "run unbuilt steps unwatched")


def build_and_run(target, other, folder, work, seed, count):
    """One triple by one compiler. With the kit's the steps are watched too: the archive is the same with the other."""
    done, unbuilt, steps, unwatched = None, "", None, ""
    try:
        build = images.Build(target, other, work / target.name / ("other" if other else "kit"), folder / target.name)
        build.compile_all(seed, count)
        archive = folder / target.name / "libfirmware.a"
        image, stepped = build.link("main", "image", archive), build.link("steps", "stepped", archive)
        if not missing(target.command):
            done = run([*target.command, image])
        if not other and not missing(target.watch):
            steps = watching.watch(target, stepped, build.folder)
    except images.Unbuilt as error:
        unbuilt = str(error)
    except watching.Unwatched as error:
        unwatched = str(error)
    return Found(done, unbuilt, steps, unwatched)


def check_run(checks, name, found, seed, count):
    """Adds the tests that the program counted to those of its end and of its calls."""
    checks.test(f"{name}: it is not built", not found.unbuilt, found.unbuilt)
    checks.test(f"{name}: it is not watched", not found.unwatched, found.unwatched)
    if found.run is None:
        return
    faults = faults_in(found.run, seed, count)
    checks.test(f"{name}: the run is wrong", not faults, "\n".join(faults))
    checks.passed += number_in(COUNTED, found.run.lines, 1) or 0
    checks.failed += number_in(COUNTED, found.run.lines, 2) or 0


def check_steps(checks, name, found, outside):
    """The use by steps: the deepest that the stack pointer went, and what was on the stack before."""
    if found.steps is None:
        return 0
    controls, writer = found.steps
    checks.test(f"{name}: the steps see what controls set aside", [use for use, _ in controls] == watching.RESERVED,
                str(controls))
    lost = sorted({register for _, registers in writer for register in registers})
    checks.test(f"{name}: registers are not kept", not lost, ", ".join(lost))
    checks.test(f"{name}: calls are watched", len(writer) == watching.CALLS, str(len(writer)))
    return outside + max((use for use, _ in writer), default=0)


def check_target(checks, target, folder, both, seed, count):
    """One triple: its archive, its runs, its stack. Returns its row."""
    data = elf.read(folder / target.name / "libfirmware.a")
    faults, code = archives.look(data, target)
    checks.test(f"{target.name}: the archive is wrong", not faults, "; ".join(faults))
    most = LARGEST.get(target.name, 1 << 20)
    checks.test(f"{target.name}: the archive is too large", len(data) < most, str(len(data)))
    for compiler, found in both.items():
        check_run(checks, f"{target.name}, {compiler}", found, seed, count)
    uses = {tuple(number_in(USED, found.run.lines, group) for group in (1, 2, 3))
            for found in both.values() if found.run}
    if not uses:
        return page.cells_of(target.name, target.runs, code, len(data), None, None)
    checks.test(f"{target.name}: the programs of both compilers measure the same", len(uses) == 1, str(uses))
    used, arguments, address = (number or 0 for number in max(uses, key=str))
    stepped = check_steps(checks, target.name, both["the kit's clang"], arguments + address)
    checks.say(f"{target.name}: {used} bytes of stack by painting, {stepped or 'not known how many'} by steps")
    most = max(used, stepped)
    checks.test(f"{target.name}: the stack", 0 < most < LIMIT, str(most))
    return page.cells_of(target.name, target.runs, code, len(data), most, arguments)


def say_skipped(checks, target):
    """Says what of a triple is not tried, and returns whether its other compiler is there."""
    if missing(target.command):
        checks.say(f"skipped: {target.name} is not run: {missing(target.command)}")
    elif missing(target.watch):
        checks.say(f"skipped: {target.name} is not watched by steps: {missing(target.watch)}")
    if target.other and missing(target.other):
        checks.say(f"skipped: {target.name} by another compiler: {missing(target.other)}")
    return bool(target.other) and not missing(target.other)


def check_boards(checks, folder, work, seed, count):
    """All triples, two programs at a time; then the table."""
    with concurrent.futures.ThreadPoolExecutor(2) as pool:
        waiting = []
        for target in TARGETS:
            tries = [("the kit's clang", False)] + [("another compiler", True)] * say_skipped(checks, target)
            waiting.append((target, {name: pool.submit(build_and_run, target, other, folder, work, seed, count)
                                     for name, other in tries}))
        rows = [check_target(checks, target, folder, {name: one.result() for name, one in both.items()}, seed, count)
                for target, both in waiting]
    print(page.text_of(page.HEAD), page.text_of(["---"] * len(page.HEAD)), *map(page.text_of, rows), sep="\n")
    page.check_page(checks, rows)


def check_tests(checks, folder, work, seed, count):
    """The test itself: what has to be found wrong is."""
    wrongs.check_ends(checks)
    if missing(HOST.command) or missing(HOST.other):
        checks.say(f"skipped: archives and writers that are wrong: {missing(HOST.command) or missing(HOST.other)}")
        return
    try:
        build = images.Build(HOST, True, work / "wrong", folder / HOST.name)
        build.compile_all(seed, count)
        archives.check_reader(checks, build, TARGETS[:-1])
        wrongs.check_wrong(checks, build, seed, count)
    except images.Unbuilt as error:
        checks.test("what is wrong is built", False, str(error))


def main(words):
    checks = Checks("processors")
    folder, seed, count = pathlib.Path(words[0]).resolve(), int(words[1]), int(words[2])
    checks.say_seed(seed, count, "call")
    checks.test("the second implementation is built", os.access(SECOND, os.X_OK), str(SECOND))
    listed = subprocess.run([ROOT / "bin" / "firmware", "--list"], capture_output=True, text=True, check=False).stdout
    names = [target.name for target in TARGETS]
    checks.test("other triples are tried than bin/firmware has", names == listed.split(), listed)
    lost = [name for name in names if not (folder / name / "libfirmware.a").is_file()]
    checks.test(f"no archive in {folder} for", not lost, ", ".join(lost))
    if not checks.failed:
        with tempfile.TemporaryDirectory() as work:
            check_boards(checks, folder, pathlib.Path(work), seed, count)
            check_tests(checks, folder, pathlib.Path(work), seed, WRONG_CALLS)
    return checks.end()


if __name__ == "__main__":
    sys.exit(main(sys.argv[1:]))
