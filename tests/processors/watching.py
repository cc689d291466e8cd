"""A program watched one instruction at a time: its emulator prints the registers, of some functions alone.

Painting sees the bytes that a call writes. This sees the stack pointer, so also what is set aside and not written; and
the registers that a function has to leave as they were.
"""
import re
import subprocess

import elf

PATIENCE = 60  # seconds
ONE = re.compile(rb"([A-Za-z][\w/]*) *=? *([0-9a-f]{16}|[0-9a-f]{8})\b")
OPTIONS = ("-one-insn-per-tb", "-singlestep")  # the first is the newer name
RESERVED = [64, 1008]  # what the controls of steps.c set aside
CALLS = 3 * (14 + 1)  # of the writer, in steps.c: payloads of 14 sizes and a long one, each with three rooms


class Unwatched(Exception):
    """The program was not watched to its end."""


def option_of(emulator):
    """What tells this version of the emulator to stop after each instruction."""
    words = subprocess.run([emulator, "--help"], capture_output=True, text=True, check=False).stdout
    for option in OPTIONS:
        if option in words:
            return option
    raise Unwatched(f"{emulator} cannot make single steps")


def ranges_of(image, names):
    """The first address of each function, and the one after its last. On Arm an odd one says that it is Thumb."""
    program = elf.parse(elf.read(image))
    symbols = {symbol.name: symbol for symbol in program.symbols}
    places = [symbols[name].value - symbols[name].value % (2 if program.machine == elf.ARM else 1) for name in names]
    return [(place, place + symbols[name].size) for place, name in zip(places, names)]


def records(log):
    """The registers before each instruction. A record begins with the register that the log begins with."""
    one, first = {}, None
    for line in log:
        for name, value in ONE.findall(line):
            name, first = name.decode(), first or name.decode()
            if name == first and one:
                yield one
                one = {}
            one[name] = int(value, 16)
    if one:
        yield one


def log_of(target, image, ranges, folder):
    """The file that the emulator prints to."""
    log = folder / "steps.log"
    emulator, *words = target.watch
    filtered = ",".join(f"{first:#x}+{end - first:#x}" for first, end in ranges)
    options = [option_of(emulator), "-d", "cpu,nochain", "-dfilter", filtered, "-D", str(log)]
    try:
        done = subprocess.run([emulator, *options, *words, str(image)], stdin=subprocess.DEVNULL, capture_output=True,
                              text=True, timeout=PATIENCE, check=False)
    except subprocess.TimeoutExpired as error:
        raise Unwatched(f"it does not end in {PATIENCE} seconds") from error
    if done.returncode != 0 or not log.is_file():
        raise Unwatched(f"it ends with status {done.returncode}: {(done.stdout + done.stderr)[-300:]}")
    return log


def calls_in(steps, registers, function, caller):
    """Of each call: the bytes by which the stack pointer went down, and the registers that it did not leave alone.

    A call lasts from the first instruction of the function to the caller's next one.
    """
    begin, lowest = None, 0
    for one in steps:
        place = one[registers.place]
        if place == function[0]:
            begin, lowest = one, one[registers.stack]
        elif begin and function[0] <= place < function[1]:
            lowest = min(lowest, one[registers.stack])
        elif begin and caller[0] <= place < caller[1]:
            yield begin[registers.stack] - lowest, [name for name in registers.kept if begin[name] != one[name]]
            begin = None


def watch(target, image, folder):
    """Of the controls and of the writer, each: the use of every call, and the registers that were not kept."""
    control, writer, caller = ranges_of(image, ["control_reserve", "trogonreed_write_frame", "switch_call"])
    log = log_of(target, image, [control, writer, caller], folder)
    found = []
    for function in (control, writer):
        with log.open("rb") as lines:
            found.append(list(calls_in(records(lines), target.registers, function, caller)))
    log.unlink()
    return found
