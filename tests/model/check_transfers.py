"""Transfers and the device: model and program against lines worked out by hand, the program against the model.

On random scripts the printed lines are also held to what is counted over them. The second implementation is asked the
same.
"""
import collections

from asking import misasked
from checks import Program, lines_of
from counted_frames import miswritten
from counted_pieces import misstored
from random_transfers import FAMILIES, script_of
from records import records_of
from stated_devices import DEVICES
from stated_refusals import LIMITS, MADE_UP, REFUSALS
from stated_rooms import LONG, in_every_room
from stated_transfers import TRANSFERS
from transfer_driver import BoxCalls
from transfer_rows import scripts_of

PATIENCE = 60  # seconds

# How often each answer and each kind has to be seen in 400 scripts: scripts without them would show nothing.
BY_CALL = {
    "begin": (0, 17, 22, 32, 41, 61, 62, 63),
    "store": (0, 17, 22, 32, 62, 63, 64, 65, 66),
    "stop": (0, 17, 22, 32),
    "cancel": (0, 17, 22, 41),
    "progress": (0, 17),
    "device": (0, 17, 22, 32, 41, 61, 62, 63, 64, 65, 66),
}
WANTED = {f"{word} {number}": 20 for word, numbers in BY_CALL.items() for number in numbers}
# Of a device: nothing to do, acknowledged, asked for 02 or 04, rejected, and of a transfer.
WANTED |= dict.fromkeys([f"device 0, then {what}" for what in (":", "9 :", "0 2", "0 4", "10 18", "9 30", "9 32")], 8)
WANTED |= dict.fromkeys(["a piece stored", "a piece answered again", "a whole table", "started again"], 100)
WANTED |= dict.fromkeys(["dropped by 1F", "dropped by 27", "waits of three due ticks"], 20) | {"begin 21": 8}
WANTED |= dict.fromkeys(["progress counted", "numbers used"], 1000)
WANTED |= dict.fromkeys([f"{word} in the room said" for word in ("begin", "store", "stop", "cancel", "device")], 20)
WANTED |= {"frames read back": 10000, "bytes of the table counted": 10**6}


def stated():
    return scripts_of([*TRANSFERS, *REFUSALS, *LIMITS, *MADE_UP, *DEVICES, *in_every_room(), *LONG])


def kinds(line):
    words = line.split(" ")
    yield " ".join(words[:2])
    if words[:2] == ["device", "0"]:
        yield f"device 0, then {' '.join(words[2:3] if words[2] == ':' else words[2:4])}"


def script_bytes(steps):
    return b"".join(made for made, _ in steps)


def counted(checks, who, place, steps, lines, seen):
    """What is counted over the lines of a script."""
    records = records_of(script_bytes(steps))
    for what, wrong in (("pieces", misstored), ("frames", miswritten)):
        wrong = wrong(records, lines, seen)
        checks.test(f"{who}: {place}, {what} counted", not wrong, wrong)
    left = iter(lines)
    wrong = misasked([(made, [next(left, "no line") for _ in should]) for made, should in steps], seen)
    checks.test(f"{who}: {place}, rooms asked for", not wrong, wrong)


def check_model(checks, seed, count):
    for name, steps in stated():
        calls = BoxCalls()
        found = [line for made, _ in steps for line in calls.put(made)]
        wrong = next((f"{line}, found {other}" for line, other in zip(lines_of(steps), found) if line != other), "")
        checks.test(f"the model: {name}", not wrong and len(found) == len(lines_of(steps)), wrong[:400])
    for place, rand, family in checks.inputs(FAMILIES, seed, count, "transfer script"):
        steps = script_of(rand, family)
        counted(checks, "the model", place, steps, lines_of(steps), collections.Counter())


def hold(checks, who, program, seed, count):
    """A program that plays the driver's records."""
    for name, steps in stated():
        wrong = program.wrong_on(steps)
        checks.test(f"{who}: {name}", not wrong, wrong)
    seen, tried = collections.Counter(), 0
    for place, rand, family in checks.inputs(FAMILIES, seed, count, "transfer script"):
        steps = script_of(rand, family)
        tried += len(steps)
        seen.update(kind for line in lines_of(steps) for kind in kinds(line))
        found, wrong = program.compared(script_bytes(steps), steps)
        checks.test_random(f"{who}: {place}", wrong)
        counted(checks, who, place, steps, found.decode("ascii", "backslashreplace").splitlines(), seen)
    checks.say(f"{tried} records of transfers")
    for kind, least in WANTED.items():
        least = least * count // 400
        checks.test(f"{who}: '{kind}' is seen {least} times", seen[kind] >= least, f"seen {seen[kind]} times")


def check_program(checks, program, seed, count):
    hold(checks, "the program", program, seed, count)


def check_second(checks, second, seed, count):
    hold(checks, "the second implementation", Program(second, PATIENCE, "driver"), seed, count)
