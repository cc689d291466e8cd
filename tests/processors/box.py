"""The firmware of examples/cortex-m3 on an emulated board: from its switches to the listing of what it sends.

box.py FOLDER, run at the top of the repository. FOLDER gets what is built and what is recorded.
"""
import contextlib
import os
import pathlib
import signal
import sys

HERE = pathlib.Path(__file__).resolve().parent
ROOT = HERE.parents[1]
sys.path[1:1] = [str(HERE.parent / name) for name in ("lib", "cli", "model")]
from answers import FRAME  # noqa: E402
from checks import Checks, Dead  # noqa: E402
from door import Live, as_started_by_a_person, run  # noqa: E402
from emulated import LEAF, NEW_VOLUME, Board  # noqa: E402
from listing import HEADING  # noqa: E402
from reader import Reader, decided  # noqa: E402
from wire import in_bytes, number_of, on_wire, write_frame  # noqa: E402

STACK, STACK_LIMIT, PAINT = 2048, 1024, b"\xc5"
BOTTOM_OF_RAM = 0x20000000
MOST_VOLUMES, MOST_LEAVES = 0xFFFF, 0xFFFFFFFF
REPORT, STATUS_FIRST, FEEDING_GATHER, SENSOR_FAULT = 0x05, 0x04, 0x05, 0x04
LINE = [52, 5, 0x70, 0x301]  # 8 MHz / (16 * 9600) = 52 + 5/64
EXAMPLE_4 = bytes.fromhex("FF FF 00 0E 05 02 00 00 04 05 00 03 00 00 00 FF 55 00 20")
EXAMPLE_3 = bytes.fromhex("FF FF 00 05 07 F3 00 00 FF 55")


# The images.


def build(folder, name, **more):
    """The image's symbols. The writer is proved and built for the first image, and kept in the folder."""
    given = {"OUT": folder, "WRITER": folder / "writer", "IMAGE": name} | more
    words = [f"{key}={value}" for key, value in given.items()]
    found = run(["make", "-s", "-C", ROOT / "examples/cortex-m3", *words], patience=600)
    if found.status != 0:
        raise Dead(f"{name} is not built: {found}")
    lines = run(["arm-none-eabi-nm", folder / f"{name}.elf"]).out.decode().splitlines()
    return {symbol: int(value, 16) for value, _, symbol in map(str.split, lines)}


# A board, and a listener at its wire.


class Bench:
    def __init__(self, checks, board, listener):
        self.name, self.board, self.listener = board.name, board, listener
        self.checks, self.sent, self.lines = checks, b"", []

    def test(self, what, holds, more=""):
        self.checks.test(f"{self.name}: {what}", holds, more)

    def expect(self, command, number, flags, payload):
        """A frame that is sent next."""
        start = len(self.sent)
        self.sent += on_wire(command, number, flags, payload)
        self.lines.append(f"frame {start} {len(self.sent)} {command} {number} {flags} {len(payload)}")

    def listed(self, what):
        """Each frame that was expected has its line, in order. A wrong line ends the run: no later one would fit."""
        for line in self.lines:
            found = self.listener.line()
            self.test(f"{what}, {line}", found == line, f"is {found}")
            if found != line:
                raise Dead(f"{self.name} is not tried further")
        self.lines = []

    def silent(self, what):
        self.test(f"nothing is listed: {what}", self.listener.is_silent())

    def end(self):
        os.kill(self.listener.process.pid, signal.SIGINT)
        found = self.listener.ended()
        self.test("the end of the listing", found.is_quiet(f"clean {len(self.sent)}\n".encode()), str(found))
        found = self.board.end()
        self.test("every byte on the wire", found == self.sent, first_difference(found, self.sent))
        return found


def first_difference(found, expected):
    same = len(os.path.commonprefix([found, expected]))
    return f"after {same} bytes {found[same:][:40].hex(' ')} should be {expected[same:][:40].hex(' ')}"


@contextlib.contextmanager
def bench(checks, folder, name):
    """What it starts is ended in any case."""
    with Board(folder, name) as board:
        wire = board.start()
        with Live([ROOT / "bin/trogonreed", "listen", wire], wire=os.open(os.devnull, os.O_RDONLY)) as listener:
            heading = listener.line()
            if heading != HEADING:
                raise Dead(f"{name}: the listener begins with {heading}")
            yield Bench(checks, board, listener)


def stack_bytes(tried, symbols):
    start, size = symbols["stack_bottom"], symbols["stack_top"] - symbols["stack_bottom"]
    tried.test(f"{STACK} bytes of stack, at the bottom of RAM", (start, size) == (BOTTOM_OF_RAM, STACK))
    return tried.board.memory(start, size)


def used_of(stack):
    """How many bytes were used; what is below them is painted as it was at the start."""
    return len(stack.lstrip(PAINT))


def stack(tried, symbols):
    found = stack_bytes(tried, symbols)
    used = used_of(found)
    tried.test("the lowest word of the stack is painted", found.startswith(4 * PAINT))
    tried.test("some stack is used", 0 < used)
    tried.test(f"less than {STACK_LIMIT} bytes of stack are used", used < STACK_LIMIT, f"{used}")
    # what is not painted counts as used, and this box uses little
    tried.test("most of the stack is painted", used < STACK_LIMIT // 2, f"{used}")
    flash = symbols["data_values"] + symbols["data_end"] - symbols["data_start"]
    tried.checks.say(f"{tried.name} has {flash} bytes of flash, and used {used} of its {STACK} bytes of stack")


# The box.


class Box:
    """What the box on a bench should report, event by event."""

    def __init__(self, tried):
        self.tried, self.number, self.volume, self.leaf, self.alarms = tried, 0, 1, 0, 0

    def leaf_passes(self):
        self.leaf = min(self.leaf + 1, MOST_LEAVES)
        payload = bytes([STATUS_FIRST, FEEDING_GATHER]) + in_bytes(2, self.volume) + in_bytes(4, self.leaf)
        payload += bytes([self.alarms])
        self.tried.expect(REPORT, self.number, 0, payload)
        self.number = (self.number + 1) % 256

    def volume_begins(self):
        self.volume, self.leaf = min(self.volume + 1, MOST_VOLUMES), 0

    def happens(self, *events):
        """Events at one moment: of a leaf and a new volume the leaf is first."""
        self.tried.board.press(*events)
        for event in sorted(events, key=[LEAF, NEW_VOLUME].index):
            self.leaf_passes() if event == LEAF else self.volume_begins()

    def leaves(self, count):
        """Each leaf is listed before the next one passes."""
        for _ in range(count):
            self.happens(LEAF)
            self.tried.listed("a leaf")

    def slow_leaf(self):
        """A leaf is counted once, when it has left the sensor."""
        self.tried.board.turn(LEAF, down=True)
        self.tried.silent("a leaf in the sensor")
        self.tried.board.turn(LEAF, down=False)
        self.leaf_passes()
        self.tried.listed("a slow leaf")
        self.tried.silent("the time after it")

    def volumes(self, count):
        """They are not listed."""
        for _ in range(count):
            self.happens(NEW_VOLUME)
        self.tried.silent(f"{count} new volumes")


def count_volumes(box):
    """Volumes and leaves by which everything occurs that all_occurred names."""
    box.leaves(2)
    box.slow_leaf()
    for volumes, leaves in [(1, 1), (1, 258), (217, 3), (35, 2), (1, 1)]:
        box.volumes(volumes)
        box.leaves(leaves)


def hurry(box):
    """Events that do not wait for the listing, the switches one after the other and both at once."""
    for event in [LEAF, LEAF, NEW_VOLUME, LEAF, LEAF, LEAF, NEW_VOLUME, NEW_VOLUME, LEAF, NEW_VOLUME, LEAF] * 3:
        box.happens(event)
    box.tried.listed("in a hurry")
    for events in [(LEAF, NEW_VOLUME), (NEW_VOLUME, LEAF)]:
        box.happens(*events)
        box.tried.listed("both at once")
        box.leaves(2)


def all_occurred(tried, sent):
    """That these reports are among the bytes that were sent, as the second reading of the rules has them."""
    bodies = [body for answer, _, _, body, *_ in decided(sent, Reader()) if answer == FRAME]
    numbers = bytes(body[3] for body in bodies)
    volumes = {number_of(body[8:10]) for body in bodies}
    leaves = {number_of(body[10:14]) for body in bodies}
    tried.test("more than 256 reports, of more than 10 volumes", len(bodies) > 256 and len(volumes) > 10)
    tried.test("number FF, and 0 after it", bytes([254, 255, 0, 1]) in numbers)
    tried.test("a sum FF", any(body[-1] == 0xFF for body in bodies))
    tried.test("volumes 255 and 256", {255, 256} <= volumes)
    tried.test("leaves 254 to 257", {254, 255, 256, 257} <= leaves)
    tried.test("example 4", EXAMPLE_4 in sent)


def start_again(tried):
    """A box that starts again has all its first values, though its memory still has others."""
    tried.board.reset()
    box = Box(tried)
    box.leaves(2)
    box.volumes(1)
    box.leaves(1)


def the_box(checks, folder):
    symbols = build(folder, "box")
    with bench(checks, folder, "box") as tried:
        box = Box(tried)
        settings = tried.board.line_settings()
        tried.test("9600 baud, 8 data bits, no parity, 1 stop bit; it sends", settings == LINE, str(settings))
        count_volumes(box)
        hurry(box)
        stack(tried, symbols)
        start_again(tried)
        all_occurred(tried, tried.end())


def lost_event(checks, folder):
    """A box in which one event can wait: of two at once the second is lost, and every report says so."""
    build(folder, "narrow", MORE="-DSWITCHES_WAITING=1")
    with bench(checks, folder, "narrow") as tried:
        box = Box(tried)
        box.leaves(2)
        box.alarms = SENSOR_FAULT
        tried.board.press(LEAF, NEW_VOLUME)
        box.leaf_passes()
        tried.listed("a lost event")
        box.leaves(2)
        tried.end()


def late(checks, folder):
    """A box at the end of what it can count: both counts stop, and each byte of them is FF."""
    volume, leaf = MOST_VOLUMES - 1, MOST_LEAVES - 2
    build(folder, "late", MORE=f"-DFIRST_VOLUME={volume} -DFIRST_LEAF={leaf}")
    with bench(checks, folder, "late") as tried:
        box = Box(tried)
        box.volume, box.leaf = volume, leaf
        box.leaves(3)
        for _ in range(2):
            box.volumes(1)
            box.leaves(1)
        tried.end()


# Frames at the edges of the rules.

ALL = 0xFF, 0xFF, 0xFFFF
HEARTBEAT = 0x07, 0x01, 0
ENOUGH = 2054
EVENTS, RETURNED, WAITING, FIRST_NUMBER, MUCH = 0x7D, 0x7E, 64, 0xF0, 1500  # as in edges.c
# The calls of edges.c: command, number and flags; size of the payload, of which each byte is FF; size of the buffer.
CALLS = [
    ((0x07, 0xF3, 0), 0, ENOUGH),
    (HEARTBEAT, 0, ENOUGH),
    *[(ALL, size, ENOUGH) for size in (0, 1, 2, 9, 250, 255, 1018, 1019)],
    ((0x05, 0xFF, 0), 1019, ENOUGH),
    ((0x05, 0x00, 0), 1020, ENOUGH),
    (ALL, 1020, 0),
    (HEARTBEAT, 0, 9),
    (HEARTBEAT, 0, 8),
    ((0x07, 0xF3, 0), 0, 9),
    (HEARTBEAT, 0, 0),
    (ALL, 9, 18),
    (ALL, 1019, 1026),
]
# What a refusal is for C (PROTOCOL 6.9), by its number.
REFUSED = {21: 65557, 22: 131072}


def expect_call(tried, place):
    """What is written, if it is; then the number returned, and 1: the rest of the buffer is as it was."""
    head, size, room = CALLS[place]
    answer, count = write_frame(*head, b"\xff" * size, bytearray(room), room)
    if not answer:
        tried.expect(*head, b"\xff" * size)
    number = (FIRST_NUMBER + 1 + place) % 256
    tried.expect(RETURNED, number, 0, in_bytes(4, REFUSED.get(answer, 0) + count) + b"\1")
    return answer


def waiting_events(tried):
    """As many events as can wait, which are taken only after one more, which is lost."""
    events = [NEW_VOLUME if place % 3 == 2 or place in (7, 30, 48) else LEAF for place in range(WAITING)]
    for event in events:
        tried.board.press(event)
    tried.silent(f"{WAITING} events that wait")
    tried.board.press(LEAF)  # that of two at once which is lost in `narrow` is a new volume
    tried.expect(EVENTS, FIRST_NUMBER, 0, bytes(event == NEW_VOLUME for event in events))
    tried.listed("the events that waited")


def measure(tried, symbols):
    """A call that is known to use much of the stack is measured so; what was used before it lies above it."""
    before = used_of(stack_bytes(tried, symbols))
    tried.board.press(LEAF)
    tried.expect(RETURNED, (FIRST_NUMBER + 1 + len(CALLS)) % 256, 0, b"")
    tried.listed("much stack")
    used = used_of(stack_bytes(tried, symbols))
    tried.test(f"{MUCH} bytes of stack are measured", MUCH < used < MUCH + before, f"{used}")


def edges(checks, folder):
    symbols = build(folder, "edges", MAIN=HERE / "edges.c")
    with bench(checks, folder, "edges") as tried:
        waiting_events(tried)
        answers = []
        for place in range(len(CALLS)):
            tried.board.press(LEAF)
            answers.append(expect_call(tried, place))
            tried.listed(f"call {place}")
        tried.test("calls of each answer", [answers.count(answer) for answer in (0, 21, 22)] == [12, 2, 5])
        tried.test("example 3", EXAMPLE_3 in tried.sent)
        stack(tried, symbols)
        measure(tried, symbols)
        tried.end()


def end_by(number, _):
    """What was started is ended first."""
    sys.exit(128 + number)


def main():
    checks = Checks("processors")
    as_started_by_a_person()
    for number in (signal.SIGHUP, signal.SIGTERM):
        signal.signal(number, end_by)
    folder = pathlib.Path(sys.argv[1]).resolve()
    run([ROOT / "bin/trogonreed", "list", os.devnull], patience=600)  # builds it, if it is not built yet
    for part in (the_box, lost_event, late, edges):
        with checks.unless_dead():
            part(checks, folder)
    return checks.end()


if __name__ == "__main__":
    sys.exit(main())
