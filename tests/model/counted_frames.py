"""What a box with a transfer writes, counted: nothing of the model's transfer is in here.

It is about records and printed lines alone. Each frame that is written is read back, and has to be the one that the
answer says. The 1B and 27 that the box sends are counted with the link's own calls: numbers, repeats and waits.
"""
import struct

from answers import FRAME, ROOM
from counting import miscounted
from events import COMMANDS, events
from reader import Reader, decided
from records import DEVICE, LINK
from wire import in_bytes

REFUSALS = 32, 61, 62, 63, 64, 65, 66  # which get a rejection
UNTOUCHED = 0xAA
ANY = None  # a number that only the link knows, or that of a frame with a wrong sum


def owed(some):
    """The frames that an answer says are written: command, number and payload of each."""
    row, number = some.row, some.number
    if row[0] in REFUSALS:
        return [(0x12, number, b"\3")]
    if row[0] != 0 or row[1:2] in ([], [0]):
        return []
    if row[2:3] == [0x12]:
        return [(0x12, ANY if some.command is None else number, bytes(row[3:4]))]
    if some.command is None:
        return []
    if some.command == 0x19:
        return [(0x1A, number, b""), (0x1B, ANY, some.payload[4:] + in_bytes(2, some.piece))]
    if some.command == 0x27:
        return [(0x27, ANY, b"")]
    return [(some.command + 1, number, b"")]


def written(some):
    """The frames at the front of the output, read back; ValueError where there is more, or something else."""
    count = some.row[1] if len(some.row) > 1 and some.row[0] != ROOM else 0
    if set(some.out[count:]) - {UNTOUCHED}:
        raise ValueError("more of the output is written")
    found, at = [], 0
    for answer, start, end, body, *_ in decided(some.out[:count], Reader()):
        if answer != FRAME or start != at or body[4:6] != b"\0\0":
            raise ValueError(f"a reader answers {answer} at {start}")
        found.append((body[2], body[3], body[6:-1]))
        at = end
        if some.command == 0x19 and body[2] == 0x1A and some.row[3:] != [end]:
            raise ValueError(f"the 1B begins at {end}")
    if at != count:
        raise ValueError(f"the frames end at {at}")
    return found


def without_free(frames, should):
    """The frames, with ANY for each number that is free."""
    free = [number is ANY for _, number, _ in should] + [False] * len(frames)
    numbers = [ANY if is_free else number for is_free, (_, number, _) in zip(free, frames)]
    return [(command, number, payload) for number, (command, _, payload) in zip(numbers, frames)]


def link_calls(some, line, frames):
    """What a line says of the link, as calls on a link and their lines (counting.py)."""
    if some.operation >= LINK:
        data = some.data[:8].ljust(8, b"\0")
        yield bytes([some.operation - LINK]) + data, line
    if some.operation == DEVICE and some.command is not None and some.row[0] != 17:
        fits = " ".join(map(str, ["answer 0", *some.ended])) if some.ended else "answer 43"
        yield struct.pack(">5BI", 2, some.command, some.number, 0, 0, 0), fits
    for command, number, _ in frames:
        if command in (0x1B, 0x27):
            yield struct.pack(">5BI", 0, command, 0, 0, 0, some.clock), f"offer 0 {number}"


def miswritten(records, lines, tally):
    """Where the lines first go against the frames that are owed, or against the link's count; or ''."""
    calls = []
    try:
        for place, (some, line) in enumerate(events(records, lines), 1):
            frames = []
            if some.operation == DEVICE or some.operation in COMMANDS:
                frames, should = written(some), owed(some)
                tally["frames read back"] += len(frames)
                if without_free(frames, should) != should:
                    return f"line {place}, {line[:200]!r}: {frames} is written, and {should} is owed"
            calls += link_calls(some, line, frames)
    except ValueError as error:
        return str(error)
    return miscounted([call for call, _ in calls], [line for _, line in calls], tally)
