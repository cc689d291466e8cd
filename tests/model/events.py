"""What each line of the driver about a transfer is about: records and printed lines, paired. No rule is in here.

The frames that a device was fed are those of the stream by definition; there is no reader here.
"""
import collections

import definition
from answers import FRAME
from records import BEGIN, CANCEL, DEVICE, FRESH, STOP, STORE, unpacked

# One line. The command and what came with it are those of a frame that arrived, or 27 where the box cancels; else None.
# The row is the answer's number and its values.
Event = collections.namedtuple("Event", "operation data command number clock piece payload row ended out")
COMMANDS = {BEGIN: 0x19, STORE: 0x1D, STOP: 0x1F, CANCEL: 0x27}


def of_stream(stream, ends):
    """For each stretch of a stream, up to these places: its frames, None for other answers, and for MORE at its end."""
    decided, at = definition.answers_to(stream)[0], 0
    for end in ends:
        inside = [some for some in decided if at < some[2] <= end]
        bodies = [body if answer == FRAME else None for answer, _, _, body, *_ in inside]
        yield bodies if inside and inside[-1][2] == end else [*bodies, None]
        at = end


def bodies_fed(records):
    """For each record of a device the bodies of the frames that it completes, and None for each other answer."""
    found, stream, ends = [], b"", []
    for operation, data in [*records, (FRESH, b"")]:
        if operation == DEVICE:
            stream += unpacked(operation, data)[-1]
            ends.append(len(stream))
        elif operation == FRESH:
            found += of_stream(stream, ends)
            stream, ends = b"", []
    return found


def numbers_in(text):
    return [int(word) for word in text.split()]


def event(operation, data, body, line):
    """ValueError where the line is not one of its kind."""
    first, *parts = line.split(" :")
    row = numbers_in(first.partition(" ")[2])
    if operation not in (DEVICE, *COMMANDS):
        return Event(operation, data, None, 0, 0, 0, b"", row, [], b"")
    if not row:
        raise ValueError("there is no answer")
    values = unpacked(operation, data)
    command, number, payload = COMMANDS.get(operation), values[0], values[-1]
    clock, piece, ended, out = 0, 0, "", parts[0]
    if operation == BEGIN:
        clock, piece = values[1:3]
    elif operation == CANCEL:
        number, clock = 0, values[0]
    elif operation == DEVICE:
        (clock, piece), (ended, out) = values[:2], parts[:2]
        command, number, payload = (body[2], body[3], body[6:-1]) if body else (None, 0, b"")
    return Event(operation, data, command, number, clock, piece, payload, row, numbers_in(ended), bytes.fromhex(out))


def events(records, lines):
    """An event and its line, for each line. ValueError where lines are missing, too many or of another kind."""
    fed, left = iter(bodies_fed(records)), iter(lines)
    for operation, data in records:
        for body in next(fed) if operation == DEVICE else [None]:
            line = next(left, "no line")
            try:
                yield event(operation, data, body, line), line
            except (ValueError, IndexError) as error:
                raise ValueError(f"{line!r} for operation {operation}: {error}") from error
    more = next(left, None)
    if more is not None:
        raise ValueError(f"{more!r} after the last record")
