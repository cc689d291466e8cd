"""What the program test_driver has to print for its records. Their form is in docs/TEST_DRIVER.md.

A step is a record and its lines; a script is a list of steps.
"""
import capture
from answers import DONE, FRAME, PAYLOAD, ROOM, SUM
from link import Link, elapsed, is_due
from message import INFORMATION_SIZES, QUERY, parts_of, read_message, write_message
from reader import Reader, decided
from records import FEED, FINISH, FINISH_CAPTURE, FRESH, LINK, MAX_DATA, NEXT, REPLY, SET, STREAM, WRITE, WRITE_HEAD
from records import WRITE_MESSAGE, WRITE_RECORD, record
from reply import reply_row
from wire import MAX_WIRE, in_bytes, number_of, write_frame


def words(*values):
    return " ".join(map(str, values))


def in_hex(data):
    return f" : {data.hex(' ')}" if data else " :"


def empty_output(size):
    return bytearray(b"\xaa" * size)


# The reader in calls, and the frame writer.


class Calls:
    """The steps of calls on one reader: a fresh one, or one that has consumed so many bytes."""

    def __init__(self, consumed=None):
        self.reader = Reader(consumed or 0)
        begin = (record(FRESH), ["fresh"]) if consumed is None else (record(SET, in_bytes(8, consumed)), ["set"])
        self.steps = [begin]

    def feed(self, offered):
        """One call: how many bytes it consumes."""
        answer, count, *values = self.reader.feed(offered)
        held = in_hex(self.reader.held()) if answer in (FRAME, SUM) else ""
        self.steps.append((record(FEED, offered), [words("feed", answer, count, *values) + held]))
        return count

    def finish(self):
        self.steps.append((record(FINISH), [words("end", *self.reader.finish())]))


def write_step(command, number, flags, payload, room):
    output = empty_output(room)
    written = write_frame(command, number, flags, payload, output, room)
    data = bytes([command, number]) + in_bytes(2, flags) + in_bytes(2, room) + payload
    return record(WRITE, data), [words("write", *written) + in_hex(output)]


# A stream: each frame read, written again and replied to.

REPLY_ROOM = 16


def reply_line(answer, values, command, number, output, room):
    row = reply_row(answer, values, command, number, output, room)
    shown = output[:3] if row[0] == ROOM else output[: sum(row[1:2])]
    return words("answer", *row) + (in_hex(shown) if shown else "")


def frame_lines(body):
    command, number, flags, payload = body[2], body[3], number_of(body[4:6]), body[6:-1]
    answer, values = read_message(command, payload)
    lines = [f"frame {command} {number} {flags} {len(payload)}", words("read", answer, *values)]
    if answer == DONE:
        parts = parts_of(command, payload)
        lines += [f"part {k}{in_hex(part)}" for k, part in enumerate(parts) if part]
        output = empty_output(MAX_WIRE)
        refused, count = write_message(values, b"".join(parts), number, flags, output, len(output))
        lines.append(words("write", refused, count) + in_hex(output[:count]))
    return lines + [reply_line(answer, values, command, number, empty_output(REPLY_ROOM), REPLY_ROOM)]


def sum_lines(body):
    number = body[3]
    return [f"sum {number}", reply_line(SUM, [], body[2], number, empty_output(REPLY_ROOM), REPLY_ROOM)]


def stream_pieces(stream):
    """The stretches of a stream up to the end of each FRAME or SUM, with their lines; then what is left."""
    at = 0
    for answer, _, end, body, *_ in decided(stream, Reader()):
        if answer in (FRAME, SUM):
            yield stream[at:end], frame_lines(body) if answer == FRAME else sum_lines(body)
            at = end
    yield stream[at:], []


def stream_lines(stream):
    return [line for _, lines in stream_pieces(stream) for line in lines]


def stream_script(stream, size=MAX_DATA):
    """The bytes of a script: a fresh reader, and the stream in records of at most that size."""
    pieces = (stream[at : at + size] for at in range(0, len(stream), size))
    return record(FRESH) + b"".join(record(STREAM, piece) for piece in pieces)


# Messages in a record of their own, under number 2 and flags 0: also those that writing refuses.


def coded(values):
    """A message in up to 14 bytes: its place and its values, as docs/TEST_DRIVER.md lists them."""
    command, *rest = values
    if not rest:
        return bytes([0, command])
    if command == 0x02:
        return bytes([1]) + in_bytes(2, rest[1]) + bytes([INFORMATION_SIZES.index(rest[0])]) + in_bytes(8, *rest[2:])
    if command == 0x03:
        return bytes([3]) if rest[0] == QUERY else bytes([2, *rest[1:6]]) + in_bytes(2, rest[6])
    if command in (0x04, 0x05):
        return bytes([command, *rest[1:4]]) + in_bytes(2, rest[4]) + in_bytes(4, rest[5]) + bytes(rest[6:])
    if command == 0x18:
        return bytes([10]) + in_bytes(2, rest[0]) + bytes([*rest[1:6], len(rest) > 6]) + in_bytes(4, *rest[6:])
    if command in (0x09, 0x0D, 0x11, 0x12):
        return bytes([{0x09: 6, 0x0D: 7, 0x11: 8, 0x12: 9}[command], *rest])
    if command == 0x19:
        return bytes([11]) + in_bytes(4, rest[0])
    return bytes([12 if command == 0x1B else 13]) + in_bytes(2, *rest[:1]) + in_bytes(2, *rest[1:])


def message_step(values, opaque=b"", room=32):
    output = empty_output(MAX_WIRE)
    answer, count = write_message(values, opaque, 2, 0, output, room)
    line = words("write", answer)
    if answer == DONE:
        line += f" {count}{in_hex(output[:count])}"
    elif answer in (PAYLOAD, ROOM):
        line += f" {count}"
    data = in_bytes(2, room) + coded(values).ljust(14, b"\0") + opaque
    return record(WRITE_MESSAGE, data), [line + in_hex(output[:3])]


def reply_step(command, number, payload, room):
    """The reply to a frame, where the output has so much room."""
    answer, values = read_message(command, payload)
    line = reply_line(answer, values, command, number, empty_output(REPLY_ROOM), room)
    return record(REPLY, in_bytes(2, room) + bytes([command, number]) + payload), [line]


# Calls of captures. A payload or a window may be longer than a record's data: then its last zeros are not given.

MAX_ROOM = 65544  # also the most bytes of a payload or of a window
GIVEN = 4000  # bytes


def sized(data):
    given = data if len(data) <= GIVEN else data.rstrip(b"\0")
    assert len(data) <= MAX_ROOM and len(given) <= GIVEN, "no record gives these bytes"
    return in_bytes(4, len(data)) + given


def head_step(room):
    output = empty_output(room)
    written = capture.write_head(output)
    return record(WRITE_HEAD, in_bytes(4, room)), [words("write", *written) + in_hex(output)]


def record_step(direction, milliseconds, payload, room):
    output = empty_output(room)
    written = capture.write_record(direction, milliseconds, payload, output)
    data = in_bytes(4, room) + bytes([direction]) + in_bytes(4, milliseconds) + sized(payload)
    return record(WRITE_RECORD, data), [words("write", *written) + in_hex(output)]


def next_step(place, window):
    answer, after = capture.next_of(place, window)
    line = words("next", *answer, after) + in_hex(capture.payload_of(window))
    return record(NEXT, in_bytes(8, place) + sized(window)), [line]


def finish_step(place, window):
    return record(FINISH_CAPTURE, in_bytes(8, place) + sized(window)), [words("finish", *capture.finish(place, window))]


# The link. The data of a record is four bytes and the clock.

OFFER, TICK, RECEIVE, SET_IDLE, SET_WAITING, ELAPSED, TICK_IN_PLACE, FRESH_LINK = range(8)
TICKS = TICK, TICK_IN_PLACE  # the same tick, of a link by value and of one in its own place
LINK_DATA = 8


class LinkCalls:
    """The steps of calls on the one link that the driver holds."""

    def __init__(self):
        self.link, self.steps = Link(), []

    def put(self, operation, data):
        self.steps.append((record(LINK | operation, data), [self.line(operation, data)]))

    def line(self, operation, data):
        data = data[:LINK_DATA].ljust(LINK_DATA, b"\0")
        a, b, c, d = data[:4]
        clock = number_of(data[4:])
        if operation == OFFER:
            line = "offer", *self.link.offer(a, clock)
        elif operation in TICKS:
            line = "tick", *self.link.tick(clock)
        elif operation == RECEIVE:
            line = "answer", *self.link.receive(a, b)
        elif operation == SET_IDLE:
            line, self.link = ["set"], Link(a)
        elif operation == SET_WAITING:
            line, self.link = ["set"], Link(a, [b, c, clock, d])
        elif operation == ELAPSED:
            since = number_of(data[:4])
            line = "elapsed", elapsed(since, clock), int(is_due(since, clock))
        else:
            line, self.link = ["fresh"], Link()
        return words(*line, ":", self.link.number, *(self.link.waits or []))
