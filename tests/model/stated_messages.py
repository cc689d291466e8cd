"""Lines of the driver about messages and replies, worked out by hand (PROTOCOL 7 and 8).

With a stream of each kind of message they are the second part of the driver's stored script.
"""
import pathlib

from answers import CUT, LONG, SHORT, STUFF, STUFFLATE
from driver import message_step, reply_step, stream_lines
from message import CONTROL, QUERY, REPORT, STATUS
from records import NAMES, record

# A name, a stream, and the lines of its frames and wrong sums.

STATED = [
    (
        "example 1, a heartbeat, gets 08 with its number",
        "FF FF 00 05 07 01 00 00 0D",
        "frame 7 1 0 0",
        "read 0 7",
        "write 0 9 : ff ff 00 05 07 01 00 00 0d",
        "answer 0 9 : ff ff 00 05 08 01 00 00 0e",
    ),
    (
        "example 2, number FF",
        "FF FF 00 05 07 FF 55 00 00 0B",
        "frame 7 255 0 0",
        "read 0 7",
        "write 0 10 : ff ff 00 05 07 ff 55 00 00 0b",
        "answer 0 10 : ff ff 00 05 08 ff 55 00 00 0c",
    ),
    (
        "example 3, sum FF",
        "FF FF 00 05 07 F3 00 00 FF 55",
        "frame 7 243 0 0",
        "read 0 7",
        "write 0 10 : ff ff 00 05 07 f3 00 00 ff 55",
        "answer 0 9 : ff ff 00 05 08 f3 00 00 00",
    ),
    ("example 3, one byte less", "FF FF 00 05 07 F3 00 00 FF"),
    (
        "example 4, a report: only the box sends it, so it gets code 2",
        "FF FF 00 0E 05 02 00 00 04 05 00 03 00 00 00 FF 55 00 20",
        "frame 5 2 0 9",
        "read 0 5 4 1 0 1 3 255 0 0 0",
        "write 0 19 : ff ff 00 0e 05 02 00 00 04 05 00 03 00 00 00 ff 55 00 20",
        "answer 0 10 18 2 0 : ff ff 00 06 12 02 00 00 02 1c",
    ),
    ("example 6, length 4", "FF FF 00 04"),
    ("example 7, length 1025", "FF FF 04 01"),
    ("example 8", "FF FF FF 55 00"),
    ("example 9, broken stuffing, gets no reply", "FF FF 00 05 07 FF 00"),
    ("broken stuffing at the sum gets no reply", "FF FF 00 05 07 01 00 00 FF 00"),
    ("broken stuffing in a payload gets no reply", "FF FF 00 0E 05 02 00 00 04 05 00 03 00 00 00 FF 00 20"),
    (
        "broken stuffing at the sum, then example 1: one reply",
        "FF FF 00 05 0F 09 00 00 FF 54 FF FF 00 05 07 01 00 00 0D",
        "frame 7 1 0 0",
        "read 0 7",
        "write 0 9 : ff ff 00 05 07 01 00 00 0d",
        "answer 0 9 : ff ff 00 05 08 01 00 00 0e",
    ),
    (
        "example 10, a wrong sum, gets code 1",
        "FF FF 00 05 07 01 00 00 0E",
        "sum 1",
        "answer 0 10 18 1 15 : ff ff 00 06 12 01 00 00 01 1a",
    ),
    (
        "the listing's example",
        "FF FF FF 00 05 07 01 00 00 0D FF FF 00 05 07 FF FF 00 05 07 F3 00 00 FF 55",
        "frame 7 1 0 0",
        "read 0 7",
        "write 0 9 : ff ff 00 05 07 01 00 00 0d",
        "answer 0 9 : ff ff 00 05 08 01 00 00 0e",
        "frame 7 243 0 0",
        "read 0 7",
        "write 0 10 : ff ff 00 05 07 f3 00 00 ff 55",
        "answer 0 9 : ff ff 00 05 08 f3 00 00 00",
    ),
    (
        "flags refuse nothing",
        "FF FF 00 05 07 01 01 02 10",
        "frame 7 1 258 0",
        "read 0 7",
        "write 0 9 : ff ff 00 05 07 01 01 02 10",
        "answer 0 9 : ff ff 00 05 08 01 00 00 0e",
    ),
    (
        "01: the caller has to send device information",
        "FF FF 00 05 01 03 00 00 09",
        "frame 1 3 0 0",
        "read 0 1",
        "write 0 9 : ff ff 00 05 01 03 00 00 09",
        "answer 0 0 2 3",
    ),
    (
        "query: the caller has to send the status",
        "FF FF 00 06 03 04 00 00 02 0F",
        "frame 3 4 0 1",
        "read 0 3 2",
        "write 0 10 : ff ff 00 06 03 04 00 00 02 0f",
        "answer 0 0 4 4",
    ),
    (
        "control: without their flags mode 3 and lamp read as 0, and 0 is written",
        "FF FF 00 0A 03 06 00 00 01 04 07 02 01 22",
        "frame 3 6 0 5",
        "read 0 3 1 0 0 1 0 0 513",
        "write 0 14 : ff ff 00 0a 03 06 00 00 01 04 00 02 01 1b",
        "answer 0 9 : ff ff 00 05 04 06 00 00 0f",
    ),
    (
        "control: mode 3 with its flag is FIELD",
        "FF FF 00 0A 03 06 00 00 01 06 07 02 01 24",
        "frame 3 6 0 5",
        "read 33",
        "answer 0 10 18 3 33 : ff ff 00 06 12 06 00 00 03 21",
    ),
    (
        "control: a bit that has no meaning is FIELD, flag or not",
        "FF FF 00 0A 03 06 00 00 01 00 08 00 00 1C",
        "frame 3 6 0 5",
        "read 33",
        "answer 0 10 18 3 33 : ff ff 00 06 12 06 00 00 03 21",
    ),
    (
        "03: another first byte is FIELD",
        "FF FF 00 06 03 06 00 00 03 12",
        "frame 3 6 0 1",
        "read 33",
        "answer 0 10 18 3 33 : ff ff 00 06 12 06 00 00 03 21",
    ),
    (
        "query with a byte after it is SIZE",
        "FF FF 00 07 03 06 00 00 02 00 12",
        "frame 3 6 0 2",
        "read 32",
        "answer 0 10 18 3 32 : ff ff 00 06 12 06 00 00 03 21",
    ),
    (
        "a command that is not listed is COMMAND and gets code 2",
        "FF FF 00 06 21 07 00 00 00 2E",
        "frame 33 7 0 1",
        "read 31",
        "answer 0 10 18 2 31 : ff ff 00 06 12 07 00 00 02 21",
    ),
    (
        "09 with way 3 is FIELD, but only the box sends it, so code 2",
        "FF FF 00 06 09 08 00 00 03 1A",
        "frame 9 8 0 1",
        "read 33",
        "answer 0 10 18 2 0 : ff ff 00 06 12 08 00 00 02 22",
    ),
    (
        "a heartbeat with a payload is SIZE and gets code 3",
        "FF FF 00 06 07 0A 00 00 00 17",
        "frame 7 10 0 1",
        "read 32",
        "answer 0 10 18 3 32 : ff ff 00 06 12 0a 00 00 03 25",
    ),
    (
        "0D: the reserved bits are ignored",
        "FF FF 00 07 0D 0B 00 00 FF 55 FF 55 1D",
        "frame 13 11 0 2",
        "read 0 13 1 1 1 1 1 1 7 1 1",
        "write 0 11 : ff ff 00 07 0d 0b 00 00 1f 3f 7d",
        "answer 0 9 : ff ff 00 05 0e 0b 00 00 1e",
    ),
    (
        "11 with code 4, the last allowed, gets no answer",
        "FF FF 00 06 11 0E 00 00 04 29",
        "frame 17 14 0 1",
        "read 0 17 4",
        "write 0 10 : ff ff 00 06 11 0e 00 00 04 29",
        "answer 0",
    ),
    (
        "18 with the seconds since 1970",
        "FF FF 00 10 18 02 00 00 07 DF 07 01 0C 1E 2D 55 93 DE ED 22",
        "frame 24 2 0 11",
        "read 0 24 2015 7 1 12 30 45 1435754221",
        "write 0 20 : ff ff 00 10 18 02 00 00 07 df 07 01 0c 1e 2d 55 93 de ed 22",
        "answer 0",
    ),
    (
        "19 with a check code of 2 bytes is handed to the caller",
        "FF FF 00 0D 19 0C 00 00 00 00 04 00 00 02 61 62 FB",
        "frame 25 12 0 8",
        "read 0 25 1024",
        "part 6 : 61 62",
        "write 0 17 : ff ff 00 0d 19 0c 00 00 00 00 04 00 00 02 61 62 fb",
        "answer 0 0 26 12",
    ),
    (
        "19 with a byte more than its count is handed to the caller too",
        "FF FF 00 0D 19 0C 00 00 00 00 04 00 00 01 61 62 FA",
        "frame 25 12 0 8",
        "read 32",
        "answer 0 0 26 12",
    ),
    (
        "19 with a wrong sum gets code 1",
        "FF FF 00 0D 19 0C 00 00 00 00 04 00 00 02 61 62 FA",
        "sum 12",
        "answer 0 10 18 1 15 : ff ff 00 06 12 0c 00 00 01 25",
    ),
    (
        "1B with a check code of 1 byte and pieces of 128",
        "FF FF 00 0A 1B 0D 00 00 00 01 61 00 80 14",
        "frame 27 13 0 5",
        "read 0 27 128",
        "part 6 : 61",
        "write 0 14 : ff ff 00 0a 1b 0d 00 00 00 01 61 00 80 14",
        "answer 0 10 18 2 0 : ff ff 00 06 12 0d 00 00 02 27",
    ),
    (
        "1D, piece 1 of 2 with the data FF 55, is handed to the caller",
        "FF FF 00 0B 1D 05 00 00 00 01 00 02 FF 55 55 84",
        "frame 29 5 0 6",
        "read 0 29 1 2",
        "part 7 : ff 55",
        "write 0 16 : ff ff 00 0b 1d 05 00 00 00 01 00 02 ff 55 55 84",
        "answer 0 0 30 5",
    ),
    (
        "1D of 3 bytes is handed to the caller too",
        "FF FF 00 08 1D 05 00 00 00 01 00 2B",
        "frame 29 5 0 3",
        "read 32",
        "answer 0 0 30 5",
    ),
    (
        "1F is handed to the caller, with a byte too many as well",
        "FF FF 00 05 1F 06 00 00 2A FF FF 00 06 1F 07 00 00 00 2C",
        "frame 31 6 0 0",
        "read 0 31",
        "write 0 9 : ff ff 00 05 1f 06 00 00 2a",
        "answer 0 0 32 6",
        "frame 31 7 0 1",
        "read 32",
        "answer 0 0 32 7",
    ),
]


# Messages to write under number 2: values, refusals and rooms that no stream has.


def report(mode):
    return [0x05, REPORT, 1, 0, mode, 3, 255, 0, 0, 0]


def status(mode):
    return [0x04, STATUS, 1, 0, mode, 3, 255, 0, 0, 0]


def control(has_mode, mode):
    return [0x03, CONTROL, 0, has_mode, 0, 1, mode, 513]


def network(strength):
    return [0x0D, 1, 0, 1, 0, 1, 0, strength, 1, 0]


OPAQUE = bytes([1, 2, 3])
PIECE = [0x1D, 1, 1]
REPORT_1 = "write 0 19 : ff ff 00 0e 05 02 00 00 04 05 00 03 00 00 00 ff 55 00 20 : ff ff 00"
# A name, the line, the message's values; perhaps its opaque bytes and the room.
WRITTEN = [
    ("example 4, report, mode 1", REPORT_1, report(1)),
    ("report, mode 2", "write 0 19 : ff ff 00 0e 05 02 00 00 04 09 00 03 00 00 00 ff 55 00 24 : ff ff 00", report(2)),
    ("status, mode 0", "write 0 19 : ff ff 00 0e 04 02 00 00 03 01 00 03 00 00 00 ff 55 00 1a : ff ff 00", status(0)),
    ("control, mode 2", "write 0 14 : ff ff 00 0a 03 02 00 00 01 02 04 00 00 16 : ff ff 00", control(1, 2)),
    ("control, mode 1", "write 0 14 : ff ff 00 0a 03 02 00 00 01 02 02 00 00 14 : ff ff 00", control(1, 1)),
    ("control, no mode", "write 0 14 : ff ff 00 0a 03 02 00 00 01 00 00 00 00 10 : ff ff 00", control(0, 2)),
    ("strength 7", "write 0 11 : ff ff 00 07 0d 02 00 00 0f 15 3a : ff ff 00", network(7)),
    ("strength 8, too much for its bits", "write 33 : aa aa aa", network(8)),
    ("09, way 1", "write 0 10 : ff ff 00 06 09 02 00 00 01 12 : ff ff 00", [0x09, 1]),
    ("09, way 2", "write 0 10 : ff ff 00 06 09 02 00 00 02 13 : ff ff 00", [0x09, 2]),
    ("11, code 1", "write 0 10 : ff ff 00 06 11 02 00 00 01 1a : ff ff 00", [0x11, 1]),
    ("12, code 4", "write 0 10 : ff ff 00 06 12 02 00 00 04 1e : ff ff 00", [0x12, 4]),
    ("a command that is not listed", "write 31 : aa aa aa", [0x21]),
    ("COMMAND before SIZE", "write 31 : aa aa aa", [0x21], OPAQUE),
    ("heartbeat with opaque bytes", "write 32 : aa aa aa", [0x07], OPAQUE),
    ("04 may be empty", "write 0 9 : ff ff 00 05 04 02 00 00 0b : ff ff 00", [0x04]),
    ("05 may not be empty", "write 32 : aa aa aa", [0x05]),
    ("query with opaque bytes", "write 32 : aa aa aa", [0x03, QUERY], OPAQUE),
    ("SIZE before FIELD", "write 32 : aa aa aa", network(8), OPAQUE),
    ("02 without its texts and key", "write 32 : aa aa aa", [0x02, 66, 0]),
    ("report, one byte of room too few", "write 22 19 : aa aa aa", report(1), b"", 18),
    ("report, just enough room", REPORT_1, report(1), b"", 19),
    ("FIELD before ROOM", "write 33 : aa aa aa", network(8), b"", 0),
    ("example 12, payload of 1,020 bytes", "write 21 0 : aa aa aa", PIECE, bytes(1016)),
    ("example 12, payload of 1,019 bytes, too little room", "write 22 1028 : aa aa aa", PIECE, bytes(1015)),
]
# A name, the line, then command, number and payload of a received frame and the room.
REPLIES = [
    ("reply, one byte of room too few", "answer 22 9 : aa aa aa", 0x07, 9, b"", 8),
    ("reply, just enough room", "answer 0 9 : ff ff 00 05 08 09 00 00 16", 0x07, 9, b"", 9),
    ("19 needs no room", "answer 0 0 26 9", 0x19, 9, bytes(6), 0),
    ("1D of another size needs no room", "answer 0 0 30 9", 0x1D, 9, bytes(3), 0),
    ("1F needs no room", "answer 0 0 32 255", 0x1F, 255, b"", 0),
]
# Refused frames that get no reply, whatever their command is (PROTOCOL 8.10).
NO_REPLY = SHORT, LONG, STUFF, CUT, STUFFLATE
# Modes, ways and codes (PROTOCOL 7.11, 7.13 and the picture before 7.17).
NAMED = record(NAMES), ["names 0 1 2 1 2 1 2 3 4"]

KINDS = bytes.fromhex(pathlib.Path(__file__).with_name("kinds.hex").read_text(encoding="ascii"))


def streams():
    """A name, a stream and its lines; those of the stream of each kind of message are the model's."""
    for name, data, *lines in STATED:
        yield name, bytes.fromhex(data), lines
    yield "a stream of each kind of message", KINDS, stream_lines(KINDS)


def steps():
    """A name, a step of its own with the line by hand, and the model's line."""
    for name, line, *message in WRITTEN:
        made, (found,) = message_step(*message)
        yield f"write {name}", (made, [line]), found
    for name, line, *frame in REPLIES:
        made, (found,) = reply_step(*frame)
        yield name, (made, [line]), found
