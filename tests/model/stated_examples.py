"""Answers of the reader and the writer, worked out by hand: the worked examples (PROTOCOL 11) and more.

They are the first part of the driver's stored script.
"""
from answers import CUT, DONE, FRAME, LONG, MORE, PAYLOAD, ROOM, SHORT, STUFF, STUFFLATE, SUM
from driver import Calls, write_step

# A name, the bytes of one call on a fresh reader, which consumes them all, and the answer: its number, start, end and
# further values (PROTOCOL 4.19, 4.20).
EXAMPLE_1 = "FF FF 00 05 07 01 00 00 0D"
EXAMPLE_3 = "FF FF 00 05 07 F3 00 00 FF 55"
EXAMPLE_4 = "FF FF 00 0E 05 02 00 00 04 05 00 03 00 00 00 FF 55 00 20"
LONGEST = "FF FF 04 00 07 01 00 00" + " FF 55" * 1019  # without its sum
READ = [
    ("nothing", "", MORE),
    ("example 1", EXAMPLE_1, FRAME, 0, 9),
    ("example 2", "FF FF 00 05 07 FF 55 00 00 0B", FRAME, 0, 10),
    ("example 3", EXAMPLE_3, FRAME, 0, 10),
    ("example 3, one byte less", "FF FF 00 05 07 F3 00 00 FF", MORE),
    ("example 4", EXAMPLE_4, FRAME, 0, 19),
    ("example 5", "FF " + EXAMPLE_1, FRAME, 1, 10),
    ("example 6, length 4", "FF FF 00 04", SHORT, 0, 4),
    ("example 6, length 5", "FF FF 00 05", MORE),
    ("example 7, length 1025", "FF FF 04 01", LONG, 0, 4),
    ("example 7, length 1024", "FF FF 04 00", MORE),
    ("example 8", "FF FF FF 55 00", LONG, 1, 5),
    ("example 9", "FF FF 00 05 07 FF 00", STUFF, 0, 7, 0),
    ("example 10", "FF FF 00 05 07 01 00 00 0E", SUM, 0, 9, 14, 13),
    # PROTOCOL 11.4: the other three, and a frame that breaks off after 1 to 8 body bytes.
    ("a break after 5 body bytes", "FF FF 00 05 07 01 00 FF 00", STUFF, 0, 9, 0),
    ("a break after 6 body bytes, at the sum", "FF FF 00 05 07 01 00 00 FF 00", STUFFLATE, 0, 10, 0),
    ("a break after 5 body bytes, 6 on the wire", "FF FF 00 05 07 FF 55 00 FF 01", STUFF, 0, 10, 1),
    ("FF 09 after 1 body byte", "FF FF 00 FF 09", STUFF, 0, 5, 9),
    ("FF 09 after 2 body bytes", "FF FF 00 09 FF 09", STUFF, 0, 6, 9),
    ("FF 09 after 3 body bytes", "FF FF 00 09 07 FF 09", STUFF, 0, 7, 9),
    ("FF 09 after 4 body bytes", "FF FF 00 09 07 01 FF 09", STUFF, 0, 8, 9),
    ("FF 09 after 5 body bytes", "FF FF 00 09 07 01 00 FF 09", STUFF, 0, 9, 9),
    ("FF 09 after 6 body bytes", "FF FF 00 09 07 01 00 00 FF 09", STUFFLATE, 0, 10, 9),
    ("FF 09 after 7 body bytes", "FF FF 00 09 07 01 00 00 61 FF 09", STUFFLATE, 0, 11, 9),
    ("FF 09 after 8 body bytes", "FF FF 00 09 07 01 00 00 61 62 FF 09", STUFFLATE, 0, 12, 9),
    # Stuffed FF before the break: a body byte each, and two bytes on the wire. Bytes that are near 55 or FF.
    ("FF 54 after 2 body bytes, one FF", "FF FF 00 FF 55 FF 54", STUFF, 0, 7, 84),
    ("FF 56 after 3 body bytes, one FF", "FF FF 00 05 FF 55 FF 56", STUFF, 0, 8, 86),
    ("FF D5 after 4 body bytes, two FF", "FF FF 00 06 FF 55 FF 55 FF D5", STUFF, 0, 10, 213),
    ("FF 57 after 5 body bytes, three FF", "FF FF 00 06 FF 55 FF 55 FF 55 FF 57", STUFF, 0, 12, 87),
    ("FF FE after 6 body bytes, two FF", "FF FF 00 06 FF 55 FF 55 00 00 FF FE", STUFFLATE, 0, 12, 254),
    ("FF 5D after 7 body bytes, two FF", "FF FF 00 07 07 01 FF 55 00 FF 55 FF 5D", STUFFLATE, 0, 13, 93),
    ("FF 15 after 8 body bytes, six FF", "FF FF 00 09" + " FF 55" * 6 + " FF 15", STUFFLATE, 0, 18, 21),
    ("FF 55 55 FF 7F, five body bytes", "FF FF 00 06 07 FF 55 55 FF 7F", STUFF, 0, 10, 127),
    # Breaks at the sum.
    ("the sum FF without its 55", "FF FF 00 05 07 F3 00 00 FF 54", STUFFLATE, 0, 10, 84),
    ("a break at the sum after a payload", "FF FF 00 06 07 01 00 00 09 FF D5", STUFFLATE, 0, 11, 213),
    ("a break at the sum of example 4", f"{EXAMPLE_4[:-2]}FF 20", STUFFLATE, 0, 20, 32),
    ("a break at the sum of the longest frame", f"{LONGEST} FF 11", STUFFLATE, 0, 2048, 17),
    ("a late break after a stray FF", "FF FF FF 00 05 07 01 00 00 FF 09", STUFFLATE, 1, 11, 9),
    # Wrong sums: found FF, computed FF, computed over 255, with a stuffed 55 added, and after a payload.
    ("example 1 with the sum FF", "FF FF 00 05 07 01 00 00 FF 55", SUM, 0, 10, 255, 13),
    ("example 3 with the sum 0", "FF FF 00 05 07 F3 00 00 00", SUM, 0, 9, 0, 255),
    ("example 2 with the sum 12", "FF FF 00 05 07 FF 55 00 00 0C", SUM, 0, 10, 12, 11),
    ("example 2 with its 55 in the sum", "FF FF 00 05 07 FF 55 00 00 60", SUM, 0, 10, 96, 11),
    ("example 4 with the sum 33", f"{EXAMPLE_4[:-2]}21", SUM, 0, 19, 33, 32),
]

# The bytes of one call on a fresh reader, and the driver's lines of it and of finish.
REFUSED = [
    ("FF FF 00 05 07 FF 00", "feed 13 7 0 7 0", "end 2 7"),
    ("FF FF 00 05 07 01 00 00 FF 00", "feed 19 10 0 10 0", "end 2 10"),
    ("FF FF 00 05 07 01 00 00 0E", "feed 15 9 0 9 14 13 : 00 05 07 01 00 00 0e", "end 2 9"),
]

# Refused frames one after the other, each with the count of its own body bytes: a late break, an early one, a frame of
# six body bytes that is cut, a break after two, a late break with stuffed FF, a wrong sum, and example 1. What is
# decided, its start, end and further values; nothing is open at the end.
BREAKS = (
    "FF FF 00 06 07 01 00 00 09 FF D5  FF FF 00 05 07 FF 00  FF FF 00 05 07 01 00 00  FF FF 00 05 FF 09"
    "  FF FF 00 06 FF 55 FF 55 00 00 FF FE  FF FF 00 05 07 01 00 00 0E  " + EXAMPLE_1
)
BROKEN = [
    (STUFFLATE, 0, 11, 213),
    (STUFF, 11, 18, 0),
    (CUT, 18, 28),
    (STUFF, 26, 32, 9),
    (STUFFLATE, 32, 44, 254),
    (SUM, 44, 53, 14, 13),
    (FRAME, 53, 62),
]

# The stream of PROTOCOL 11.2: what is decided, its start and end; nothing is open at its end.
LISTING = "FF " + EXAMPLE_1 + " FF FF 00 05 07 " + EXAMPLE_3
LISTED = [(FRAME, 1, 10), (CUT, 10, 17), (FRAME, 15, 25)]

# A name, a stream, and the lines of its listing after the heading (PROTOCOL 10).
HEADING = "kind start end cmd sn flags payload"
LISTINGS = [
    ("the example", LISTING, ["frame 1 10 7 1 0 0", "cut 10 17 - - - -", "frame 15 25 7 243 0 0", "clean 25"]),
    (
        "flags and a payload",
        "FF FF 00 0E 05 02 80 01 04 05 00 03 00 00 00 FF 55 00 A1",
        ["frame 0 19 5 2 32769 9", "clean 19"],
    ),
    (
        "each refused frame, and one that stays open",
        "FF FF 00 04  FF FF 04 01  FF FF 00 05 07 FF 00  FF FF 00 05 07 01 00 00 FF 00"
        "  FF FF 00 05 FF FF  00 05 07 01 00 00 0E  FF FF 00",
        [
            "short 0 4 - - - -",
            "long 4 8 - - - -",
            "stuff 8 15 - - - -",
            "stufflate 15 25 - - - -",
            "cut 25 31 - - - -",
            "sum 29 38 - - - -",
            "open 38",
        ],
    ),
    (
        "refused frames, each with the count of its own body bytes",
        BREAKS,
        [
            "stufflate 0 11 - - - -",
            "stuff 11 18 - - - -",
            "cut 18 28 - - - -",
            "stuff 26 32 - - - -",
            "stufflate 32 44 - - - -",
            "sum 44 53 - - - -",
            "frame 53 62 7 1 0 0",
            "clean 62",
        ],
    ),
    ("a late break alone", "FF FF 00 05 07 01 00 00 FF 00", ["stufflate 0 10 - - - -", "clean 10"]),
]

# Near the most bytes that a reader consumes (PROTOCOL 4.18): bytes consumed before, bytes fed, the lines of feed and
# finish.
MAX_CONSUMED = 4611686018427387904
LIMITS = [
    (0, "", "feed 0 0", "end 2 0"),
    (MAX_CONSUMED - 1, "00", "feed 0 1", "end 2 4611686018427387904"),
    (MAX_CONSUMED - 1, "00 00", "feed 18 0", "end 2 4611686018427387903"),
    (MAX_CONSUMED, "", "feed 0 0", "end 2 4611686018427387904"),
    (MAX_CONSUMED, "00", "feed 18 0", "end 2 4611686018427387904"),
    (MAX_CONSUMED + 1, "", "feed 17 0", "end 17 0"),
]

# A name, the frame, the room for it, the answer and the bytes written, or at ROOM those that would be.
MAX_ROOM = 2100
REPORT = bytes.fromhex("04 05 00 03 00 00 00 FF 00")
WRITTEN = [
    ("example 1", 7, 1, 0, b"", MAX_ROOM, DONE, 9),
    ("example 2", 7, 255, 0, b"", MAX_ROOM, DONE, 10),
    ("example 3", 7, 243, 0, b"", MAX_ROOM, DONE, 10),
    ("example 4", 5, 2, 0, REPORT, MAX_ROOM, DONE, 19),
    ("full of ff", 255, 255, 65535, b"\xff" * 4, MAX_ROOM, DONE, 21),
    ("ff and 55", 85, 255, 0xFF55, b"\xff\x55\x55\xff", MAX_ROOM, DONE, 17),
    ("example 3", 7, 243, 0, b"", 10, DONE, 10),
    ("example 3", 7, 243, 0, b"", 9, ROOM, 10),
    ("example 3", 7, 243, 0, b"", 0, ROOM, 10),
    ("the shortest frame", 7, 1, 0, b"", 0, ROOM, 9),
    ("five ff", 0x90, 1, 0, b"\xff" * 5, 18, ROOM, 19),
    ("five ff", 0x90, 1, 0, b"\xff" * 5, 19, DONE, 19),
    ("payload 1019", 7, 1, 0, b"\xff" * 1019, MAX_ROOM, DONE, 2047),
    ("payload 1019", 7, 1, 0, b"\xff" * 1019, 2047, DONE, 2047),
    ("payload 1019", 7, 1, 0, b"\xff" * 1019, 2046, ROOM, 2047),
    ("payload 1020", 7, 1, 0, b"\xff" * 1020, MAX_ROOM, PAYLOAD, 0),
    ("payload 1020", 7, 1, 0, b"\xff" * 1020, 0, PAYLOAD, 0),
]
# The bytes of those that are not in READ.
WIRE = {name: data for name, data, *_ in READ} | {
    "full of ff": "FF FF 00 09" + " FF 55" * 8 + " 01",
    "ff and 55": "FF FF 00 09 55 FF 55 FF 55 55 FF 55 55 55 FF 55 59",
    "five ff": "FF FF 00 0A 90 01 00 00" + " FF 55" * 5 + " 96",
    "payload 1019": f"{LONGEST} 11",
}


def played(data, cut):
    """The steps of a stream in calls of at most so many bytes; what a call leaves is offered again."""
    calls, at = Calls(), 0
    while at < len(data):
        at += calls.feed(data[at : at + cut])
    calls.finish()
    return calls.steps


def limit_steps(consumed, offered):
    calls = Calls(consumed)
    calls.feed(offered)
    calls.finish()
    return calls.steps


def scripts():
    """A name and the steps of each."""
    for name, data, *_ in READ:
        data = bytes.fromhex(data)
        yield f"read {name}", played(data, len(data))
    data = bytes.fromhex(LISTING)
    for cut in range(1, len(data) + 1):
        yield f"read the listing's example in calls of {cut}", played(data, cut)
    data = bytes.fromhex(BREAKS)
    for cut in (1, 4, 9, len(data)):
        yield f"read refused frames in calls of {cut}", played(data, cut)
    for consumed, offered, *_ in LIMITS:
        offered = bytes.fromhex(offered)
        yield f"read {len(offered)} bytes after {consumed}", limit_steps(consumed, offered)
    for name, *frame, room, _, _ in WRITTEN:
        yield f"write {name}, room {room}", [write_step(*frame, room)]
