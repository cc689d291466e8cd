"""Calls of captures with their lines by hand: what is written, and what a cursor finds."""
from driver import MAX_ROOM, finish_step, head_step, next_step, record_step

# A name, the line, the room.
HEADS = [
    ("a head", "write 0 5 : 4c 46 54 00 01 aa aa", 7),
    ("a head that just fits", "write 0 5 : 4c 46 54 00 01", 5),
    ("a head without room", "write 22 5 : aa aa aa aa", 4),
    ("a head without any room", "write 22 5 :", 0),
]

# A name, the line, direction, milliseconds, payload, room.
RECORDS = [
    ("a record", "write 0 10 : 01 01 02 03 04 00 03 61 62 63 aa", 1, 0x01020304, b"abc", 11),
    ("a record that just fits", "write 0 8 : 00 ff ff ff ff 00 01 ff", 0, 2**32 - 1, b"\xff", 8),
    ("a record without room", "write 22 8 : aa aa aa aa aa aa aa", 0, 2**32 - 1, b"\xff", 7),
    ("an empty record", "write 0 7 : 01 00 00 00 05 00 00 aa", 1, 5, b"", 8),
    ("an empty record without room", "write 22 7 : aa aa aa aa aa aa", 1, 5, b"", 6),
    ("256 bytes", "write 0 263 : 00 00 00 00 00 01 00" + " 07" * 256, 0, 0, b"\x07" * 256, 263),
    ("256 bytes without room", "write 22 263 :" + " aa" * 262, 0, 0, b"\x07" * 256, 262),
    ("65,536 bytes", "write 21 0 : aa", 1, 0, bytes(65536), 1),
    ("65,536 bytes without any room", "write 21 0 :", 1, 0, bytes(65536), 0),
]

# A name, the lines of next and finish, the cursor's place, the window.
WINDOWS = [
    ("nothing of a capture", "next 0 0 0 :", "finish 51 0", 0, ""),
    ("two bytes of a mark", "next 0 0 0 :", "finish 51 0", 0, "4C 46"),
    ("a wrong mark", "next 51 0 0 :", "finish 51 0", 0, "58"),
    ("a mark", "next 0 0 0 :", "finish 52 3", 0, "4C 46 54"),
    ("a wrong version's first byte", "next 52 3 0 :", "finish 52 3", 0, "4C 46 54 01"),
    ("another version", "next 52 3 0 :", "finish 52 3", 0, "4C 46 54 00 02"),
    ("a head and a byte", "next 0 5 5 :", "finish 0 0", 0, "4C 46 54 00 01 00"),
    ("an end after the head", "next 0 0 5 :", "finish 2 5", 5, ""),
    ("another direction", "next 53 5 5 :", "finish 53 5", 5, "02"),
    ("a direction alone", "next 0 0 5 :", "finish 54 5", 5, "01"),
    ("an empty record", "next 1 7 1 16909060 12 :", "finish 0 0", 5, "01 01 02 03 04 00 00"),
    ("a record and a byte", "next 1 9 0 5 1009 : 61 62", "finish 0 0", 1000, "00 00 00 00 05 00 02 61 62 63"),
    ("a record without its last byte", "next 0 0 1000 : 61", "finish 54 1000", 1000, "00 00 00 00 05 00 02 61"),
    ("a record without its count", "next 0 0 21 :", "finish 54 21", 21, "01 00 00 00 05 00"),
    ("256 bytes, of which 2 are there", "next 0 0 9 : 61 62", "finish 54 9", 9, "01 00 00 00 05 01 00 61 62"),
    ("place 1", "next 17 0 1 :", "finish 17 0", 1, "00"),
    ("place 4", "next 17 0 4 :", "finish 17 0", 4, ""),
    ("place 2^62 + 1", f"next 17 0 {2**62 + 1} :", "finish 17 0", 2**62 + 1, ""),
    ("the last place", f"next 17 0 {2**64 - 1} :", "finish 17 0", 2**64 - 1, "02"),
    ("place 2^62", f"next 0 0 {2**62} :", f"finish 2 {2**62}", 2**62, ""),
    ("a byte at place 2^62", f"next 18 0 {2**62} :", "finish 18 0", 2**62, "02"),
    ("a record up to 2^62", f"next 1 7 1 1 {2**62} :", "finish 0 0", 2**62 - 7, "01 00 00 00 01 00 00"),
    ("a record beyond 2^62", f"next 18 0 {2**62 - 6} :", "finish 18 0", 2**62 - 6, "01 00 00 00 01 00 00"),
]

# Longer ones, whose lines are too long to be stored.
LONG_RECORDS = [
    ("65,535 bytes", "write 0 65542 : 01 00 00 00 00 ff ff" + " 00" * 65535 + " aa aa", 1, 0, bytes(65535), MAX_ROOM),
    ("65,535 bytes without room", "write 22 65542 :" + " aa" * 65541, 1, 0, bytes(65535), 65541),
]
FULL = bytes.fromhex("01 00 00 00 00 FF FF") + bytes(65535)
LONG_WINDOWS = [
    ("65,535 bytes", "next 1 65542 1 0 65547 :" + " 00" * 65535, "finish 0 0", 5, FULL),
    ("65,535 bytes without the last", "next 0 0 5 :" + " 00" * 65534, "finish 54 5", 5, FULL[:-1]),
]


def written(records):
    for name, line, *some in records:
        yield f"write {name}", line, record_step(*some)


def read(windows):
    for name, taken, ended, *window in windows:
        yield f"next: {name}", taken, next_step(*window)
        yield f"finish: {name}", ended, finish_step(*window)


def steps():
    """A name, a step with the line by hand, and the model's line."""
    heads = [(f"write {name}", line, head_step(room)) for name, line, room in HEADS]
    windows = [(*some, bytes.fromhex(window)) for *some, window in WINDOWS]
    for name, line, (made, (found,)) in [*heads, *written(RECORDS), *read(windows)]:
        yield name, (made, [line]), found


def long_steps():
    for name, line, (made, (found,)) in [*written(LONG_RECORDS), *read(LONG_WINDOWS)]:
        yield name, (made, [line]), found
