"""Lines of the driver about a link, worked out by hand (PROTOCOL 9).

They are the third part of the driver's stored script.
"""
from records import LINK, record

# A name, then each record and its line. A record is the operation, a, b, c, d and the clock. C7 is 199, C8 is 200.

STATED = [
    (
        "example 11, at 103 and at 104",
        "05 FF FF FF A0 00000067 > elapsed 199 0 : 0",
        "05 FF FF FF A0 00000068 > elapsed 200 1 : 0",
        "00 05 00 00 00 FFFFFFA0 > offer 0 0 : 1 5 0 4294967200 0",
        "01 00 00 00 00 00000067 > tick 0 : 1 5 0 4294967200 0",
        "01 00 00 00 00 00000068 > tick 0 1 5 0 : 1 5 0 104 1",
    ),
    (
        "each command that can wait, and its reply",
        "00 05 00 00 00 0000000A > offer 0 0 : 1 5 0 10 0",
        "02 06 00 00 00 00000000 > answer 0 5 0 : 1",
        "00 09 00 00 00 0000000B > offer 0 1 : 2 9 1 11 0",
        "02 0A 01 00 00 00000000 > answer 0 9 1 : 2",
        "00 0B 00 00 00 0000000C > offer 0 2 : 3 11 2 12 0",
        "02 0C 02 00 00 00000000 > answer 0 11 2 : 3",
        "00 13 00 00 00 0000000D > offer 0 3 : 4 19 3 13 0",
        "02 14 03 00 00 00000000 > answer 0 19 3 : 4",
        "00 15 00 00 00 0000000E > offer 0 4 : 5 21 4 14 0",
        "02 16 04 00 00 00000000 > answer 0 21 4 : 5",
        "00 17 00 00 00 0000000F > offer 0 5 : 6 23 5 15 0",
        "02 18 05 00 00 00000000 > answer 0 23 5 : 6",
        "00 1B 00 00 00 00000010 > offer 0 6 : 7 27 6 16 0",
        "02 1C 06 00 00 00000000 > answer 0 27 6 : 7",
        "00 27 00 00 00 00000011 > offer 0 7 : 8 39 7 17 0",
        "02 28 07 00 00 00000000 > answer 0 39 7 : 8",
        "00 29 00 00 00 00000012 > offer 0 8 : 9 41 8 18 0",
        "02 2A 08 00 00 00000000 > answer 0 41 8 : 9",
    ),
    (
        "after number 255 comes 0",
        "03 FE 00 00 00 00000000 > set : 254",
        "00 05 00 00 00 00000000 > offer 0 254 : 255 5 254 0 0",
        "02 06 FE 00 00 00000000 > answer 0 5 254 : 255",
        "00 05 00 00 00 00000000 > offer 0 255 : 0 5 255 0 0",
        "02 06 FF 00 00 00000000 > answer 0 5 255 : 0",
        "00 05 00 00 00 00000000 > offer 0 0 : 1 5 0 0 0",
        "02 06 00 00 00 00000000 > answer 0 5 0 : 1",
        "00 05 00 00 00 00000000 > offer 0 1 : 2 5 1 0 0",
    ),
    (
        "only an accepted command uses a number",
        "00 07 00 00 00 00000000 > offer 42 : 0",
        "00 05 00 00 00 00000000 > offer 0 0 : 1 5 0 0 0",
        "00 09 00 00 00 00000000 > offer 41 : 1 5 0 0 0",
        "00 05 00 00 00 00000000 > offer 41 : 1 5 0 0 0",
        "02 06 00 00 00 00000000 > answer 0 5 0 : 1",
        "00 09 00 00 00 00000000 > offer 0 1 : 2 9 1 0 0",
    ),
    (
        "elapsed time, also over the clock's wrap",
        "05 00 00 00 00 00000000 > elapsed 0 0 : 0",
        "05 FF FF FF FF 00000000 > elapsed 1 0 : 0",
        "05 00 00 00 01 00000000 > elapsed 4294967295 0 : 0",
        "05 00 00 00 00 80000000 > elapsed 2147483648 0 : 0",
        "05 80 00 00 00 00000000 > elapsed 2147483648 0 : 0",
        "05 80 00 00 01 00000000 > elapsed 2147483647 1 : 0",
        "05 01 02 03 04 01020403 > elapsed 255 1 : 0",
    ),
    (
        "due from 200 ms on",
        "04 02 05 01 00 00000000 > set : 2 5 1 0 0",
        "01 00 00 00 00 00000000 > tick 0 : 2 5 1 0 0",
        "01 00 00 00 00 000000C7 > tick 0 : 2 5 1 0 0",
        "01 00 00 00 00 000000C8 > tick 0 1 5 1 : 2 5 1 200 1",
    ),
    (
        "due below 2^31 ms",
        "04 02 05 01 00 00000001 > set : 2 5 1 1 0",
        "01 00 00 00 00 80000001 > tick 0 : 2 5 1 1 0",
        "01 00 00 00 00 80000002 > tick 0 : 2 5 1 1 0",
        "01 00 00 00 00 80000000 > tick 0 1 5 1 : 2 5 1 2147483648 1",
        "01 00 00 00 00 00000000 > tick 0 : 2 5 1 2147483648 1",
        "01 00 00 00 00 FFFFFFFF > tick 0 1 5 1 : 2 5 1 4294967295 2",
    ),
    (
        "a clock before the last sending is not due",
        "04 02 05 01 00 000000C8 > set : 2 5 1 200 0",
        "01 00 00 00 00 000000C7 > tick 0 : 2 5 1 200 0",
        "01 00 00 00 00 00000000 > tick 0 : 2 5 1 200 0",
        "01 00 00 00 00 FFFFFFFF > tick 0 : 2 5 1 200 0",
        "01 00 00 00 00 800000C8 > tick 0 : 2 5 1 200 0",
        "01 00 00 00 00 800000C7 > tick 0 1 5 1 : 2 5 1 2147483847 1",
    ),
    (
        "two repeats, then the link gives up and is idle",
        "00 27 00 00 00 00000000 > offer 0 0 : 1 39 0 0 0",
        "01 00 00 00 00 000000C8 > tick 0 1 39 0 : 1 39 0 200 1",
        "01 00 00 00 00 0000018F > tick 0 : 1 39 0 200 1",
        "01 00 00 00 00 00000190 > tick 0 1 39 0 : 1 39 0 400 2",
        "01 00 00 00 00 00000257 > tick 0 : 1 39 0 400 2",
        "01 00 00 00 00 00000258 > tick 0 2 39 0 : 1",
        "01 00 00 00 00 00000320 > tick 0 : 1",
        "02 28 00 00 00 00000000 > answer 43 : 1",
        "00 27 00 00 00 000003E8 > offer 0 1 : 2 39 1 1000 0",
    ),
    (
        "the tick in place does the same",
        "00 27 00 00 00 00000000 > offer 0 0 : 1 39 0 0 0",
        "06 00 00 00 00 000000C7 > tick 0 : 1 39 0 0 0",
        "06 00 00 00 00 000000C8 > tick 0 1 39 0 : 1 39 0 200 1",
        "06 00 00 00 00 00000190 > tick 0 1 39 0 : 1 39 0 400 2",
        "06 00 00 00 00 00000257 > tick 0 : 1 39 0 400 2",
        "06 00 00 00 00 00000258 > tick 0 2 39 0 : 1",
        "06 00 00 00 00 00000320 > tick 0 : 1",
        "04 01 27 00 03 00000000 > set : 1 39 0 0 3",
        "06 00 00 00 00 000000C8 > tick 17 0 : 1 39 0 0 3",
    ),
    (
        "the time starts again at the due tick, however late it is",
        "00 05 00 00 00 00000000 > offer 0 0 : 1 5 0 0 0",
        "01 00 00 00 00 000003E7 > tick 0 1 5 0 : 1 5 0 999 1",
        "01 00 00 00 00 000004AE > tick 0 : 1 5 0 999 1",
        "01 00 00 00 00 000004AF > tick 0 1 5 0 : 1 5 0 1199 2",
        "01 00 00 00 00 00000576 > tick 0 : 1 5 0 1199 2",
        "01 00 00 00 00 00000577 > tick 0 2 5 0 : 1",
    ),
    (
        "a tick that is not due changes nothing",
        "01 00 00 00 00 00000000 > tick 0 : 0",
        "01 00 00 00 00 000000C8 > tick 0 : 0",
        "04 09 13 08 02 00000064 > set : 9 19 8 100 2",
        "01 00 00 00 00 00000064 > tick 0 : 9 19 8 100 2",
        "01 00 00 00 00 0000012B > tick 0 : 9 19 8 100 2",
        "01 00 00 00 00 00000063 > tick 0 : 9 19 8 100 2",
    ),
    (
        "STRAY: nothing waits, another command, another number",
        "02 06 00 00 00 00000000 > answer 43 : 0",
        "00 05 00 00 00 00000000 > offer 0 0 : 1 5 0 0 0",
        "02 05 00 00 00 00000000 > answer 43 : 1 5 0 0 0",
        "02 07 00 00 00 00000000 > answer 43 : 1 5 0 0 0",
        "02 06 FF 00 00 00000000 > answer 43 : 1 5 0 0 0",
        "02 06 01 00 00 00000000 > answer 43 : 1 5 0 0 0",
        "02 06 00 00 00 00000000 > answer 0 5 0 : 1",
        "02 06 00 00 00 00000000 > answer 43 : 1",
        "00 05 00 00 00 00000000 > offer 0 1 : 2 5 1 0 0",
        "02 06 00 00 00 00000000 > answer 43 : 2 5 1 0 0",
        "02 06 02 00 00 00000000 > answer 43 : 2 5 1 0 0",
        "02 06 01 00 00 00000000 > answer 0 5 1 : 2",
    ),
    (
        "a repeat keeps command and number, and its reply still fits",
        "04 00 29 FF 01 00000000 > set : 0 41 255 0 1",
        "01 00 00 00 00 000000C8 > tick 0 1 41 255 : 0 41 255 200 2",
        "02 2A FF 00 00 00000000 > answer 0 41 255 : 0",
        "04 01 29 00 01 00000000 > set : 1 41 0 0 1",
        "01 00 00 00 00 000000C8 > tick 0 1 41 0 : 1 41 0 200 2",
        "02 2A 00 00 00 00000000 > answer 0 41 0 : 1",
    ),
    (
        "next number 0 is in range",
        "03 00 00 00 00 00000000 > set : 0",
        "00 07 00 00 00 00000000 > offer 42 : 0",
        "01 00 00 00 00 000000C8 > tick 0 : 0",
        "02 06 01 00 00 00000000 > answer 43 : 0",
        "00 05 00 00 00 00000000 > offer 0 0 : 1 5 0 0 0",
        "04 00 05 01 00 00000000 > set : 0 5 1 0 0",
        "00 05 00 00 00 00000000 > offer 41 : 0 5 1 0 0",
        "01 00 00 00 00 000000C8 > tick 0 1 5 1 : 0 5 1 200 1",
        "02 06 01 00 00 00000000 > answer 0 5 1 : 0",
    ),
    (
        "waiting number 0 is in range",
        "04 02 05 00 00 00000000 > set : 2 5 0 0 0",
        "00 05 00 00 00 00000000 > offer 41 : 2 5 0 0 0",
        "01 00 00 00 00 000000C8 > tick 0 1 5 0 : 2 5 0 200 1",
        "02 06 00 00 00 00000000 > answer 0 5 0 : 2",
    ),
    (
        "STATE comes first and changes nothing: a command that cannot wait",
        "04 02 07 01 00 00000000 > set : 2 7 1 0 0",
        "00 05 00 00 00 00000000 > offer 17 0 : 2 7 1 0 0",
        "00 07 00 00 00 00000000 > offer 17 0 : 2 7 1 0 0",
        "01 00 00 00 00 00000000 > tick 17 0 : 2 7 1 0 0",
        "01 00 00 00 00 000000C8 > tick 17 0 : 2 7 1 0 0",
        "02 08 01 00 00 00000000 > answer 17 0 : 2 7 1 0 0",
        "02 06 01 00 00 00000000 > answer 17 0 : 2 7 1 0 0",
    ),
    (
        "STATE comes first and changes nothing: 3 repeats",
        "04 02 05 01 03 00000000 > set : 2 5 1 0 3",
        "00 05 00 00 00 00000000 > offer 17 0 : 2 5 1 0 3",
        "00 07 00 00 00 00000000 > offer 17 0 : 2 5 1 0 3",
        "01 00 00 00 00 00000000 > tick 17 0 : 2 5 1 0 3",
        "01 00 00 00 00 000000C8 > tick 17 0 : 2 5 1 0 3",
        "02 06 01 00 00 00000000 > answer 17 0 : 2 5 1 0 3",
        "02 07 01 00 00 00000000 > answer 17 0 : 2 5 1 0 3",
        "05 00 00 00 00 000000C8 > elapsed 200 1 : 2 5 1 0 3",
    ),
    (
        "the first and the last values in range are not STATE",
        "04 00 05 00 00 00000000 > set : 0 5 0 0 0",
        "00 05 00 00 00 00000000 > offer 41 : 0 5 0 0 0",
        "01 00 00 00 00 000000C7 > tick 0 : 0 5 0 0 0",
        "01 00 00 00 00 000000C8 > tick 0 1 5 0 : 0 5 0 200 1",
        "04 FF 29 FF 02 FFFFFFFF > set : 255 41 255 4294967295 2",
        "00 05 00 00 00 00000000 > offer 41 : 255 41 255 4294967295 2",
        "01 00 00 00 00 000000C6 > tick 0 : 255 41 255 4294967295 2",
        "01 00 00 00 00 000000C7 > tick 0 2 41 255 : 255",
    ),
    (
        "UNSENT comes before BUSY",
        "04 02 05 01 00 00000000 > set : 2 5 1 0 0",
        "00 06 00 00 00 00000000 > offer 42 : 2 5 1 0 0",
        "00 09 00 00 00 00000000 > offer 41 : 2 5 1 0 0",
    ),
    (
        "UNSENT: commands that the box sends and that do not wait",
        "00 02 00 00 00 00000000 > offer 42 : 0",
        "00 08 00 00 00 00000000 > offer 42 : 0",
        "00 12 00 00 00 00000000 > offer 42 : 0",
    ),
    (
        "any other operation makes a fresh link",
        "04 09 13 08 02 00000064 > set : 9 19 8 100 2",
        "07 FF FF FF FF FFFFFFFF > fresh : 0",
        "03 09 00 00 00 00000000 > set : 9",
        "FF 00 00 00 00 00000000 > fresh : 0",
    ),
    ("an incomplete record at the end is not played", "03 09 00 00 00 00000000 > set : 9", "00 05 00 00 00 000000 >"),
    ("no input", ">"),
]

# Data of other sizes than 8: a missing byte is 0, and more bytes count for nothing. Operation, data, line.
SIZES = [
    (3, "09", "set : 9"),
    (0, "05", "offer 0 9 : 10 5 9 0 0"),
    (6, "00 00 00 00 00 00 00 C8 01", "tick 0 1 5 9 : 10 5 9 200 1"),
    (7, "", "fresh : 0"),
]
FRESH_STEP = record(LINK + 7), ["fresh : 0"]


def in_record(call):
    """A record from the operation, a, b, c, d and the clock; a front of these is the front of a record."""
    return bytes([LINK | call[0], 0, 8]) + call[1:]


def scripts():
    """A name and the steps of each, to be played on a fresh link."""
    for name, *rows in STATED:
        pairs = [row.split(">") for row in rows]
        calls = [(bytes.fromhex(call), line.strip()) for call, line in pairs]
        yield name, [(in_record(call), [line] if line else []) for call, line in calls if call]
    sizes = [(record(LINK + operation, bytes.fromhex(data)), [line]) for operation, data, line in SIZES]
    yield "data of other sizes", sizes
