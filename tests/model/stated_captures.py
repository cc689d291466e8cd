"""Captures written by hand, each with its text: both directions, frames over records, and each refusal."""

HEADING = "dir kind start end cmd sn flags payload"
HEAD = "4C 46 54 00 01"  # LFT, version 1
REPORT = "FF FF 00 0E 05 02 00 00 04 05 00 03 00 00 00 FF 55 00 20"
ACKNOWLEDGED = "FF FF 00 05 06 02 00 00 0D"
HEARTBEAT = "FF FF 00 05 07 01 00 00 0D"
ALIVE = "FF FF 00 05 08 01 00 00 0E"
# A heartbeat of the module at 16 ms, which ends at place 21 of the capture.
FIRST = f"{HEAD} 00 00 00 00 10 00 09 {HEARTBEAT}"
FIRST_LINE = "0 frame 0 9 7 1 0 0"

WHOLE = [
    ("a head alone", HEAD, ["0 clean 0", "1 clean 0"]),
    ("an empty record", f"{HEAD} 01 00 00 00 00 00 00", ["0 clean 0", "1 clean 0"]),
    ("a record from the module", FIRST, [FIRST_LINE, "0 clean 9", "1 clean 0"]),
    (
        "a report and its reply",
        f"{HEAD} 01 00 00 00 00 00 13 {REPORT}  00 00 00 00 05 00 09 {ACKNOWLEDGED}",
        ["1 frame 0 19 5 2 0 9", "0 frame 0 9 6 2 0 0", "0 clean 9", "1 clean 19"],
    ),
    (
        "a frame over two records, the other direction and an empty record between them",
        f"{HEAD} 00 00 00 00 01 00 04 FF FF 00 05  01 00 00 00 02 00 09 {ALIVE}  00 00 00 00 03 00 00"
        " 00 00 00 00 04 00 05 07 01 00 00 0D",
        ["1 frame 0 9 8 1 0 0", "0 frame 0 9 7 1 0 0", "0 clean 9", "1 clean 9"],
    ),
    (
        "two frames in one record, in the order of its bytes",
        f"{HEAD} 01 00 00 00 00 00 12 {HEARTBEAT} {ALIVE}",
        ["1 frame 0 9 7 1 0 0", "1 frame 9 18 8 1 0 0", "0 clean 0", "1 clean 18"],
    ),
    (
        "no header out of two directions",
        f"{HEAD} 00 00 00 00 00 00 01 FF  01 00 00 00 00 00 08 FF 00 05 07 01 00 00 0D",
        ["0 clean 1", "1 clean 8"],
    ),
    (
        "both directions stay open",
        f"{HEAD} 01 00 00 00 00 00 03 00 FF FF  00 00 00 00 00 00 02 FF FF",
        ["0 open 0", "1 open 1"],
    ),
    (
        "each kind of line, both directions in turn",
        f"{HEAD} 01 FF FF FF FF 00 04 FF FF 00 04  00 FF FF FF FF 00 04 FF FF 04 01"
        " 01 00 00 00 00 00 07 FF FF 00 05 07 FF 00  00 00 00 00 00 00 06 FF FF 00 05 FF FF"
        f" 01 00 00 00 00 00 09 {HEARTBEAT[:-2]}0E  00 00 00 00 00 00 07 00 05 07 01 00 00 0D"
        " 01 00 00 00 00 00 0A FF FF 00 05 07 01 00 00 FF 00",
        [
            "1 short 0 4 - - - -",
            "0 long 0 4 - - - -",
            "1 stuff 4 11 - - - -",
            "0 cut 4 10 - - - -",
            "1 sum 11 20 - - - -",
            "0 frame 8 17 7 1 0 0",
            "1 stufflate 20 30 - - - -",
            "0 clean 17",
            "1 clean 30",
        ],
    ),
    (
        "a late break over two records, a heartbeat of the other direction between them",
        f"{HEAD} 01 00 00 00 00 00 09 FF FF 00 05 07 01 00 00 FF  00 00 00 00 00 00 09 {HEARTBEAT}"
        " 01 00 00 00 00 00 01 54",
        ["0 frame 0 9 7 1 0 0", "1 stufflate 0 10 - - - -", "0 clean 9", "1 clean 10"],
    ),
    (
        "both directions break: each counts its own body bytes, 5 and 6",
        f"{HEAD} 00 00 00 00 00 00 07 FF FF 00 05 07 01 00  01 00 00 00 00 00 08 FF FF 00 05 07 01 00 00"
        " 00 00 00 00 00 00 01 FF  01 00 00 00 00 00 01 FF  00 00 00 00 00 00 01 00  01 00 00 00 00 00 01 00",
        ["0 stuff 0 9 - - - -", "1 stufflate 0 10 - - - -", "0 clean 9", "1 clean 10"],
    ),
    (
        "a record of 256 bytes",
        f"{HEAD} 00 00 00 00 00 01 00 {HEARTBEAT}{' 00' * 238} {ALIVE}",
        [FIRST_LINE, "0 frame 247 256 8 1 0 0", "0 clean 256", "1 clean 0"],
    ),
    (
        "a record of 65,535 bytes, the longest",
        f"{HEAD} 01 00 00 00 00 FF FF {HEARTBEAT}{' 00' * 65517} {ALIVE}",
        ["1 frame 0 9 7 1 0 0", "1 frame 65526 65535 8 1 0 0", "0 clean 0", "1 clean 65535"],
    ),
]

REFUSED = [
    ("nothing", "", ["refused 51 0"]),
    ("a mark of one byte", "4C", ["refused 51 0"]),
    ("a mark of two bytes", "4C 46", ["refused 51 0"]),
    ("another first byte", "58", ["refused 51 0"]),
    ("another third byte", "4C 46 55 00 01", ["refused 51 0"]),
    ("a mark in small letters", "6C 66 74 00 01", ["refused 51 0"]),
    ("a capture after a byte", f"00 {HEAD}", ["refused 51 0"]),
    ("a mark alone", "4C 46 54", ["refused 52 3"]),
    ("half a version", "4C 46 54 00", ["refused 52 3"]),
    ("half of another version", "4C 46 54 01", ["refused 52 3"]),
    ("version 0", "4C 46 54 00 00", ["refused 52 3"]),
    ("version 2", "4C 46 54 00 02", ["refused 52 3"]),
    ("a version with its low byte first", "4C 46 54 01 00", ["refused 52 3"]),
    ("a version 257", "4C 46 54 01 01", ["refused 52 3"]),
    ("direction 2 and nothing else", f"{HEAD} 02", ["refused 53 5"]),
    ("direction 2 of a whole record", f"{HEAD} 02 00 00 00 00 00 00", ["refused 53 5"]),
    ("direction 255", f"{HEAD} FF", ["refused 53 5"]),
    ("direction 2 after a record", f"{FIRST} 02 00", [FIRST_LINE, "refused 53 21"]),
    ("a direction alone", f"{HEAD} 00", ["refused 54 5"]),
    ("the other direction alone", f"{HEAD} 01", ["refused 54 5"]),
    ("half the milliseconds", f"{HEAD} 01 00 00", ["refused 54 5"]),
    ("a record without count", f"{HEAD} 01 00 00 00 00", ["refused 54 5"]),
    ("half a count", f"{HEAD} 01 00 00 00 00 00", ["refused 54 5"]),
    ("a count of 1 and no byte", f"{HEAD} 01 00 00 00 00 00 01", ["refused 54 5"]),
    ("a count of 256 and one byte", f"{HEAD} 01 00 00 00 00 01 00 00", ["refused 54 5"]),
    ("a count of 65,535 and no byte", f"{HEAD} 01 00 00 00 00 FF FF", ["refused 54 5"]),
    ("a frame in a record with a byte too few", f"{HEAD} 00 00 00 00 00 00 0A {HEARTBEAT}", ["refused 54 5"]),
    ("an incomplete record after a whole one", f"{FIRST} 01 00 00", [FIRST_LINE, "refused 54 21"]),
    ("an end within the second frame", f"{FIRST} 00 00 00 00 11 00 09 {ALIVE[:-3]}", [FIRST_LINE, "refused 54 21"]),
]
