"""Lines of the driver about outputs of every size, and about the longest check codes, worked out by hand.

They are too many, or too long, to be stored.
"""
from transfer_rows import BEGIN_AGAIN, E5, P5, R5, S5, untouched

# The table is full of 61. A name, the row before, the call without its room, the answer and the bytes that it writes
# where it fits, the end of the line where it does not fit and where it does; perhaps the table's front after it.

KEPT = "61 61 61 61 61"
FRESH = "fresh > fresh :"
OPEN = "set 00000005 0002 0001 > set : 5 2 1"
WAITS = "link 04 02 1B 01 00 00000000 > set : 2 27 1 0 0"
CANCELLED = "ff ff 00 05 27 00 00 00 2c"
HEARTBEAT = "ff ff 00 05 08 01 00 00 0e"
ROOMS = [
    (
        "a 19",
        FRESH,
        "begin 05 00000000 0002 00000005 {} 00000005 0000",
        ("0 22 26 9", P5),
        (": : 0", ": 5 2 0 : 1 27 0 0 0"),
    ),
    (
        "a 19 in a transfer",
        OPEN,
        "begin 05 00000000 0002 00000005 {} 00000004 0000",
        ("0 22 26 9", P5),
        (": 5 2 1 : 0", ": 4 2 0 : 1 27 0 0 0"),
    ),
    (
        "a 19 of number FF with a check code of FF",
        FRESH,
        "begin FF 00000000 0002 00000005 {} 00000005 0001 FF",
        ("0 25 26 10", "ff ff 00 05 1a ff 55 00 00 1e ff ff 00 0a 1b 00 00 00 00 01 ff 55 00 02 27"),
        (": : 0", ": 5 2 0 : 1 27 0 0 0"),
    ),
    (
        "a rejected 19",
        OPEN,
        "begin 05 00000000 0000 00000005 {} 00000005 0000",
        ("61 10", R5),
        (": 5 2 1 : 0", ": 5 2 1 : 0"),
    ),
    (
        "a piece",
        OPEN,
        "store 05 0000 00000005 {} 0002 0003 6262",
        ("0 9 30", E5),
        (": 5 2 1", ": 5 2 2"),
        "61 61 62 62 61",
    ),
    (
        "a piece repeated",
        OPEN,
        "store 05 0000 00000005 {} 0001 0003 6161",
        ("0 9 30", E5),
        (": 5 2 1", ": 5 2 1"),
    ),
    (
        "a rejected piece",
        OPEN,
        "store 05 0000 00000005 {} 0001 0003 6162",
        ("66 10", R5),
        (": 5 2 1", ": 5 2 1"),
    ),
    (
        "a piece without a transfer",
        FRESH,
        "store 05 0000 00000005 {} 0001 0003 6262",
        ("65 10", R5),
        (":", ":"),
    ),
    ("a 1F", OPEN, "stop 05 {}", ("0 9 32", S5), (": 5 2 1", ":")),
    ("a rejected 1F", OPEN, "stop 05 {} 61", ("32 10", R5), (": 5 2 1", ": 5 2 1")),
    ("a 27", OPEN, "cancel 00000009 {}", ("0 9 39", CANCELLED), (": 5 2 1 : 0", ": : 1 39 0 9 0")),
    (
        "a 19 on the wire",
        FRESH,
        "device 00000000 0002 00000005 {} FFFF000B1905000000000005 0000 2E",
        ("0 22 26 9 :", P5),
        (": : 0", ": 5 2 0 : 1 27 0 0 0"),
    ),
    (
        "a piece on the wire",
        OPEN,
        "device 00000000 0002 00000005 {} FFFF000B1D05000000020003 6262 F6",
        ("0 9 30 :", E5),
        (": 5 2 1 : 0", ": 5 2 2 : 0"),
        "61 61 62 62 61",
    ),
    (
        "a 1F on the wire",
        OPEN,
        "device 00000000 0002 00000005 {} FFFF00051F05000029",
        ("0 9 32 :", S5),
        (": 5 2 1 : 0", ": : 0"),
    ),
    (
        "a heartbeat",
        OPEN,
        "device 00000000 0002 00000005 {} FFFF0005070100000D",
        ("0 9 :", HEARTBEAT),
        (": 5 2 1 : 0", ": 5 2 1 : 0"),
    ),
    (
        "a wrong sum",
        OPEN,
        "device 00000000 0002 00000005 {} FFFF0005070500000D",
        ("0 10 18 1 15 :", "ff ff 00 06 12 05 00 00 01 1e"),
        (": 5 2 1 : 0", ": 5 2 1 : 0"),
    ),
    (
        "a faulty 1C, which ends the wait of its 1B in any room",
        WAITS,
        "device 00000000 0002 00000005 {} FFFF00061C010000 00 23",
        ("0 10 18 3 32 : 27 1", "ff ff 00 06 12 01 00 00 03 1c"),
        (": : 2", ": : 2"),
    ),
]
# What writes nothing in any room: a name, the row before, the call without its room, the answer, the end of the line.
SILENT = [
    ("BUSY of a 19", WAITS, "begin 05 00000000 0000 00000000 {} 00000005 0000", "41", ": : 2 27 1 0 0"),
    ("BUSY of a 27", WAITS, "cancel 00000000 {}", "41", ": : 2 27 1 0 0"),
    (
        "BUSY of a 19 on the wire",
        WAITS,
        "device 00000000 0000 00000000 {} FFFF000B1905000000000005 0000 2E",
        "41 :",
        ": : 2 27 1 0 0",
    ),
    ("a 1C without a fault", WAITS, "device 00000000 0000 00000000 {} FFFF00051C01000022", "0 : 27 1", ": : 2"),
]
MOST = 30  # bytes: more than any of these writes


def row(call, room, answer, written, end):
    """A row whose answer writes so much, at the front."""
    out = " ".join(filter(None, [written, untouched(room - len(written.split()))]))
    return f"{call.format(f'{room:04X}')} > " + " ".join(filter(None, [call.split(" ")[0], answer, ":", out, end]))


def one_by_one(before, rows, table):
    """Each row from the same start, and the table after it."""
    for some in rows:
        yield from (*BEGIN_AGAIN, "fill 61 > fill", before, some, f"table 00000000 0005 > table : {table}")


def in_every_room():
    """A name and rows."""
    for name, before, call, (answer, written), (without, after), *table in ROOMS:
        needed = len(written.split())
        ended = "".join(answer.partition(" :")[1:])
        refused = [row(call, room, f"22 {needed}{ended}", "", without) for room in range(needed)]
        done = [row(call, room, answer, written, after) for room in (needed, needed + 1, needed + 9)]
        yield f"{name}, in every room", *one_by_one(before, refused, KEPT), *one_by_one(before, done, *table or [KEPT])
    for name, before, call, answer, end in SILENT:
        rows = [row(call, room, answer, "", end) for room in range(MOST)]
        yield f"{name}, in every room", *one_by_one(before, rows, KEPT)


# The longest check codes: the 1B has 4 bytes more than the code, and at most 1,019. Only the 1B of 1,016 bytes or more
# is PAYLOAD, and no frame brings so long a code.


def coded(size, byte, count=None):
    """The last part of a 19: a count, which is right or given, and the check code."""
    return f"{count or f'{size:04X}'} " + f"{byte}" * size


FIRST = "ff ff 00 05 1a 05 00 00 24"
BACK = f"{FIRST} ff ff 04 00 1b 00 00 00 03 f7{' 61' * 1015} 00 02 b2"  # 1,037 bytes
BACK_FF = f"{FIRST} ff ff 04 00 1b 00 00 00 03 f7{' ff 55' * 1015} 00 02 24"  # 2,052 bytes
TOO_LONG, ONE_LESS = coded(1016, "61"), coded(1016, "61", "03F9")
A2100 = untouched(2100)
LONG = [
    (
        "1,015 bytes of check code",
        f"begin 05 00000000 0002 00000005 040C 00000005 {coded(1015, '61')} > begin 22 1037 : {untouched(1036)} : : 0",
        f"begin 05 00000000 0002 00000005 040D 00000005 {coded(1015, '61')}"
        f" > begin 0 1037 26 9 : {BACK} : 5 2 0 : 1 27 0 0 0",
    ),
    (
        "1,015 bytes of check code, all FF",
        f"begin 05 00000000 0002 00000005 0803 00000005 {coded(1015, 'FF')} > begin 22 2052 : {untouched(2051)} : : 0",
        f"begin 05 00000000 0002 00000005 0804 00000005 {coded(1015, 'FF')}"
        f" > begin 0 2052 26 9 : {BACK_FF} : 5 2 0 : 1 27 0 0 0",
    ),
    (
        "PAYLOAD comes after all refusals and before ROOM",
        f"begin 05 00000000 0002 00000005 0834 00000005 {TOO_LONG} > begin 21 0 : {A2100} : : 0",
        f"begin 05 00000000 0002 00000005 000A 00000005 {TOO_LONG} > begin 21 0 : {untouched(10)} : : 0",
        f"begin 05 00000000 0002 00000005 0000 00000005 {TOO_LONG} > begin 21 0 : : : 0",
        f"begin 05 00000000 0002 00000005 0834 00000005 {coded(4077, 'FF')} > begin 21 0 : {A2100} : : 0",
        f"begin 05 00000000 0002 00000005 000A 00000005 {ONE_LESS} > begin 32 10 : {R5} : : 0",
        f"begin 05 00000000 0002 00000005 0009 00000005 {ONE_LESS} > begin 22 10 : {untouched(9)} : : 0",
        f"begin 05 00000000 0002 00000005 000A 00000000 {TOO_LONG} > begin 61 10 : {R5} : : 0",
        f"begin 05 00000000 0000 00000005 000A 00000005 {TOO_LONG} > begin 61 10 : {R5} : : 0",
        f"begin 05 00000000 0002 00000004 000A 00000005 {TOO_LONG} > begin 62 10 : {R5} : : 0",
        f"begin 05 00000000 0001 00010000 000A 00010000 {TOO_LONG} > begin 63 10 : {R5} : : 0",
        f"begin 05 00000000 0001 00010000 0009 00010000 {TOO_LONG} > begin 22 10 : {untouched(9)} : : 0",
        "link 04 00 05 FF 00 00000000 > set : 0 5 255 0 0",
        f"begin 05 00000000 0002 00000005 000A 00000005 {TOO_LONG} > begin 41 : {untouched(10)} : : 0 5 255 0 0",
        "set 00000005 0002 0004 > set : 5 2 4",
        f"begin 05 00000000 0002 00000005 0002 00000005 {TOO_LONG} > begin 17 0 : aa aa : 5 2 4 : 0 5 255 0 0",
    ),
    (
        "PAYLOAD in a transfer changes nothing",
        OPEN,
        f"begin 05 00000000 0002 00000005 0834 00000005 {TOO_LONG} > begin 21 0 : {A2100} : 5 2 1 : 0",
        "progress > progress 0 2 5",
        "link 00 05 00 00 00 00000000 > offer 0 0 : 1 5 0 0 0",
    ),
]
