"""That counting over the lines of transfers finds what is wrong: without this no test that counts could fail."""
import collections

from asking import misasked
from checks import lines_of
from counted_frames import miswritten
from counted_pieces import misstored
from records import records_of
from transfer_driver import BoxCalls
from transfer_rows import BEGUN, E5, P5, R5, S5, steps_of

# A transfer in three pieces, the first of them repeated; a 19 that starts again; a 27; a 1D and a 1F after it; then a
# heartbeat, and a 19 and a piece on the wire.
ANSWERED = f"store 0 9 30 : {E5}"
AGAIN = "ff ff 00 05 1a 05 00 00 24 ff ff 00 09 1b 01 00 00 00 00 00 03 28"
CANCELLED = "ff ff 00 05 27 02 00 00 2e"
ROWS = [
    BEGUN,
    f"store 05 0000 00000005 0009 0001 0003 6131 > {ANSWERED} : 5 2 1",
    f"store 05 0000 00000005 0009 0001 0003 6131 > {ANSWERED} : 5 2 1",
    "progress > progress 0 2 5",
    "table 00000000 0006 > table : 61 31 aa aa aa aa",
    "begin 05 00000000 0002 00000005 0002 00000005 0000 > begin 41 : aa aa : 5 2 1 : 1 27 0 0 0",
    "link 02 1C 00 00 00 00000000 > answer 0 27 0 : 1",
    f"begin 05 00000000 0002 00000004 000B 00000005 0000 > begin 62 10 : {R5} aa : 5 2 1 : 1",
    f"store 05 0000 00000005 0009 0002 0003 6232 > {ANSWERED} : 5 2 2",
    f"store 05 0000 00000005 0009 0003 0003 63 > {ANSWERED} : 5 2 3",
    "progress > progress 0 5 5",
    f"begin 05 00000000 0003 00000005 0016 00000004 0000 > begin 0 22 26 9 : {AGAIN} : 4 3 0 : 2 27 1 0 0",
    "progress > progress 0 0 4",
    f"store 05 0000 00000005 0009 0001 0002 787980 > {ANSWERED} : 4 3 1",
    "table 00000000 0006 > table : 78 79 80 32 63 aa",
    "link 02 1C 01 00 00 00000000 > answer 0 27 1 : 2",
    f"cancel 00000000 0009 > cancel 0 9 39 : {CANCELLED} : : 3 39 2 0 0",
    "progress > progress 0",
    f"store 05 0000 00000005 000A 0002 0002 81 > store 65 10 : {R5} :",
    "table 00000000 0006 > table : 78 79 80 32 63 aa",
    f"stop 05 0009 > stop 0 9 32 : {S5} :",
    "device 00000000 0002 00000005 0009 FFFF0005070100000D > device 0 9 : : ff ff 00 05 08 01 00 00 0e : : 3 39 2 0 0",
    "device 00000000 0002 00000005 0002 FFFF000528020000 2F > device 0 : 39 2 : aa aa : : 3",
    "device 00000000 0002 00000005 0016 FFFF000B1905000000000005 0000 2E"
    " > device 0 22 26 9 : : ff ff 00 05 1a 05 00 00 24 ff ff 00 09 1b 03 00 00 00 00 00 02 29 : 5 2 0 : 4 27 3 0 0",
    "device 00000000 0002 00000005 0009 FFFF000B1D06000000010003 6131 C4"
    " > device 0 9 30 : : ff ff 00 05 1e 06 00 00 29 : 5 2 1 : 4 27 3 0 0",
    "progress > progress 0 2 5",
    "table 00000000 0003 > table : 61 31 80",
    "stop 05 0008 > stop 22 9 : aa aa aa aa aa aa aa aa : 5 2 1",
    f"stop 05 0009 > stop 0 9 32 : {S5} :",
]
# A name, the place of a line, and a wrong line there.
MISSTORED = [
    ("pieces stored from place 1", 4, "table : aa 61 31 aa aa aa"),
    ("a repeated piece stored again", 3, "progress 0 4 5"),
    ("a repeated piece in the table again", 4, "table : 61 31 61 31 aa aa"),
    ("a byte after the pieces changed", 4, "table : 61 31 00 aa aa aa"),
    ("a byte too few shown", 4, "table : 61 31 aa aa aa"),
    ("a refused 19 that drops", 10, "progress 0"),
    ("the last piece at full size", 10, "progress 0 6 5"),
    ("another size announced", 10, "progress 0 5 6"),
    ("a 19 that keeps what was stored", 12, "progress 0 5 4"),
    ("a 19 that clears the table", 14, "table : 78 79 80 aa aa aa"),
    ("a 27 that drops nothing", 17, "progress 0 3 4"),
    ("a piece accepted without a transfer", 18, f"{ANSWERED} aa :"),
    ("a piece on the wire that is not stored", 25, "progress 0 0 5"),
    ("a piece on the wire in another place", 26, "table : 78 79 61"),
    ("a line of another kind", 1, "fresh"),
    ("a number that is none", 1, "store 0 x 30 : aa : 5 2 1"),
]
OTHER_CODE = P5.replace("00 00 00 02 26", "00 01 00 02 27")
MISWRITTEN = [
    ("1B before 1A", 0, f"begin 0 22 26 9 : {P5[27:]} {P5[:26]} : 5 2 0 : 1 27 0 0 0"),
    ("another check code", 0, f"begin 0 22 26 9 : {OTHER_CODE} : 5 2 0 : 1 27 0 0 0"),
    ("another piece size", 0, f"begin 0 22 26 9 : {P5[:-5]}03 27 : 5 2 0 : 1 27 0 0 0"),
    ("a wrong sum", 0, f"begin 0 22 26 9 : {P5[:-2]}27 : 5 2 0 : 1 27 0 0 0"),
    ("another beginning of the 1B", 0, f"begin 0 22 26 10 : {P5} : 5 2 0 : 1 27 0 0 0"),
    ("no 1B", 0, f"begin 0 9 26 9 : {P5[:26]}{' aa' * 13} : 5 2 0 : 1 27 0 0 0"),
    ("another reply", 1, "store 0 9 30 : ff ff 00 05 20 05 00 00 2a : 5 2 1"),
    ("a reply under another number", 1, "store 0 9 30 : ff ff 00 05 1e 06 00 00 29 : 5 2 1"),
    ("a reply with flags", 1, "store 0 9 30 : ff ff 00 05 1e 05 00 01 29 : 5 2 1"),
    ("another count", 1, f"store 0 8 30 : {E5} : 5 2 1"),
    ("something written after BUSY", 5, "begin 41 : ff aa : 5 2 1 : 1 27 0 0 0"),
    ("code 2 in a rejection", 7, "begin 62 10 : ff ff 00 06 12 05 00 00 02 1f aa : 5 2 1 : 1"),
    ("a byte written after a rejection", 7, f"begin 62 10 : {R5} 00 : 5 2 1 : 1"),
    ("a number used twice", 11, f"begin 0 22 26 9 : {P5[:-5]}03 27 : 4 3 0 : 1 27 0 0 0"),
    ("a number left out", 16, "cancel 0 9 39 : ff ff 00 05 27 03 00 00 2f : : 4 39 3 0 0"),
    ("another wait ended", 22, "device 0 : 27 1 : aa aa : : 3"),
    ("a frame begun after ROOM", 27, "stop 22 9 : ff ff 00 05 20 05 00 00 : 5 2 1"),
    ("a line of another kind", 1, "fresh"),
]
MISASKED = [
    ("ROOM that asks for nothing", 27, "stop 22 0 : aa aa aa aa aa aa aa aa : 5 2 1"),
    ("ROOM without a length", 27, "stop 22"),
    ("ROOM that asks for what there is", 27, "stop 22 8 : aa aa aa aa aa aa aa aa : 5 2 1"),
    ("ROOM in the room said", 28, "stop 22 9 : aa aa aa aa aa aa aa aa aa : 5 2 1"),
    ("ROOM in the room said, asking for more", 28, "stop 22 10 : aa aa aa aa aa aa aa aa aa : 5 2 1"),
    ("another count than the room said", 28, "stop 0 8 32 : ff ff 00 05 20 05 00 00 aa :"),
    ("nothing written in the room said", 28, "stop 17 0 : aa aa aa aa aa aa aa aa aa : 5 2 1"),
]


def found_by(counting, lines):
    records = records_of(b"".join(made for made, _ in steps_of(ROWS)))
    return counting(records, lines, collections.Counter()) != ""


def check(checks):
    lines, calls = lines_of(steps_of(ROWS)), BoxCalls()
    found = [line for made, _ in steps_of(ROWS) for line in calls.put(made)]
    checks.test("the right lines of a transfer are the model's", found == lines)
    for what, counting, table in (("pieces", misstored, MISSTORED), ("frames", miswritten, MISWRITTEN)):
        checks.test(f"the right lines of a transfer, {what} counted", not found_by(counting, lines))
        for name, place, line in table:
            wrong = [*lines[:place], line, *lines[place + 1 :]]
            checks.test(f"{name}: found by counting {what}", line != lines[place] and found_by(counting, wrong))
        checks.test(f"a line too few: found by counting {what}", found_by(counting, lines[:-1]))
        checks.test(f"a line too many: found by counting {what}", found_by(counting, [*lines, "progress 0"]))
    check_asking(checks)


def check_asking(checks):
    steps, tally = list(steps_of(ROWS)), collections.Counter()
    checks.test("the right lines of a transfer, rooms asked for", not misasked(steps, tally))
    checks.test("a stop in the room said is counted", tally == {"stop in the room said": 1})
    for name, place, line in MISASKED:
        wrong = [*steps[:place], (steps[place][0], [line]), *steps[place + 1 :]]
        checks.test(f"{name}: found", misasked(wrong, tally) != "")
