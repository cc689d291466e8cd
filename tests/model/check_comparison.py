"""That comparing and counting find what is wrong: without them no test of the program could fail."""
from answers import CLEAN, STUFF, STUFFLATE, SUM
from check_streams import differs
from checks import difference
from counting import miscounted

PIECES = [(b"\1", ["one", "two"]), (b"\2", []), (b"\3", ["three"])]
TEXT = b"one\ntwo\nthree\n"
WRONG = [
    ("another line", b"one\n2\nthree\n"),
    ("a line too few", b"one\ntwo\n"),
    ("a line too many", TEXT + b"four\n"),
    ("no end of the last line", TEXT[:-1]),
    ("no text", b""),
    ("two lines exchanged", b"two\none\nthree\n"),
]

# Calls on a link (counting.py) with their lines: an offer of 05 at clock 0, ticks, and the frame that fits; then a wait
# that gives up; then number 255 and the number after it.
CALLS = [
    ("00 05 00 00 00 00000000", "offer 0 0 : 1 5 0 0 0"),
    ("01 00 00 00 00 000000C7", "tick 0 : 1 5 0 0 0"),
    ("01 00 00 00 00 000000C8", "tick 0 1 5 0 : 1 5 0 200 1"),
    ("02 06 00 00 00 000000C9", "answer 0 5 0 : 1"),
    ("00 05 00 00 00 000000C9", "offer 0 1 : 2 5 1 201 0"),
    ("01 00 00 00 00 00000191", "tick 0 1 5 1 : 2 5 1 401 1"),
    ("01 00 00 00 00 00000259", "tick 0 1 5 1 : 2 5 1 601 2"),
    ("01 00 00 00 00 00000321", "tick 0 2 5 1 : 2"),
    ("03 FF 00 00 00 00000000", "set : 255"),
    ("00 05 00 00 00 00000000", "offer 0 255 : 0 5 255 0 0"),
    ("02 06 FF 00 00 00000000", "answer 0 5 255 : 0"),
    ("00 05 00 00 00 00000000", "offer 0 0 : 1 5 0 0 0"),
]
MISCOUNTED = [
    ("a fresh link that starts at 1", 0, "offer 0 1 : 2 5 1 0 0"),
    ("a repeat too early", 1, "tick 0 1 5 0 : 1 5 0 199 1"),
    ("a repeat that is missing", 2, "tick 0 : 1 5 0 0 0"),
    ("another waiting command", 3, "answer 0 9 0 : 1"),
    ("a number used twice", 4, "offer 0 0 : 1 5 0 201 0"),
    ("a number left out", 4, "offer 0 2 : 3 5 2 201 0"),
    ("giving up after one repeat", 6, "tick 0 2 5 1 : 2"),
    ("a third repeat", 7, "tick 0 1 5 1 : 2 5 1 801 3"),
    ("number 1 after 255", 11, "offer 0 1 : 2 5 1 0 0"),
]

# Streams that are one refused frame: its answer, start, end, body and further values; and wrong ones.
BODY = bytes.fromhex("00 05 07 01 00 00 0E")
REFUSED = [
    ("FF FF 00 05 07 FF 09", (STUFF, 0, 7, None, 9)),
    ("FF FF 00 05 07 01 00 00 FF 09", (STUFFLATE, 0, 10, None, 9)),
    ("FF FF 00 05 07 01 00 00 0E", (SUM, 0, 9, BODY, 14, 13)),
]
MISREAD = [
    ("STUFFLATE for STUFF", 0, (STUFFLATE, 0, 7, None, 9)),
    ("another byte of STUFF", 0, (STUFF, 0, 7, None, 8)),
    ("no byte of STUFF", 0, (STUFF, 0, 7, None)),
    ("STUFF for STUFFLATE", 1, (STUFF, 0, 10, None, 9)),
    ("another byte of STUFFLATE", 1, (STUFFLATE, 0, 10, None, 0xFF)),
    ("another sum found", 2, (SUM, 0, 9, BODY, 15, 13)),
    ("another sum computed", 2, (SUM, 0, 9, BODY, 14, 12)),
    ("the sums exchanged", 2, (SUM, 0, 9, BODY, 13, 14)),
]


def misread(place, decision):
    """Whether the reader differs from this decision on a stream of REFUSED."""
    data = bytes.fromhex(REFUSED[place][0])
    return differs(None, data, lambda *_: [lambda at: len(data)], ([decision], [CLEAN, len(data)])) != ""


def check(checks):
    for place, (data, decision) in enumerate(REFUSED):
        checks.test(f"the right decision on {data}", not misread(place, decision))
    for name, place, decision in MISREAD:
        checks.test(f"{name}: found by the comparison with the definitions", misread(place, decision))
    checks.test("the right text has no difference", difference(PIECES, TEXT) == "")
    for name, text in WRONG:
        checks.test(f"{name}: found in a text", difference(PIECES, text) != "")
    calls, lines = [bytes.fromhex(call) for call, _ in CALLS], [line for _, line in CALLS]
    tally = dict.fromkeys(["numbers used", "waits of three due ticks"], 0)
    checks.test("the right lines are counted right", miscounted(calls, lines, tally) == "")
    for name, place, line in MISCOUNTED:
        wrong = [*lines[:place], line, *lines[place + 1 :]]
        checks.test(f"{name}: found by counting", miscounted(calls, wrong, tally) != "")
    checks.test("a line too few: found by counting", miscounted(calls, lines[:-1], tally) != "")
