"""Rows: a record of the driver and its lines, in one text.

A record is a word and bytes in hexadecimal digits. A record of a transfer has the word of its line; `link` and `reader`
have the operation, counted from that of the first of them, and then its data. Lines come after ` > `.
"""
from records import BEGIN, CANCEL, DEVICE, FILL, FRESH_TRANSFER, LINK, PROGRESS, SET_TRANSFER, STOP, STORE, TABLE
from records import record

OPERATIONS = {"begin": BEGIN, "store": STORE, "stop": STOP, "cancel": CANCEL, "fresh": FRESH_TRANSFER}
OPERATIONS |= {"set": SET_TRANSFER, "progress": PROGRESS, "table": TABLE, "fill": FILL, "device": DEVICE}
# The transfer, the table, the link and the reader as they are at the start.
BEGIN_AGAIN = "fresh > fresh :", "fill AA > fill", "link 07 > fresh : 0", "reader 00 > fresh"

# What the box writes under number 5: 12 with code 3, 1E, 20, and the pair of 1A and 1B; the 1B has number 0, no check
# code and pieces of 2.
R5 = "ff ff 00 06 12 05 00 00 03 20"
E5 = "ff ff 00 05 1e 05 00 00 28"
S5 = "ff ff 00 05 20 05 00 00 2a"
P5 = "ff ff 00 05 1a 05 00 00 24 ff ff 00 09 1b 00 00 00 00 00 00 02 26"
# A 19 for a table of 5 bytes, which has three pieces; and the reply to its 1B.
BEGUN = f"begin 05 00000000 0002 00000005 0016 00000005 0000 > begin 0 22 26 9 : {P5} : 5 2 0 : 1 27 0 0 0"
READY = "link 02 1C 00 00 00 00000000 > answer 0 27 0 : 1"


def untouched(size):
    """An output to which nothing is written."""
    return " ".join(["aa"] * size)


A2, A9, A10 = untouched(2), untouched(9), untouched(10)


def in_record(call):
    """A record from its word and bytes."""
    word, *data = call.split(" ", 1)
    data = bytes.fromhex("".join(data))
    if word in OPERATIONS:
        return record(OPERATIONS[word], data)
    return record(data[0] | {"link": LINK, "reader": 0}[word], data[1:])


def steps_of(rows):
    for row in rows:
        call, *lines = row.split(" > ")
        yield in_record(call), lines


def scripts_of(stated):
    """A name and the steps of each, to be played from the start of a run."""
    for name, *rows in stated:
        yield name, list(steps_of(rows))


def in_one_run(stated):
    """All of them one after the other."""
    for _, *rows in stated:
        yield from steps_of([*BEGIN_AGAIN, *rows])
