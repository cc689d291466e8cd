"""Lines of the driver about frames that the box receives, worked out by hand.

Reader, link, transfer and replies act together. The stored script has them too.
"""
from transfer_rows import A2, A9, P5, R5, S5

# The device. Its data: clock, piece size, buffer size, room, bytes on the wire. After the answer comes the wait that
# ended.

ANNOUNCED = "FFFF000B1905000000000005 0000 2E"  # a 19 of number 5: a table of 5 bytes, no check code
PIECE_1 = "FFFF000B1D06000000010003 6131 C4"  # of number 6
PIECE_2 = "FFFF000B1D07000000020003 6232 C8"
PIECE_3 = "FFFF000A1D08000000030003 63 98"
DEVICE_BEGUN = f"device 00000000 0002 00000005 0016 {ANNOUNCED} > device 0 22 26 9 : : {P5} : 5 2 0 : 1 27 0 0 0"

DEVICES = [
    (
        "a heartbeat, and bytes that decide nothing",
        "device 00000000 0002 00000005 000A FFFF0005070100000D"
        " > device 0 9 : : ff ff 00 05 08 01 00 00 0e aa : : 0",
        "device 00000000 0002 00000005 0008 FFFF0005070100000D > device 22 9 : : aa aa aa aa aa aa aa aa : : 0",
        f"device 00000000 0002 00000005 0002 000102 > device 0 : : {A2} : : 0",
        f"device 00000000 0002 00000005 0002 > device 0 : : {A2} : : 0",
    ),
    (
        "a table on the wire",
        DEVICE_BEGUN,
        f"device 00000000 0002 00000005 0002 FFFF00051C00000021 > device 0 : 27 0 : {A2} : 5 2 0 : 1",
        f"device 00000000 0002 00000005 0009 {PIECE_1}"
        " > device 0 9 30 : : ff ff 00 05 1e 06 00 00 29 : 5 2 1 : 1",
        f"device 00000000 0000 00000005 0009 {PIECE_2} {PIECE_3}"
        " > device 0 9 30 : : ff ff 00 05 1e 07 00 00 2a : 5 2 2 : 1"
        " > device 0 9 30 : : ff ff 00 05 1e 08 00 00 2b : 5 2 3 : 1",
        "progress > progress 0 5 5",
        "table 00000000 0006 > table : 61 31 62 32 63 aa",
        "device 00000000 0002 00000005 0009 FFFF00051F0900002D"
        " > device 0 9 32 : : ff ff 00 05 20 09 00 00 2e : : 1",
        "progress > progress 0",
    ),
    (
        "a piece of 5 bytes with FF in it, cut anywhere",
        "device 00000009 0080 00000005 0003 FF > device 0 : : aa aa aa : : 0",
        "device 00000009 0080 00000005 0016 FF000B1905000000000005 0000 2E"
        " > device 0 22 26 9 : : ff ff 00 05 1a 05 00 00 24 ff ff 00 09 1b 00 00 00 00 00 00 80 a4"
        " : 5 128 0 : 1 27 0 9 0",
        "device 00000009 0080 00000005 0000 00FFFF000E1D0600000001 > device 0 : : : 5 128 0 : 1 27 0 9 0",
        "device 00000009 0080 00000005 0001 0001FF55FF > device 0 : : aa : 5 128 0 : 1 27 0 9 0",
        "device 00000009 0080 00000005 000A 55000102 34 00"
        " > device 0 9 30 : : ff ff 00 05 1e 06 00 00 29 aa : 5 128 1 : 1 27 0 9 0"
        " > device 0 : : aa aa aa aa aa aa aa aa aa aa : 5 128 1 : 1 27 0 9 0",
        "table 00000000 0006 > table : ff ff 00 01 02 aa",
    ),
    (
        "refusals on the wire",
        DEVICE_BEGUN,
        f"device 00000000 0002 00000005 0002 {ANNOUNCED} > device 41 : : {A2} : 5 2 0 : 1 27 0 0 0",
        f"device 00000000 0002 00000004 000A {PIECE_1}"
        " > device 62 10 : : ff ff 00 06 12 06 00 00 03 21 : 5 2 0 : 1 27 0 0 0",
        "device 00000000 0002 00000005 000A FFFF000B1D06000100010003 6131 C5"
        " > device 64 10 : : ff ff 00 06 12 06 00 00 03 21 : 5 2 0 : 1 27 0 0 0",
        "device 00000000 0002 00000005 000A FFFF000B1D06000000010004 6131 C5"
        " > device 63 10 : : ff ff 00 06 12 06 00 00 03 21 : 5 2 0 : 1 27 0 0 0",
        f"device 00000000 0002 00000005 000A {PIECE_2}"
        " > device 65 10 : : ff ff 00 06 12 07 00 00 03 22 : 5 2 0 : 1 27 0 0 0",
        "device 00000000 0002 00000005 000A FFFF000A1D06000000010003 61 92"
        " > device 66 10 : : ff ff 00 06 12 06 00 00 03 21 : 5 2 0 : 1 27 0 0 0",
        "device 00000000 0002 00000005 000A FFFF00081D060000 000100 2C"
        " > device 32 10 : : ff ff 00 06 12 06 00 00 03 21 : 5 2 0 : 1 27 0 0 0",
        f"device 00000000 0002 00000005 0009 {PIECE_2} > device 22 10 : : {A9} : 5 2 0 : 1 27 0 0 0",
        "device 00000000 0002 00000005 0008 FFFF00051F0900002D"
        " > device 22 9 : : aa aa aa aa aa aa aa aa : 5 2 0 : 1 27 0 0 0",
        "device 00000000 0002 00000005 000A FFFF00061F090000 00 2E"
        " > device 32 10 : : ff ff 00 06 12 09 00 00 03 24 : 5 2 0 : 1 27 0 0 0",
        "link 02 1C 00 00 00 00000000 > answer 0 27 0 : 1",
        f"device 00000000 0000 00000005 000A {ANNOUNCED} > device 61 10 : : {R5} : 5 2 0 : 1",
        f"device 00000000 0002 00000004 000A {ANNOUNCED} > device 62 10 : : {R5} : 5 2 0 : 1",
        "device 00000000 0002 00000005 000A FFFF000B1905000000000005 0001 2F"
        f" > device 32 10 : : {R5} : 5 2 0 : 1",
        f"device 00000000 0002 00000005 0009 {ANNOUNCED} > device 22 22 : : {A9} : 5 2 0 : 1",
        "progress > progress 0 0 5",
    ),
    (
        "the flags of a 19 and of a 1F refuse nothing",
        "device 00000000 0002 00000005 0016 FFFF000B1905000100000005 0000 2F"
        f" > device 0 22 26 9 : : {P5} : 5 2 0 : 1 27 0 0 0",
        f"device 00000000 0002 00000005 0009 FFFF00051F0500012A > device 0 9 32 : : {S5} : : 1 27 0 0 0",
    ),
    (
        "the frame that fits ends the wait, also where it is faulty or its rejection does not fit",
        "link 00 1B 00 00 00 00000000 > offer 0 0 : 1 27 0 0 0",
        "device 00000000 0002 00000005 000A FFFF00061C000000 00 22"
        " > device 0 10 18 3 32 : 27 0 : ff ff 00 06 12 00 00 00 03 1b : : 1",
        "link 00 1B 00 00 00 00000000 > offer 0 1 : 2 27 1 0 0",
        f"device 00000000 0002 00000005 0009 FFFF00061C010000 00 23 > device 22 10 : 27 1 : {A9} : : 2",
        f"device 00000000 0002 00000005 0009 FFFF00061C010000 00 23 > device 22 10 : : {A9} : : 2",
        "link 00 05 00 00 00 00000000 > offer 0 2 : 3 5 2 0 0",
        "device 00000000 0002 00000005 0002 FFFF0005060200000D > device 0 : 5 2 : aa aa : : 3",
        "cancel 00000000 0009 > cancel 0 9 39 : ff ff 00 05 27 03 00 00 2f : : 4 39 3 0 0",
        "device 00000000 0002 00000005 0002 FFFF00052803000030 > device 0 : 39 3 : aa aa : : 4",
    ),
    (
        "a frame that does not fit is silent",
        "link 00 1B 00 00 00 00000000 > offer 0 0 : 1 27 0 0 0",
        "device 00000000 0002 00000005 0002 FFFF00051C01000022 > device 0 : : aa aa : : 1 27 0 0 0",
        "device 00000000 0002 00000005 0002 FFFF0005280000002D > device 0 : : aa aa : : 1 27 0 0 0",
        "device 00000000 0002 00000005 000A FFFF00051B00000020"
        " > device 0 10 18 2 0 : : ff ff 00 06 12 00 00 00 02 1a : : 1 27 0 0 0",
        "device 00000000 0002 00000005 0002 FFFF000611000000 03 1A > device 0 : : aa aa : : 1 27 0 0 0",
    ),
    (
        "a wrong sum gets code 1, and neither link nor transfer hears of the frame",
        "link 00 1B 00 00 00 00000000 > offer 0 0 : 1 27 0 0 0",
        "device 00000000 0002 00000005 000A FFFF00051C00000022"
        " > device 0 10 18 1 15 : : ff ff 00 06 12 00 00 00 01 19 : : 1 27 0 0 0",
        "link 02 1C 00 00 00 00000000 > answer 0 27 0 : 1",
        "device 00000000 0002 00000005 000A FFFF000B1905000000000005 0000 2D"
        " > device 0 10 18 1 15 : : ff ff 00 06 12 05 00 00 01 1e : : 1",
        f"device 00000000 0002 00000005 0009 FFFF00051F0900002E > device 22 10 : : {A9} : : 1",
        "progress > progress 0",
    ),
    (
        "what the caller is asked to send, and rejections",
        "device 00000000 0002 00000005 0002 FFFF00050103000009 > device 0 0 2 3 : : aa aa : : 0",
        "device 00000000 0002 00000005 0002 FFFF000603040000 02 0F > device 0 0 4 4 : : aa aa : : 0",
        "device 00000000 0002 00000005 000A FFFF0005270300002F"
        " > device 0 10 18 2 0 : : ff ff 00 06 12 03 00 00 02 1d : : 0",
        "device 00000000 0002 00000005 000A FFFF00052103000029"
        " > device 0 10 18 2 31 : : ff ff 00 06 12 03 00 00 02 1d : : 0",
        "device 00000000 0002 00000005 000A FFFF000607030000 00 10"
        " > device 0 10 18 3 32 : : ff ff 00 06 12 03 00 00 03 1e : : 0",
        "device 00000000 0002 00000005 000A FFFF000603030000 09 15"
        " > device 0 10 18 3 33 : : ff ff 00 06 12 03 00 00 03 1e : : 0",
    ),
    (
        "SHORT, LONG, STUFF, STUFFLATE and CUT get nothing; then the cut frame is whole",
        "device 00000000 0002 00000005 0009 FFFF0004 FFFF0401 FFFF000507FF00 FFFF000507010000FF00 FFFF0005 FFFF0005"
        f" > device 0 : : {A9} : : 0 > device 0 : : {A9} : : 0 > device 0 : : {A9} : : 0 > device 0 : : {A9} : : 0"
        f" > device 0 : : {A9} : : 0 > device 0 : : {A9} : : 0",
        "device 00000000 0002 00000005 0009 070100000D > device 0 9 : : ff ff 00 05 08 01 00 00 0e : : 0",
    ),
    (
        "a reader that takes nothing: USED and STATE get nothing",
        "reader 03 4000000000000000 > set",
        "device 00000000 0002 00000005 0002 FFFF > device 0 : : aa aa : : 0",
        "device 00000000 0002 00000005 0002 > device 0 : : aa aa : : 0",
        "reader 03 4000000000000001 > set",
        "device 00000000 0002 00000005 0002 FFFF > device 0 : : aa aa : : 0",
        "device 00000000 0002 00000005 0002 > device 0 : : aa aa : : 0",
        "reader 03 3FFFFFFFFFFFFFF7 > set",
        "device 00000000 0002 00000005 0009 FFFF0005070100000D"
        " > device 0 9 : : ff ff 00 05 08 01 00 00 0e : : 0",
        "device 00000000 0002 00000005 0002 00 > device 0 : : aa aa : : 0",
    ),
    (
        "STATE of the transfer comes first, whatever the reader answers",
        "link 00 1B 00 00 00 00000000 > offer 0 0 : 1 27 0 0 0",
        "set 00000005 0002 0004 > set : 5 2 4",
        "device 00000000 0002 00000005 0002 > device 17 0 : : aa aa : 5 2 4 : 1 27 0 0 0",
        "device 00000000 0002 00000005 0002 FFFF0005070100000D"
        " > device 17 0 : : aa aa : 5 2 4 : 1 27 0 0 0",
        "device 00000000 0002 00000005 0002 FFFF0005070100000E"
        " > device 17 0 : : aa aa : 5 2 4 : 1 27 0 0 0",
        "device 00000000 0002 00000005 0000 FFFF00051C00000021 > device 17 0 : : : 5 2 4 : 1 27 0 0 0",
        "device 00000000 0002 00000005 0002 FFFF0004 FFFF0005"
        " > device 17 0 : : aa aa : 5 2 4 : 1 27 0 0 0 > device 17 0 : : aa aa : 5 2 4 : 1 27 0 0 0",
        "fresh > fresh :",
        "device 00000000 0002 00000005 0009 070100000D > device 0 9 : : ff ff 00 05 08 01 00 00 0e : : 1 27 0 0 0",
        "device 00000000 0002 00000005 0000 FFFF00051C00000021 > device 0 : 27 0 : : : 1",
    ),
    (
        "STATE of the link comes first, whatever the reader answers",
        "link 04 01 1B 00 03 00000000 > set : 1 27 0 0 3",
        "device 00000000 0002 00000005 0002 00 > device 17 0 : : aa aa : : 1 27 0 0 3",
        "device 00000000 0002 00000005 0002 FFFF00051C00000021 > device 17 0 : : aa aa : : 1 27 0 0 3",
        f"device 00000000 0002 00000005 0002 {ANNOUNCED} > device 17 0 : : aa aa : : 1 27 0 0 3",
        "link 04 01 07 00 00 00000000 > set : 1 7 0 0 0",
        "device 00000000 0002 00000005 0002 FFFF00051F0900002D > device 17 0 : : aa aa : : 1 7 0 0 0",
        "reader 03 4000000000000001 > set",
        "device 00000000 0002 00000005 0002 00 > device 17 0 : : aa aa : : 1 7 0 0 0",
    ),
    (
        "a fresh reader is not a fresh transfer",
        DEVICE_BEGUN,
        "reader 00 > fresh",
        "progress > progress 0 0 5",
    ),
]
