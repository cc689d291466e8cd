"""The numbers of all answers: PROTOCOL 4.1 to 4.11, 6.3, 6.4, 7.4 to 7.6, 9.10 to 9.12, and those of captures.

The last ones are those of transfers.
"""

DONE = 0  # no refusal (PROTOCOL 6.7)
MORE, FRAME, CLEAN = 0, 1, 2
SHORT, LONG, STUFF, CUT, SUM, OPEN, STATE, USED, STUFFLATE = range(11, 20)
PAYLOAD, ROOM = 21, 22
COMMAND, SIZE, FIELD = 31, 32, 33
BUSY, UNSENT, STRAY = 41, 42, 43
MARK, VERSION, DIRECTION, ENDED = range(51, 55)
EMPTY, TOOBIG, PIECES, HEXLINES, TURN, PIECE = range(61, 67)
