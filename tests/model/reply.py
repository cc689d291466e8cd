"""What the box replies to a received frame (PROTOCOL 8.2 to 8.10)."""
from answers import COMMAND, CUT, DONE, FIELD, LONG, SHORT, SIZE, STUFF, STUFFLATE, SUM
from message import CONTROL
from wire import write_frame

NOTHING, WANTED, SENT = "nothing", "wanted", "sent"
INFORMATION, STATUS = 0x02, 0x04  # what the caller is asked to send where it is WANTED
TRANSFERS = 0x19, 0x1D, 0x1F  # handed to the caller, whatever their payload is
REJECTION = 0x12
UNANSWERED = SHORT, LONG, STUFF, STUFFLATE, CUT  # refused frames that get no reply (PROTOCOL 8.10)
BOX_SENDS = bytes.fromhex("02 04 05 08 09 0B 0E 10 12 13 15 17 1A 1B 1E 20 27 29")


def reply_to(answer, values, command):
    """What is to be done, with the command and payload that the box sends, or the command that is wanted.

    `answer` is the reader's where it refuses the frame, else that of reading the message; `values` are the message's
    where it is DONE.
    """
    if answer in UNANSWERED:
        return NOTHING, 0, b""
    if answer == SUM:
        return SENT, REJECTION, bytes([1])
    if answer == COMMAND or command in BOX_SENDS:
        return SENT, REJECTION, bytes([2])
    if command in TRANSFERS:
        return WANTED, command + 1, b""
    if answer in (SIZE, FIELD):
        return SENT, REJECTION, bytes([3])
    if command in (0x07, 0x0D, 0x0F):
        return SENT, command + 1, b""
    if command == 0x03 and values[1] == CONTROL:
        return SENT, command + 1, b""
    if command == 0x01:
        return WANTED, INFORMATION, b""
    if command == 0x03:
        return WANTED, STATUS, b""
    return NOTHING, 0, b""


def cause_of(answer, command):
    """The cause of a rejection (PROTOCOL 8.13)."""
    return 0 if answer != SUM and command in BOX_SENDS else answer


def reply_row(answer, values, command, number, output, room):
    """The answer's number and its values (PROTOCOL 8.13). The buffer is the first `room` bytes of the output."""
    what, sent, payload = reply_to(answer, values, command)
    if what == NOTHING:
        return [DONE]
    if what == WANTED:
        return [DONE, 0, sent, number]
    refused, count = write_frame(sent, number, 0, payload, output, room)
    if refused or sent != REJECTION:
        return [refused, count]
    return [DONE, count, sent, payload[0], cause_of(answer, command)]
