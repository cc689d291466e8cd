"""A transfer: a counting table that the box receives piece by piece into the caller's buffer.

A call answers a list: the answer's number and its values. A refused 19, 1D or 1F gets a rejection, and nothing else
changes. STATE, BUSY, PAYLOAD and ROOM change nothing at all. ROOM says the length of all that would be
written. All that is written has flags 0.
"""
from answers import BUSY, DONE, EMPTY, HEXLINES, PAYLOAD, PIECE, PIECES, ROOM, STATE, TOOBIG, TURN
from message import read_message
from reply import REJECTION
from wire import MAX_PAYLOAD, in_bytes, on_wire

MAX_TOTAL = 65535  # pieces: a piece has its number in two bytes
OTHER_FAULT = bytes([3])  # the code of the rejection
HEX_LINES = 1  # bit 0, the only flag that refuses


def total_of(size, piece):
    """How many pieces a table has: its size divided by the piece size, rounded up."""
    return -(-size // piece)


def placed(data, output):
    """Puts it at the front of the output; whether it fits."""
    if len(output) < len(data):
        return False
    output[: len(data)] = data
    return True


def rejected(refusal, number, output):
    """12 under the number received; the answer is the refusal's own number."""
    frame = on_wire(REJECTION, number, 0, OTHER_FAULT)
    return [refusal if placed(frame, output) else ROOM, len(frame)]


class Transfer:
    """None, or an open one: [bytes announced, our piece size, pieces stored]."""

    def __init__(self, fields=None):
        self.fields = fields

    def in_range(self):
        """Announced sizes and piece sizes are below 2^32 and 2^16 wherever they come from."""
        if self.fields is None:
            return True
        size, piece, stored = self.fields
        return size > 0 and piece > 0 and stored <= total_of(size, piece) <= MAX_TOTAL

    def stretch(self, index):
        """Where a piece begins and ends in the table. All have the piece size but the last, which has the rest."""
        size, piece, _ = self.fields
        return (index - 1) * piece, min(index * piece, size)

    # A 19 arrived.

    def begin(self, link, clock, number, payload, piece, buffer, output):
        """1A under the number received and then 1B under the link's, as the link takes the 1B."""
        if not self.in_range() or not link.in_range():
            return [STATE, 0]
        faulty, values = read_message(0x19, payload)
        if faulty:
            return rejected(faulty, number, output)
        if link.waits is not None:
            return [BUSY]
        refusal = begin_refusal(values[1], piece, buffer)
        if refusal:
            return rejected(refusal, number, output)
        code = payload[6:]
        ready = in_bytes(2, len(code)) + code + in_bytes(2, piece)  # the check code is handed back
        if len(ready) > MAX_PAYLOAD:
            return [PAYLOAD, 0]
        first, second = on_wire(0x1A, number, 0, b""), on_wire(0x1B, link.number, 0, ready)
        if not placed(first + second, output):
            return [ROOM, len(first + second)]
        link.offer(0x1B, clock)
        self.fields = [values[1], piece, 0]
        return [DONE, len(first + second), 0x1A, len(first)]

    # A 1D arrived.

    def store(self, number, flags, payload, buffer, output):
        """The next piece is stored; the one just stored, with equal bytes, is only answered again."""
        if not self.in_range():
            return [STATE, 0]
        refusal = self.store_refusal(flags, payload, buffer)
        if refusal:
            return rejected(refusal, number, output)
        reply = on_wire(0x1E, number, 0, b"")
        if not placed(reply, output):
            return [ROOM, len(reply)]
        _, (_, index, _) = read_message(0x1D, payload)
        if index > self.fields[2]:
            start, end = self.stretch(index)
            buffer[start:end] = payload[4:]
            self.fields[2] = index
        return [DONE, len(reply), 0x1E]

    def store_refusal(self, flags, payload, buffer):
        """The first that holds, or DONE. Without a transfer only the payload and the flags come before TURN."""
        faulty, values = read_message(0x1D, payload)
        if faulty:
            return faulty
        if self.fields and self.fields[0] > len(buffer):
            return TOOBIG
        if flags & HEX_LINES:
            return HEXLINES
        if not self.fields:
            return TURN
        _, index, total = values
        size, piece, stored = self.fields
        if total != total_of(size, piece):
            return PIECES
        if index == 0 or index not in (stored, stored + 1) or index > total:
            return TURN
        start, end = self.stretch(index)
        data = payload[4:]
        if len(data) != end - start or index == stored and data != buffer[start:end]:
            return PIECE
        return DONE

    # A 1F arrived, or the box cancels.

    def stop(self, number, payload, output):
        """20, with or without a transfer."""
        if not self.in_range():
            return [STATE, 0]
        faulty, _ = read_message(0x1F, payload)
        if faulty:
            return rejected(faulty, number, output)
        reply = on_wire(0x20, number, 0, b"")
        if not placed(reply, output):
            return [ROOM, len(reply)]
        self.fields = None
        return [DONE, len(reply), 0x20]

    def cancel(self, link, clock, output):
        """27, as the link takes it, with or without a transfer."""
        if not self.in_range() or not link.in_range():
            return [STATE, 0]
        if link.waits is not None:
            return [BUSY]
        frame = on_wire(0x27, link.number, 0, b"")
        if not placed(frame, output):
            return [ROOM, len(frame)]
        link.offer(0x27, clock)
        self.fields = None
        return [DONE, len(frame), 0x27]

    def progress(self):
        """Bytes stored and bytes announced, of an open transfer."""
        if not self.in_range():
            return [STATE, 0]
        if self.fields is None:
            return [DONE]
        size, _, stored = self.fields
        return [DONE, self.stretch(stored)[1], size]


def begin_refusal(size, piece, buffer):
    """The first that holds of the size announced and our piece size, or DONE."""
    if size == 0 or piece == 0:
        return EMPTY
    if size > len(buffer):
        return TOOBIG
    if total_of(size, piece) > MAX_TOTAL:
        return PIECES
    return DONE
