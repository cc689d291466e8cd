"""The reader: what each byte does (PROTOCOL 3) and what each call answers (PROTOCOL 4)."""
from answers import CLEAN, CUT, FRAME, LONG, MORE, OPEN, SHORT, STATE, STUFF, STUFFLATE, SUM, USED
from wire import FF, LIMIT, MIN_LENGTH, STUFFING, number_of

MAX_CONSUMED = 2**62  # PROTOCOL 4.18
LATE = 6  # body bytes, from which on a break is STUFFLATE (PROTOCOL 4.6)


class Reader:
    """A call answers a list: the answer's number and its values.

    `start` is None while no frame is open. `at_header` is true while the open frame has no body byte.
    """

    def __init__(self, consumed=0):
        self.consumed = consumed  # bytes of all calls
        self.previous = None  # the last byte received (PROTOCOL 3.17)
        self.start = None
        self.at_header = False
        self.body_len = 0
        self.body = bytearray(LIMIT + 2)  # PROTOCOL 3.1

    def in_range(self):
        return self.consumed <= MAX_CONSUMED

    def feed(self, offered):
        """It stops after the byte that decides something (PROTOCOL 3.3)."""
        if not self.in_range():
            return [STATE, 0]
        if self.consumed + len(offered) > MAX_CONSUMED:
            return [USED, 0]
        for count, byte in enumerate(offered, 1):
            decided = self.step(byte)
            if decided:
                answer, start, *values = decided
                return [answer, count, start, self.consumed, *values]
        return [MORE, len(offered)]

    def finish(self):
        if not self.in_range():
            return [STATE, 0]
        if self.start is None:
            return [CLEAN, self.consumed]
        return [OPEN, self.consumed, self.start]

    def held(self):
        """The body after FRAME or SUM (PROTOCOL 4.13)."""
        return bytes(self.body[: number_of(self.body[:2]) + 2])

    def step(self, byte):
        """One byte on the wire: None, or what it decides: the answer, the start of its frame, its further values."""
        previous, self.previous = self.previous, byte
        self.consumed += 1
        if byte == FF and previous == FF:
            return self.header()
        if self.start is None:
            return None  # PROTOCOL 3.15
        if byte == FF:
            return None  # PROTOCOL 3.8
        if previous == FF and not self.at_header:
            if byte != STUFFING:
                return self.close(STUFF if self.body_len < LATE else STUFFLATE, byte)  # PROTOCOL 3.11, 4.19
            byte = FF  # PROTOCOL 3.9
        self.at_header = False
        return self.body_byte(byte)

    def header(self):
        """FF after FF (PROTOCOL 3.4): the start moves (PROTOCOL 3.5), or an open frame is cut (PROTOCOL 3.10)."""
        cut, moved = self.start, self.at_header
        self.start, self.at_header, self.body_len = self.consumed - 2, True, 0
        return (CUT, cut) if cut is not None and not moved else None

    def close(self, answer, *values):
        """No frame is open any more (PROTOCOL 3.16)."""
        start, self.start, self.at_header, self.body_len = self.start, None, False, 0
        return answer, start, *values

    def body_byte(self, byte):
        """A body byte goes to its place (PROTOCOL 3.2) and can decide something (PROTOCOL 3.12 to 3.14, 4.20)."""
        self.body[self.body_len] = byte
        self.body_len += 1
        if self.body_len < 2:
            return None
        length = self.body[0] * 256 + self.body[1]
        if self.body_len == 2 and length < MIN_LENGTH:
            return self.close(SHORT)
        if self.body_len == 2 and length > LIMIT:
            return self.close(LONG)
        if self.body_len < length + 2:
            return None
        computed = sum(self.body[: length + 1]) % 256
        return self.close(FRAME) if computed == byte else self.close(SUM, byte, computed)


def decided(stream, reader):
    """What a reader decides on a whole stream: answer, start, end, the body held, further values.

    The body is that of FRAME and SUM, else None. The further values are those of PROTOCOL 4.19 and 4.20.
    """
    for byte in stream:
        found = reader.step(byte)
        if found:
            answer, start, *values = found
            body = reader.held() if answer in (FRAME, SUM) else None
            yield answer, start, reader.consumed, body, *values
