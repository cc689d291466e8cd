"""What a transfer holds, counted: nothing of the model's transfer is in here, and no field of a state.

It counts over records and printed lines alone. From a fresh transfer the bytes stored are those of the accepted pieces
of distinct numbers since the last accepted 19; an accepted 1F or 27 leaves none. They are joined at the front of the
table, and the rest of the table is as it was at the start of that transfer.
"""
from events import events
from records import FILL, FRESH_TRANSFER, PROGRESS, SET_TRANSFER, TABLE, unpacked
from wire import number_of

TABLE_AT_START = b"\xaa" * 131072
ACCEPTED = {0x19: 0x1A, 0x1D: 0x1E, 0x1F: 0x20, 0x27: 0x27}  # the command that the answer names


class Account:
    """The pieces accepted since the last 19, with its size; and the table as it was before them, or None if unknown.

    `size` is None where there is no transfer, and 0 where it was made up, or somebody else wrote the table since.
    """

    def __init__(self):
        self.table, self.size, self.pieces = TABLE_AT_START, None, {}

    def joined(self):
        return b"".join(self.pieces.values())

    def table_now(self):
        if self.table is None or self.size == 0:
            return None
        return self.joined() + self.table[len(self.joined()) :]

    def start(self, size):
        """No piece is accepted yet."""
        self.table, self.size, self.pieces = self.table_now(), size, {}

    def accept(self, payload):
        """A piece. What is wrong with it, or ''."""
        index, total, data = number_of(payload[:2]), number_of(payload[2:4]), payload[4:]
        if self.size == 0:
            return ""
        if self.size is None:
            return "a piece without a transfer is accepted"
        if index in self.pieces:
            return "" if self.pieces[index] == data else f"piece {index} is accepted with other bytes"
        self.pieces[index] = data
        if list(self.pieces) != [*range(1, index + 1)]:
            return f"the accepted pieces are {list(self.pieces)}"
        if index == total and len(self.joined()) != self.size:
            return f"all {total} pieces have {len(self.joined())} bytes, not {self.size}"
        return ""

    def written_over(self, byte):
        """By somebody else: of an open transfer nothing is known any more."""
        opened = self.size is not None
        self.table, self.size, self.pieces = bytes([byte]) * len(TABLE_AT_START), 0 if opened else None, {}

    def progress(self):
        """What the line has to be, or None if unknown."""
        if self.size == 0:
            return None
        return "progress 0" if self.size is None else f"progress 0 {len(self.joined())} {self.size}"


def judged(account, some, line, tally):
    """What is wrong with a line, or ''; the account goes on."""
    if some.operation == SET_TRANSFER:
        account.table, account.size, account.pieces = None, 0, {}
    elif some.operation == FRESH_TRANSFER:
        account.start(None)
    elif some.operation == FILL:
        account.written_over(unpacked(FILL, some.data)[0])
    elif some.operation == PROGRESS and account.progress() is not None:
        tally["progress counted"] += 1
        return "" if line == account.progress() else f"by counting {account.progress()!r}"
    elif some.operation == TABLE and account.table_now() is not None:
        start, size, _ = unpacked(TABLE, some.data)
        should = account.table_now()[start : start + size]
        tally["bytes of the table counted"] += size
        return "" if line == f"table : {should.hex(' ')}".rstrip(" ") else "the table is another one by counting"
    elif some.row[:1] == [0] and some.row[2:3] == [ACCEPTED.get(some.command)]:
        return accepted(account, some, tally)
    return ""


def accepted(account, some, tally):
    opened, pieces = account.size is not None, len(account.pieces)
    if some.command != 0x1D:
        account.start(number_of(some.payload[:4]) if some.command == 0x19 else None)
        tally["started again" if some.command == 0x19 else f"dropped by {some.command:02X}"] += opened
        return ""
    wrong = account.accept(some.payload)
    tally["a piece stored" if len(account.pieces) > pieces else "a piece answered again"] += 1
    tally["a whole table"] += len(account.pieces) > pieces and len(account.joined()) == account.size
    return wrong


def misstored(records, lines, tally):
    """Where the lines first go against the count, or ''."""
    account = Account()
    try:
        for place, (some, line) in enumerate(events(records, lines), 1):
            wrong = judged(account, some, line, tally)
            if wrong:
                return f"line {place}, {line[:200]!r}: {wrong}"
    except ValueError as error:
        return str(error)
    return ""
