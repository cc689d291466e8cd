"""What test_driver has to print for the records of a transfer, and for those of the link and the reader among them."""
from answers import FRAME, SUM
from box import handle
from driver import LinkCalls, empty_output, in_hex, words
from reader import Reader
from records import BEGIN, CANCEL, DEVICE, FIELDS, FILL, FRESH, LINK, PROGRESS, SET, SET_TRANSFER, STOP, STORE, TABLE
from records import unpacked
from transfer import Transfer
from wire import number_of

TABLE_SIZE = 131072
MAX_OUTPUT = 2100  # bytes


def in_numbers(values):
    return " :" + "".join(f" {value}" for value in values)


class BoxCalls:
    """The steps of calls on the reader, the link, the transfer and the table that the driver holds."""

    def __init__(self):
        self.reader, self.links, self.transfer = Reader(), LinkCalls(), Transfer()
        self.table, self.steps = bytearray(b"\xaa" * TABLE_SIZE), []

    def put(self, made):
        """A record: its lines."""
        operation, data = made[0], made[3:]
        lines = self.lines(operation, data)
        self.steps.append((made, lines))
        return lines

    def lines(self, operation, data):
        if operation >= LINK:
            return [self.links.line(operation - LINK, data)]
        if operation == SET:
            self.reader = Reader(number_of(data))
            return ["set"]
        if operation not in FIELDS:
            assert operation == FRESH, "records of other kinds are not played here"
            self.reader = Reader()
            return ["fresh"]
        return list(self.played(operation, *unpacked(operation, data)))

    def played(self, operation, *values):
        """The lines of a record of a transfer; `values` are its numbers and what follows them."""
        if operation == DEVICE:
            yield from self.device(*values)
        elif operation in (BEGIN, STORE, STOP, CANCEL):
            call = {BEGIN: self.begin, STORE: self.store, STOP: self.stop, CANCEL: self.cancel}[operation]
            yield call(*values)
        elif operation == PROGRESS:
            yield words("progress", *self.transfer.progress())
        elif operation == TABLE:
            start, size, _ = values
            yield "table" + in_hex(self.table[start : start + size])
        elif operation == FILL:
            self.table[:] = bytes(values[:1]) * TABLE_SIZE
            yield "fill"
        else:
            *fields, _ = values
            self.transfer = Transfer(fields if operation == SET_TRANSFER else None)
            yield ("set" if operation == SET_TRANSFER else "fresh") + self.shown_transfer()

    # What the lines end with.

    def lent(self, size):
        """The front of the table, to be written in its place."""
        return memoryview(self.table)[:size]

    def shown_transfer(self):
        return in_numbers(self.transfer.fields or [])

    def shown_states(self):
        link = self.links.link
        return self.shown_transfer() + in_numbers([link.number, *(link.waits or [])])

    # The calls.

    def begin(self, number, clock, piece, lent, room, payload):
        output = empty_output(room)
        row = self.transfer.begin(self.links.link, clock, number, payload, piece, self.lent(lent), output)
        return words("begin", *row) + in_hex(output) + self.shown_states()

    def store(self, number, flags, lent, room, payload):
        output = empty_output(room)
        row = self.transfer.store(number, flags, payload, self.lent(lent), output)
        return words("store", *row) + in_hex(output) + self.shown_transfer()

    def stop(self, number, room, payload):
        output = empty_output(room)
        row = self.transfer.stop(number, payload, output)
        return words("stop", *row) + in_hex(output) + self.shown_transfer()

    def cancel(self, clock, room, _):
        output = empty_output(room)
        row = self.transfer.cancel(self.links.link, clock, output)
        return words("cancel", *row) + in_hex(output) + self.shown_states()

    def device(self, clock, piece, lent, room, data):
        """A line for each answer of the reader, until it consumed all or consumes none."""
        count = 1
        while count:
            answer, count, *_ = self.reader.feed(data)
            data, output = data[count:], empty_output(room)
            body = self.reader.held() if answer in (FRAME, SUM) else b""
            row, ended = handle(answer, body, self.transfer, self.links.link, clock, piece, self.lent(lent), output)
            yield words("device", *row) + in_numbers(ended) + in_hex(output) + self.shown_states()
            if not data:
                return
