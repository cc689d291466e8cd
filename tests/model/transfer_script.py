"""A module that sends tables to a box, as calls on the model: what is in order, and what can be wrong with it.

A script is written along the model, so that its numbers can be near those of the transfer and the link. Frames arrive
by single calls or on the wire.
"""
from asking import room_said
from driver import OFFER, RECEIVE, TICKS
from link import WAITING
from random_messages import some_bytes
from records import BEGIN, CANCEL, DEVICE, FIELDS, LINK, MAX_DATA, PROGRESS, STOP, STORE, TABLE, packed, record
from transfer import total_of
from transfer_driver import MAX_OUTPUT, TABLE_SIZE, BoxCalls
from wire import FF, MAX_PAYLOAD, in_bytes, on_wire

HEAD = sum(FIELDS[DEVICE])  # bytes of a record of a device before those of the wire
ENOUGH = 64  # bytes of output, where the check code is short
LONGEST = {False: 4000, True: MAX_PAYLOAD - 4}  # bytes of a piece: of a record of its own, and on the wire
WINDOW, MOST_SHOWN = 250, 65535  # bytes of the table in a line


class Script:
    """Calls on a box. `wired` says whether frames arrive on the wire."""

    def __init__(self, rand, wired):
        self.rand, self.wired, self.box = rand, wired, BoxCalls()
        self.clock = rand.choice([0, 2**32 - 900, rand.randrange(2**32)])
        self.piece, self.lent, self.sent, self.top = 128, 0, b"", 16
        self.room = None  # of all outputs, if it is not any
        self.asks = False  # whether each call that meets ROOM is made again in the room said, not only every other one

    @property
    def fields(self):
        return self.box.transfer.fields

    @property
    def waits(self):
        return self.box.links.link.waits

    def put(self, operation, *numbers, rest=b""):
        return self.box.put(packed(operation, *numbers, rest=rest))

    def link(self, operation, *fields):
        data = bytes(byte % 256 for byte in fields).ljust(4, b"\0") + in_bytes(4, self.clock)
        self.box.put(record(LINK | operation, data))

    def some_room(self):
        if self.room is not None:
            return self.room
        return self.rand.choice([ENOUGH] * 9 + [self.rand.randrange(32), 9, 10])

    def pass_time(self):
        self.clock = (self.clock + self.rand.choice([0, 1, 30, 99, 100, 199, 200])) % 2**32

    def asked(self, call, room=None):
        """A call in some room, perhaps made again where that is too little. `call` is told the room."""
        needed = room_said(call(self.some_room() if room is None else room)[-1])
        if needed is not None and (self.asks or self.rand.randrange(2)):
            call(needed)

    # Frames that arrive. What they return are the lines of the last record.

    def arrive(self, command, payload=b"", flags=0, room=None):
        """A 19, 1D or 1F."""
        number = self.some_number()
        self.asked(lambda room: self.frame(command, number, flags, payload, room), room)

    def some_number(self):
        return self.rand.choice([FF, 0, *self.rand.randbytes(4)])

    def frame(self, command, number, flags, payload, room):
        if self.wired:
            return self.feed(on_wire(command, number, flags, payload), room)
        if command == 0x19:
            return self.put(BEGIN, number, self.clock, self.piece, self.lent, room, rest=payload)
        if command == 0x1D:
            return self.put(STORE, number, flags, self.lent, room, rest=payload)
        return self.put(STOP, number, room, rest=payload)

    def cancel(self, room):
        return self.put(CANCEL, self.clock, room)

    def feed(self, data, room):
        """Bytes on the wire, cut anywhere."""
        while True:
            most = min(len(data), MAX_DATA - HEAD)
            size = self.rand.choice([most, most, self.rand.randint(0, most)])
            lines = self.put(DEVICE, self.clock, self.piece, self.lent, room, rest=data[:size])
            data = data[size:]
            if not data:
                return lines

    def settle(self):
        """The link's wait ends: by its reply, or given up."""
        while self.waits:
            command, number = self.waits[:2]
            if self.rand.randrange(4):
                self.reply(command + 1, number)
            else:
                self.clock = (self.clock + 200) % 2**32
                self.link(self.rand.choice(TICKS))

    def reply(self, command, number):
        """A frame for the link; on the wire its payload can be faulty."""
        if self.wired:
            payload = bytes(not self.rand.randrange(5))
            self.asked(lambda room: self.feed(on_wire(command, number, 0, payload), room))
        else:
            self.link(RECEIVE, command, number)

    # What is shown.

    def show(self):
        """What is stored, and the table around its end."""
        self.put(PROGRESS)
        _, *stored = self.box.transfer.progress()
        start = min(max(0, sum(stored[:1]) - self.rand.choice([0, 20, 200])), TABLE_SIZE - WINDOW)
        self.put(TABLE, start, WINDOW)

    def show_up_to(self, end):
        self.put(PROGRESS)
        for start in range(0, end, MOST_SHOWN):
            self.put(TABLE, start, min(MOST_SHOWN, end - start))


# Announcements: one that is in order, and what can be wrong with it.


def some_table(rand, longest):
    """Size and piece size: a few pieces, whose last one can be short."""
    kind = rand.randrange(12)
    if kind < 7:
        piece = rand.randint(1, 12)
    elif kind < 10:
        piece = rand.choice([128, rand.randint(30, 300)])
    elif kind == 10:
        piece = longest - rand.randint(0, 2)
    else:
        return rand.randint(1, longest), rand.choice([65535, rand.randint(longest, 65535)])
    total = rand.randint(1, 9 if piece < 300 else 3)
    return piece * total - rand.choice([0, rand.randrange(piece)]), piece


def no_size(script, call):
    call["size"] = 0


def no_piece(script, call):
    script.piece = 0


def small_buffer(script, call):
    script.lent = max(0, call["size"] - script.rand.choice([1, 1, 2, call["size"]]))


def many_pieces(script, call):
    """One more than the greatest total, or many more."""
    script.piece = script.rand.choice([1, 2])
    call["size"] = script.rand.choice([65535 * script.piece + 1, TABLE_SIZE])
    script.lent = TABLE_SIZE


def greatest_size(script, call):
    call["size"] = 2**32 - script.rand.randint(1, 3)
    script.piece = script.rand.choice([1, 2, 65535])


def wrong_count(script, call):
    call["off"] = script.rand.choice([-1, 1, 256])


def long_code(script, call):
    """The longest that fit a 1B, or a frame, and longer ones."""
    sizes = [1012, 1013] if script.wired else [1014, 1015, 1016, 1017, 4000]
    call["code"] = some_bytes(script.rand, script.rand.choice(sizes))
    call["room"] = script.rand.choice([ENOUGH, 1100, MAX_OUTPUT, MAX_OUTPUT])


def busy(script, call):
    if not script.waits:
        script.link(OFFER, script.rand.choice(WAITING))


def little_room(script, call):
    call["room"] = script.rand.randrange(40)


BEGIN_FAULTS = [no_size, no_piece, small_buffer, many_pieces, greatest_size, wrong_count, long_code, busy, little_room]


def announce(script, faults=()):
    """A 19, for another table or for the same one again; it can arrive while a command waits."""
    rand = script.rand
    again = script.fields and not rand.randrange(4)
    size, script.piece = script.fields[:2] if again else some_table(rand, LONGEST[script.wired])
    script.lent = size + rand.choice([0, 0, 1, rand.randrange(40)])
    call = {"size": size, "code": some_bytes(rand, rand.choice([0, 0, 1, 2, 16])), "off": 0, "room": None}
    if rand.randrange(8):
        script.settle()
    for fault in faults:
        fault(script, call)
    code = call["code"]
    count = in_bytes(2, (len(code) + call["off"]) % 65536)
    before = script.fields
    script.arrive(0x19, in_bytes(4, call["size"]) + count + code, rand.choice([0, 1, 0xFFFF]), call["room"])
    if script.fields is not before and (not again or rand.randrange(2)):
        script.sent = some_bytes(rand, script.fields[0])
    if script.fields and rand.randrange(5):
        script.lent = max(script.lent, script.fields[0])
    script.top = max(script.top, min(script.lent, 3000) + 16)


# Pieces: the next one or the one just stored, and what can be wrong with it.


def data_of(script, index):
    """What the module sends as this piece: of the table sent, or what is stored already, or anything of its length."""
    size, piece, stored = script.fields
    start = max(0, index - 1) * piece
    length = max(0, min(piece, size - start, LONGEST[script.wired]))
    known = script.box.table if index == stored else script.sent if len(script.sent) == size else b""
    return bytes(known[start : start + length]) or script.rand.randbytes(length)


def piece_payload(index, total, data):
    return in_bytes(2, index % 65536) + in_bytes(2, total % 65536) + data


def another_number(script, call):
    size, piece, stored = script.fields
    total = total_of(size, piece) if piece else 0
    near = [0, stored - 1, stored + 2, total, total + 1]
    call["index"] = script.rand.choice([*near, 65535, script.rand.randrange(65536)])


def another_total(script, call):
    call["total"] += script.rand.choice([-1, 1, 256, script.rand.randrange(65536)])


def another_length(script, call):
    data = call["data"]
    longer = data + some_bytes(script.rand, script.rand.choice([1, 1, 2, 100]))
    call["data"] = script.rand.choice([data[:-1], longer[: LONGEST[script.wired]], b""])


def another_byte(script, call):
    data = bytearray(call["data"])
    if data:
        data[script.rand.choice([0, -1, script.rand.randrange(len(data))])] ^= 1 << script.rand.randrange(8)
    call["data"] = bytes(data)


def hex_lines(script, call):
    call["flags"] = script.rand.randrange(65536) | 1


def short_payload(script, call):
    call["size"] = script.rand.randrange(4)


def other_buffer(script, call):
    size = script.fields[0]
    script.lent = script.rand.choice([max(0, size - 1), 0, size, TABLE_SIZE, script.rand.randint(0, 3 * size)])
    script.lent = min(script.lent, TABLE_SIZE)


STORE_FAULTS = [another_number, another_total, another_length, another_byte, hex_lines, short_payload, other_buffer]
STORE_FAULTS += [little_room]


def send_piece(script, repeated=False, faults=()):
    """A 1D of an open transfer. Its last number can be repeated."""
    size, piece, stored = script.fields
    total = total_of(size, piece) if piece else 0
    index = stored if repeated or stored >= total else stored + 1
    flags = script.rand.choice([0, 0, 2, 0x0100, 0xFFFE])
    call = {"index": index, "total": total, "data": data_of(script, index), "size": None, "flags": flags, "room": None}
    lent = script.lent
    for fault in faults:
        fault(script, call)
    payload = piece_payload(call["index"], call["total"], call["data"])
    script.arrive(0x1D, payload[: call["size"]], call["flags"], call["room"])
    script.lent = lent


def some_faults(rand, faults):
    return rand.sample(faults, rand.choice([0, 0, 1, 1, 2, 3]))


def without_transfer(script):
    rand = script.rand
    payload = some_bytes(rand, rand.choice([rand.randrange(4), 4, 9]))
    script.arrive(0x1D, payload, rand.choice([0, 1, 2]))
