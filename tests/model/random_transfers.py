"""Random transfers: pieces lost, repeated, out of order, damaged and too long; cancelled from either side, restarted.

A family has its rounds, whether its frames arrive on the wire, and a share in a thousand.
"""
from asking import room_said
from breaks import breaking_byte, broken_at, places
from driver import ELAPSED, FRESH_LINK, OFFER, SET_IDLE, SET_WAITING, TICKS
from link import WAITING
from random_messages import messages, noise, some_bytes
from records import BEGIN, CANCEL, DEVICE, FILL, FRESH, FRESH_TRANSFER, PROGRESS, SET_TRANSFER, STOP, STORE
from records import packed, record
from transfer import total_of
from transfer_driver import MAX_OUTPUT, TABLE_SIZE
from transfer_script import BEGIN_FAULTS, ENOUGH, STORE_FAULTS, Script, announce, data_of, piece_payload, send_piece
from transfer_script import some_faults, some_table, without_transfer
from wire import FF, HEADER, body_of, in_bytes, on_wire, stuff


def in_order(script):
    """A whole table; now and then a reply is lost, so that its piece comes again."""
    announce(script)
    for _ in range(40):
        if not script.fields or script.fields[2] >= total_of(*script.fields[:2]):
            break
        if script.waits and not script.rand.randrange(3):
            script.settle()
        if script.wired and not script.rand.randrange(4):
            send_run(script)
        send_piece(script, repeated=not script.rand.randrange(5))
        script.pass_time()
    if script.fields and not script.rand.randrange(3):
        send_piece(script, repeated=True)
    script.show()


def send_run(script):
    """Some pieces at once, with noise between them; now and then one is lost, or comes twice."""
    rand, (size, piece, stored), data = script.rand, script.fields, b""
    total = total_of(size, piece)
    for index in range(stored + 1, min(stored + rand.randint(1, 5), total) + 1):
        payload = piece_payload(index, total, data_of(script, index))
        data += on_wire(0x1D, rand.randrange(256), 0, payload) * rand.choice([0, 1, 1, 1, 1, 2]) + noise(rand, 3)
    script.feed(data, script.some_room())


def with_faults(script):
    """Pieces lost, repeated, out of order, damaged, too long, with wrong flags, into another buffer."""
    announce(script)
    for _ in range(script.rand.randint(1, 25)):
        if script.fields:
            send_piece(script, not script.rand.randrange(3), some_faults(script.rand, STORE_FAULTS))
        else:
            without_transfer(script)
    script.show()


def many_announcements(script):
    """Announcements in order and others, with a few pieces between them: a refused one changes nothing."""
    rand = script.rand
    announce(script, some_faults(rand, BEGIN_FAULTS))
    for _ in range(rand.randrange(4)):
        if script.fields:
            send_piece(script)
    script.show()


def cancel(script):
    script.asked(script.cancel)


def stop(script):
    script.arrive(0x1F, script.rand.choice([b"", b"", b"", b"\0", b"ab"]), script.rand.choice([0, 1]))


def cancelled(script):
    """From either side, in the middle or at the end, while a command waits or not."""
    rand = script.rand
    announce(script)
    for _ in range(rand.randrange(6)):
        if script.fields:
            send_piece(script, not rand.randrange(5))
    for _ in range(rand.randint(1, 3)):
        if rand.randrange(2):
            script.settle()
        rand.choice([cancel, stop])(script)
        script.show()
        if script.fields:
            send_piece(script)
        else:
            without_transfer(script)


def every_room(script):
    """A call in each room from 0 up to one in which its answer fits; then the next one."""
    rand = script.rand
    script.settle()
    size, script.piece = some_table(rand, 40)
    script.lent, script.sent = size, some_bytes(rand, size)
    code = some_bytes(rand, rand.choice([0, 1, 5, 20]))
    calls = [(0x19, in_bytes(4, size) + in_bytes(2, len(code)) + code)]
    total = total_of(size, script.piece)
    for index in range(1, min(total, 3) + 1):
        payload = piece_payload(index, total, script.sent[(index - 1) * script.piece : index * script.piece])
        calls += [(0x1D, payload)] * rand.randint(1, 2) + [(0x1D, payload + b"\0")] * rand.randrange(2)
    for command, payload in [*calls, (0x27, b""), (0x1F, b"")]:
        in_each_room(script, command, payload)
        if command == 0x1D and rand.randrange(2):
            script.settle()
    script.show()


def in_each_room(script, command, payload):
    if command == 0x27:
        script.settle()
    for room in range(MAX_OUTPUT):
        if command == 0x27:
            lines = script.cancel(room)
        else:
            lines = script.frame(command, script.some_number(), 0, payload, room)
        if room_said(lines[-1]) is None:
            return


def asking(script):
    """Each call in too little room first, and then in just the room that it asks for."""
    rand = script.rand
    script.settle()
    script.asks, script.room = True, rand.choice([0, 8, rand.randrange(9)])
    announce(script, some_faults(rand, BEGIN_FAULTS) if not rand.randrange(4) else [])
    for _ in range(rand.randint(1, 8)):
        if script.fields:
            send_piece(script, not rand.randrange(4), some_faults(rand, STORE_FAULTS) if not rand.randrange(4) else [])
        else:
            without_transfer(script)
    if script.wired:
        command, payload = rand.choice(ANSWERED)
        frame = on_wire(command, script.some_number(), 0, payload)
        script.asked(lambda room: script.feed(frame, room))
    for end in rand.sample([cancel, stop], 2):
        script.settle()
        end(script)
    script.asks, script.room = False, None
    script.show()


# Of each field of a transfer values in range and out of it, where the others are in range.
EDGES = [
    (5, 2, 0), (5, 2, 1), (5, 2, 2), (5, 2, 3), (4, 2, 2), (1, 1, 0), (1, 1, 1), (1, 65535, 1), (65535, 1, 65534),
    (65535, 1, 65535), (131070, 2, 65535), (131069, 2, 65534), (65536, 65535, 1), (131071, 65535, 2),
    (65535 * 65535, 65535, 65534), (65535 * 65535, 65535, 65535), (3000, 1500, 1), (100000, 128, 781),
]
OUTSIDE = [
    (0, 2, 0), (0, 0, 0), (5, 0, 0), (5, 0, 1), (5, 2, 4), (4, 2, 3), (1, 65535, 2), (65536, 1, 0), (131071, 2, 0),
    (2**32 - 1, 65535, 0), (2**32 - 1, 1, 0), (65535 * 65535 + 1, 65535, 0), (5, 2, 65535),
]
LINKS = [(0x05, 9, 0), (0x1B, 3, 1), (0x27, 255, 2), (0x07, 1, 0), (0x1B, 1, 3), (0x1A, 1, 255)]


def made_up(script):
    """A transfer and a link that nobody reached, in range or not, and calls on them."""
    rand = script.rand
    fields = rand.choice([rand.choice(EDGES), rand.choice(EDGES), rand.choice(OUTSIDE)])
    script.put(SET_TRANSFER, *fields)
    script.lent = rand.choice([min(fields[0], TABLE_SIZE), TABLE_SIZE, 5])
    script.piece = rand.choice([0, 1, 2, 65535])
    if not rand.randrange(3):
        command, number, repeats = rand.choice(LINKS)
        script.link(SET_WAITING, number + 1, command, number, repeats)
    elif not rand.randrange(3):
        script.link(SET_IDLE, rand.choice([0, 1, 255]))
    for _ in range(rand.randint(1, 6)):
        call = rand.randrange(10)
        if call < 5 and script.fields:
            send_piece(script, not rand.randrange(3), some_faults(rand, STORE_FAULTS))
        elif call == 5:
            script.arrive(0x19, in_bytes(4, rand.choice([0, 5, script.lent])) + bytes(2))
        elif call == 6:
            stop(script)
        elif call == 7:
            cancel(script)
        elif call == 8:
            script.put(DEVICE, script.clock, script.piece, script.lent, script.some_room(), rest=rand.randbytes(3))
        else:
            script.put(PROGRESS)
    if rand.randrange(2):
        script.link(FRESH_LINK)
    script.show()
    if rand.randrange(2):
        script.put(FRESH_TRANSFER)
    if rand.randrange(2):
        script.put(FILL, rand.randrange(256))


def large(script):
    """Long pieces of a large table, shown where they end."""
    rand = script.rand
    script.settle()
    script.piece = rand.choice([4000, 3999, 2500])
    size = rand.choice([TABLE_SIZE, TABLE_SIZE - 1, rand.randint(20000, TABLE_SIZE)])
    script.lent = rand.choice([TABLE_SIZE, size])
    script.put(BEGIN, 9, script.clock, script.piece, script.lent, ENOUGH, rest=in_bytes(4, size) + bytes(2))
    script.sent = rand.randbytes(size)
    for _ in range(rand.randint(5, total_of(size, script.piece) + 1)):
        if script.fields:
            send_piece(script, not rand.randrange(9))
    script.show()


def damaged(rand, body):
    """A frame cut short, with its stuffing broken, with a wrong sum or with any byte of the wire changed."""
    data, how = bytearray(HEADER + stuff(body)), rand.randrange(4)
    if how == 0:
        return bytes(data[: rand.randrange(len(data))])
    if how == 1:
        return broken_at(body, rand.choice(places(body)), breaking_byte(rand))
    if how == 2:
        return HEADER + stuff(body[:-1] + bytes([body[-1] ^ 1 << rand.randrange(8)]))
    data[rand.randrange(len(data))] = rand.choice([FF, 0x55, 0])
    return bytes(data)


ANSWERED = [(0x01, b""), (0x03, b"\2"), (0x07, b""), (0x0D, b"\0\0"), (0x0F, b""), (0x21, b"")]


def other_frames(rand):
    """Messages of any kind, most of them with a reply."""
    for _ in range(rand.randint(1, 4)):
        command, payload = rand.choice(ANSWERED if rand.randrange(3) else [*messages(rand)])
        yield on_wire(command, rand.randrange(256), rand.randrange(65536), payload)


def noisy(script):
    """A table among noise, other messages and damaged frames of its own."""
    rand = script.rand
    announce(script)
    for _ in range(rand.randint(3, 20)):
        act = rand.randrange(8)
        if act == 0:
            script.feed(noise(rand, 6), script.some_room())
        elif act == 1:
            script.feed(b"".join(other_frames(rand)), script.some_room())
        elif act == 2 and script.fields:
            index, total = script.fields[2] + 1, total_of(*script.fields[:2])
            payload = piece_payload(index, total, data_of(script, index))
            script.feed(damaged(rand, body_of(0x1D, rand.randrange(256), 0, payload)), script.some_room())
        elif act == 3 and script.waits:
            script.feed(damaged(rand, body_of(script.waits[0] + 1, script.waits[1], 0, b"")), script.some_room())
        elif act == 4:
            script.settle()
        elif act == 5 and script.fields:
            send_run(script)
        elif script.fields:
            send_piece(script, not rand.randrange(4), some_faults(rand, STORE_FAULTS) if rand.randrange(2) else [])
        else:
            announce(script, some_faults(rand, BEGIN_FAULTS))
    script.show()
    if not rand.randrange(6):
        script.box.put(record(FRESH))


def box_at_work(script):
    """All of it, with the link's own commands between."""
    rand = script.rand
    for _ in range(rand.randint(10, 40)):
        script.pass_time()
        act = rand.randrange(20)
        if act < 9 and script.fields:
            send_piece(script, not rand.randrange(4), some_faults(rand, STORE_FAULTS) if not rand.randrange(3) else [])
        elif act < 11:
            announce(script, some_faults(rand, BEGIN_FAULTS) if rand.randrange(2) else [])
        elif act == 11:
            rand.choice([cancel, stop, without_transfer])(script)
        elif act == 12:
            script.link(OFFER, rand.choice([*WAITING, 0x27, 7]))
        elif act < 16:
            script.link(rand.choice(TICKS))
        elif act == 16 and script.waits:
            script.reply(script.waits[0] + 1, script.waits[1] + rand.choice([0, 0, 1]) & 255)
        elif act == 17:
            rand.choice([script.reply, lambda *stray: script.link(ELAPSED, *stray)])(0x1C, rand.randrange(256))
        elif act == 18:
            script.room = rand.choice([None, None, None, rand.randrange(30)])
        else:
            script.show()
    script.room = None
    script.show()


def some_bytes_of_records(script):
    """Records with any bytes in them, perhaps too few; sizes are within those that the driver has."""
    rand = script.rand
    operation = rand.choice([BEGIN, STORE, STOP, CANCEL, DEVICE, PROGRESS, SET_TRANSFER, FRESH_TRANSFER])
    number, lent, room = rand.randrange(256), rand.choice([0, 1, 5, 300, TABLE_SIZE]), rand.choice([0, 9, 10, 30])
    clock, small = rand.randrange(2**32), rand.choice([0, 1, 2, 3, rand.randrange(65536)])
    numbers = {
        BEGIN: [number, clock, small, lent, room],
        STORE: [number, rand.randrange(65536), lent, room],
        STOP: [number, room],
        CANCEL: [clock, room],
        DEVICE: [clock, small, lent, room],
        SET_TRANSFER: [rand.choice([small, clock]), rand.choice([1, 2, small]), rand.choice([0, 1, small])],
    }.get(operation, [])
    rest = bytes(rand.choices([0, 0, 0, 1, 2, 3, 5, FF], k=rand.choice([0, 4, 5, 6, 7, 8])))
    made = packed(operation, *numbers, rest=rest)[3:]
    script.box.put(record(operation, made[: rand.choice([len(made), len(made), rand.randint(0, len(made))])]))


FAMILIES = [
    ("pieces in order", (in_order, False), 70),
    ("pieces with faults", (with_faults, False), 120),
    ("announcements", (many_announcements, False), 100),
    ("cancelled", (cancelled, False), 60),
    ("every room", (every_room, False), 60),
    ("asking for room", (asking, False), 40),
    ("made-up transfers and links", (made_up, False), 80),
    ("large tables", (large, False), 10),
    ("a box at work", (box_at_work, False), 80),
    ("any bytes", (some_bytes_of_records, False), 30),
    ("on the wire: pieces in order", (in_order, True), 50),
    ("on the wire: pieces with faults", (with_faults, True), 60),
    ("on the wire: announcements", (many_announcements, True), 50),
    ("on the wire: cancelled", (cancelled, True), 40),
    ("on the wire: every room", (every_room, True), 30),
    ("on the wire: asking for room", (asking, True), 40),
    ("on the wire: made-up transfers and links", (made_up, True), 30),
    ("on the wire: noise and damage", (noisy, True), 70),
    ("on the wire: a box at work", (box_at_work, True), 60),
]


def script_of(rand, family):
    """The steps of some rounds of a family; last the front of the table is shown, now and then all of it."""
    rounds, wired = family
    script = Script(rand, wired)
    size = rand.choice([30, 60, 100, 200, 300])
    while len(script.box.steps) < size:
        rounds(script)
    script.show_up_to(script.top if rand.randrange(25) else TABLE_SIZE)
    return script.box.steps
