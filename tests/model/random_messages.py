"""Random streams of messages, messages and frames to write, and frames to reply to.

A family of streams has its rounds, and a share in a thousand. A round is all the frames that it yields.
"""
import itertools

from asking import steps_in
from breaks import breaking_byte, broken_at, places, rest_of
from driver import empty_output, message_step, reply_step, write_step
from message import CONTROL, EMPTY, LISTED, QUERY, REPORT, STATUS, write_message
from wire import FF, HEADER, STUFFING, body_of, in_bytes, stuff, on_wire

EDGES = bytes([FF, FF, STUFFING, 0, 1])


# Payloads of each kind with random values, all allowed.


def some_bytes(rand, size):
    """Bytes of all values, or of those that matter to stuffing."""
    return rand.randbytes(size) if rand.randrange(3) else bytes(rand.choices(EDGES, k=size))


def some_bits(rand, *places):
    """A number in which only bits of these places are set."""
    return sum(rand.randrange(2) << place for place in places)


def some_status(rand):
    first = some_bits(rand, 0, 1) | rand.randrange(3) << 2
    return bytes([first]) + some_bytes(rand, 6) + bytes([some_bits(rand, 0, 1, 2)])


def some_control(rand):
    flags, mode = some_bits(rand, 0, 1, 2), rand.randrange(3)
    if not flags & 2 and rand.randrange(2):
        mode = 3
    return bytes([flags, some_bits(rand, 0) | mode << 1]) + some_bytes(rand, 2)


def in_two(number):
    return in_bytes(2, number % 65536)


def with_code(rand, command, size, off=0):
    """19 or 1B with a check code of that size, its count off by so much."""
    code = some_bytes(rand, size)
    if command == 0x19:
        return some_bytes(rand, 4) + in_two(size + off) + code
    return in_two(size + off) + code + some_bytes(rand, 2)


def messages(rand):
    """Each kind of message once: command and payload."""
    for command in EMPTY:
        yield command, b""
    for size in (66, 74, 106):
        yield 0x02, some_bytes(rand, size)
    yield 0x03, b"\1" + some_control(rand)
    yield 0x03, b"\2"
    yield 0x04, b""
    yield 0x04, b"\3" + some_status(rand)
    yield 0x05, b"\4" + some_status(rand)
    yield 0x09, bytes([rand.randint(1, 2)])
    yield 0x0D, some_bytes(rand, 2)
    for command in (0x11, 0x12):
        yield command, bytes([rand.randint(1, 4)])
    for size in (7, 11):
        yield 0x18, some_bytes(rand, size)
    for command in (0x19, 0x1B):
        yield command, with_code(rand, command, rand.choice([0, 1, 32, rand.randrange(60)]))
    yield 0x1D, some_bytes(rand, 4 + rand.choice([0, 1, rand.randrange(130)]))


# Sizes at which something changes; 0 for the commands that are not here.
SIZES = {
    0x02: [66, 74, 106],
    0x03: [1, 5],
    0x04: [0, 9],
    0x05: [1, 9],
    0x09: [1],
    0x0D: [2],
    0x11: [1],
    0x12: [1],
    0x18: [7, 11],
    0x19: [6, 38],
    0x1B: [4, 36],
    0x1D: [4, 132],
}
FIRST = {0x03: b"\1\2", 0x04: b"\3", 0x05: b"\4"}


def plausible(rand, command, size):
    """A payload of that size, mostly with a first byte or a count that the command can have."""
    payload = bytearray(some_bytes(rand, size))
    if command in FIRST and rand.randrange(4):
        payload[:1] = bytes([rand.choice(FIRST[command])])
        payload[1:] = rand.choice([payload[1:], bytes(max(size - 1, 0))])
    if command == 0x19 and rand.randrange(4):
        payload[4:6] = in_two(size - 6)
    if command == 0x1B and rand.randrange(4):
        payload[:2] = in_two(size - 4)
    return bytes(payload[:size])


def some_body(rand, command, payload):
    number = rand.choice([0, 1, FF, STUFFING, rand.randrange(256)])
    return body_of(command, number, rand.choice([0, 0, 1, FF, 0xFF55, 0xFFFF, rand.randrange(65536)]), payload)


def framed(rand, command, payload):
    return HEADER + stuff(some_body(rand, command, payload))


# The families of streams.


def every_command(rand):
    for command in range(256):
        size = rand.choice(SIZES.get(command, [0])) + rand.choice([-2, -1, 0, 0, 1, 2, rand.randrange(12)])
        yield framed(rand, command, plausible(rand, command, max(size, 0)))


def each_size(rand):
    for command in LISTED:
        for size in range(120 if command == 0x02 else 13):
            yield framed(rand, command, plausible(rand, command, size))


def each_kind(rand):
    for command, payload in messages(rand):
        yield framed(rand, command, payload)


def one_bit_changed(rand):
    for command, payload in messages(rand):
        data = bytearray(payload)
        if data:
            data[rand.choice([0, -1, rand.randrange(len(data))])] ^= 1 << rand.randrange(8)
        else:
            command ^= 1 << rand.randrange(8)
        yield framed(rand, command, data)


def one_byte_changed(rand):
    """One byte changed, left out or put in."""
    for command, payload in messages(rand):
        data = bytearray(payload)
        how = rand.randrange(3) if data else 2
        at = rand.randrange(len(data) + (how == 2))
        if how == 0:
            data[at] = rand.randrange(256)
        elif how == 1:
            del data[at]
        else:
            data.insert(at, rand.randrange(256))
        yield framed(rand, command, data)


def unused_bits(rand):
    """Each bit of status and control that has no meaning, and each reserved bit of 0D."""
    for byte, places in ((0, range(4, 8)), (7, range(3, 8))):
        for place in places:
            for command, first in ((0x04, 3), (0x05, 4)):
                status = bytearray(some_status(rand))
                status[byte] |= 1 << place
                yield framed(rand, command, bytes([first]) + status)
    for byte, place in itertools.product((0, 1), range(3, 8)):
        control = bytearray(some_control(rand))
        control[byte] |= 1 << place
        yield framed(rand, 0x03, b"\1" + control)
    for place in (6, 7, 13, 14, 15):
        yield framed(rand, 0x0D, in_two(rand.randrange(65536) | 1 << place))


def each_mode(rand):
    """Control with each set of flags, lamp and mode; status with each value of its first four bits and its alarms."""
    for flags, second in itertools.product(range(8), range(8)):
        yield framed(rand, 0x03, bytes([1, flags, second]) + some_bytes(rand, 2))
    for first, alarms in itertools.product(range(16), range(8)):
        status = bytes([first]) + some_bytes(rand, 6) + bytes([alarms])
        yield framed(rand, *rand.choice([(0x04, b"\3" + status), (0x05, b"\4" + status)]))


def each_first_byte(rand):
    for command, first in itertools.product((0x03, 0x04, 0x05), range(256)):
        status = rand.choice([some_status(rand), some_control(rand), b"", some_bytes(rand, rand.randrange(12))])
        yield framed(rand, command, bytes([first]) + status)
    for command, first, size in itertools.product((0x03, 0x04, 0x05), range(5), range(12)):
        yield framed(rand, command, bytes([first]) + bytes(size))


def each_code(rand):
    for command, code in itertools.product((0x09, 0x11, 0x12), range(256)):
        yield framed(rand, command, bytes([code]))


def counts(rand):
    """19 and 1B with a count that fits, that is off, or that is cut."""
    for command, off in itertools.product((0x19, 0x1B), (-256, -2, -1, 0, 1, 2, 256)):
        for size in (0, 1, 2, 32, rand.randrange(260)):
            yield framed(rand, command, with_code(rand, command, size, off))
    for command, size in itertools.product((0x19, 0x1B), range(8)):
        yield framed(rand, command, bytes(size))
        yield framed(rand, command, plausible(rand, command, size))


def no_payload(rand):
    for command in range(256):
        yield framed(rand, command, b"")


def longest(rand):
    """Payloads of 1,019 bytes and of one less, also where the listed sizes reach so far."""
    for command in (0x1D, 0x03, 0x04, 0x05, rand.randrange(256), rand.choice(LISTED)):
        yield framed(rand, command, plausible(rand, command, rand.randint(1018, 1019)))
    yield framed(rand, 0x1D, bytes([FF]) * 1019)
    yield framed(rand, 0x19, with_code(rand, 0x19, 1013, rand.choice([0, 0, -1, 1])))
    yield framed(rand, 0x1B, with_code(rand, 0x1B, 1015, rand.choice([0, 0, -1, 1])))


def all_ff(rand):
    for command in LISTED:
        for size in SIZES.get(command, [0]):
            yield framed(rand, command, bytes([FF]) * max(size + rand.choice([-1, 0, 0, 0, 1]), 0))
    for size in (66, 74, 106):
        yield on_wire(0x02, FF, 0xFFFF, bytes([FF]) * size)


def wrong_sums(rand):
    for command in range(256):
        payload = some_bytes(rand, rand.randrange(9))
        body = bytearray(body_of(command, rand.randrange(256), rand.randrange(65536), payload))
        body[-1] = rand.choice([(body[-1] + 1) % 256, body[-1] ^ 1 << rand.randrange(8), FF, rand.randrange(256)])
        yield HEADER + stuff(body)


def broken_stuffing(rand):
    """Each kind of message whole, and with its stuffing broken at some place: only the whole one has lines."""
    for command, payload in messages(rand):
        yield framed(rand, command, payload)
        body = some_body(rand, command, payload)
        place = rand.choice(places(body))
        yield broken_at(body, place, breaking_byte(rand)) + rest_of(rand, body, place)


def noise(rand, most):
    return bytes(rand.choices(EDGES + bytes([5, 7]), k=rand.randrange(most)))


def between_noise(rand):
    """Frames, some cut short or with a byte of the wire changed, and noise."""
    for command, payload in messages(rand):
        data = bytearray(framed(rand, command, payload))
        how = rand.randrange(5)
        if how == 0:
            del data[rand.randrange(len(data)) :]
        elif how == 1:
            data[rand.randrange(len(data))] = rand.choice(EDGES)
        elif how == 2:
            data[rand.randrange(len(data))] ^= 1 << rand.randrange(8)
        yield noise(rand, 6) + data


STREAMS = [
    ("every command, sizes near the listed ones", every_command, 110),
    ("listed commands, each size", each_size, 20),
    ("valid messages of each kind", each_kind, 110),
    ("messages with one bit changed", one_bit_changed, 110),
    ("messages with one byte changed", one_byte_changed, 110),
    ("unused and reserved bits", unused_bits, 60),
    ("modes with and without flag", each_mode, 60),
    ("first bytes of 03, 04 and 05", each_first_byte, 40),
    ("codes of 09, 11 and 12", each_code, 20),
    ("counts of 19 and 1B", counts, 80),
    ("no payload", no_payload, 20),
    ("the longest payloads", longest, 40),
    ("payloads full of FF", all_ff, 60),
    ("wrong sums", wrong_sums, 40),
    ("broken stuffing", broken_stuffing, 40),
    ("messages between noise", between_noise, 80),
]
MAX_SIZE = 65000  # bytes of a stream


def stream_of(rand, family):
    """Rounds of a family in any order, at least one."""
    most = rand.choice([2000, 4000, 6000, 10000, 15000, 20000] * 4 + [MAX_SIZE])
    data = b""
    while True:
        frames = list(family(rand))
        rand.shuffle(frames)
        more = b"".join(frames)
        if data and len(data) + len(more) > most or len(more) > MAX_SIZE:
            return data
        data += more


# Messages to write: allowed values and others, opaque bytes that fit and others, rooms near the one that is needed.


def some_values(rand):
    """The values of a message of any kind."""
    number = rand.choice([0, 1, 2, 3, 4, 5, 7, 8, FF, rand.randrange(256)])
    mode = rand.randrange(3)
    counter = [*rand.choices([0, 1], k=2), mode, rand.randrange(65536), rand.randrange(2**32)]
    bits = [rand.randrange(2) for _ in range(8)]
    device = [66, rand.randrange(65536)], [74, 0, rand.randrange(2**64)], [106, FF, rand.randrange(2**64)]
    return rand.choice(
        [
            [rand.choice([rand.choice(EMPTY), number, 0x21])],
            [0x02, *rand.choice(device)],
            [0x03, CONTROL, *bits[:4], mode, rand.randrange(65536)],
            [0x03, QUERY],
            [0x04, STATUS, *counter, *bits[:3]],
            [0x05, REPORT, *counter, *bits[:3]],
            [0x0D, *bits[:6], number, *bits[6:]],
            [0x09, rand.randint(1, 2)],
            [rand.choice([0x11, 0x12]), rand.randint(1, 4)],
            [0x18, rand.randrange(65536), *rand.randbytes(5), *[rand.randrange(2**32)] * rand.randrange(2)],
            [0x19, rand.randrange(2**32)],
            [0x1B, rand.randrange(65536)],
            [0x1D, rand.randrange(65536), rand.randrange(65536)],
        ]
    )


# Counts of opaque bytes at which something changes; 0 for the commands that are not here.
OPAQUE_SIZES = {0x02: [64, 96], 0x19: [0, 32, 1013, 1014], 0x1B: [0, 32, 1015, 1016], 0x1D: [0, 99, 1015, 1016]}


def some_write(rand):
    """Steps that write a message."""
    values = some_values(rand)
    fitting = OPAQUE_SIZES.get(values[0], [0])
    opaque = some_bytes(rand, rand.choice([*fitting * 3, rand.randrange(120)]))
    needed, output = 0, empty_output(4096)
    if rand.randrange(3):
        needed = write_message(values, opaque, 2, 0, output, len(output))[1]
    room = max(needed + rand.choice([-1, 0, 0, 1, 40]), 0)
    return steps_in(lambda room: message_step(values, opaque, room), room)


def some_reply(rand):
    """Steps that reply to a frame with little room."""
    command, payload = rand.choice([*messages(rand), (rand.randrange(256), some_bytes(rand, rand.randrange(9)))])
    number = rand.choice([FF, rand.randrange(256)])
    return steps_in(lambda room: reply_step(command, number, payload, room), rand.randrange(7, 13))


def some_frame(rand):
    """Steps that write a frame with any payload."""
    payload = some_bytes(rand, rand.choice([0, 1, 5, rand.randrange(60), 1019, 1020]))
    frame = rand.choice([FF, rand.randrange(256)]), rand.choice([FF, rand.randrange(256)]), rand.randrange(65536)
    needed = len(on_wire(*frame, payload))
    room = max(needed + rand.choice([-1, 0, 1, -rand.randint(0, needed)]), 0)
    return steps_in(lambda room: write_step(*frame, payload, room), room)


STEPS = [("writes", some_write, 50), ("replies", some_reply, 50), ("frames", some_frame, 50)]
