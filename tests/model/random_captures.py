"""Random captures: streams of both directions in records, cut and damaged."""
import itertools

from check_streams import FAMILIES as STREAMS
from check_streams import noise, one_byte_off
from replay import DIRECTIONS, HEAD_SIZE, MAX_COUNT, RECORD_HEAD_SIZE, head, record
from wire import on_wire

FEW = [0, 1, 2, 3, 5, 0x4C, 0x46, 0x54, 0xFF]  # of which heads are made


def pieces(rand, stream, most):
    """A stream in pieces of 0 to so many bytes."""
    at = 0
    while at < len(stream):
        size = rand.randint(0, most)
        yield stream[at : at + size]
        at += size


def some_stream(rand):
    family = rand.choice([family for name, family, *_ in STREAMS if "limit" not in name])
    return family(rand)


def some_time(rand):
    return rand.choice([0, 1, 2**32 - 1, rand.getrandbits(32)])


def some_records(rand, streams=None, most=None):
    """Records in which the streams of both directions are mixed."""
    streams = streams or [b"".join(some_stream(rand) for _ in range(rand.randint(0, 3))) for _ in DIRECTIONS]
    most = most or rand.choice([1, 2, 5, 30, 300])
    left = [list(pieces(rand, stream, most)) for stream in streams]
    order = [direction for direction in DIRECTIONS for _ in left[direction]]
    rand.shuffle(order)
    return [(direction, some_time(rand), left[direction].pop(0)) for direction in order]


def capture_of(records):
    return head() + b"".join(itertools.starmap(record, records))


def whole(rand):
    return capture_of(some_records(rand))


def byte_by_byte(rand):
    return capture_of(some_records(rand, most=1))


def cut(rand):
    data = whole(rand)
    return data[: rand.randint(0, len(data))]


def damaged(rand):
    """Mostly at the front of a record, where each byte counts."""
    records = some_records(rand)
    parts = [record(*some) for some in records] or [record(0, 0, b"")]
    at = rand.randrange(len(parts))
    if rand.randrange(3):
        parts[at] = one_byte_off(rand, parts[at][:RECORD_HEAD_SIZE]) + parts[at][RECORD_HEAD_SIZE:]
    else:
        parts[at] = one_byte_off(rand, parts[at])
    return head() + b"".join(parts)


def another_direction(rand):
    data = bytearray(whole(rand) + record(0, 0, b""))
    starts, at = [], HEAD_SIZE
    while at < len(data):
        starts.append(at)
        at += RECORD_HEAD_SIZE + int.from_bytes(data[at + 5 : at + 7], "big")
    data[rand.choice(starts)] = rand.choice([2, 3, 0x80, 0xFF])
    return bytes(data[: rand.choice([len(data), rand.randint(HEAD_SIZE, len(data))])])


def few_bytes(rand):
    """Heads and records by chance."""
    front = rand.choice([b"", b"L", b"LFT", b"LFT\0", head(), head(), head()])
    return front + bytes(rand.choice(FEW) for _ in range(rand.randint(0, 40)))


def empty_records(rand):
    records = [(rand.choice(DIRECTIONS), rand.getrandbits(32), b"") for _ in range(rand.randint(1, 9))]
    records.insert(rand.randint(0, len(records)), (1, 0, some_stream(rand)))
    return capture_of(records)


def full_records(rand):
    """Records of the longest count and of one byte less, and a record after them."""
    report = on_wire(5, rand.randrange(256), 0, bytes(9))
    payload = (report * (MAX_COUNT // len(report) + 1))[: MAX_COUNT - rand.choice([0, 1])]
    data = capture_of([(rand.choice(DIRECTIONS), 0, payload), (rand.choice(DIRECTIONS), 1, noise(rand, 9) + report)])
    return data[: rand.choice([len(data), rand.randint(HEAD_SIZE, len(data))])]


FAMILIES = [
    ("both directions", whole, 350),
    ("records of one byte", byte_by_byte, 100),
    ("a capture cut short", cut, 150),
    ("a capture with one byte wrong", damaged, 200),
    ("another direction", another_direction, 80),
    ("few different bytes", few_bytes, 70),
    ("empty records", empty_records, 45),
    ("full records", full_records, 5),
]
