"""The driver's records: operation in 1 byte, size of its data in 2, the data. docs/TEST_DRIVER.md has them."""

FRESH, FEED, FINISH, SET, WRITE, STREAM, WRITE_MESSAGE, REPLY, NAMES = range(9)
WRITE_HEAD, WRITE_RECORD, NEXT, FINISH_CAPTURE = range(9, 13)  # of a capture
BEGIN, STORE, STOP, CANCEL, FRESH_TRANSFER, SET_TRANSFER, PROGRESS, TABLE, FILL, DEVICE = range(64, 74)  # of a transfer
LINK = 128  # and above: the link's operations
MAX_DATA = 4096  # bytes of a record's data
# Of the operations of a transfer: the sizes of the numbers in their data. A payload or bytes of a stream follow.
FIELDS = {
    BEGIN: (1, 4, 2, 4, 2),  # number, clock, piece size, buffer size, room
    STORE: (1, 2, 4, 2),  # number, flags, buffer size, room
    STOP: (1, 2),  # number, room
    CANCEL: (4, 2),  # clock, room
    FRESH_TRANSFER: (),
    SET_TRANSFER: (4, 2, 2),  # size, piece size, pieces stored
    PROGRESS: (),
    TABLE: (4, 2),  # from, size
    FILL: (1,),  # byte
    DEVICE: (4, 2, 4, 2),  # clock, piece size, buffer size, room
}


def record(operation, data=b""):
    return bytes([operation]) + len(data).to_bytes(2, "big") + data


def packed(operation, *numbers, rest=b""):
    """A record of a transfer."""
    parts = [number.to_bytes(size, "big") for size, number in zip(FIELDS[operation], numbers, strict=True)]
    return record(operation, b"".join(parts) + rest)


def unpacked(operation, data):
    """The numbers of a record of a transfer, where a missing byte is 0, and last what follows them."""
    found, at = [], 0
    for size in FIELDS[operation]:
        found.append(int.from_bytes(data[at : at + size].ljust(size, b"\0"), "big"))
        at += size
    return [*found, data[at:]]


def records_of(script):
    """Operation and data of the whole records; an incomplete one at the end does not count."""
    found, at = [], 0
    while at + 3 <= len(script):
        end = at + 3 + int.from_bytes(script[at + 1 : at + 3], "big")
        if end > len(script):
            break
        found.append((script[at], script[at + 3 : end]))
        at = end
    return found


def is_whole(script):
    return script == b"".join(record(*pair) for pair in records_of(script))
