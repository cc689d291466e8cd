"""The frame on the wire (PROTOCOL 2) and the writer (PROTOCOL 6)."""
from answers import DONE, PAYLOAD, ROOM

FF, STUFFING = 0xFF, 0x55
HEADER = bytes([FF, FF])
MIN_LENGTH, LIMIT = 5, 1024  # PROTOCOL 2.4
MAX_PAYLOAD = 1019
MAX_WIRE = 2 + 2 * (LIMIT + 2)  # PROTOCOL 2.8


def number_of(data):
    """A big-endian number (PROTOCOL 1.4)."""
    return int.from_bytes(data, "big")


def in_bytes(size, number=0):
    return number.to_bytes(size, "big")


def body_of(command, number, flags, payload):
    """Length, command, sequence number, flags, payload and sum (PROTOCOL 2.2, 2.3, 2.5)."""
    body = in_bytes(2, len(payload) + 5) + bytes([command, number]) + in_bytes(2, flags) + bytes(payload)
    return body + bytes([sum(body) % 256])


def stuff(body):
    """A body with 55 after each FF (PROTOCOL 2.6)."""
    return body.replace(bytes([FF]), bytes([FF, STUFFING]))


def on_wire(command, number, flags, payload):
    return HEADER + stuff(body_of(command, number, flags, payload))


def write_frame(command, number, flags, payload, output, room):
    """Answer and count (PROTOCOL 6.1 to 6.5); of ROOM the length of the whole frame.

    The caller's buffer is the first `room` bytes of the output.
    """
    if len(payload) > MAX_PAYLOAD:
        return PAYLOAD, 0
    frame = on_wire(command, number, flags, payload)
    if room < len(frame):
        return ROOM, len(frame)
    output[: len(frame)] = frame
    return DONE, len(frame)
