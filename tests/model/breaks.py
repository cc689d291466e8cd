"""Frames whose stuffing breaks at a chosen place of the body (PROTOCOL 3.11).

The first body byte is not such a place: an FF there makes the start move (PROTOCOL 3.5).
"""
from wire import FF, HEADER, STUFFING, stuff

NEAR = bytes.fromhex("54 56 57 51 5D 45 75 15 D5 00 7F FE AA")  # a bit or a step away from 55 or FF, and 0
BREAKING = bytes(byte for byte in range(256) if byte not in (STUFFING, FF))


def breaking_byte(rand):
    """Neither 55 nor FF."""
    return rand.choice([rand.choice(NEAR), rand.choice(BREAKING)])


def broken_at(body, place, byte):
    """A frame up to the byte that breaks it. Place is how many body bytes are complete."""
    return HEADER + stuff(body[:place]) + bytes([FF, byte])


def rest_of(rand, body, place):
    """What can come after a break: nothing, the body from its place on, or all after it."""
    return rand.choice([b"", stuff(body[place:]), stuff(body[place + 1 :])])


def places(body):
    """From the second body byte to the sum."""
    return range(1, len(body))
