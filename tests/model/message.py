"""Messages, read and written (PROTOCOL 7).

A message is its values (PROTOCOL 7.21), the command first, and its opaque bytes (PROTOCOL 7.24), which are its parts
(PROTOCOL 7.9) joined. Its mode, way or code is one that exists, so that writing refuses no value but a strength.
"""
from answers import COMMAND, DONE, FIELD, SIZE
from counter import bit, read_control, read_status, write_control, write_status
from wire import in_bytes, number_of, write_frame

EMPTY = bytes.fromhex("01 06 07 08 0A 0B 0C 0E 0F 10 13 14 15 16 17 1A 1C 1E 1F 20 27 28 29 2A")
FILLED = bytes.fromhex("02 03 04 05 09 0D 11 12 18 19 1B 1D")
LISTED = EMPTY + FILLED

INFORMATION_SIZES = 66, 74, 106
CONTROL, QUERY, STATUS, REPORT = 1, 2, 3, 4  # the first payload byte of 03, 04 and 05
# It chooses the layout and the size of the whole payload (PROTOCOL 7.17).
LAYOUTS = {(0x03, CONTROL): 5, (0x03, QUERY): 1, (0x04, STATUS): 9, (0x05, REPORT): 9}


# Reading.


def size_is_listed(command, payload):
    """PROTOCOL 7.2 and 7.17."""
    size = len(payload)
    if command in EMPTY:
        return size == 0
    if command == 0x02:
        return size in INFORMATION_SIZES
    if command in (0x03, 0x04, 0x05):
        if size == 0:
            return command == 0x04
        return size == LAYOUTS.get((command, payload[0]), size)  # another first byte is FIELD, at any size
    if command in (0x09, 0x11, 0x12):
        return size == 1
    if command == 0x0D:
        return size == 2
    if command == 0x18:
        return size in (7, 11)
    if command == 0x19:
        return size >= 6 and size == 6 + number_of(payload[4:6])
    if command == 0x1B:
        return size >= 4 and size == 4 + number_of(payload[:2])
    return size >= 4  # 1D


def read_values(command, payload):
    """The values of a payload whose size is listed (PROTOCOL 7.10 to 7.16); None where one of them is not allowed."""
    if not payload:
        return []  # the commands without payload, and 04 empty
    if command == 0x02:
        # Four texts of 8 and the product key of 32 come before the timeout, the secret after the attributes.
        attributes = [number_of(payload[66:74])] if len(payload) > 66 else []
        return [len(payload), number_of(payload[64:66])] + attributes
    if command in (0x03, 0x04, 0x05):
        return read_counter(command, payload)
    if command == 0x09:
        return [payload[0]] if payload[0] in (1, 2) else None
    if command == 0x0D:
        word = number_of(payload)
        return [bit(word, place) for place in range(6)] + [word >> 8 & 7, bit(word, 11), bit(word, 12)]
    if command in (0x11, 0x12):
        return [payload[0]] if 1 <= payload[0] <= 4 else None
    if command == 0x18:
        seconds = [number_of(payload[7:11])] if len(payload) > 7 else []
        return [number_of(payload[:2])] + list(payload[2:7]) + seconds
    if command == 0x19:
        return [number_of(payload[:4])]
    if command == 0x1B:
        return [number_of(payload[-2:])]
    return [number_of(payload[:2]), number_of(payload[2:4])]


def read_counter(command, payload):
    first = payload[0]
    if (command, first) not in LAYOUTS:
        return None
    if first == QUERY:
        return [QUERY]
    values = read_control(payload[1:]) if first == CONTROL else read_status(payload[1:])
    return None if values is None else [first] + values


def read_message(command, payload):
    """The answer and, where it is DONE, the message's values (PROTOCOL 7.4 to 7.7)."""
    if command not in LISTED:
        return COMMAND, []
    if not size_is_listed(command, payload):
        return SIZE, []
    values = read_values(command, payload)
    if values is None:
        return FIELD, []
    return DONE, [command] + values


def parts_of(command, payload):
    """The eight parts of a payload that was read: four texts, product key, secret, check code, data of a piece."""
    parts = [b""] * 8
    if command == 0x02:
        parts[0:4] = payload[0:8], payload[8:16], payload[16:24], payload[24:32]
        parts[4] = payload[32:64]
        parts[5] = payload[74:106]
    elif command == 0x19:
        parts[6] = payload[6:]
    elif command == 0x1B:
        parts[6] = payload[2:-2]
    elif command == 0x1D:
        parts[7] = payload[4:]
    return parts


# Writing.


def opaque_fits(values, opaque):
    """Whether the message takes so many opaque bytes (PROTOCOL 7.24 and 7.25)."""
    command = values[0]
    if len(values) == 1:
        return (command in EMPTY or command == 0x04) and not opaque
    if command == 0x02:
        size = values[1]
        return size in INFORMATION_SIZES and len(opaque) == (96 if size == 106 else 64)
    if command in (0x19, 0x1B):
        return len(opaque) <= 65535  # its count has two bytes
    if command == 0x1D:
        return True
    return not opaque


def write_network(bits, strength, app, test):
    if strength > 7:
        return None  # it does not fit its three bits
    word = sum(value << place for place, value in enumerate(bits)) | strength << 8 | app << 11 | test << 12
    return in_bytes(2, word)


def payload_of(values, opaque):
    """The payload of a message whose size is listed; None where a value is not allowed."""
    command, rest = values[0], values[1:]
    if not rest:
        return b""
    if command == 0x02:
        attributes = in_bytes(8, rest[2]) if rest[0] > 66 else b""
        return opaque[:64] + in_bytes(2, rest[1]) + attributes + opaque[64:]
    if command in (0x03, 0x04, 0x05):
        first = bytes([rest[0]])
        if rest[0] == QUERY:
            return first
        return first + (write_control(*rest[1:]) if rest[0] == CONTROL else write_status(*rest[1:]))
    if command in (0x09, 0x11, 0x12):
        return bytes(rest)
    if command == 0x0D:
        return write_network(rest[:6], *rest[6:])
    if command == 0x18:
        seconds = in_bytes(4, rest[6]) if len(rest) > 6 else b""
        return in_bytes(2, rest[0]) + bytes(rest[1:6]) + seconds
    if command == 0x19:
        return in_bytes(4, rest[0]) + in_bytes(2, len(opaque)) + opaque
    if command == 0x1B:
        return in_bytes(2, len(opaque)) + opaque + in_bytes(2, rest[0])
    return in_bytes(2, rest[0]) + in_bytes(2, rest[1]) + opaque


def write_message(values, opaque, number, flags, output, room):
    """Answer and count (PROTOCOL 7.22 and 7.23)."""
    command = values[0]
    if command not in LISTED:
        return COMMAND, 0
    if not opaque_fits(values, opaque):
        return SIZE, 0
    payload = payload_of(values, opaque)
    if payload is None:
        return FIELD, 0
    return write_frame(command, number, flags, payload, output, room)
