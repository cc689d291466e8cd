"""The counter's own layouts: status in 8 bytes, control in 4 (PROTOCOL 7.18 to 7.20).

Reading gives the values, or None where one is not allowed; writing takes the same values.
"""
from wire import in_bytes, number_of

NO_MODE = 3  # fold, gather and sew are 0 to 2


def bit(value, place):
    return value >> place & 1


def read_status(data):
    """Feeding, lamp, mode, volume, leaf, double leaf, skipped leaf, sensor fault."""
    first, alarms = data[0], data[7]
    if first & 0b11110000 or alarms & 0b11111000:
        return None
    mode = first >> 2 & 3
    if mode == NO_MODE:
        return None
    return [
        bit(first, 0),
        bit(first, 1),
        mode,
        number_of(data[1:3]),
        number_of(data[3:7]),
        bit(alarms, 0),
        bit(alarms, 1),
        bit(alarms, 2),
    ]


def write_status(feeding, lamp, mode, volume, leaf, double, skipped, fault):
    first = feeding | lamp << 1 | mode << 2
    alarms = double | skipped << 1 | fault << 2
    return bytes([first]) + in_bytes(2, volume) + in_bytes(4, leaf) + bytes([alarms])


def read_control(data):
    """The flags of lamp, mode and volume, then lamp, mode and volume. Without its flag a value is 0."""
    flags, second = data[0], data[1]
    if flags & 0b11111000 or second & 0b11111000:
        return None
    lamp, mode, volume = bit(second, 0), second >> 1 & 3, number_of(data[2:4])
    has_lamp, has_mode, has_volume = bit(flags, 0), bit(flags, 1), bit(flags, 2)
    if has_mode and mode == NO_MODE:
        return None
    return [
        has_lamp,
        has_mode,
        has_volume,
        lamp if has_lamp else 0,
        mode if has_mode else 0,
        volume if has_volume else 0,
    ]


def write_control(has_lamp, has_mode, has_volume, lamp, mode, volume):
    lamp, mode, volume = lamp if has_lamp else 0, mode if has_mode else 0, volume if has_volume else 0
    flags = has_lamp | has_mode << 1 | has_volume << 2
    return bytes([flags, lamp | mode << 1]) + in_bytes(2, volume)
