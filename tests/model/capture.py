"""The calls of a capture: a head and a record written (PROTOCOL 13.11, 13.12), and a capture read (13.9, 13.10).

A cursor is a place.
"""
from answers import DIRECTION, DONE, MARK, MORE, PAYLOAD, ROOM, STATE, USED, VERSION
from replay import DIRECTIONS, HEAD_SIZE, MAX_COUNT, RECORD_HEAD_SIZE, THE_MARK, head, read_capture, record
from wire import number_of

RECORD, WHOLE = 1, 2  # of next and of finish
MAX_PLACE = 2**62


def written(data, output):
    """Answer and count; of ROOM the length of all of it."""
    if len(output) < len(data):
        return ROOM, len(data)
    output[: len(data)] = data
    return DONE, len(data)


def write_head(output):
    return written(head(), output)


def write_record(direction, milliseconds, payload, output):
    if len(payload) > MAX_COUNT:
        return PAYLOAD, 0
    return written(record(direction, milliseconds, payload), output)


def out_of_range(place, window):
    """The answer to a cursor or a window that no capture comes to; else None."""
    if place != 0 and place not in range(HEAD_SIZE, MAX_PLACE + 1):
        return STATE, 0
    if place + len(window) > MAX_PLACE:
        return USED, 0
    return None


def next_head(window):
    for at, (wanted, found) in enumerate(zip(head(), window)):
        if wanted != found:
            return ((MARK, 0) if at < len(THE_MARK) else (VERSION, len(THE_MARK))), 0
    return ((MORE, 0), 0) if len(window) < HEAD_SIZE else ((MORE, HEAD_SIZE), HEAD_SIZE)


def next_record(place, window):
    if window and window[0] not in DIRECTIONS:
        return (DIRECTION, place), place
    size = RECORD_HEAD_SIZE + number_of(window[5:7])
    if len(window) < RECORD_HEAD_SIZE or len(window) < size:
        return (MORE, 0), place
    return (RECORD, size, window[0], number_of(window[1:5])), place + size


def next_of(place, window):
    """The answer, and the cursor's place after the call."""
    refused = out_of_range(place, window)
    if refused:
        return refused, place
    return next_record(place, window) if place else next_head(window)


def payload_of(window):
    """A missing byte of the count is 0; a payload ends where the window does."""
    count = number_of(window[5:7].ljust(2, b"\0"))
    return window[RECORD_HEAD_SIZE:][:count]


def finish(place, window):
    """What the capture is that ends here. All of it is read, with an empty one in the place of what was taken."""
    refused = out_of_range(place, window)
    if refused:
        return refused
    records, number, at = read_capture(head() * bool(place) + window)
    if records or not place and number not in (MARK, VERSION):
        return MORE, 0
    if number is None:
        return WHOLE, place
    return number, at + max(place - HEAD_SIZE, 0)
