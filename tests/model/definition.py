"""What a stream holds, from its bytes alone: there is no reader here, no state and no call.

The frames are found by the definition of a frame (PROTOCOL 5.6): each start and each end is tried. The answers
(PROTOCOL 4.2 to 4.9) are found by the stretches of bytes between headers. The reader is held to both (PROTOCOL 5.7 and
5.10).
"""
from answers import CLEAN, CUT, FRAME, LONG, OPEN, SHORT, STUFF, STUFFLATE, SUM
from wire import FF, HEADER, LIMIT, MIN_LENGTH, STUFFING, number_of, stuff

BEFORE_PAYLOAD = 2 + 1 + 1 + 2  # length, command, sequence number, flags (PROTOCOL 2.2)


def body_at(data, start, end):
    """The good body of a frame from start to end, or None (PROTOCOL 2.9)."""
    raw = data[start + 2 : end]
    body = raw.replace(bytes([FF, STUFFING]), bytes([FF]))
    length = number_of(body[:2])
    if not MIN_LENGTH <= length <= LIMIT or len(body) != length + 2 or stuff(body) != raw:
        return None
    return body if sum(body[:-1]) % 256 == body[-1] else None


def frames(data):
    """Start, end and body of each frame."""
    found = []
    for start in range(len(data)):
        if data[start : start + 2] != HEADER:
            continue
        for end in range(start + 2, len(data) + 1):
            body = body_at(data, start, end)
            if body is not None:
                found.append((start, end, body))
    return found


def broken_by(whole, byte):
    """STUFF or STUFFLATE, as decided_by returns it (PROTOCOL 4.6, 4.19).

    `whole` are the bytes between the header and the FF that waits: each FF of them has its 55, which is not a body
    byte. `byte` comes after the FF that waits.
    """
    complete = len(whole) - whole.count(FF)
    return STUFF if complete < BEFORE_PAYLOAD else STUFFLATE, len(whole) + 2, None, byte


def decided_by(stretch):
    """What the bytes after a header decide: the answer, how many of them it needs, the body, further values.

    None where they decide nothing. The further values are those of PROTOCOL 4.19 and 4.20. No header is in the bytes,
    though an FF at their end can be the first half of one.
    """
    body, at = b"", 0
    while at < len(stretch):
        if stretch[at] != FF:
            size = 1
        elif at + 1 == len(stretch):
            return None  # the next byte says what this FF is
        elif stretch[at + 1] != STUFFING:
            return broken_by(stretch[:at], stretch[at + 1])
        else:
            size = 2
        body += stretch[at : at + 1]
        at += size
        length = number_of(body[:2])
        if len(body) == 2 and not MIN_LENGTH <= length <= LIMIT:
            return SHORT if length < MIN_LENGTH else LONG, at, None
        if len(body) >= 2 and len(body) == length + 2:
            found, computed = body[-1], sum(body[:-1]) % 256
            return (FRAME, at, body) if found == computed else (SUM, at, body, found, computed)
    return None


def answers_to(data):
    """The answers, each with start, end, body and further values; and the answer to the end of the stream."""
    headers = [place for place in range(2, len(data) + 1) if data[place - 2 : place] == HEADER]  # where each one ends
    found, still_open = [], None
    for header, following in zip(headers, [*headers[1:], None]):
        start = header - 2
        if following == header + 1:
            continue  # the start moves
        decision = decided_by(data[header : following and following - 1])
        if decision:
            answer, size, *rest = decision
            found.append((answer, start, header + size, *rest))
        elif following:
            found.append((CUT, start, following, None))
        else:
            still_open = start
    return found, [CLEAN, len(data)] if still_open is None else [OPEN, len(data), still_open]
