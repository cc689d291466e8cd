"""Asking and then writing: a call that met ROOM, made again in just the room that it said, is written.

It is about records and printed lines alone; no rule of what is written is in here.
"""
from records import BEGIN, CANCEL, DEVICE, FIELDS, REPLY, STOP, STORE, WRITE, WRITE_HEAD, WRITE_MESSAGE, WRITE_RECORD

HEAD = 3  # bytes of a record before its data
# Where the room is in the data, and how many bytes it has. In a record of a transfer it is the last number.
PLACES = {WRITE: (4, 2), WRITE_MESSAGE: (0, 2), REPLY: (0, 2), WRITE_HEAD: (0, 4), WRITE_RECORD: (0, 4)}
PLACES |= {operation: (sum(FIELDS[operation][:-1]), 2) for operation in (BEGIN, STORE, STOP, CANCEL, DEVICE)}


def room_said(line):
    """The length that a line says with ROOM, 0 where it says none; None where it is not about ROOM."""
    words = line.split(" ")
    if words[1:2] != ["22"]:
        return None
    return int(words[2]) if words[2:] and words[2].isdigit() else 0


def steps_in(step, room):
    """A call in some room, and where that is too little once more in the room said. `step` makes its step in a room."""
    made, lines = step(room)
    needed = room_said(lines[-1])
    return [(made, lines)] + ([] if needed is None else [step(needed)])


def room_of(made):
    place, size = PLACES[made[0]]
    return int.from_bytes(made[HEAD:][place : place + size].ljust(size, b"\0"), "big")


def in_room(made, room):
    """The same call in another room."""
    place, size = PLACES[made[0]]
    return made[: HEAD + place] + room.to_bytes(size, "big") + made[HEAD + place + size :]


def misasked(steps, tally):
    """The first call that asks for no more than it has, or that is not written in the room it asked for; or ''."""
    for (made, lines), (again, then) in zip(steps, [*steps[1:], (b"", [])]):
        # Where a record has more lines, the frames before its last one may have changed something.
        needed = room_said(lines[0]) if made[0] in PLACES and len(lines) == 1 else None
        if needed is None:
            continue
        if needed <= room_of(made):
            return f"{lines[0][:200]!r} in a room of {room_of(made)}"
        if again == in_room(made, needed):
            word, *values = " ".join(then).split(" ")
            if values[:1] == ["22"] or values[1:2] != [str(needed)]:
                return f"{lines[0][:200]!r}, then {then} in a room of {needed}"
            tally[f"{word} in the room said"] += 1
    return ""
