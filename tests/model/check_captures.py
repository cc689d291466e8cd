"""Calls of captures: the model and the program against lines worked out by hand, then the program against the model.

The model's next is held to the whole capture read at once.
"""
import collections
import itertools

from answers import DIRECTION, DONE, ENDED, MARK, MORE, PAYLOAD, ROOM, STATE, USED, VERSION
from asking import misasked, steps_in
from capture import MAX_PLACE, RECORD, WHOLE, finish, next_of, payload_of
from checks import lines_of, shares
from driver import MAX_ROOM, finish_step, head_step, next_step, record_step
from random_captures import FAMILIES, some_time, whole
from replay import DIRECTIONS, HEAD_SIZE, MAX_COUNT, RECORD_HEAD_SIZE, head, read_capture, record
from stated_calls import long_steps, steps

# The model.


def read_in_windows(rand, data):
    """What next finds in windows of any size, and then finish: in the form of read_capture."""
    records, place, size = [], 0, 0
    while True:
        window = data[place : place + size]
        (number, *values), after = next_of(place, window)
        if number == RECORD:
            records.append((*values[1:], payload_of(window)))
        if number not in (MORE, RECORD):
            return records, number, *values
        if after == place and place + size >= len(data):
            break
        size = rand.randint(0, 40) if after > place else max(2 * size, rand.randint(1, 40))
        place = after
    number, at = finish(place, data[place:])
    return (records, None, None) if number == WHOLE else (records, number, at)


def check_model(checks, seed, count):
    for name, (made, [line]), found in [*steps(), *long_steps()]:
        checks.test(f"the model: {name}", found == line, f"{found[:400]}, from {made[:40].hex(' ')}")
    for name, (family,), rand, share in shares(FAMILIES, seed, count):
        captures = (family(rand) for _ in range(share))
        wrong = next((data for data in captures if read_in_windows(rand, data) != read_capture(data)), None)
        checks.test(f"the model's cursor: seed {seed}, {name}", wrong is None, wrong and wrong[:400].hex(" "))


# The program: steps by chance.

SIZES = [0, 1, 2, 255, 256, 257]
LONG = [MAX_COUNT - 1, MAX_COUNT, MAX_COUNT + 1, MAX_ROOM]


def some_room(rand, needed):
    return max(0, needed + rand.choice([-1, 0, 1, 30, -rand.randint(0, needed)]))


def some_writing(rand):
    if not rand.randrange(20):
        return steps_in(head_step, some_room(rand, HEAD_SIZE))
    payload = rand.randbytes(rand.choice([*SIZES, rand.randrange(40)]))
    direction, time = rand.choice(DIRECTIONS), some_time(rand)
    room = some_room(rand, RECORD_HEAD_SIZE + len(payload))
    return steps_in(lambda room: record_step(direction, time, payload, room), room)


def both(place, window):
    return [next_step(place, window), finish_step(place, window)]


def some_place(rand, size):
    """Where a cursor may be or must not be, for a window of so many bytes."""
    edge = rand.choice([MAX_PLACE, MAX_PLACE - size]) + rand.randint(-1, 1)
    return rand.choice([0, rand.randint(1, 4), 5, 6, edge, rand.randrange(2**62), rand.randrange(2**64), 2**64 - 1])


def some_window(rand):
    """Of a short capture, from one of its records or its beginning on, or from anywhere else."""
    data = rand.choice([whole, *(family for name, family, _ in FAMILIES if name != "full records")])(rand)[:300]
    starts = [0, HEAD_SIZE]
    for _, _, payload in read_capture(data)[0]:
        starts.append(starts[-1] + RECORD_HEAD_SIZE + len(payload))
    start = rand.choice([*starts, rand.randint(0, len(data))])
    window = data[start : start + rand.choice([rand.randint(0, 40), 300])]
    return both(rand.choice([start, start, some_place(rand, len(window))]), window)


def some_front(rand):
    """A record of any count, of which any front is there."""
    made = record(rand.choice([0, 0, 0, 1, 1, 1, 2, 255]), some_time(rand), rand.randbytes(rand.choice(SIZES)))
    made = made[: rand.choice([len(made), len(made) - 1, rand.randint(0, 9)])] + rand.randbytes(rand.choice([0, 0, 1]))
    return both(some_place(rand, len(made)), made)


STEPS = [("writing", some_writing, 40), ("windows of captures", some_window, 40), ("fronts of records", some_front, 20)]
IN_SCRIPT = 200
SEEN = [("write", answer) for answer in (DONE, PAYLOAD, ROOM)]
SEEN += [("next", answer) for answer in (MORE, RECORD, MARK, VERSION, DIRECTION, STATE, USED)]
SEEN += [("finish", answer) for answer in (MORE, WHOLE, MARK, VERSION, DIRECTION, ENDED, STATE, USED)]

# Every case of a few kinds.


def every_room():
    """Each size at which something changes, in each room at which something changes."""
    for size in [*SIZES, *LONG]:
        for room in sorted({0, 6, 7, *(size + RECORD_HEAD_SIZE + more for more in (-1, 0, 1)), MAX_ROOM}):
            if room <= MAX_ROOM and (size <= MAX_COUNT or room in (0, 7, MAX_ROOM)):
                yield record_step(size % 2, size, (b"\xff" * 9)[:size].ljust(size, b"\0"), room)


def every_window():
    """Every window on a short capture; and on the longest records those around their ends."""
    data = head() + record(1, 0x01020304, b"\0\1\0\0\0\0\0\2") + record(0, 5, b"") + b"\2"
    for start, end in itertools.combinations_with_replacement(range(len(data) + 1), 2):
        yield from both(start, data[start:end])
    for size, more in itertools.product((MAX_COUNT - 1, MAX_COUNT), (-1, 0, 1)):
        window = record(0, size, b"\xff" * 9 + bytes(size - 9)) + b"\0"
        yield from both(5, window[: len(window) - 1 + more])


def every_place():
    """Cursors that are out of range, and at its ends."""
    edges = [*range(9), *(MAX_PLACE + more for more in range(-9, 3)), 2**63 - 1, 2**63, 2**64 - 1]
    for place, window in itertools.product(edges, (b"", b"\2", b"L", head(), record(1, 7, b""), record(1, 7, b"\xff"))):
        yield from both(place, window)


def check_program(checks, program, seed, count):
    for name, step, _ in [*steps(), *long_steps()]:
        wrong = program.wrong_on([step])
        checks.test(f"the program: {name}", not wrong, wrong)
    seen = collections.Counter()
    scripts = [(some.__doc__.partition(".")[0], list(some())) for some in (every_room, every_window, every_place)]
    for place, rand, some in checks.inputs(STEPS, seed, count, "capture script"):
        scripts.append((place, [step for _ in range(IN_SCRIPT) for step in some(rand)]))
    for name, script in scripts:
        seen.update(tuple(line.split(" ", 2)[:2]) for line in lines_of(script))
        checks.test_random(f"the program's captures: {name}", program.wrong_on(script))
        wrong = misasked(script, seen)
        checks.test(f"the program's captures: {name}, rooms asked for", not wrong, wrong)
    for word, answer in SEEN:
        times = seen[word, str(answer)]
        checks.test(f"'{word} {answer}' of a capture is seen", times > 0)
    asked = seen.pop("write in the room said", 0)
    checks.test("a head or a record written in the room said is seen", asked > 0)
    checks.say(f"{sum(seen.values())} calls of captures")
