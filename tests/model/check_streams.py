"""Random streams in many cuts into calls: the model's reader against the definitions, the program against the model.

A family has its streams, its cuts, and a share in a thousand.
"""
import collections
import itertools

import definition
from answers import CLEAN, CUT, FRAME, LONG, MORE, OPEN, SHORT, STATE, STUFF, STUFFLATE, SUM, USED
from breaks import breaking_byte, broken_at, places, rest_of
from checks import lines_of, shares
from driver import Calls
from reader import MAX_CONSUMED, Reader
from records import MAX_DATA
from wire import FF, HEADER, MAX_PAYLOAD, STUFFING, body_of, on_wire, stuff

# A stream in calls; what a call leaves comes first in the next one (PROTOCOL 5.5).


def in_calls(data, until):
    """What is decided, in the form of definition.answers_to; and the answer of finish.

    A call at a place is offered the bytes up to until(place). Its count is within PROTOCOL 5.2 and 5.11, and its end
    is that of PROTOCOL 5.8, or this raises ValueError.
    """
    reader, at, decided = Reader(), 0, []
    while at < len(data):
        offered = data[at : until(at)]
        answer, count, *where = reader.feed(offered)
        if not 1 <= count <= len(offered):
            raise ValueError(f"the call at {at} answers {answer} and counts {count} of {len(offered)}")
        at += count
        if answer != MORE:
            start, end, *values = where
            if end != at:
                raise ValueError(f"the counts add up to {at}, and the end is {end}")
            body = reader.held() if answer in (FRAME, SUM) else None
            decided.append((answer, start, end, body, *values))
    return decided, reader.finish()


def some_cuts(rand, data):
    """Calls of every size where the stream is short, of some sizes where it is long, and of random sizes."""
    n = len(data)
    for size in range(1, n + 1) if n <= 64 else [1, 2, 3, 7, n - 1, n]:
        yield lambda at: at + size
    for top in (2, 5, 20):
        yield lambda at: at + rand.randint(1, top)


def every_cut(_, data):
    """Each set of places at which the bytes of a call end."""
    n = len(data)
    for ends in itertools.product([False, True], repeat=n - 1):
        yield lambda at: next((i for i in range(at + 1, n) if ends[i - 1]), n)


def differs(rand, data, cuts, by_definition):
    """Where the reader and the definitions differ on a stream, or ''."""
    frames = [tuple(values) for answer, *values in by_definition[0] if answer == FRAME]
    if frames != definition.frames(data):
        return f"frames {frames} by the stretches between headers, {definition.frames(data)} by trying each end"
    for until in cuts(rand, data):
        try:
            found = in_calls(data, until)
        except ValueError as error:
            return str(error)
        if found != by_definition:
            return f"{found} by the reader, {by_definition} by definition"
    return ""


# The families.

FEW = [FF, FF, FF, STUFFING, 0, 5, 4, 7, 1]


def some_body(rand, size):
    """With a payload of that size."""
    payload = bytes(rand.choice(FEW + [rand.randrange(256)]) for _ in range(size))
    command, number = (rand.choice(FEW + [rand.randrange(256)]) for _ in range(2))
    return body_of(command, number, rand.choice([0, 1, 0xFF, 0xFF55, 0xFFFF]), payload)


def some_frame(rand, most=6):
    return HEADER + stuff(some_body(rand, rand.randint(0, most)))


def noise(rand, most):
    return bytes(rand.choice(FEW) for _ in range(rand.randint(0, most)))


def one_byte_off(rand, data):
    """One byte changed, left out or put in."""
    data, at = bytearray(data), rand.randrange(len(data))
    how = rand.randrange(3)
    if how == 0:
        data[at] = rand.choice(FEW)
    elif how == 1:
        del data[at]
    else:
        data.insert(at, rand.choice(FEW))
    return bytes(data)


def few_bytes(rand):
    """The bytes of a frame without stuffing: a frame only where none of them is FF."""
    body = bytes([0, rand.choice([4, 5, 5, 5])]) + bytes(rand.choice(FEW) for _ in range(4))
    last = rand.choice([sum(body) % 256, rand.choice(FEW)])
    return noise(rand, 4) + HEADER + body + bytes([last]) + noise(rand, 9)


def between_noise(rand):
    return b"".join(noise(rand, 5) + some_frame(rand) for _ in range(rand.randint(1, 3))) + noise(rand, 3)


def back_to_back(rand):
    return b"".join(some_frame(rand) for _ in range(rand.randint(2, 4)))


def broken(rand):
    parts = [some_frame(rand) for _ in range(3)]
    parts[rand.randrange(3)] = one_byte_off(rand, rand.choice(parts))
    return b"".join(parts)


def cut_short(rand):
    whole = some_frame(rand)
    return some_frame(rand) + whole[: rand.randint(1, len(whole))] + some_frame(rand)


def some_front(rand):
    """What can come before a frame: noise, a frame, or a frame that its header cuts."""
    whole = some_frame(rand)
    return rand.choice([noise(rand, 5), whole, whole[: rand.randint(1, len(whole))]])


def broken_stuffing(rand):
    body = some_body(rand, rand.randint(0, 6))
    place = rand.choice(places(body))
    broken_off = broken_at(body, place, breaking_byte(rand))
    return some_front(rand) + broken_off + rest_of(rand, body, place) + noise(rand, 3) + some_frame(rand)


def broken_at_limit(rand):
    """The longest frame or one byte less, broken at its sum or at any place."""
    body = some_body(rand, MAX_PAYLOAD - rand.randint(0, 1))
    place = rand.choice([len(body) - 1, len(body) - 2, rand.choice(places(body))])
    return broken_at(body, place, breaking_byte(rand)) + some_frame(rand)


def special_sum(rand):
    """Sums that are FF or 55, stuffed or not."""
    number = rand.choice([243, 244, 73, 72])
    return noise(rand, 2) + on_wire(7, number, 0, b"") + noise(rand, 4) + on_wire(7, number, 0, b"")


def at_limit(rand):
    payload = bytes(rand.choice([FF, 0, STUFFING]) for _ in range(rand.choice([1018, 1019, 1020])))
    return noise(rand, 3) + on_wire(7, 1, 0, payload) + some_frame(rand)


def tiny(rand):
    number = rand.choice([1, 243, 255])
    return rand.choice([b"", bytes([FF]), bytes([0])]) + on_wire(7, number, 0, b"")


FAMILIES = [
    ("few different bytes", few_bytes, some_cuts, 220),
    ("frames between noise", between_noise, some_cuts, 170),
    ("frames back to back", back_to_back, some_cuts, 120),
    ("a frame with one byte wrong", broken, some_cuts, 160),
    ("a frame cut short", cut_short, some_cuts, 110),
    ("a frame with broken stuffing", broken_stuffing, some_cuts, 130),
    ("sums that are FF or 55", special_sum, some_cuts, 70),
    ("lengths at the limit", at_limit, some_cuts, 5),
    ("broken stuffing, lengths at the limit", broken_at_limit, some_cuts, 5),
    ("short streams, in every cut", tiny, every_cut, 10),
]


def check_model(checks, seed, count):
    checks.say_seed(seed, count, "stream")
    for name, (family, cuts), rand, share in shares(FAMILIES, seed, count):
        frames, wrong = 0, ""
        for _ in range(share):
            data = family(rand)
            by_definition = definition.answers_to(data)
            frames += sum(answer == FRAME for answer, *_ in by_definition[0])
            wrong = differs(rand, data, cuts, by_definition)
            if wrong:
                wrong = f"{data.hex(' ')}: {wrong}"
                break
        checks.test(f"the model's reader: seed {seed}, {name}", not wrong, wrong)
        # Streams without frames would show nothing.
        checks.test(f"the model's reader: {name}: there is a frame", frames > 0)


# The program, on calls of any size, with finish between them.

IN_SCRIPT = 20  # streams


def first_consumed(rand, size):
    """None for a fresh reader; else the bytes that it consumed before, near the most that it can."""
    if rand.randrange(4):
        return None
    return MAX_CONSUMED + rand.choice([1, -rand.randint(0, 2 * size)])


def random_calls(rand, data):
    """The steps of one stream. Now and then the bytes that a call leaves are not offered again."""
    calls, at = Calls(first_consumed(rand, len(data))), 0
    most = rand.choice([1, 3, 20, MAX_DATA])
    while at < len(data):
        offered = data[at : at + rand.randint(0, most)]
        count = calls.feed(offered)
        drops = not rand.randrange(12) or offered and not count
        at += len(offered) if drops else count
        if not rand.randrange(8):
            calls.finish()
    calls.finish()
    return calls.steps


SEEN = [("feed", answer) for answer in (MORE, FRAME, SHORT, LONG, STUFF, STUFFLATE, CUT, SUM, STATE, USED)]
SEEN += [("end", answer) for answer in (CLEAN, OPEN, STATE)]


def check_program(checks, program, seed, count):
    seen = collections.Counter()
    families = [(name, family, share) for name, family, _, share in FAMILIES]
    for place, rand, family in checks.inputs(families, seed, count // IN_SCRIPT, "reader script"):
        steps = [step for _ in range(IN_SCRIPT) for step in random_calls(rand, family(rand))]
        seen.update(tuple(line.split(" ")[:2]) for line in lines_of(steps))
        checks.test_random(f"the program's reader: {place}", program.wrong_on(steps))
    for word, answer in SEEN:
        times = seen[word, str(answer)]
        checks.test(f"'{word} {answer}' is seen", times >= count // 100, f"{times} times")
