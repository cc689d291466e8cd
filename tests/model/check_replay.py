"""Captures: the Python reading against texts written by hand, against the definitions and against its own writing.

Then the implementation in Rust against it on random captures.
"""
import check_sample
import definition
import listing
from checks import Dead, Program, difference, shares, text_of
from random_captures import FAMILIES, capture_of, some_records, some_stream
from replay import DIRECTIONS, HEAD_SIZE, MAX_COUNT, RECORD_HEAD_SIZE, head, read_capture, record, replay
from stated_captures import HEADING, REFUSED, WHOLE
from wire import in_bytes, number_of


def model_replays(test):
    for is_refused, table in ((False, WHOLE), (True, REFUSED)):
        for name, data, lines in table:
            found = replay(bytes.fromhex(data))
            test(f"the model replays {name}", found == (text_of([HEADING, *lines]), is_refused), str(found))


# What a capture decides, from the joined bytes of each direction alone: there is no reader here that goes from record
# to record.


def joined(records, direction):
    return b"".join(payload for d, _, payload in records if d == direction)


def decided_lines(records):
    """The lines between the heading and the last lines."""
    streams = [definition.answers_to(joined(records, direction))[0] for direction in DIRECTIONS]
    ends = [0 for _ in DIRECTIONS]
    for direction, _, payload in records:
        begin, ends[direction] = ends[direction], ends[direction] + len(payload)
        for found in streams[direction]:
            if begin < found[2] <= ends[direction]:
                yield f"{direction} {listing.line(*found)}"


def by_definition(data):
    records, number, place = read_capture(data)
    if number is not None:
        return text_of([HEADING, *decided_lines(records), f"refused {number} {place}"]), True
    ends = [f"{direction} {listing.lines_and_end(joined(records, direction))[1]}" for direction in DIRECTIONS]
    return text_of([HEADING, *decided_lines(records), *ends]), False


def definitions(checks, seed, count):
    checks.say_seed(seed, count, "capture")
    with_frames, with_breaks = 0, 0
    for name, (family,), rand, share in shares(FAMILIES, seed, count):
        wrong = ""
        for _ in range(share):
            data = family(rand)
            found = replay(data)
            with_frames += "frame" in found[0]
            with_breaks += " stufflate " in found[0]
            if found != by_definition(data):
                wrong = wrong or f"{data[-400:].hex(' ')}: {found} by the readers, {by_definition(data)} by definition"
        checks.test(f"the model's replay: seed {seed}, {name}", not wrong, wrong)
    # Captures without frames would show nothing.
    checks.test("the model's replay: a quarter has frames", with_frames >= count // 4, f"{with_frames} of {count}")
    enough = with_breaks >= count // 20
    checks.test("the model's replay: a twentieth has a late break", enough, f"{with_breaks} of {count}")


# Properties.


def refusal_of_cut(ends, size):
    """Number and place for the first bytes of a whole capture whose records end at these places."""
    if size < 3:
        return 51, 0
    if size < HEAD_SIZE:
        return 52, 3
    last = max(end for end in ends if end <= size)
    return (None, None) if last == size else (54, last)


def cut_anywhere(rand):
    """A capture that ends too early has the complete records and the lines of these, and no other ones."""
    records = some_records(rand)[:9]
    data, ends = capture_of(records), [HEAD_SIZE]
    for _, _, payload in records:
        ends.append(ends[-1] + RECORD_HEAD_SIZE + len(payload))
    for size in range(len(data) + 1):
        number, place = refusal_of_cut(ends, size)
        kept = records[: sum(end <= size for end in ends[1:])]
        if read_capture(data[:size]) != (kept, number, place):
            return f"the first {size} bytes of {data.hex(' ')}: {read_capture(data[:size])}"
        text = replay(data[:size])[0]
        front = text_of([HEADING, *decided_lines(kept)])
        if not text.startswith(front) or len(text[len(front) :].splitlines()) != (2 if number is None else 1):
            return f"the first {size} bytes of {data.hex(' ')}: {text}"
    return ""


def lines_from(data, direction):
    return [line for line in replay(data)[0].splitlines() if line.startswith(f"{direction} ")]


def other_direction(rand):
    """What the other direction holds changes no line of a direction."""
    records, direction = some_records(rand), rand.choice(DIRECTIONS)
    alone = [some for some in records if some[0] == direction]
    others = [some if some[0] == direction else (some[0], 0, some_stream(rand)) for some in records]
    found = [lines_from(capture_of(some), direction) for some in (records, alone, others)]
    return "" if found[0] == found[1] == found[2] else f"{capture_of(records).hex(' ')}: {found}"


def read_back(rand):
    """What is written is read back, and is not refused."""
    records = some_records(rand)
    found = read_capture(capture_of(records))
    return "" if found == (records, None, None) else f"{records}: {found}"


def sizes_read_back(_):
    for size in (0, 1, 255, 256, MAX_COUNT - 1, MAX_COUNT):
        records = [(1, size, b"\xff" * size), (0, 2**32 - 1, b"")]
        if read_capture(capture_of(records)) != (records, None, None):
            return f"a record of {size} bytes"
    try:
        record(0, 0, bytes(MAX_COUNT + 1))
    except OverflowError:
        return ""
    return f"a record of {MAX_COUNT + 1} bytes is written"


PROPERTIES = [
    ("a capture cut anywhere", cut_anywhere, 60),
    ("the other direction changes nothing", other_direction, 300),
    ("written records are read back", read_back, 639),
    ("records of every size are read back", sizes_read_back, 1),
]


def properties(checks, seed, count):
    for name, (holds,), rand, share in shares(PROPERTIES, seed, count):
        wrong = next(filter(None, (holds(rand) for _ in range(share))), "")
        checks.test(f"the model's captures: seed {seed}, {name}", not wrong, wrong)


def check_model(checks, seed, count):
    checks.test("the head in bytes", head() == b"LFT\0\1", head().hex(" "))
    written = record(1, 0x01020304, b"abc").hex(" ")
    checks.test("a record in bytes", written == "01 01 02 03 04 00 03 61 62 63", written)
    model_replays(checks.test)
    definitions(checks, seed, count)
    properties(checks, seed, count)


# The second implementation, on many captures in one process: captures and texts are written as their size in 4 bytes
# and their bytes.

PATIENCE = 60  # seconds


def joined_with_sizes(parts):
    return b"".join(in_bytes(4, len(part)) + part for part in parts)


def parted(data):
    while data:
        size = number_of(data[:4])
        yield data[4 : 4 + size]
        data = data[4 + size :]


def printed_by(second, words, data=b""):
    found, wrong = Program(second, PATIENCE, *words).printed(data)
    if wrong:
        raise Dead(f"the second implementation, {words}: {wrong}")
    return list(parted(found))


def check_second(checks, second, seed, count):
    ours = [(place, family(rand)) for place, rand, family in checks.inputs(FAMILIES, seed, count, "capture")]
    made = printed_by(second, ["generate", "captures", str(seed), str(count)])
    checks.say(f"seed {seed}, {len(made)} captures of the second implementation")
    theirs = [(f"seed {seed}, capture {i} of the second implementation", data) for i, data in enumerate(made)]
    checks.test("the second implementation makes captures", len(theirs) == count, str(len(theirs)))
    stated = [(name, bytes.fromhex(data)) for name, data, _ in WHOLE + REFUSED]
    captures = [*stated, ("the sample", check_sample.stored("bin")), *ours, *theirs]
    texts = printed_by(second, ["replays"], joined_with_sizes(data for _, data in captures))
    checks.test("the second implementation replays all", len(texts) == len(captures), f"{len(texts)} texts")
    for (place, data), text in zip(captures, texts):
        wrong = difference([(data, replay(data)[0].splitlines())], text)
        checks.test_random(f"the second implementation's replay: {place}", wrong)
