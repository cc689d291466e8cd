"""The driver as a device drives it: the lines of a record are there before the next record is sent."""
import random

import stated_calls
import stored
from device import drive
from driver import FRESH_LINK, stream_pieces
from random_link import Script, any_state, near_the_wrap
from records import FRESH, STREAM, record
from stated_messages import NAMED, STATED, steps


def link_steps(seed):
    script = Script(random.Random(f"{seed} device"))
    while len(script.calls) < 300:
        near_the_wrap(script)
        any_state(script)
        script.put(FRESH_LINK)
    return script.steps


def message_steps():
    for _, data, *lines in STATED:
        yield record(FRESH), ["fresh"]
        yield record(STREAM, bytes.fromhex(data)), lines
    for _, step, _ in [*steps(), *stated_calls.steps()]:
        yield step
    yield NAMED
    yield from stored.transfer_steps()


def byte_by_byte():
    """A stream in records of one byte; the lines of a frame come with its last byte."""
    stream = b"".join(bytes.fromhex(data) for _, data, *_ in STATED)
    for piece, lines in stream_pieces(stream):
        for at in range(len(piece)):
            yield record(STREAM, piece[at : at + 1]), lines if at + 1 == len(piece) else []


def in_two_pieces(links):
    """A record in two pieces with a pause, cut at each place."""
    for cut, (made, lines) in enumerate(links[: len(links[0][0]) - 1], 1):
        yield made[:cut], None
        yield made[cut:], lines


def across_records(links):
    """The end of a record together with the front of the next one."""
    records = [made for made, _ in links]
    yield records[0][:5], None
    for (made, lines), following in zip(links[:8], records[1:]):
        yield made[5:] + following[:5], lines
        yield b"", None


def check_program(checks, program, seed):
    links = link_steps(seed)
    for name, script in [
        ("each record's lines before the next record", [*links, *message_steps()]),
        ("a stream byte by byte, the lines of a frame before the next byte", byte_by_byte()),
        ("a record in two pieces, cut at each place", in_two_pieces(links)),
        ("a record's end sent with the front of the next record", across_records(links)),
    ]:
        wrong = drive(program.path, script)
        checks.test(f"a device: {name}", not wrong, wrong)
    cut = links[3][0]
    ends = (drive(program.path, links[:3] + [(cut[:size], None)]) for size in range(len(cut)))
    wrong = next(filter(None, ends), "")
    checks.test("a device: status 0 at the end of the input after each front of a record", not wrong, wrong)
