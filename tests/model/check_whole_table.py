"""A whole table of 100,000 bytes in pieces of 128, end to end.

The module's side is written by the model's writer; what the box writes is read back by the model's reader.
"""
import random

from answers import FRAME
from checks import Program, lines_of
from events import events
from reader import Reader, decided
from records import DEVICE, MAX_DATA, PROGRESS, TABLE, packed, records_of
from transfer_driver import BoxCalls
from transfer_script import HEAD
from wire import in_bytes, on_wire

PATIENCE = 60  # seconds
SIZE, PIECE, TOTAL = 100000, 128, 782  # the last piece has 32 bytes
CODE = b"0123456789abcdef0123456789abcdef"
LENT, ROOM = 100002, 80
FIRST, IN_A_LINE = 1, 50000  # the module's first number; bytes of the table in a line
AFTER = 16  # bytes of the table after the last that was sent


def sent(table):
    """The module's frames: 19, the reply to the 1B of number 0, and the pieces."""
    yield on_wire(0x19, FIRST, 0, in_bytes(4, SIZE) + in_bytes(2, len(CODE)) + CODE)
    yield on_wire(0x1C, 0, 0, b"")
    for index in range(1, TOTAL + 1):
        data = table[PIECE * (index - 1) : PIECE * index]
        yield on_wire(0x1D, (FIRST + index) % 256, 0, in_bytes(2, index) + in_bytes(2, TOTAL) + data)


def owed():
    """The box's frames: command, number, payload."""
    yield 0x1A, FIRST, b""
    yield 0x1B, 0, in_bytes(2, len(CODE)) + CODE + in_bytes(2, PIECE)
    for index in range(1, TOTAL + 1):
        yield 0x1E, (FIRST + index) % 256, b""


def steps_of(rand, table):
    """The frames in records of any size, then what is stored."""
    stream, calls, clock = b"".join(sent(table)), BoxCalls(), 0
    while stream:
        size = rand.choice([MAX_DATA - HEAD, rand.randint(1, MAX_DATA - HEAD), rand.randint(1, 300)])
        calls.put(packed(DEVICE, clock, PIECE, LENT, ROOM, rest=stream[:size]))
        stream, clock = stream[size:], clock + 40
    calls.put(packed(PROGRESS))
    for start in range(0, SIZE, IN_A_LINE):
        calls.put(packed(TABLE, start, IN_A_LINE))
    calls.put(packed(TABLE, SIZE, AFTER))
    return calls.steps


def differs(table, steps, lines):
    """What is wrong with the lines, from the frames that they show and the table; or ''."""
    written, shown, progress, ended = b"", b"", [], []
    try:
        for some, line in events(records_of(b"".join(made for made, _ in steps)), lines):
            if some.operation == DEVICE:
                written += some.out[: sum(some.row[1:2])]
                ended += some.ended
            elif some.operation == TABLE:
                shown += bytes.fromhex(line.partition(" :")[2])
            else:
                progress.append(line)
    except ValueError as error:
        return str(error)
    answers = [(answer, body) for answer, _, _, body, *_ in decided(written, Reader())]
    frames = [(body[2], body[3], body[6:-1]) for answer, body in answers if answer == FRAME]
    if frames != list(owed()) or len(answers) != len(frames):
        return f"{len(frames)} frames of {len(answers)} answers, first {frames[:3]}"
    if shown != table + b"\xaa" * AFTER:
        return "the table is another one"
    if progress != [f"progress 0 {SIZE} {SIZE}"] or ended != [0x1B, 0]:
        return f"{progress}, waits ended: {ended}"
    return ""


def made(seed):
    rand = random.Random(f"{seed} a whole table")
    table = rand.randbytes(SIZE)
    return table, steps_of(rand, table)


def check_model(checks, seed):
    table, steps = made(seed)
    checks.test(f"the model: seed {seed}, a whole table", not (wrong := differs(table, steps, lines_of(steps))), wrong)


def hold(checks, who, program, seed):
    table, steps = made(seed)
    found, wrong = program.compared(b"".join(record for record, _ in steps), steps)
    wrong = wrong or differs(table, steps, found.decode("ascii", "backslashreplace").splitlines())
    checks.test(f"{who}: seed {seed}, a whole table", not wrong, wrong)


def check_program(checks, program, seed):
    hold(checks, "the program", program, seed)


def check_second(checks, second, seed):
    hold(checks, "the second implementation", Program(second, PATIENCE, "driver"), seed)
