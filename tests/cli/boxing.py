"""A box on a wire: box_program as a module drives it, with a writer and a reader of frames of its own."""
import os
import random
import time

from door import PATIENCE, Live, run

PIECE, SIZE, TOTAL = 128, 100000, 782  # of the whole table; its last piece has 32 bytes
CODE = bytes.fromhex("FF 55 FF 00 12 34")  # a check code that is stuffed
TIMEOUT, MILLISECOND = 0.2, 0.001  # seconds until a command is sent again, and what the box's clock leaves out
REPEATS = 2
SILENCE = 0.5  # seconds, two timeouts and more
INFORMATION = b"00000004" + b"00000001" * 3 + b"0123456789abcdef" * 2 + bytes(2)
STATUS = bytes.fromhex("03 00 00 00 00 00 00 00 00")
HALF = bytes.fromhex("FF FF 00 05 07")  # the front of a frame


def frame(command, number, payload=b"", flags=0):
    body = (len(payload) + 5).to_bytes(2, "big") + bytes([command, number]) + flags.to_bytes(2, "big") + payload
    return b"\xff\xff" + (body + bytes([sum(body) % 256])).replace(b"\xff", b"\xff\x55")


def taken(data):
    """The body of the frame that the data begins with, and what follows it; or None where that is not complete."""
    body, at = b"", 2
    while len(body) < 2 or len(body) < 2 + int.from_bytes(body[:2], "big"):
        step = 2 if data[at : at + 1] == b"\xff" else 1
        if len(data) < at + step:
            return None
        body, at = body + data[at : at + 1], at + step
    return body, data[at:]


def announcement(number, size):
    return frame(0x19, number, size.to_bytes(4, "big") + len(CODE).to_bytes(2, "big") + CODE)


def piece(number, index, total, data):
    return frame(0x1D, number, index.to_bytes(2, "big") + total.to_bytes(2, "big") + data)


def ready(number):
    return 0x1B, number, len(CODE).to_bytes(2, "big") + CODE + PIECE.to_bytes(2, "big")


class Wire(Live):
    """The program, whose output is read frame by frame."""

    def read(self, end):
        """Whether more came before that time."""
        more = self.says(end - time.monotonic()) and os.read(self.process.stdout.fileno(), 65536)
        self.held += more or b""
        return bool(more)

    def answer(self):
        """Command, number and payload of the next frame, or what is wrong with it."""
        end = time.monotonic() + PATIENCE
        while not (got := taken(self.held)):
            if not self.read(end):
                return f"no frame, but {self.held.hex(' ')}"
        front, (body, self.held) = self.held[:2], got
        if front != b"\xff\xff" or body[4:6] != bytes(2) or body[-1] != sum(body[:-1]) % 256:
            return f"a frame that is none or has flags: {front.hex(' ')} {body.hex(' ')}"
        return body[2], body[3], body[6:-1]

    def wrong_after(self, data, answers):
        """Sends bytes; what is wrong with the frames that follow, or ''."""
        self.send(data)
        for answer in answers:
            found = self.answer()
            if found != answer:
                return f"after {data.hex(' ')}\n  should be: {answer}\n  is:        {found}"
        return ""

    def is_silent_for(self, seconds):
        return not self.held and not self.says(seconds)


def in_two(rand, data):
    """Data in two pieces, of which one may be empty."""
    cut = rand.randrange(len(data) + 1)
    return data[:cut], data[cut:]


# Each what a module sends, and what it gets back.
REPLIES = [
    ("information", frame(0x01, 7), [(0x02, 7, INFORMATION)]),
    ("its status", frame(0x03, 255, b"\2"), [(0x04, 255, STATUS)]),
    ("a heartbeat", frame(0x07, 8), [(0x08, 8, b"")]),
    ("noise and a heartbeat", b"\0\xff\x55" + frame(0x07, 9), [(0x08, 9, b"")]),
    ("an unknown command", frame(0x77, 10), [(0x12, 10, b"\2")]),
    ("a wrong sum", frame(0x07, 11)[:-1] + b"\0", [(0x12, 11, b"\1")]),
    ("a piece of no table", piece(12, 1, 1, b"x"), [(0x12, 12, b"\3")]),
    ("a table that is too big", announcement(13, 131073), [(0x12, 13, b"\3")]),
    ("a table", announcement(14, 129), [(0x1A, 14, b""), ready(0)]),
    ("nothing, and a heartbeat", frame(0x1C, 0) + frame(0x07, 15), [(0x08, 15, b"")]),
    ("its first piece", piece(16, 1, 2, bytes(128)), [(0x1E, 16, b"")]),
    ("its first piece again", piece(17, 1, 2, bytes(128)), [(0x1E, 17, b"")]),
    ("a last piece that is too long", piece(18, 2, 2, b"xx"), [(0x12, 18, b"\3")]),
    ("its last piece", piece(19, 2, 2, b"x"), [(0x1E, 19, b"")]),
    ("its last piece again", piece(20, 2, 2, b"x"), [(0x1E, 20, b"")]),
    ("the end of it", frame(0x1F, 21), [(0x20, 21, b"")]),
]
SENT = b"".join(data for _, data, _ in REPLIES)
RECEIVED = b"".join(frame(*answer) for _, _, answers in REPLIES for answer in answers)
SAID = b"table 129\n"


def all_uses(test, root, seed):
    program = root / "target/bin/box_program"
    if not program.exists():
        test(f"there is none at {program}, where .ci/run puts it", False)
        return
    folder = root / "crates/box_program"
    test("box_program, its stored input", (folder / "stdin").read_bytes() == SENT)
    test("box_program, its stored output", (folder / "stdout").read_bytes() == RECEIVED)
    replies(test, program)
    whole_table(test, program, seed)
    again(test, program)
    waiting(test, program)
    failing(test, program)


def replies(test, program):
    with Wire([program, "mark"]) as box:
        for name, data, answers in REPLIES:
            wrong = box.wrong_after(data, answers)
            test(f"a box is sent {name}", not wrong, wrong)
        box.send(HALF)
        box.close_wire()
        found = box.ended()
        right = (found.status, found.out, found.err) == (0, b"", SAID + b"whole\n")
        test("a box, the end of its input", right, str(found))
    found = run([program], data=SENT)
    test("a box, all at once", (found.status, found.out, found.err) == (0, RECEIVED, SAID), str(found))


def wrong_in_table(box, rand):
    table = rand.randbytes(SIZE)
    wrong = box.wrong_after(announcement(1, SIZE), [(0x1A, 1, b""), ready(0)])
    wrong = wrong or box.wrong_after(frame(0x1C, 0), [])
    for index in range(1, TOTAL + 1):
        number, data = (index + 1) % 256, table[PIECE * (index - 1) : PIECE * index]
        first, second = in_two(rand, piece(number, index, TOTAL, data))
        wrong = wrong or box.wrong_after(first, []) or box.wrong_after(second, [(0x1E, number, b"")])
    return wrong


def whole_table(test, program, seed):
    """Each piece is answered before the next one is sent."""
    with Wire([program, "mark"]) as box:
        wrong = wrong_in_table(box, random.Random(f"{seed} table"))
        test("a box, a whole table", not wrong, wrong)
        box.close_wire()
        found = box.ended()
        said = f"table {SIZE}\nwhole\n".encode()
        test("a box, the end of a whole table", (found.status, found.out, found.err) == (0, b"", said), str(found))


# The command that waits is sent again.


def again(test, program):
    """Where a read does not wait for bytes, in time: twice, and then no more."""
    given, wire = os.pipe()
    os.set_blocking(given, False)
    with Wire([program], wire=wire, stdin=given) as box:
        os.close(given)
        start = time.monotonic()
        wrong = box.wrong_after(announcement(1, SIZE), [(0x1A, 1, b""), ready(0)])
        test("a box that does not wait is sent a table", not wrong, wrong)
        for turn in range(1, REPEATS + 1):
            wrong = box.wrong_after(b"", [ready(0)])
            test(f"its 1B, again {turn}", not wrong, wrong)
            late = time.monotonic() - start
            test(f"its 1B, not before {turn} timeouts", late >= turn * TIMEOUT - MILLISECOND, f"{late}")
        test("its 1B, no more", box.is_silent_for(SILENCE))
        answered = frame(0x1C, 0) + announcement(2, SIZE) + frame(0x1C, 1)
        wrong = box.wrong_after(answered, [(0x1A, 2, b""), ready(1)])
        test("a box that gave up is sent a table", not wrong, wrong)
        test("a box that is answered sends no more", box.is_silent_for(SILENCE))


def waiting(test, program):
    """Where a read waits for bytes, with the next bytes."""
    with Wire([program]) as box:
        wrong = box.wrong_after(announcement(1, SIZE), [(0x1A, 1, b""), ready(0)])
        test("a box that waits is sent a table", not wrong, wrong)
        test("a box that waits", box.is_silent_for(SILENCE))
        wrong = box.wrong_after(b"\0", [ready(0)])
        test("a box that waits, at the next byte", not wrong, wrong)


# Inputs and outputs that fail: one line, and no mark.


def failing(test, program):
    with open("/dev/full", "wb") as full:
        found = run([program, "mark"], data=SENT, stdout=full)
    right = (found.status, found.err) == (0, b"standard output: No space left on device\n")
    test("a box, standard output is full", right, str(found))
    found = run(["sh", "-c", '"$0" mark <&-', program])
    right = (found.status, found.out, found.err) == (0, b"", b"standard input: Bad file descriptor\n")
    test("a box, standard input is closed", right, str(found))
