"""The sample capture: its script makes it again, and its text is the replay."""
import pathlib
import subprocess
import sys
import tempfile

import definition
import listing
from answers import DONE
from link import WAITING, Link
from replay import FROM_BOX, FROM_MODULE, read_capture, replay
from wire import number_of

SAMPLES = pathlib.Path(__file__).resolve().parents[2] / "samples"


def stored(kind):
    return (SAMPLES / f"capture.{kind}").read_bytes()


def made_again(checks):
    with tempfile.TemporaryDirectory() as room:
        script = [sys.executable, "-B", SAMPLES / "make_capture.py", room]
        done = subprocess.run(script, capture_output=True, text=True, check=False)
        for kind in ("bin", "hex"):
            path = pathlib.Path(room, f"capture.{kind}")
            same = path.exists() and path.read_bytes() == stored(kind)
            checks.test(f"capture.{kind} is what make_capture.py makes", same, done.stderr)


class Sent:
    """What one direction sent: its records' bytes joined, and where each of its records ends in them."""

    def __init__(self, records, direction):
        self.clocks, pieces = zip(*((clock, payload) for d, clock, payload in records if d == direction))
        self.data = b"".join(pieces)
        self.ends = [len(b"".join(pieces[: i + 1])) for i in range(len(pieces))]
        self.frames = definition.frames(self.data)

    def commands(self):
        return [body[2] for _, _, body in self.frames]

    def volumes(self):
        """Of the reports, in their order."""
        return [number_of(body[8:10]) for _, _, body in self.frames if body[2] == 5]

    def frames_over_records(self):
        return [start for start, end, _ in self.frames if any(start < place < end for place in self.ends)]

    def messages(self):
        """Of each frame the clock of the record that has its last byte, its command and its number."""
        for _, end, body in self.frames:
            yield next(clock for clock, place in zip(self.clocks, self.ends) if end <= place), body[2], body[3]


def missent(box, module):
    """Where the box's commands and the module's replies are not those of a link whose next number is 255."""
    link = Link(255)
    sent = [(*message, link.offer) for message in box.messages() if message[1] in WAITING]
    sent += [(*message, link.receive) for message in module.messages() if message[1] - 1 in WAITING]
    for clock, command, number, call in sorted(sent, key=lambda message: message[0]):
        answer = call(command, clock) if call == link.offer else call(command, number)
        if answer not in ([DONE, number], [DONE, command - 1, number]):
            return f"command {command}, number {number} at {clock} ms: {answer}"
    return "" if len(sent) > 20 else f"only {len(sent)} frames"


def contents(checks, data, text):
    """What a sample is to show."""
    records, *_ = read_capture(data)
    box, module = Sent(records, FROM_BOX), Sent(records, FROM_MODULE)
    checks.test("the sample has frames over two records", len(box.frames_over_records()) >= 2)
    checks.test("the sample has an empty record", b"" in [payload for _, _, payload in records])
    volumes = box.volumes()
    checks.test("the sample has volume 3, then volume 4", volumes == sorted(volumes) and set(volumes) == {3, 4})
    checks.test("the sample has the module's heartbeats and replies", {6, 7} <= set(module.commands()))
    kinds = [line.split()[1] for line in text.splitlines()[1:]]
    checks.test("the sample has broken frames", {"sum", "cut", "stuff", "stufflate"} <= set(kinds), str(kinds))
    checks.test("the sample's box sends as a link does", not missent(box, module), missent(box, module))
    sizes = [sum(end - start for start, end, _ in sent.frames) for sent in (box, module)]
    checks.test("the sample has noise from both", sizes[0] < len(box.data) and sizes[1] < len(module.data))


def check(checks):
    made_again(checks)
    data, text = stored("bin"), stored("txt").decode("ascii")
    checks.test("capture.bin is what capture.hex says", data == listing.hex_bytes(stored("hex").decode("ascii")))
    checks.test("the model's replay of capture.bin", replay(data) == (text, False))
    contents(checks, data, text)


def check_program(checks, program):
    found, wrong = program.printed(stored("bin"))
    checks.test("the program's replay of capture.bin", found == stored("txt") and not wrong, wrong)
