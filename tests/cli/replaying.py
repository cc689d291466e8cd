"""replay: captures that are whole, cut, refused or still being written, in pipes that stay open."""
import contextlib
import fcntl
import itertools
import os
import signal
import struct
import termios
import threading

import model
from commands import FRAME, REPLAY
from door import PATIENCE, SILENT, Live, below, is_line, peak_memory, play, program_of, run, terminal, wait_for
from door import written_by
from live import MARGIN_KIB, MAX_KIB, MIB, RECEIVERS, block, ends_at_once, first_difference, lines_at, nothing_left
from live import received
from model import HEAD, record
from whole import outgrows

HEADING = "dir kind start end cmd sn flags payload"
OPENED = bytes.fromhex("FF FF 00 05 07")  # the front of a frame
SHORT = bytes.fromhex("FF FF 00 04")  # a refused frame

# A capture in both directions, written by hand: each record with its lines. A frame lies across two records of its
# direction, with an empty record between them.
RECORDS = [
    (record(0, OPENED), []),
    (record(1, FRAME, 4294967295), ["1 frame 0 9 7 1 0 0"]),
    (record(0, b""), []),
    (record(0, bytes.fromhex("01 00 00 0D FF")), ["0 frame 0 9 7 1 0 0"]),
    (record(1, SHORT + OPENED), ["1 short 9 13 - - - -"]),
    (record(0, SHORT[1:] + FRAME), ["0 short 9 13 - - - -", "0 frame 13 22 7 1 0 0"]),
]
ENDS = ["0 clean 22", "1 open 13"]
CAPTURE = HEAD + b"".join(data for data, _ in RECORDS)
LINES = [line for _, lines in RECORDS for line in lines]

# Broken stuffing, each record with its lines: the frame that breaks lies across records of its direction, and a record
# of the other direction comes between its FF and the byte after that.
BROKEN = [
    (record(1, bytes.fromhex("FF FF 00 05 07 01 00 00 FF")), []),
    (record(0, bytes.fromhex("FF FF 00 05 07 01 00 FF")), []),
    (record(1, b"\0"), ["1 stufflate 0 10 - - - -"]),
    (record(0, b"\0"), ["0 stuff 0 9 - - - -"]),
    (record(0, bytes.fromhex("FF FF 00 07 03 02 00 00 FF 55 FF")), []),
    (record(1, FRAME + OPENED), ["1 frame 10 19 7 1 0 0"]),
    (record(0, bytes.fromhex("54 0B") + FRAME), ["0 stufflate 9 21 - - - -", "0 frame 22 31 7 1 0 0"]),
]

# Captures whose listing is written by hand: a name, the bytes, and the lines under the heading.
STATED = [
    ("no record", HEAD, ["0 clean 0", "1 clean 0"]),
    ("nothing", b"", ["refused 51 0"]),
    ("half a mark", b"LF", ["refused 51 0"]),
    ("another mark", b"LFt\0\1", ["refused 51 0"]),
    ("no version", b"LFT", ["refused 52 3"]),
    ("half a version", b"LFT\0", ["refused 52 3"]),
    ("another version", b"LFT\0\2", ["refused 52 3"]),
    ("a version low byte first", b"LFT\1\0", ["refused 52 3"]),
    ("a direction that is none", HEAD + b"\2", ["refused 53 5"]),
    ("a direction alone", HEAD + b"\0", ["refused 54 5"]),
    ("a record but for its count", HEAD + record(1, FRAME)[:6], ["refused 54 5"]),
    ("a record but for its last byte", HEAD + record(1, FRAME)[:-1], ["refused 54 5"]),
    ("an empty record", HEAD + record(1, b""), ["0 clean 0", "1 clean 0"]),
    ("a header alone", HEAD + record(1, OPENED[:2]), ["0 clean 0", "1 open 0"]),
    ("both directions", CAPTURE, [*LINES, *ENDS]),
    ("both directions, then half a record", CAPTURE + record(0, FRAME)[:-1], [*LINES, "refused 54 87"]),
    ("both directions, then no direction", CAPTURE + b"\xff" + CAPTURE, [*LINES, "refused 53 87"]),
    (
        "a count with a high byte",
        HEAD + record(0, bytes(256) + FRAME),
        ["0 frame 256 265 7 1 0 0", "0 clean 265", "1 clean 0"],
    ),
    (
        "broken stuffing in both directions",
        HEAD + b"".join(data for data, _ in BROKEN),
        [*(line for _, lines in BROKEN for line in lines), "0 clean 31", "1 open 19"],
    ),
]


def text_of(lines):
    return "".join(f"{line}\n" for line in lines).encode()


def is_refused(lines):
    return lines[-1].startswith("refused ")


def is_end(found, lines):
    """Whether a run printed these lines at last, and its status says how the capture ended; standard error is empty."""
    return (found.status, found.out, found.err) == (int(is_refused(lines)), text_of(lines), b"")


def shown_by(data):
    """The lines under the heading of a capture that goes on after these bytes."""
    text, refused = model.replay(data)
    return text.splitlines()[1 : -1 if refused else -2]


def last_of(data):
    """The last lines of a capture that ends after these bytes."""
    text, refused = model.replay(data)
    return text.splitlines()[-1 if refused else -2 :]


def all_uses(test, door, programs, room, seed):
    """The front door, the folder of the programs, and a folder for files."""
    program = programs / REPLAY.program
    captures(test, door, room)
    still_written(test, door)
    two_writes(test, door)
    every_cut(test, [door, "replay"])
    every_cut(test, [program, "marked"])
    left_open(test, door, room)
    long_records(test, door, room)
    signals(test, door, room)
    marks(test, program)
    memory(test, door, seed)


# Whole and refused captures.


def captures(test, door, room):
    for name, data, lines in STATED:
        expected = text_of([HEADING, *lines])
        text, refused = model.replay(data)
        test(f"the model's replay of '{name}'", (text.encode(), refused) == (expected, is_refused(lines)), text)
        for way, words, more in REPLAY.both_ways(door, room, data):
            found = run(words, **more)
            test(f"{way}, {name}", is_end(found, [HEADING, *lines]), str(found))
    for size in range(len(CAPTURE)):
        found, lines = run([door, "replay"], data=CAPTURE[:size]), model.replay(CAPTURE[:size])[0].splitlines()
        test(f"the first {size} bytes of a capture", is_end(found, lines), str(found))
    os.mkfifo(room / "named pipe")
    writer = threading.Thread(target=(room / "named pipe").write_bytes, args=(CAPTURE,), daemon=True)
    writer.start()
    found = run([door, "replay", room / "named pipe"])
    test("a named pipe", is_end(found, [HEADING, *LINES, *ENDS]), str(found))
    refused_output(test, door, room)


def refused_output(test, door, room):
    """Where the refusal's line could not be written, the write is what failed."""
    data = HEAD + b"\2"
    for name, words, more in REPLAY.both_ways(door, room, data):
        outgrows(test, f"{name}, refused, no room for its line", words, more, REPLAY.listing(data)[:-1], room)
        with open("/dev/full", "wb") as full:
            found = run(words, stdout=full, **more)
        right = found.is_refusal("standard output", "No space left on device", status=1)
        test(f"{name}, refused, standard output is full", right, str(found))
        ours, theirs = os.pipe()
        os.close(ours)
        with open(theirs, "wb") as gone:
            found = run(words, stdout=gone, **more)
        test(f"{name}, refused, the reader went away", (found.status, found.err) == (141, b""), str(found))


# Captures that are still being written.


def still_written(test, door):
    """The lines of a record come with its last byte, though the frames in it are complete before."""
    last = (record(0, FRAME + b"\0"), ["0 frame 22 31 7 1 0 0"])
    for name, records, ends in [
        ("record by record", [*RECORDS, last], ["0 clean 32", "1 open 13"]),
        ("broken stuffing, record by record", BROKEN, ["0 clean 31", "1 open 19"]),
    ]:
        steps = [(b"", [HEADING]), (HEAD[:3], SILENT), (HEAD[3:], SILENT)]
        for data, lines in records:
            steps += [(data[:1], SILENT), (data[1:-1], SILENT), (data[-1:], lines or SILENT)]
        with Live([door, "replay"]) as live:
            wrong = play(live, steps)
            test(name, not wrong, wrong)
            live.close_wire()
            found = live.ended()
            test(f"{name}, its end", is_end(found, ends), str(found))


def two_writes(test, door):
    """A capture cut anywhere: the lines of the first part come before the second part is written."""
    for size in range(len(CAPTURE) + 1):
        early = shown_by(CAPTURE[:size])
        with Live([door, "replay"]) as live:
            wrong = play(live, [(CAPTURE[:size], [HEADING, *early]), (CAPTURE[size:], LINES[len(early) :])])
            live.close_wire()
            found = live.ended()
            test(f"cut at {size}", not wrong and is_end(found, ENDS), wrong or str(found))


def cuts(data):
    """All ways to cut some bytes into pieces."""
    for places in itertools.product((False, True), repeat=len(data) - 1):
        ends = [place for place, is_cut in enumerate(places, 1) if is_cut] + [len(data)]
        yield [data[start:end] for start, end in zip([0, *ends], ends)]


def was_read(pipe):
    return struct.unpack("i", fcntl.ioctl(pipe, termios.FIONREAD, b"\0" * 4))[0] == 0


def send_pieces(live, pieces):
    """Each one is sent when the one before was read."""
    for piece in pieces:
        live.send(piece)
        while not was_read(live.wire) and live.process.poll() is None:
            os.sched_yield()


def every_cut(test, words):
    """The head in all its cuts; then a record in all its cuts, one after the other in one capture."""
    name = os.path.basename(words[0])
    for pieces in cuts(HEAD):
        with Live(words) as live:
            send_pieces(live, pieces)
            wrong = play(live, [(record(1, SHORT), [HEADING, "1 short 0 4 - - - -"])])
            test(f"{name}, a head in pieces of {[len(piece) for piece in pieces]}", not wrong, wrong)
    with Live(words) as live:
        wrong = play(live, [(HEAD, [HEADING])])
        for turn, pieces in enumerate(cuts(record(0, SHORT))):
            for direction in (b"\0", b"\1"):
                start = turn * len(SHORT)
                send_pieces(live, [direction + pieces[0][1:], *pieces[1:]])
                line = f"{direction[0]} short {start} {start + len(SHORT)} - - - -"
                wrong = wrong or play(live, [(b"", [line])])
            if wrong:
                break
        test(f"{name}, a record in each of its cuts", not wrong and turn == 2**10 - 1, wrong)
        live.close_wire()
        end = (turn + 1) * len(SHORT)
        found = live.ended()
        test(f"{name}, all cuts, the end", found.out == text_of([f"0 clean {end}", f"1 clean {end}"]), str(found))


# After a refusal nothing more is read, and the run ends though its input does not.

REFUSED = [
    ("a wrong mark", b"X", ["refused 51 0"]),
    ("a mark wrong at its end", b"LFX", ["refused 51 0"]),
    ("a wrong version", b"LFT\1", ["refused 52 3"]),
    ("a version wrong at its end", b"LFT\0\2", ["refused 52 3"]),
    ("a wrong direction", HEAD + b"\2", ["refused 53 5"]),
    ("a wrong direction after records", CAPTURE + b"\xff", [*LINES, f"refused 53 {len(CAPTURE)}"]),
]


@contextlib.contextmanager
def inputs_left_open(door, room):
    """Ways to give an input and leave it open: a name, and a run of the front door."""
    def piped():
        return Live([door, "replay"], start_new_session=True)

    def named():
        pipe = os.open(room / "open pipe", os.O_RDWR)
        return Live([door, "replay", room / "open pipe"], wire=pipe, start_new_session=True)

    def typed():
        master, slave, _ = terminal(raw=True)
        slaves.append(slave)
        return Live([door, "replay"], wire=master, stdin=slave, start_new_session=True)

    slaves = []
    os.mkfifo(room / "open pipe")
    yield [("a pipe", piped), ("a named pipe", named), ("a terminal", typed)]
    for slave in slaves:
        os.close(slave)


def left_open(test, door, room):
    with inputs_left_open(door, room) as ways:
        for (way, live_run), (what, data, lines) in itertools.product(ways, REFUSED):
            name = f"{what} in {way} that stays open"
            with live_run() as live:
                # The last byte alone refuses.
                wrong = play(live, [(data[:-1], [HEADING, *lines[:-1]])])
                live.send(data[-1:])
                found = live.ended()
                test(name, not wrong and is_end(found, lines[-1:]), wrong or str(found))
                nothing_left(test, name, live.process.pid)
    goes_on(test, door)


def goes_on(test, door):
    """The writer goes on after a refusal, more than pipes can hold."""
    with Live([door, "replay"], start_new_session=True) as live:
        wrong = play(live, [(b"", [HEADING])])
        with contextlib.suppress(BrokenPipeError):
            live.send(HEAD + b"\2" + bytes(MIB))
        found = live.ended()
        test("the writer goes on after a refusal", not wrong and is_end(found, ["refused 53 5"]), wrong or str(found))
        nothing_left(test, "the writer goes on after a refusal", live.process.pid)


# Records of all sizes.


def long_records(test, door, room):
    """The longest record, also where its lines are more than the program's buffer; frames across such records."""
    full = 65535
    noise = bytes(full - len(FRAME)) + FRAME
    short = SHORT * (full // 4) + SHORT[:3]
    for name, data in [
        ("a full record", HEAD + record(0, noise)),
        ("a full record for each direction", HEAD + record(1, noise) + record(0, noise)),
        ("a full record of many lines", HEAD + record(0, short) + record(0, SHORT[3:])),
        ("full records and empty ones", HEAD + (record(1, noise) + record(0, b"")) * 3),
        ("a full record but for its last byte", HEAD + record(0, FRAME) + record(1, short)[:-1]),
    ]:
        lines = model.replay(data)[0].splitlines()
        for way, words, more in REPLAY.both_ways(door, room, data):
            found = run(words, **more)
            difference = first_difference(found.out, text_of(lines))
            test(f"{way}, {name}", is_end(found, lines), difference or str(found))


# Signals: the first one ends the input, and the capture ends there.


def signals(test, door, room):
    for word, receiver in itertools.product(("SIGINT", "SIGTERM", "SIGHUP"), RECEIVERS):
        ends_input(test, door, getattr(signal, word), *receiver)
    stream = room / "long capture"
    stream.write_bytes(REPLAY.many)
    for number, (who, send) in itertools.product((signal.SIGINT, signal.SIGQUIT), RECEIVERS):
        name = f"{number.name} to {who} while a capture in a file is listed"
        ends_at_once(test, door, name, ["replay", stream], [(send, number)])
    ends_at_once(test, door, "Ctrl-C twice, a capture", ["replay"], [(os.killpg, signal.SIGINT)] * 2, REPLAY.many)
    before_input(test, door, room)
    dies(test, door)


def ends_input(test, door, number, who, send):
    for what, data in [
        ("nothing read", b""),
        ("the head read", HEAD),
        ("a record read", HEAD + record(1, FRAME)),
        ("half a record read", HEAD + record(1, FRAME) + record(0, FRAME)[:-1]),
    ]:
        name = f"replay, {number.name} to {who}, {what}"
        with Live([door, "replay"], start_new_session=True) as live:
            wrong = play(live, [(data, [HEADING, *shown_by(data)])])
            relay = below(live.process.pid, "cat")
            wait_for(lambda: written_by(relay) >= len(data))
            send(live.process.pid, number)
            found = live.ended()
            test(name, not wrong and is_end(found, last_of(data)), wrong or str(found))
            nothing_left(test, name, live.process.pid)


def before_input(test, door, room):
    os.mkfifo(room / "silent capture")
    with Live([door, "replay", room / "silent capture"], start_new_session=True) as live:
        os.killpg(live.process.pid, signal.SIGINT)
        found = live.ended()
        right = found.status == -signal.SIGINT and found.out + found.err == b""
        test("replay, Ctrl-C before the input is there", right, str(found))
        nothing_left(test, "replay, Ctrl-C before the input is there", live.process.pid)


def dies(test, door):
    with Live([door, "replay"], start_new_session=True) as live:
        live.line()
        os.kill(program_of(live.process.pid, REPLAY.program), signal.SIGSEGV)
        found = live.ended()
        right = (found.status, found.out) == (1, b"") and is_line(found.err, "the replay program was ended")
        test("a replay program that dies is reported", right, str(found))
        nothing_left(test, "a replay program that dies", live.process.pid)


# The program without the front door.


def marks(test, program):
    for name, data, lines in STATED:
        mark = b"refused\n" if is_refused(lines) else b"whole\n"
        for words, said in [([program], b""), ([program, "any word"], mark)]:
            found = run(words, data=data)
            right = (found.status, found.out, found.err) == (0, text_of([HEADING, *lines]), said)
            test(f"{program.name} alone, {len(words) - 1} words, {name}", right, str(found))


# Long captures in constant memory.


def parts(data, lines, copies):
    """Copies of some bytes, in records of both directions by turns: each with its lines."""
    for copy in range(copies):
        direction, offset = copy % 2, copy // 2 * len(data)
        pieces = [data[:40000], b"", data[40000:]]
        text = lines_at(lines, offset).replace(b"\n", b"\n%d " % direction)
        yield b"".join(record(direction, piece, copy) for piece in pieces), b"%d " % direction + text[:-2]


def through(test, door, data, lines, copies):
    """The peak memory of the program after so many copies."""
    name = f"a capture of {len(data) * copies / MIB:.1f} MiB"
    captured, texts = zip(*parts(data, lines, copies))
    expected = text_of([HEADING]) + b"".join(texts)
    with Live([door, "replay"]) as live:
        sender = threading.Thread(target=live.send, args=(HEAD + b"".join(captured),), daemon=True)
        sender.start()
        found = received(live, len(expected))
        test(f"{name}, each line", found == expected, first_difference(found, expected))
        # Its input is still open, so that it still runs.
        program = program_of(live.process.pid, REPLAY.program)
        peak = peak_memory(program) if program else MAX_KIB * 99
        sender.join(PATIENCE)
        live.close_wire()
        found = live.ended()
        ends = [f"{direction} clean {(copies + 1 - direction) // 2 * len(data)}" for direction in (0, 1)]
        test(f"{name}, its end", is_end(found, ends), str(found))
    return peak


def memory(test, door, seed):
    data, lines = block(seed)
    small, large = (through(test, door, data, lines, size * MIB // len(data)) for size in (1, 30))
    test(f"a capture of 30 MiB in {MAX_KIB} KiB", large <= MAX_KIB, f"{large} KiB")
    right = abs(large - small) <= MARGIN_KIB
    test("captures of 1 MiB and 30 MiB in the same memory", right, f"{small} KiB and {large} KiB")
