"""The wire while it is live: each line comes at its deciding byte, before any further byte is sent."""
import fcntl
import itertools
import os
import random
import re
import select
import signal
import termios
import threading

import model
from door import PATIENCE, PAUSE, SILENT, Live, below, ends_of, hung_up, is_full, is_line, left_in, peak_memory, play
from door import program_of, stands_still, terminal, wait_for, written_by
from model import HEADING

# Written by hand: bytes, the lines that they lead to, and silence where there is no line yet.
STEPS = [
    ("", [HEADING]),
    ("00 FF FF 00 05 07 01 00 00", SILENT),
    ("0D", ["frame 1 10 7 1 0 0"]),
    # A sum FF: nothing at the FF, all at its 55.
    ("FF FF 00 05 07 F3 00 00", SILENT),
    ("FF", SILENT),
    ("55", ["frame 10 20 7 243 0 0"]),
    # A new header cuts at its second FF, and the new frame goes on.
    ("FF FF 00 05 07 FF", SILENT),
    ("FF", ["cut 20 27 - - - -"]),
    ("00 05 08 02 00 00", SILENT),
    ("0F", ["frame 25 34 8 2 0 0"]),
    ("FF FF 00", SILENT),
    ("04", ["short 34 38 - - - -"]),
    ("FF FF 04", SILENT),
    ("01", ["long 38 42 - - - -"]),
    ("FF FF 00 05 07 FF", SILENT),
    ("00", ["stuff 42 49 - - - -"]),
    # Broken stuffing at the sum; then in the payload, where leaf 255 lacks its 55.
    ("FF FF 00 05 07 01 00 00", SILENT),
    ("FF", SILENT),
    ("54", ["stufflate 49 59 - - - -"]),
    ("FF FF 00 0E 05 02 00 00 04 05 00 03 00 00 00 FF", SILENT),
    ("00", ["stufflate 59 76 - - - -"]),
    ("20", SILENT),
    ("FF FF 00 05 07 01 00 00", SILENT),
    ("0E", ["sum 77 86 - - - -"]),
    ("11 13 0D 0A 03 04 1A 1C 7F 15 16 FF", SILENT),
    # Volume 3, leaf 255, and nothing after it.
    ("FF 00 0E 05 02 00 00 04 05 00 03 00 00 00 FF 55 00", SILENT),
    ("20", ["frame 97 116 5 2 0 9"]),
    ("", SILENT),
]
STEPS_END = "clean 116"


def stated_steps():
    return [(bytes.fromhex(data), lines) for data, lines in STEPS]


def steps_of(data, sizes):
    """The stream in pieces of these sizes, each with its lines; and the end line."""
    lines, end = model.lines_and_end(data)
    steps, at = [(b"", [HEADING])], 0
    for size in sizes:
        if at < len(data):
            decided = [line for place, line in lines if at < place <= at + size]
            steps.append((data[at : at + size], decided))
            at += size
    return steps, end


def every_byte():
    """A stream of frames whose payloads have all byte values, each beside many others."""
    rand = random.Random("every byte")
    orders = [rand.sample(range(256), 256) for _ in range(6)]
    special = bytes.fromhex("FF 00 11 13 0D 0A 03 04 1A 1C 7F 12 15 16 17 FF FF 55 0D 0D 0A 03")
    return b"".join(model.wire(5, number, bytes(order) + special) for number, order in enumerate(orders))


def streams(bench, seed):
    """Each a name, the steps and the end line."""
    rand = random.Random(f"{seed} pieces")
    data = bench.read_bytes()
    yield "with pauses", stated_steps(), STEPS_END
    yield "the sample, byte by byte", *steps_of(data, [1] * len(data))
    yield f"the sample in pieces, seed {seed}", *steps_of(data, [rand.choice([1, 2, 3, 7, 30]) for _ in data])
    data = every_byte()
    yield "every byte value", *steps_of(data, [rand.choice([1, 16, 100]) for _ in data])


def wires(test, door, bench, seed):
    for name, steps, end in streams(bench, seed):
        pipe(test, door, f"a pipe, {name}", steps, end)
        terminal_as_input(test, door, f"a terminal, {name}", steps, end)
        listen(test, door, f"a serial device, {name}", steps, end)
    session_leader(test, door)


def pipe(test, door, name, steps, end):
    with Live([door, "list"]) as live:
        wrong = play(live, steps)
        test(name, not wrong, wrong)
        live.close_wire()
        found = live.ended()
        test(f"{name}, its end", found.is_quiet(end.encode() + b"\n"), str(found))


def terminal_as_input(test, door, name, steps, end):
    master, slave, _ = terminal(raw=True)
    with Live([door, "list"], wire=master, stdin=slave) as live:
        os.close(slave)
        wrong = play(live, steps)
        test(name, not wrong, wrong)
        live.close_wire()
        found = live.ended()
        test(f"{name}, its hangup", hung_up(found, end), str(found))


def listen(test, door, name, steps, end):
    master, slave, device = terminal(raw=False)
    os.close(slave)
    with Live([door, "listen", device], wire=master) as live:
        # The heading is the first step.
        wrong = play(live, steps[:1])
        settings = wrong or unlike_a_wire(settings_of(device))
        test(f"{name}, its settings", not settings, settings)
        wrong = wrong or play(live, steps[1:])
        test(name, not wrong, wrong)
        echoed = select.select([master], [], [], PAUSE)[0]
        test(f"{name}, nothing is sent back", not echoed)
        live.close_wire()
        found = live.ended()
        test(f"{name}, its hangup", hung_up(found, end), str(found))


def settings_of(device):
    opened = os.open(device, os.O_RDONLY | os.O_NOCTTY)
    try:
        return termios.tcgetattr(opened)
    finally:
        os.close(opened)


def unlike_a_wire(settings):
    """What is not 9600 baud, 8 data bits, no parity, 1 stop bit and bytes as they are, or ''."""
    iflag, oflag, cflag, lflag, inspeed, outspeed, special = settings
    wrong = []
    if (inspeed, outspeed) != (termios.B9600, termios.B9600):
        wrong.append("the speed is not 9600")
    if cflag & termios.CSIZE != termios.CS8:
        wrong.append("not 8 bits")
    on = {"CREAD": cflag, "CLOCAL": cflag}
    off = dict.fromkeys(["PARENB", "CSTOPB", "CRTSCTS"], cflag)
    off |= dict.fromkeys(["ECHO", "ECHONL", "ICANON", "ISIG", "IEXTEN"], lflag)
    off |= dict.fromkeys(["IXON", "IXOFF", "IXANY", "ICRNL", "INLCR", "IGNCR"], iflag)
    off |= dict.fromkeys(["ISTRIP", "BRKINT", "PARMRK", "INPCK"], iflag)
    off |= {"OPOST": oflag}
    wrong += [f"{name} is off" for name, flags in on.items() if not flags & getattr(termios, name)]
    wrong += [f"{name} is on" for name, flags in off.items() if flags & getattr(termios, name)]
    # Where ICANON is off these two are numbers.
    if (special[termios.VMIN], special[termios.VTIME]) not in [(1, 0), (b"\x01", b"\x00")]:
        wrong.append("min and time are not 1 and 0")
    return ", ".join(wrong)


def session_leader(test, door):
    """A service has no terminal, and the device must not become its own: a hangup would end it half way."""
    master, slave, device = terminal(raw=False)
    with Live([door, "listen", device], wire=master, start_new_session=True) as live:
        wrong = play(live, stated_steps()[:3])
        os.close(slave)
        live.close_wire()
        found = live.ended()
        test("a session of its own", not wrong and hung_up(found, "clean 10"), wrong or str(found))


# Signals: the first ends the input, and the last line comes; where that is not possible, all ends at once.


def nothing_left(test, name, session):
    test(f"{name} leaves no process", wait_for(lambda: not left_in(session)), str(left_in(session)))


def ends_input(test, door, word, who, send):
    """The listing is whole: all that was read is listed, and the last line comes."""
    number = getattr(signal, word)
    for what, data, lines in [
        ("nothing read", b"", ["clean 0"]),
        ("a frame read", model.wire(7, 1), ["frame 0 9 7 1 0 0", "clean 9"]),
        ("half a frame read", model.wire(7, 1) + b"\xff\xff\x00", ["frame 0 9 7 1 0 0", "open 9"]),
    ]:
        name = f"{word} to {who}, {what}"
        with Live([door, "list"], start_new_session=True) as live:
            wrong = play(live, [(b"", [HEADING]), (data, lines[:-1])])
            relay = below(live.process.pid, "cat")
            wait_for(lambda: written_by(relay) >= len(data))
            send(live.process.pid, number)
            found = live.ended()
            test(name, not wrong and found.is_quiet(lines[-1].encode() + b"\n"), wrong or str(found))
            nothing_left(test, name, live.process.pid)


LAST = re.compile(rb"(?:[01] )?(?:clean|open) |refused ")


def ends_at_once(test, door, name, words, sends, data=b""):
    """Signals, in this order, to a run whose output nobody reads: it ends by the last, and says nothing.

    The words name the input, or data is sent.
    """
    with Live([door, *words], start_new_session=True) as live:
        threading.Thread(target=send_all, args=(live, data, 1), daemon=True).start()
        full = wait_for(lambda: is_full(live.process.stdout))
        for send, number in sends:
            # The relay is ended before the program is.
            send(live.process.pid, number)
            wait_for(lambda: not any(what == "cat" for _, what in left_in(live.process.pid)))
        found = live.ended()
        whole = bool(found.out and LAST.match(found.out.splitlines()[-1]))
        test(name, full and found.status in ends_of(number) and not whole and found.err == b"", f"{full}, {found}")
        nothing_left(test, name, live.process.pid)


def at_once(test, door, room):
    stream = room / "long stream"
    data = model.wire(7, 1) * 99999
    stream.write_bytes(data)
    for word in ("SIGINT", "SIGTERM", "SIGHUP", "SIGQUIT"):
        number = getattr(signal, word)
        for who, send in RECEIVERS:
            ends_at_once(test, door, f"{word} to {who} while a file is listed", ["list", stream], [(send, number)])
    ends_at_once(test, door, "Ctrl-C twice", ["list"], [(os.killpg, signal.SIGINT)] * 2, data)
    ends_at_once(test, door, "SIGTERM twice", ["list"], [(os.kill, signal.SIGTERM)] * 2, data)
    ends_at_once(test, door, "SIGQUIT", ["list"], [(os.killpg, signal.SIGQUIT)], data)


def stopped(test, door):
    with Live([door, "list"], start_new_session=True) as live:
        os.killpg(live.process.pid, signal.SIGSTOP)
        # A process that is just begun can stay stopped for ever if the signal to go on comes during the stop.
        test("a run can be stopped", stands_still(live.process.pid))
        os.killpg(live.process.pid, signal.SIGCONT)
        wrong = play(live, stated_steps()[:3])
        live.close_wire()
        found = live.ended()
        test("a run that was stopped goes on", not wrong and found.is_quiet(b"clean 10\n"), wrong or str(found))


def dies(test, door):
    with Live([door, "list"], start_new_session=True) as live:
        live.line()
        os.kill(program_of(live.process.pid), signal.SIGSEGV)
        found = live.ended()
        right = (found.status, found.out) == (1, b"") and is_line(found.err)
        test("a program that dies is reported", right, str(found))
        nothing_left(test, "a program that dies", live.process.pid)


def waits_for_its_input(test, door, room):
    """A named pipe that nobody writes to yet: the signal comes before the input, while the run's processes begin."""
    os.mkfifo(room / "silent")
    for word, (who, send), begun in itertools.product(("SIGINT", "SIGTERM", "SIGHUP"), RECEIVERS, (1, 2, 3, 4)):
        number = getattr(signal, word)
        name = f"{word} to {who} before the input is there, {begun} of the run begun"
        with Live([door, "list", room / "silent"], start_new_session=True) as live:
            begins = wait_for(lambda: len(left_in(live.process.pid)) >= begun)
            send(live.process.pid, number)
            found = live.ended()
            test(name, begins and found.status == -number and found.out + found.err == b"", str(found))
            nothing_left(test, name, live.process.pid)


def half_a_message(test, door, room):
    """The relay's reader is ended in the middle of a line that it writes; the stand-in writes half of one and waits."""
    tools = room / "halfway"
    tools.mkdir()
    (tools / "cat").write_text("#!/bin/sh\nprintf 'cat: half' >&2\nexec sleep 600\n")
    (tools / "cat").chmod(0o755)
    env = os.environ | {"PATH": f"{tools}:{os.environ['PATH']}"}
    for name, ends, lines in [
        ("the input is ended", lambda pid: os.kill(pid, signal.SIGTERM), b"clean 0\n"),
        ("the program dies", lambda pid: os.kill(program_of(pid), signal.SIGSEGV), b""),
    ]:
        with Live([door, "list"], env=env, start_new_session=True) as live:
            begins = below(live.process.pid, "sleep") and live.line() == HEADING
            ends(live.process.pid)
            found = live.ended()
            right = begins and found.is_refusal("standard input", status=1, out=lines)
            test(f"{name} in half a message", right, str(found))
            nothing_left(test, f"{name} in half a message", live.process.pid)


RECEIVERS = [("the front door", os.kill), ("all of the run, as by a terminal", os.killpg)]


def signals(test, door, room):
    for word, receiver in itertools.product(("SIGINT", "SIGTERM", "SIGHUP"), RECEIVERS):
        ends_input(test, door, word, *receiver)
    at_once(test, door, room)
    control_c(test, door)
    waits_for_its_input(test, door, room)
    half_a_message(test, door, room)
    stopped(test, door)
    dies(test, door)


def control_c(test, door):
    """Typed at a terminal that is the run's own."""
    master, slave = os.openpty()
    owns = {"start_new_session": True, "preexec_fn": lambda: fcntl.ioctl(0, termios.TIOCSCTTY, 0)}
    with Live([door, "list"], wire=master, stdin=slave, **owns) as live:
        os.close(slave)
        wrong = play(live, [(b"", [HEADING]), (b"abc\n\x03", [])])
        found = live.ended()
        right = not wrong and found.out in (b"clean 4\n", b"clean 0\n") and found.is_quiet(found.out)
        test("Ctrl-C", right, wrong or str(found))
        nothing_left(test, "Ctrl-C", live.process.pid)


# Long input in constant memory.

MIB = 2**20
MAX_KIB, MARGIN_KIB = 6 * 1024, 256


def block(seed):
    """Some 64 KiB of frames, refused ones and noise, with no frame open at their end, and their lines."""
    rand = random.Random(f"{seed} block")
    parts, size = [], 0
    while size < 2**16:
        payload = bytes(rand.choices(rand.choice([[255], range(256)]), k=rand.choice([0, 9, 600, 1019])))
        frame = model.wire(rand.randrange(256), rand.randrange(256), payload)
        cut = frame[: rand.randrange(len(frame))] if not rand.randrange(8) else frame
        parts += [cut, rand.randbytes(rand.choice([0, 0, 5, 400]))]
        size += sum(map(len, parts[-2:]))
    data = b"".join(parts) + model.wire(7, 1)
    lines, _ = model.lines_and_end(data)
    return data, [line.split() for _, line in lines]


def lines_at(lines, offset):
    def shifted(kind, start, end, *rest):
        return " ".join([kind, str(int(start) + offset), str(int(end) + offset), *rest])

    return "".join(shifted(*line) + "\n" for line in lines).encode()


def received(live, size):
    """As many bytes of its output, or less where it ends or stops."""
    found = bytearray()
    while len(found) < size and live.says(PATIENCE):
        more = os.read(live.process.stdout.fileno(), min(65536, size - len(found)))
        if not more:
            break
        found += more
    return bytes(found)


def first_difference(found, expected):
    pairs = itertools.zip_longest(found.splitlines(), expected.splitlines(), fillvalue=b"no line")
    return next((f"{ours!r} should be {theirs!r}" for ours, theirs in pairs if ours != theirs), "")


def through(test, door, data, lines, copies):
    """The peak memory of the program after so many copies."""
    name = f"{len(data) * copies / MIB:.1f} MiB"
    expected = f"{HEADING}\n".encode() + b"".join(lines_at(lines, len(data) * copy) for copy in range(copies))
    with Live([door, "list"]) as live:
        sender = threading.Thread(target=send_all, args=(live, data, copies), daemon=True)
        sender.start()
        found = received(live, len(expected))
        test(f"{name}, each line", found == expected, first_difference(found, expected))
        # Its input is still open, so that it still runs.
        program = program_of(live.process.pid)
        peak = peak_memory(program) if program else MAX_KIB * 99
        sender.join(PATIENCE)
        live.close_wire()
        found = live.ended()
        test(f"{name}, its end", found.is_quiet(f"clean {len(data) * copies}\n".encode()), str(found))
    return peak


def send_all(live, data, copies):
    try:
        for _ in range(copies):
            live.send(data)
    except OSError:
        pass  # the lines are missing then


def memory(test, door, seed):
    data, lines = block(seed)
    small, large = (through(test, door, data, lines, size * MIB // len(data)) for size in (1, 30))
    test(f"30 MiB in {MAX_KIB} KiB", large <= MAX_KIB, f"{large} KiB")
    test("1 MiB and 30 MiB in the same memory", abs(large - small) <= MARGIN_KIB, f"{small} KiB and {large} KiB")
