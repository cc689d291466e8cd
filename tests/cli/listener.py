"""listen is safe to use: a device has one listener, the own terminal is refused, and Ctrl-C ends only the input."""
import contextlib
import fcntl
import os
import signal
import subprocess
import termios

import model
from door import Live, below, left_in, play, run, terminal, wait_for, written_by
from live import RECEIVERS, nothing_left, settings_of
from model import HEADING

FRAME = model.wire(7, 1)
LINE = "frame {} {} 7 1 0 0"


def all_uses(test, door, room):
    one_listener(test, door, room)
    lock_goes(test, door)
    own_terminal(test, door, room)
    control_c(test, door)
    signals(test, door)


@contextlib.contextmanager
def device_of(raw=False):
    """A device: the descriptor of its other side, and its name."""
    master, slave, name = terminal(raw)
    os.close(slave)
    yield master, name


@contextlib.contextmanager
def listening(door, master, name, **more):
    """A run that listens and has read a frame; what is wrong so far."""
    with Live([door, "listen", name], wire=master, start_new_session=True, **more) as live:
        yield live, play(live, [(b"", [HEADING]), (FRAME, [LINE.format(0, 9)])])


def one_listener(test, door, room):
    with device_of() as (master, name), listening(door, master, name) as (live, wrong):
        settings = changed_settings(name)
        link = room / "serial link"
        link.symlink_to(name)
        (room / "link to a link").symlink_to(link)
        for way, second in [("", name), (" by a link", link), (" by a link to a link", room / "link to a link")]:
            found = run([door, "listen", second])
            test(f"a second listener{way}", found.is_refusal("already listened to", str(second)), str(found))
        test("a second listener changes no setting", settings_of(name) == settings)
        steps = [(FRAME, [LINE.format(9, 18)]), (FRAME * 3, [LINE.format(at, at + 9) for at in (18, 27, 36)])]
        wrong = wrong or play(live, steps)
        test("the first listener goes on undisturbed", not wrong, wrong)
        live.close_wire()
        found = live.ended()
        test("the first listener ends as ever", found.is_quiet(b"clean 45\n"), str(found))


def changed_settings(name):
    """They are unlike those of a listener, who would set them back."""
    opened = os.open(name, os.O_RDONLY | os.O_NOCTTY)
    settings = termios.tcgetattr(opened)
    settings[4] = settings[5] = termios.B19200
    termios.tcsetattr(opened, termios.TCSANOW, settings)
    os.close(opened)
    return settings_of(name)


def lock_goes(test, door):
    """However a listener ends, the device can be listened to again."""
    for number in (signal.SIGINT, signal.SIGQUIT, signal.SIGKILL):
        master, slave, name = terminal(raw=False)
        with listening(door, os.dup(master), name) as (live, wrong):
            os.kill(live.process.pid, number)
            nothing_left(test, f"listen, ended by {number.name},", live.process.pid)
        with listening(door, master, name) as (live, again):
            test(f"a new listener after {number.name}", not wrong and not again, wrong or again)
        os.close(slave)


# The terminal that it was started from.


def own_terminal(test, door, room):
    (room / "tty link").symlink_to("/dev/tty")
    none = subprocess.DEVNULL
    for what, descriptors in [
        ("standard input", {"stdin": 0}),
        ("standard output", {"stdout": 1}),
        ("standard error", {"stderr": 2}),
        ("none of its descriptors", {}),
    ]:
        for named in ("its name", "/dev/tty", "a link to /dev/tty"):
            if not descriptors or named == "its name":
                refuses_own(test, door, room, what, {key: None for key in descriptors}, named)
    with device_of(raw=False) as (master, name):
        slave = os.open(name, os.O_RDWR | os.O_NOCTTY)
        before = termios.tcgetattr(slave)
        for place in ("stdin", "stdout", "stderr"):
            given = {"stdin": none, "stdout": subprocess.PIPE, "stderr": subprocess.PIPE} | {place: slave}
            found = run([door, "listen", name], start_new_session=True, **given)
            right = found.status == 2 and found.out == b"" and (place == "stderr" or b"started from" in found.err)
            test(f"a terminal that is {place} alone", right, str(found))
        test("its settings stay", termios.tcgetattr(slave) == before)
        os.close(slave)
        os.close(master)


def refuses_own(test, door, room, what, places, named):
    """In a session whose terminal it is, and which has it open at some place."""
    master, slave, name = terminal(raw=False)
    before = termios.tcgetattr(slave)
    device = {"its name": name, "/dev/tty": "/dev/tty", "a link to /dev/tty": str(room / "tty link")}[named]

    def own():
        fcntl.ioctl(slave, termios.TIOCSCTTY, 0)

    given = {"stdin": subprocess.DEVNULL, "stdout": subprocess.PIPE, "stderr": subprocess.PIPE}
    given |= {place: slave for place in places}
    found = run([door, "listen", device], start_new_session=True, preexec_fn=own, pass_fds=[slave], **given)
    right = (found.status, found.out) == (2, b"")
    if "stderr" not in places:
        right = right and b"started from" in found.err and found.err.count(b"\n") == 1
    test(f"the own terminal by {named}, open at {what}", right, str(found))
    test(f"the own terminal by {named}, open at {what}: its settings stay", termios.tcgetattr(slave) == before)
    os.close(slave)
    os.close(master)


# Ctrl-C.


def control_c(test, door):
    """Typed at the terminal that it was started from, and is not the device."""
    for what, data, last in [("", b"", "clean 9"), (", in a frame", b"\xff\xff\x00\x05", "open 9")]:
        keyboard, own = os.openpty()
        with device_of() as (master, name):
            more = {"stdin": own, "preexec_fn": lambda: fcntl.ioctl(0, termios.TIOCSCTTY, 0)}
            with listening(door, master, name, **more) as (live, wrong):
                live.send(data)
                relay = below(live.process.pid, "cat")
                wait_for(lambda: written_by(relay) == len(FRAME + data))
                os.write(keyboard, b"\x03")
                found = live.ended()
                right = not wrong and found.is_quiet(f"{last}\n".encode())
                test(f"Ctrl-C ends the input{what}", right, wrong or str(found))
                nothing_left(test, f"Ctrl-C{what}", live.process.pid)
        os.close(keyboard)
        os.close(own)


def signals(test, door):
    for word in ("SIGINT", "SIGTERM", "SIGHUP"):
        for who, send in RECEIVERS:
            with device_of() as (master, name), listening(door, master, name) as (live, wrong):
                send(live.process.pid, getattr(signal, word))
                found = live.ended()
                right = not wrong and found.is_quiet(b"clean 9\n")
                test(f"listen, {word} to {who}", right, wrong or str(found))
                nothing_left(test, f"listen, {word} to {who}", live.process.pid)
    unread(test, door)
    killed(test, door)


def unread(test, door):
    """The listing's reader goes; the next line ends the run, without waiting for a further byte."""
    with device_of() as (master, name), listening(door, master, name) as (live, wrong):
        live.process.stdout.close()
        live.process.stdout = open(os.devnull, "rb")
        live.send(FRAME)
        found = live.ended()
        test("listen, the reader went away", not wrong and (found.status, found.err) == (141, b""), wrong or str(found))
        nothing_left(test, "listen, the reader went away", live.process.pid)


def killed(test, door):
    """Without its front door a listener ends by itself, and its last line comes."""
    with device_of() as (master, name), listening(door, master, name) as (live, wrong):
        live.process.kill()
        wait_for(lambda: not left_in(live.process.pid))
        found = live.ended()
        right = not wrong and (found.status, found.out) == (-signal.SIGKILL, b"clean 9\n")
        test("listen, killed", right, wrong or str(found))
