"""The front door as a test runs it: to its end, or live, with bytes sent and lines awaited one by one."""
import fcntl
import os
import select
import signal
import struct
import subprocess
import termios
import time
import tty

PATIENCE = 60  # seconds in which a thing that should happen has to
PAUSE = 0.05  # seconds in which a thing that should not happen is waited for


def as_started_by_a_person():
    """A test that runs in the background ignores some signals, and what it starts would, too."""
    signal.signal(signal.SIGINT, signal.default_int_handler)
    for name in ("SIGHUP", "SIGQUIT", "SIGTERM"):
        signal.signal(getattr(signal, name), signal.SIG_DFL)


def ends_of(number):
    """The statuses of a front door that a signal ends. Some shells ignore SIGQUIT, and it then ends with 1."""
    return {-number, 1} if number == signal.SIGQUIT else {-number}


class Ended:
    """What a run left: its status (None where it did not end), standard output and standard error."""

    def __init__(self, status, out, err):
        self.status, self.out, self.err = status, out, err

    def __str__(self):
        status = "it does not end" if self.status is None else f"status {self.status}"
        return f"{status}, standard output {shown(self.out)}, standard error {shown(self.err)}"

    def is_quiet(self, out):
        return (self.status, self.out, self.err) == (0, out, b"")

    def is_refusal(self, *parts, status=2, out=b""):
        """One line on standard error, with these parts in it, and nothing but out on standard output."""
        return (self.status, self.out) == (status, out) and is_line(self.err, *parts)


def shown(data):
    return repr(data if len(data) < 400 else data[:200] + b" .. " + data[-200:])


def is_line(data, *parts):
    one = data.startswith(b"trogonreed: ") and data.endswith(b"\n") and data.count(b"\n") == 1
    return one and all(part.encode() in data for part in parts)


def run(words, data=None, patience=PATIENCE, **more):
    """Runs a command to its end. Without data, more may name the standard input, which is empty otherwise."""
    given = {"input": data} if data is not None else {"stdin": subprocess.DEVNULL}
    given |= {"stdout": subprocess.PIPE, "stderr": subprocess.PIPE} | more
    try:
        done = subprocess.run(words, timeout=patience, **given)
    except subprocess.TimeoutExpired as late:
        return Ended(None, late.stdout or b"", late.stderr or b"")
    return Ended(done.returncode, done.stdout or b"", done.stderr or b"")


class Live:
    """A run that goes on while the test sends bytes to `wire`, a descriptor that close_wire closes."""

    def __init__(self, words, wire=None, **more):
        pipe = subprocess.PIPE
        given = {"stdin": pipe if wire is None else subprocess.DEVNULL, "stdout": pipe, "stderr": pipe} | more
        self.process = subprocess.Popen(words, bufsize=0, **given)
        self.wire = self.process.stdin.fileno() if wire is None else wire
        self.piped, self.held = wire is None, b""

    def __enter__(self):
        return self

    def __exit__(self, *_):
        if self.process.poll() is None:
            # The front door ends its program only if it can catch the signal.
            self.process.terminate()
            try:
                self.process.wait(PATIENCE)
            except subprocess.TimeoutExpired:
                self.process.kill()
        self.process.wait()
        self.close_wire()
        for file in filter(None, (self.process.stdout, self.process.stderr)):
            file.close()

    def send(self, data):
        while data:
            data = data[os.write(self.wire, data) :]

    def close_wire(self):
        if self.piped:
            self.process.stdin.close()
        elif self.wire is not None:
            os.close(self.wire)
        self.wire = None

    def says(self, seconds):
        """Whether more is printed before so many seconds are over, or the output ends."""
        return bool(select.select([self.process.stdout], [], [], max(seconds, 0))[0])

    def is_silent(self):
        return not self.held and not self.says(PAUSE)

    def line(self):
        end = time.monotonic() + PATIENCE
        while b"\n" not in self.held:
            if not self.says(end - time.monotonic()):
                return f"no line in {PATIENCE} seconds"
            more = os.read(self.process.stdout.fileno(), 65536)
            if not more:
                return "the end of the output"
            self.held += more
        line, _, self.held = self.held.partition(b"\n")
        return line.decode("ascii", "backslashreplace")

    def ended(self):
        """What it leaves when it ends, which it has to do now."""
        # Not by communicate, which would close a standard input that must stay open.
        try:
            status = self.process.wait(PATIENCE)
        except subprocess.TimeoutExpired:
            status = None
        return Ended(status, self.held + rest_of(self.process.stdout), rest_of(self.process.stderr))


def rest_of(file):
    """What can be read up to its end, where it is a pipe to the test; a process that is left could keep it open."""
    found = b""
    while file and select.select([file], [], [], PATIENCE)[0]:
        more = os.read(file.fileno(), 65536)
        if not more:
            return found
        found += more
    return found + b" and no end" if file else found


def play(live, steps):
    """What goes wrong first, or ''. A step is bytes to send, and the lines that come before any further byte."""
    sent = b""
    for data, lines in steps:
        live.send(data)
        sent += data
        place = f"after {len(sent)} bytes, the last {sent[-12:].hex(' ')}"
        for line in lines:
            found = live.line()
            if found != line:
                return f"{place}\n  should be: {line}\n  is:        {found}"
        if lines is SILENT and not live.is_silent():
            return f"{place}: not silent"
    return ""


SILENT = ()  # no lines, and the test waits a while to see that there are none


def hung_up(found, end_line):
    """Whether a run ended as it should when its terminal is hung up.

    The kernel gives an end of input or a read error, and both are the end.
    """
    return found.is_quiet(end_line.encode() + b"\n")


def terminal(raw):
    """A pseudo-terminal: its two descriptors and the name of the slave, set as no serial wire should be unless raw."""
    master, slave = os.openpty()
    if raw:
        tty.setraw(slave)
    else:
        iflag, oflag, cflag, lflag, _, _, special = termios.tcgetattr(slave)
        iflag |= termios.ICRNL | termios.IXON | termios.IXOFF | termios.ISTRIP | termios.INLCR
        oflag |= termios.OPOST
        cflag = (cflag | termios.CSTOPB | termios.PARODD | termios.CRTSCTS) & ~termios.CLOCAL
        lflag |= termios.ECHO | termios.ICANON | termios.ISIG | termios.IEXTEN
        speed = termios.B115200
        termios.tcsetattr(slave, termios.TCSANOW, [iflag, oflag, cflag, lflag, speed, speed, special])
    return master, slave, os.ttyname(slave)


def processes():
    """Each process with the fields that its stat has after the name: state, parent, group, session and more."""
    for name in filter(str.isdigit, os.listdir("/proc")):
        try:
            with open(f"/proc/{name}/stat") as file:
                yield int(name), file.read().rpartition(")")[2].split()
        except OSError:
            continue


def wait_for(happened):
    """Whether it happens in time."""
    end = time.monotonic() + PATIENCE
    while not happened():
        if time.monotonic() > end:
            return False
        time.sleep(0.01)
    return True


def name_of(pid):
    """What a process runs, or '' where it is gone."""
    try:
        with open(f"/proc/{pid}/comm") as file:
            return file.read().rstrip("\n")
    except OSError:
        return ""


def below(pid, name):
    """The process of that name that pid started, itself or through others, once there is one; or None."""
    found = []

    def look():
        parents = {process: int(fields[1]) for process, fields in processes()}
        found[:] = [process for process in parents if name_of(process) == name and is_below(parents, process, pid)]
        return found

    return found[0] if wait_for(look) else None


def is_below(parents, process, pid):
    while process in parents:
        process = parents[process]
        if process == pid:
            return True
    return False


def program_of(pid, name="list_program"):
    """The program that a front door runs, or None."""
    return below(pid, name)


def session_of(pid):
    return next((int(fields[3]) for process, fields in processes() if process == pid), None)


def left_in(session):
    """What runs in a session: each process and its name."""
    return [(pid, name_of(pid)) for pid, fields in processes() if int(fields[3]) == session and fields[0] != "Z"]


def is_full(pipe):
    """Whether a pipe has no room for a line more."""
    waiting = struct.unpack("i", fcntl.ioctl(pipe, termios.FIONREAD, b"\0" * 4))[0]
    return waiting > fcntl.fcntl(pipe, fcntl.F_GETPIPE_SZ) - 4096


def stands_still(group):
    """Whether a group has stopped after the signal: each process is stopped, gone, or waits for one that is."""
    end = time.monotonic() + PATIENCE
    while any(fields[0] in "RS" for _, fields in processes() if int(fields[2]) == group):
        if time.monotonic() > end:
            return False
    return True


def peak_memory(pid):
    """The most memory that a process has had, in KiB."""
    with open(f"/proc/{pid}/status") as file:
        return next(int(line.split()[1]) for line in file if line.startswith("VmHWM:"))


def written_by(pid):
    """How many bytes a process has written."""
    with open(f"/proc/{pid}/io") as file:
        return next(int(line.split()[1]) for line in file if line.startswith("wchar:"))
