"""A program as a device drives it: each record's lines are there before the next record is sent."""
import os
import select
import subprocess
import time

from checks import text_of

PATIENCE = 60  # seconds
PAUSE = 0.05  # seconds between the pieces of a record


class Device:
    def __init__(self, program):
        pipe = subprocess.PIPE
        self.process = subprocess.Popen([program], bufsize=0, stdin=pipe, stdout=pipe, stderr=subprocess.DEVNULL)
        self.buffered = b""

    def __enter__(self):
        return self

    def __exit__(self, *_):
        self.process.kill()
        self.process.wait()
        self.process.stdin.close()
        self.process.stdout.close()

    def send(self, data):
        self.process.stdin.write(data)

    def prints(self, seconds):
        """Whether it prints more within so many seconds."""
        return bool(select.select([self.process.stdout], [], [], max(seconds, 0))[0])

    def line(self):
        end = time.monotonic() + PATIENCE
        while b"\n" not in self.buffered:
            if not self.prints(end - time.monotonic()):
                return f"no line in {PATIENCE} seconds"
            more = os.read(self.process.stdout.fileno(), 4096)
            if not more:
                return "the end of its output"
            self.buffered += more
        line, _, self.buffered = self.buffered.partition(b"\n")
        return line.decode("ascii", "backslashreplace")

    def end(self, last):
        """The input ends; what is wrong with that, or ''. The last lines come only now."""
        try:
            more = self.buffered + self.process.communicate(timeout=PATIENCE)[0]
        except subprocess.TimeoutExpired:
            return f"it does not end in {PATIENCE} seconds"
        if more != text_of(last).encode("ascii"):
            return f"{more!r} at the end of the input, which should be {last}"
        return f"it ends with status {self.process.returncode}" if self.process.returncode else ""


def drive(program, steps, last=()):
    """What goes wrong first, or ''. A step is bytes to send and the lines that they cause; None where it must wait.

    The last lines are those that the end of the input causes.
    """
    sent = b""
    try:
        with Device(program) as device:
            for data, lines in steps:
                device.send(data)
                sent += data
                if lines is None and (device.buffered or device.prints(PAUSE)):
                    return f"after {sent.hex(' ')} it does not wait for the rest of the record"
                for line in lines or []:
                    found = device.line()
                    if found != line:
                        return f"after {sent.hex(' ')}\n  should be: {line}\n  is:        {found}"
            return device.end(last)
    except OSError as error:
        return f"after {sent.hex(' ')}: {error}"
