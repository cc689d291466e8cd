"""What the tests in Python share. No rule of the protocol is in here, so that each reading of the rules stays apart."""
import contextlib
import os
import random
import signal
import subprocess
import tempfile
import threading

SHOWN = 400  # bytes of an input that are shown where a text is wrong


def seed_and_count(words, count):
    """The end of a command line, [SEED [COUNT]]. A run that names no seed can be repeated too."""
    return int(words[0]) if words else 1, int(words[1]) if len(words) > 1 else count


def shares(families, seed, count):
    """A family is a name, parts and a share in a thousand. It gets one input at least, and its own random numbers."""
    for name, *parts, share in families:
        yield name, parts, random.Random(f"{seed} {name}"), max(1, count * share // 1000)


class Dead(Exception):
    """The program is missing, cannot be run or does not end."""


class Checks:
    """The tests of one run. Those that fail are printed under its name."""

    def __init__(self, name):
        self.name, self.passed, self.failed, self.shown = name, 0, 0, False

    def say(self, line):
        print(f"{self.name}: {line}")

    def say_seed(self, seed, count, what):
        self.say(f"seed {seed}, {count} {what}s")

    def test(self, what, holds, more=""):
        if holds:
            self.passed += 1
        else:
            self.failed += 1
            self.say(f"{what}{more and ': ' + more}")

    def test_random(self, what, wrong):
        """The first difference is shown whole, of the others the place."""
        self.test(what, not wrong, wrong.partition("\n")[0] if self.shown else wrong)
        self.shown = self.shown or bool(wrong)

    def inputs(self, families, seed, count, what):
        """Of each random input its name, its random numbers and its family."""
        shared = list(shares(families, seed, count))
        self.say_seed(seed, sum(share for *_, share in shared), what)
        for name, (family,), rand, share in shared:
            for i in range(share):
                yield f"seed {seed}, {name}, {what} {i}", rand, family

    @contextlib.contextmanager
    def unless_dead(self):
        """A dead program is one failure; what is left to try of it is skipped."""
        try:
            yield
        except Dead as error:
            self.test("the program", False, str(error))

    def end(self):
        """The last line, and the exit status."""
        print(f"{self.passed} passed, {self.failed} failed")
        return 1 if self.failed else 0


def text_of(lines):
    return "".join(f"{line}\n" for line in lines)


def lines_of(pieces):
    return [line for _, lines in pieces for line in lines]


def shown(data):
    """The last bytes of an input."""
    return (".. " if len(data) > SHOWN else "") + data[-SHOWN:].hex(" ")


def difference(pieces, found):
    """Where a text first differs from the lines of its pieces, or ''. A piece is bytes and the lines they cause."""
    if found == text_of(lines_of(pieces)).encode("ascii"):
        return ""
    printed = iter(found.decode("ascii", "backslashreplace").splitlines(True))
    so_far = b""
    for place, (data, lines) in enumerate(pieces, 1):
        so_far += data
        for line in text_of(lines).splitlines(True):
            other = next(printed, "no line")
            if other != line:
                return f"at piece {place} of {len(pieces)}{contrast(so_far, line, other)}"
    return f"after all {len(pieces)} pieces{contrast(so_far, 'no line', next(printed, 'no line'))}"


def contrast(so_far, line, other):
    return f"\n  bytes so far: {shown(so_far)}\n  should be:    {line!r}\n  is:           {other!r}"


class Program:
    """A program that reads bytes and prints lines."""

    def __init__(self, path, patience, *words):
        if not (os.path.isfile(path) and os.access(path, os.X_OK)):
            raise Dead(f"there is none at {path}")
        self.path, self.patience, self.words = os.path.abspath(path), patience, words

    def printed(self, data):
        """What it prints, and what is wrong with its end, or ''."""
        # A pipe to it would have to be filled while its output is read.
        with tempfile.TemporaryFile() as source:
            source.write(data)
            source.seek(0)
            ends = {"stdin": source, "stdout": subprocess.PIPE, "stderr": subprocess.DEVNULL}
            try:
                process = subprocess.Popen([self.path, *self.words], **ends)
            except OSError as error:
                raise Dead(error) from error
            with process:
                limit = threading.Timer(self.patience, process.kill)
                limit.start()
                found, status = process.stdout.read(), process.wait()
                limit.cancel()
        if status == -signal.SIGKILL:
            raise Dead(f"it does not end in {self.patience} seconds")
        return found, f"it ends with status {status}" if status else ""

    def compared(self, data, pieces):
        """What it prints, and what is wrong with its end or its text, or ''."""
        found, ended = self.printed(data)
        return found, ", ".join(filter(None, [ended, difference(pieces, found)]))

    def wrong_on(self, steps):
        """What is wrong with its end or its text on some records, or ''. A step is a record and its lines."""
        return self.compared(b"".join(record for record, _ in steps), steps)[1]
