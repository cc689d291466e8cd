"""Runs the test program on its processor, and judges how it ended and what it printed."""
import collections
import pathlib
import re
import subprocess
import tempfile
import threading

SECOND = pathlib.Path(__file__).resolve().parents[2] / "target" / "differential" / "release" / "differential"
PATIENCE = 60  # seconds
MARK = b"board: "
COUNTED = re.compile(r"(\d+) passed, (\d+) failed")
USED = re.compile(r"stack (\d+), arguments (\d+), return address (\d+)")

# A run of the program: its lines that are not calls, what the second implementation says of those, and what is wrong
# with its end, or ''.
Run = collections.namedtuple("Run", "lines agreed ended")


def feed(reader, lines):
    """Sends the calls to the second implementation, which ends at the first wrong one, and returns the other lines."""
    said = []
    for line in lines:
        if line.startswith(MARK):
            said.append(line[len(MARK):].decode("ascii", "backslashreplace").rstrip("\n"))
            continue
        try:
            reader.stdin.write(line)
        except BrokenPipeError:
            pass
    return said


def run(words):
    """Runs a program. Its calls are checked while it prints them. An emulator may warn beside them."""
    with tempfile.TemporaryFile() as warned, \
            subprocess.Popen([str(word) for word in words], stdin=subprocess.DEVNULL, stdout=subprocess.PIPE,
                             stderr=warned) as program, \
            subprocess.Popen([SECOND, "written"], stdin=subprocess.PIPE, stdout=subprocess.PIPE,
                             stderr=subprocess.STDOUT) as reader:
        limit = threading.Timer(PATIENCE, program.kill)
        limit.start()
        said, status = feed(reader, program.stdout), program.wait()
        limit.cancel()
        agreed = reader.communicate()[0].decode("ascii", "backslashreplace").strip()
        warned.seek(0)
        why = warned.read()[-300:].decode("ascii", "backslashreplace").strip()
    return Run(said, agreed, f"it ends with status {status} {why}".strip() if status else "")


def faults_in(done, seed, count):
    """What is wrong with a run, each fault a line."""
    faults = [done.ended] if done.ended else []
    if done.agreed != f"{count} lines agree":
        faults += [f"the second implementation: {line[:200]}" for line in done.agreed.splitlines()]
    first, *inner, used, last = [*done.lines, "", "", ""] if len(done.lines) < 3 else done.lines
    if first != f"seed {seed}, calls {count}" or not USED.fullmatch(used) or not COUNTED.fullmatch(last):
        faults.append(f"another beginning or end: {done.lines[:1] + done.lines[-2:]}")
    return faults + inner


def number_in(pattern, lines, group):
    found = [match for match in map(pattern.fullmatch, lines) if match]
    return int(found[-1].group(group)) if found else None
