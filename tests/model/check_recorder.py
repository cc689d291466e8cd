"""replay_program as a recorder drives it: the lines of a record are there before the next byte is sent.

Beside that, its memory, which does not depend on the size of the capture.
"""
import re
import subprocess
import threading

from checks import Dead
from device import PATIENCE, drive
from replay import HEAD_SIZE, MAX_COUNT, head, lines_and_last, read_capture, record
from stated_captures import HEADING, REFUSED, WHOLE
from wire import on_wire


def record_by_record(data):
    """The steps of a capture, and its last lines."""
    lines, last = lines_and_last(data)
    steps, at = [(b"", [HEADING]), (head(), None)], HEAD_SIZE
    for some in read_capture(data)[0]:
        begin, at = at, at + len(record(*some))
        steps.append((data[begin:at], [line for place, line in lines if place == at]))
    return [*steps, (data[at:], None)], last


def byte_by_byte(data):
    """It waits for the last byte of each record."""
    steps, _ = record_by_record(data)
    for piece, lines in steps:
        if len(piece) < 2 or lines is None:
            yield piece, lines
            continue
        for at in range(len(piece) - 2):
            yield piece[at : at + 1], []
        yield piece[-2:-1], None
        yield piece[-1:], lines


def peak_memory(path, records):
    """The most memory that it had, in KiB, when it has read almost all of a capture of so many full records."""
    some = record(1, 0, (on_wire(5, 1, 0, bytes(9)) * 4096)[:MAX_COUNT])
    with subprocess.Popen([path], bufsize=0, stdin=subprocess.PIPE, stdout=subprocess.DEVNULL) as process:
        limit = threading.Timer(PATIENCE, process.kill)
        limit.start()
        try:
            process.stdin.write(head() + some * records)
            with open(f"/proc/{process.pid}/status", encoding="ascii") as status:
                return int(re.search(r"VmHWM:\s+(\d+) kB", status.read()).group(1))
        except OSError as error:
            raise Dead(f"it does not read a capture of {records} full records: {error}") from error
        finally:
            limit.cancel()


MORE_MEMORY = 256  # KiB: pages that are touched late


def constant_memory(checks, path):
    few, many = peak_memory(path, 4), peak_memory(path, 400)
    checks.test("26 MB take as much memory as 0.3 MB", many <= few + MORE_MEMORY, f"{few} KiB, then {many} KiB")


def check_program(checks, program):
    ended = [some for some in REFUSED if "refused 54" in some[2][-1]]
    for name, data, _ in WHOLE + ended:
        steps, last = record_by_record(bytes.fromhex(data))
        wrong = drive(program.path, steps, last)
        checks.test(f"a recorder, record by record: {name}", not wrong, wrong)
    constant_memory(checks, program.path)
    for name, data, _ in WHOLE[:-2]:  # not the long ones
        wrong = drive(program.path, byte_by_byte(bytes.fromhex(data)), lines_and_last(bytes.fromhex(data))[1])
        checks.test(f"a recorder, byte by byte: {name}", not wrong, wrong)
