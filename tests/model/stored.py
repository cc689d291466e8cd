#!/usr/bin/env python3
"""The driver's stored script and what it has to print for it: the stated answers, one part after the other.

stored.py script > crates/test_driver/stdin
stored.py text > crates/test_driver/stdout

Neither is ever made by running the driver.
"""
import pathlib
import sys

sys.path.insert(1, str(pathlib.Path(__file__).resolve().parents[1] / "lib"))
import stated_calls
import stated_devices
import stated_examples
import stated_link
import stated_messages
import stated_transfers
from checks import lines_of, text_of
from driver import stream_script
from records import is_whole
from transfer_rows import in_one_run


def steps():
    """Records, or some of them in one, and their lines."""
    for _, script in stated_examples.scripts():
        yield from script
    *streams, kinds = stated_messages.streams()
    for _, stream, lines in streams:
        yield stream_script(stream), ["fresh", *lines]
    yield from (step for _, step, _ in stated_messages.steps())
    yield stated_messages.NAMED
    yield stream_script(kinds[1]), ["fresh", *kinds[2]]
    for _, script in stated_link.scripts():
        if is_whole(b"".join(record for record, _ in script)):
            yield stated_link.FRESH_STEP
            yield from script
    yield from (step for _, step, _ in stated_calls.steps())
    yield from transfer_steps()


def transfer_steps():
    return in_one_run(stated_transfers.TRANSFERS + stated_devices.DEVICES)


def script():
    return b"".join(record for record, _ in steps())


def text():
    return text_of(lines_of(steps())).encode("ascii")


if __name__ == "__main__":
    sys.stdout.buffer.write(script() if sys.argv[1] == "script" else text())
