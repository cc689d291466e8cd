#!/usr/bin/env python3
"""A capture: how it is made, how it is read, and its replay.

replay.py NAME.bin writes NAME.txt, the text of the capture NAME.bin.
"""
import pathlib
import sys

import listing
from answers import DIRECTION, ENDED, MARK, VERSION
from reader import Reader, decided
from wire import in_bytes, number_of

HEADING = f"dir {listing.HEADING}"
FROM_MODULE, FROM_BOX = 0, 1
DIRECTIONS = FROM_MODULE, FROM_BOX
THE_MARK, THE_VERSION = b"LFT", in_bytes(2, 1)
HEAD_SIZE = len(THE_MARK + THE_VERSION)
RECORD_HEAD_SIZE = 1 + 4 + 2  # direction, milliseconds, count
MAX_COUNT = 2**16 - 1


def head():
    return THE_MARK + THE_VERSION


def record(direction, milliseconds, payload):
    return bytes([direction]) + in_bytes(4, milliseconds) + in_bytes(2, len(payload)) + payload


def read_capture(data):
    """The complete records before the refusal, and the refusal's number and place, which are None where all is whole.

    A record is its direction, its milliseconds and its bytes.
    """
    if data[: len(THE_MARK)] != THE_MARK:
        return [], MARK, 0
    if data[len(THE_MARK) : HEAD_SIZE] != THE_VERSION:
        return [], VERSION, len(THE_MARK)
    records, at = [], HEAD_SIZE
    while at < len(data):
        direction, body = data[at], at + RECORD_HEAD_SIZE
        if direction not in DIRECTIONS:
            return records, DIRECTION, at
        end = body + number_of(data[at + 5 : body])
        if end > len(data):  # also where its own head is incomplete
            return records, ENDED, at
        records.append((direction, number_of(data[at + 1 : at + 5]), data[body:end]))
        at = end
    return records, None, None


def lines_and_last(data):
    """The lines after the heading, each with the place in the capture after its record; and the last lines."""
    records, number, place = read_capture(data)
    readers, lines, at = [Reader() for _ in DIRECTIONS], [], HEAD_SIZE
    for direction, _, payload in records:
        at += RECORD_HEAD_SIZE + len(payload)
        lines += [(at, f"{direction} {listing.line(*found)}") for found in decided(payload, readers[direction])]
    if number is not None:
        return lines, [f"refused {number} {place}"]
    return lines, [f"{direction} {listing.end_line(readers[direction])}" for direction in DIRECTIONS]


def replay(data):
    """The text of a capture, and whether it is refused."""
    lines, last = lines_and_last(data)
    text = "".join(line + "\n" for line in [HEADING, *(line for _, line in lines), *last])
    return text, last[0].startswith("refused")


def main():
    source = pathlib.Path(sys.argv[1])
    source.with_suffix(".txt").write_text(replay(source.read_bytes())[0])


if __name__ == "__main__":
    main()
