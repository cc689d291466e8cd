#!/usr/bin/env python3
"""The listing of a stream (PROTOCOL 10.2 to 10.6).

listing.py NAME.hex writes NAME.bin, the bytes that NAME.hex names, and NAME.txt, their listing.
"""
import pathlib
import re
import sys

from answers import CLEAN, CUT, FRAME, LONG, SHORT, STUFF, STUFFLATE, SUM
from reader import Reader, decided
from wire import number_of

HEADING = "kind start end cmd sn flags payload"
WORDS = {FRAME: "frame", SHORT: "short", LONG: "long", STUFF: "stuff", STUFFLATE: "stufflate", CUT: "cut", SUM: "sum"}


def hex_bytes(text):
    """Bytes in hex; from a # on, a line is a comment."""
    return bytes.fromhex(re.sub("#.*", "", text))


def line(answer, start, end, body, *_):
    """PROTOCOL 10.4 and 10.5: the further values are not printed."""
    columns = "- - - -"
    if answer == FRAME:
        columns = f"{body[2]} {body[3]} {number_of(body[4:6])} {len(body) - 7}"
    return f"{WORDS[answer]} {start} {end} {columns}"


def end_line(reader):
    answer, *values = reader.finish()
    return f"clean {values[0]}" if answer == CLEAN else f"open {values[1]}"


def lines_and_end(data):
    """The lines between heading and last line, each with the place after its deciding byte; and the last line."""
    reader = Reader()
    lines = [(found[2], line(*found)) for found in decided(data, reader)]
    return lines, end_line(reader)


def listing(data):
    lines, last = lines_and_end(data)
    return "".join(text + "\n" for text in [HEADING, *(text for _, text in lines), last])


def main():
    source = pathlib.Path(sys.argv[1])
    data = hex_bytes(source.read_text())
    source.with_suffix(".bin").write_bytes(data)
    source.with_suffix(".txt").write_text(listing(data))


if __name__ == "__main__":
    main()
