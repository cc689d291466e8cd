"""The listings by the rules, from tests/model, for the tests of the command line."""
import pathlib
import sys

sys.path.insert(1, str(pathlib.Path(__file__).resolve().parents[1] / "model"))
from listing import HEADING, hex_bytes, lines_and_end, listing
from replay import replay
from wire import on_wire

HEAD = b"LFT\0\1"


def wire(command, number, payload=b"", flags=0):
    """A frame on the wire."""
    return on_wire(command, number, flags, payload)


def record(direction, payload, milliseconds=0):
    """A record of a capture."""
    return bytes([direction]) + milliseconds.to_bytes(4, "big") + len(payload).to_bytes(2, "big") + payload
