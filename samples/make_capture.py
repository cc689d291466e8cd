#!/usr/bin/env python3
"""Makes the sample capture: a morning at the bench, recorded on both wires.

make_capture.py [FOLDER] writes capture.bin and, the same bytes in hex with comments, capture.hex. Without FOLDER it
writes them beside itself. capture.txt is the replay; tests/model/replay.py makes it.
"""
import pathlib
import sys

HERE = pathlib.Path(__file__).resolve().parent
MODULE, BOX = 0, 1
NAMES = {MODULE: "from module", BOX: "from box"}
HEAD = b"LFT\0\1"
IN_LINE = 24  # bytes of a line in hex


def frame(command, number, payload=b""):
    body = (len(payload) + 5).to_bytes(2, "big") + bytes([command, number, 0, 0]) + payload
    body += bytes([sum(body) % 256])
    return b"\xff\xff" + body.replace(b"\xff", b"\xff\x55")


def report(number, volume, leaf):
    """Gathering and feeding, no alarm."""
    return frame(0x05, number, b"\4\5" + volume.to_bytes(2, "big") + leaf.to_bytes(4, "big") + b"\0")


def reply(number):
    return frame(0x06, number)


def records():
    """Milliseconds, direction, bytes, and what they are. Most bytes are those of the sample stream."""
    bench = (HERE / "bench.bin").read_bytes()
    yield 0, BOX, bench[0:5], "the module is plugged in: noise"
    yield 20, MODULE, bench[5:14], "01, asks for device information"
    yield 31, BOX, bench[14:46], "02, the front of it"
    yield 40, MODULE, b"", "nothing"
    yield 52, BOX, bench[46:89], "02, the rest"
    yield 1000, MODULE, bench[89:98], "07 heartbeat"
    yield 1010, BOX, bench[98:107], "08"
    yield 2000, MODULE, bench[107:118], "0D network status"
    yield 2011, BOX, bench[118:127], "0E"
    yield 2500, BOX, bench[127:146], "05 volume 3, leaf 253, number FF"
    yield 2521, MODULE, bench[146:156], "06"
    yield 3100, BOX, bench[156:165], "05 leaf 254, the front of it"
    yield 3104, MODULE, bench[381:391], "07 heartbeat, number FF"
    yield 3109, BOX, bench[165:174], "05 leaf 254, the rest"
    yield 3115, BOX, bench[391:401], "08"
    yield 3130, MODULE, bench[174:183], "06"
    yield 4000, BOX, bench[183:201], "05 leaf 255, the 55 after its FF is lost"
    yield 4200, BOX, bench[201:220], "05 leaf 255 again"
    yield 4221, MODULE, bench[220:229], "06"
    yield 4400, BOX, bench[229:247], "05 leaf 256"
    yield 4421, MODULE, bench[247:256], "06"
    yield 4700, BOX, bench[256:282], "a foot on the cable: noise, then 05 leaf 257 with a wrong sum"
    yield 4900, BOX, bench[282:300], "05 leaf 257 again"
    yield 4921, MODULE, bench[300:309], "06"
    yield 5100, MODULE, bench[309:323], "03 control: the lamp on"
    yield 5112, BOX, bench[323:332], "04"
    yield 5300, BOX, bench[332:345], "05 leaf 258 breaks off"
    yield 5400, MODULE, bench[372:381], "07 heartbeat, the 55 after its number is lost"
    yield 5500, BOX, bench[345:363], "05 leaf 258 again, which cuts the first one"
    yield 5521, MODULE, bench[363:372], "06"
    yield 5600, MODULE, bench[456:466], "03 read: asks for the status"
    yield 5620, BOX, bench[466:484], "04 leaf 259, skipped leaf"
    yield 5700, BOX, bench[484:502], "05 leaf 260"
    yield 5721, MODULE, bench[502:511], "06"
    yield 5900, BOX, bench[511:529], "05 leaf 261"
    yield 5921, MODULE, bench[529:538], "06"
    yield 6100, BOX, bench[538:556], "05 leaf 262, the last one of the volume; the feeder stands still"
    yield 6121, MODULE, reply(7), "06"
    yield 65536, BOX, report(8, 4, 1), "05 volume 4, leaf 1"
    yield 65557, MODULE, reply(8), "06"
    yield 66100, BOX, report(9, 4, 2), "05 leaf 2"
    yield 66121, MODULE, reply(9) + frame(0x07, 7), "06, and 07 heartbeat"
    yield 66133, BOX, frame(0x08, 7) + report(10, 4, 3), "08, and 05 leaf 3"
    yield 66154, MODULE, reply(10), "06"


def record_head(milliseconds, direction, data):
    return bytes([direction]) + milliseconds.to_bytes(4, "big") + len(data).to_bytes(2, "big")


def in_hex():
    """A record's own 7 bytes with a comment, then its bytes."""
    yield "# A morning at the bench, recorded on both wires. make_capture.py makes this file and capture.bin, the same"
    yield "# bytes; capture.txt is their replay."
    yield f"{HEAD.hex(' ').upper()}  # mark, version"
    for milliseconds, direction, data, what in records():
        first = record_head(milliseconds, direction, data).hex(" ").upper()
        yield f"{first}  # {NAMES[direction]}, {milliseconds} ms, {len(data)} bytes: {what}"
        for at in range(0, len(data), IN_LINE):
            yield f"    {data[at : at + IN_LINE].hex(' ').upper()}"


def capture():
    return HEAD + b"".join(record_head(ms, direction, data) + data for ms, direction, data, _ in records())


def main(folder=HERE):
    pathlib.Path(folder, "capture.bin").write_bytes(capture())
    pathlib.Path(folder, "capture.hex").write_text("".join(f"{line}\n" for line in in_hex()))


if __name__ == "__main__":
    main(*sys.argv[1:])
