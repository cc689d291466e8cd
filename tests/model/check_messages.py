"""Messages: the model and the program against lines worked out by hand, then the program against the model."""
import collections

from answers import STUFF, STUFFLATE
from asking import misasked
from checks import lines_of
from driver import reply_step, stream_lines, stream_pieces, stream_script
from message import LISTED
from random_messages import STEPS, STREAMS, broken_stuffing, stream_of
from reader import Reader, decided
from records import MAX_DATA
from reply import NOTHING, reply_to
from stated_messages import NAMED, NO_REPLY, STATED, steps, streams


def check_model(checks):
    for name, data, *lines in STATED:
        found = stream_lines(bytes.fromhex(data))
        checks.test(f"the model: {name}", found == lines, str(found))
    for name, (_, lines), found in steps():
        checks.test(f"the model: {name}", [found] == lines, found)
    for answer in NO_REPLY:
        replied = [command for command in range(256) if reply_to(answer, [], command)[0] != NOTHING]
        checks.test(f"the model: no reply to a frame refused by {answer}", not replied, str(replied))


def stated(checks, program):
    for name, stream, lines in streams():
        _, wrong = program.compared(stream_script(stream), [(stream, ["fresh", *lines])])
        checks.test(f"the program: {name}", not wrong, wrong)
    for name, step, _ in steps():
        wrong = program.wrong_on([step])
        checks.test(f"the program: {name}", not wrong, wrong)
    wrong = program.wrong_on([NAMED])
    checks.test("the program: the numbers of modes, ways and codes", not wrong, wrong)


def random_streams(checks, program, seed, count):
    seen = collections.Counter()
    for place, rand, family in checks.inputs(STREAMS, seed, count, "message stream"):
        stream = stream_of(rand, family)
        pieces = [(b"", ["fresh"]), *stream_pieces(stream)]
        for line in lines_of(pieces):
            word, _, rest = line.partition(" ")
            if word in ("frame", "sum"):
                seen[word] += 1
            elif word == "read":
                seen["read", *rest.split(" ")[:2]] += 1
        if family is broken_stuffing:
            seen.update(answer for answer, *_ in decided(stream, Reader()))
        # The reader stays from record to record, wherever the stream is cut.
        _, wrong = program.compared(stream_script(stream, rand.choice([37, 500, MAX_DATA])), pieces)
        checks.test_random(f"the program: {place}", wrong)
    checks.say(f"{seen['frame']} frames and {seen['sum']} wrong sums")
    # Streams without these would show nothing.
    for answer in ("31", "32", "33"):
        checks.test(f"a message refused by {answer} is seen", seen["read", answer] > 0)
    missing = [command for command in LISTED if not seen["read", "0", str(command)]]
    checks.test("each listed command is read", not missing, f"missing {missing}")
    checks.test("a wrong sum is seen", seen["sum"] > 0)
    checks.test("both answers to broken stuffing are seen", seen[STUFF] > 0 and seen[STUFFLATE] > 0)


def random_steps(checks, program, seed, count):
    seen = collections.Counter()
    for place, rand, some in checks.inputs(STEPS, seed, count, "message script"):
        script = [step for _ in range(200) for step in some(rand)]
        seen.update(tuple(line.split(" ")[:2]) for line in lines_of(script))
        checks.test_random(f"the program: {place}", program.wrong_on(script))
        wrong = misasked(script, seen)
        checks.test(f"the program: {place}, rooms asked for", not wrong, wrong)
    for word, answers in (("write", ("0", "21", "22", "31", "32", "33")), ("answer", ("0", "22"))):
        for answer in answers:
            checks.test(f"'{word} {answer}' is seen", seen[word, answer] > 0)
        kind = f"{word} in the room said"
        checks.test(f"'{kind}' is seen", seen[kind] > 0)


# A frame for each reply that the box writes: its command, and a payload. PROTOCOL 8.2, 8.6 to 8.8.
REPLIED = [(0x03, "01 00 00 00 00"), (0x07, ""), (0x0D, "00 00"), (0x0F, ""), (0x21, ""), (0x02, ""), (0x09, "05"),
           (0x11, "09"), (0x07, "00")]


def small_rooms(checks, program):
    """Every reply under every sequence number: 11 bytes hold it, and some reply needs all of them. PROTOCOL 8.12."""
    for room, fits in ((11, True), (10, False)):
        frames = [(command, number, payload) for command, payload in REPLIED for number in range(256)]
        script = [reply_step(command, number, bytes.fromhex(payload), room) for command, number, payload in frames]
        wrong = program.wrong_on(script)
        checks.test(f"the program: every reply with room for {room} bytes", not wrong, wrong)
        refused = [line for line in lines_of(script) if line.startswith("answer 22")]
        checks.test(f"{room} bytes hold {'every' if fits else 'not every'} reply", bool(refused) != fits)


def check_program(checks, program, seed, count):
    stated(checks, program)
    small_rooms(checks, program)
    random_streams(checks, program, seed, count)
    random_steps(checks, program, seed, count)
