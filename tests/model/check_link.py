"""The link: model and program against lines worked out by hand, the program against the model and against counting."""
import collections
import itertools
import struct

from checks import lines_of
from counting import miscounted
from driver import ELAPSED, FRESH_LINK, OFFER, RECEIVE, TICK_IN_PLACE, TICKS, LinkCalls
from link import WAITING
from random_link import FAMILIES, script_of
from records import LINK, records_of
from stated_link import scripts

# Which kinds of answers the scripts got, so that none is missing.

TIMES = [199, 200, 2**31 - 1, 2**31]


def out_of_range(command=5, _number=0, _last=0, repeats=0):
    """Of a command that waits; where nothing waits, no field can be out of range."""
    return ["command"] * (command not in WAITING) + ["repeats"] * (repeats not in range(3))


def kinds(calls, lines):
    """The kinds of each answer, by its line and the link that the previous line shows."""
    link, used = [0], []
    for call, line in zip(calls, lines):
        operation, a, b, _, _, clock = struct.unpack(">5BI", call)
        answer, _, state = line.partition(" : ")
        word, *answer = answer.split(" ")
        wait = link[1:]
        if operation in (OFFER, *TICKS, RECEIVE) and answer[0] == "17":
            out = out_of_range(*wait)
            # Another field out of range could hide that this one is not seen.
            yield f"{word} refused for {out[0]}" if len(out) == 1 else f"{word} refused for several fields"
            if operation == TICK_IN_PLACE:
                yield "in place, refused"
        elif operation == OFFER:
            yield from offer_kinds(a, answer, wait, used)
        elif operation in TICKS:
            yield from tick_kinds(operation, clock, answer, wait)
        elif operation == RECEIVE:
            yield from receive_kinds(a, b, answer, wait)
        elif operation == ELAPSED:
            yield f"elapsed {answer[0]}"
        else:
            used = [] if operation >= FRESH_LINK else [None]
        link = [int(number) for number in state.split(" ")]


def offer_kinds(command, answer, wait, used):
    yield {"0": "accepted", "41": "busy", "42": "unsent" + (", one waits" if wait else ", none waits")}[answer[0]]
    yield "offered", command, bool(wait)
    if answer[0] == "0":
        used.append(int(answer[1]))
        if used[-1] == 0:
            yield "accepted under number 0"
        if used[-2:] == [255, 0]:
            yield "number 0 after 255"
        if used == [*range(256), 0]:
            yield "the 257th number of a fresh link"


def tick_kinds(operation, clock, answer, wait):
    elapsed = (clock - wait[2]) % 2**32 if wait else None
    does = "nothing" if len(answer) == 1 else "send again" if answer[1] == "1" else "given up"
    if not wait:
        yield "nothing, none waits"
    elif does == "nothing":
        yield "nothing, too early" if elapsed < 200 else "nothing, clock before the sending"
    else:
        yield f"send again, repeat {wait[3] + 1}" if does == "send again" else "given up"
        if wait[1] == 0:
            yield f"{does} under number 0"
    if operation == TICK_IN_PLACE:
        yield f"in place, {does}"
    if wait and clock < wait[2] and elapsed < 2**31:
        yield f"clock wrapped, {'not ' * (does == 'nothing')}due"
    if elapsed in TIMES:
        yield f"tick at elapsed {elapsed}"


def receive_kinds(command, number, answer, wait):
    reason = ["nothing waits"]
    if wait:
        reason = ["other command"] * (command != wait[0] + 1) + ["other number"] * (number != wait[1])
    does = "fits" if answer[0] == "0" else f"stray, {' and '.join(reason)}"
    yield does
    if number == 0:
        yield f"{does} under number 0"


CALLS, FIELD_NAMES = ["offer", "tick", "answer"], ["command", "repeats"]
OFTEN = ["accepted", "busy", "unsent, none waits", "unsent, one waits"]
OFTEN += [f"{call} refused for {name}" for call in CALLS for name in FIELD_NAMES]
OFTEN += ["nothing, none waits", "nothing, too early", "nothing, clock before the sending"]
OFTEN += ["send again, repeat 1", "send again, repeat 2", "given up"]
OFTEN += [f"in place, {answer}" for answer in ("nothing", "send again", "given up", "refused")]
OFTEN += ["fits", "stray, nothing waits", "stray, other command", "stray, other number"]
OFTEN += ["stray, other command and other number"]
OFTEN += [f"{what} under number 0" for what in ("accepted", "send again", "given up", "fits")]
OFTEN += ["clock wrapped, due", "clock wrapped, not due"]
OFTEN += [f"tick at elapsed {span}" for span in TIMES] + [f"elapsed {span}" for span in TIMES]
OFTEN += ["numbers used", "waits of three due ticks"]  # by counting
SELDOM = ["number 0 after 255", "the 257th number of a fresh link", "stray, other number under number 0"]
# How often each kind has to be seen in 400 scripts.
WANTED = dict.fromkeys(OFTEN, 100) | dict.fromkeys(SELDOM, 20)


def check_model(checks):
    for name, steps in scripts():
        calls = LinkCalls()
        records = records_of(b"".join(record for record, _ in steps))
        found = [calls.line(operation - LINK, data) for operation, data in records]
        checks.test(f"the model: {name}", found == lines_of(steps), str(found))


def check_program(checks, program, seed, count):
    for name, steps in scripts():
        wrong = program.wrong_on(steps)
        checks.test(f"the program: {name}", not wrong, wrong)
    seen, tried = collections.Counter(), 0
    for place, rand, family in checks.inputs(FAMILIES, seed, count, "link script"):
        calls, steps = script_of(rand, family)
        tried += len(calls)
        seen.update(kinds(calls, lines_of(steps)))
        found, wrong = program.compared(b"".join(record for record, _ in steps), steps)
        checks.test_random(f"the program: {place}", wrong)
        wrong = miscounted(calls, found.decode("ascii", "backslashreplace").splitlines(), seen)
        checks.test(f"the program: {place}, counted", not wrong, wrong)
    checks.say(f"{tried} calls on a link")
    # Scripts without these would show nothing.
    for kind, least in WANTED.items():
        least = least * count // 400
        checks.test(f"'{kind}' is seen {least} times", seen[kind] >= least, f"seen {seen[kind]} times")
    missing = [pair for pair in itertools.product(range(256), (False, True)) if not seen["offered", *pair]]
    checks.test("each command is offered with none and with one waiting", not missing, f"missing {missing}")
