"""The counted examples and more: the model and the program against answers worked out by hand."""
from answers import DONE
from checks import lines_of, text_of
from driver import empty_output
from listing import listing
from reader import Reader, decided
from stated_examples import BREAKS, BROKEN, HEADING, LIMITS, LISTED, LISTING, LISTINGS, READ, REFUSED, WIRE, WRITTEN
from stated_examples import limit_steps, played, scripts
from wire import write_frame


def model_reads(test):
    for name, data, answer, *values in READ:
        data = bytes.fromhex(data)
        found = Reader().feed(data)
        test(f"the model reads {name}", found == [answer, len(data), *values], str(found))
    for data, *lines in REFUSED:
        found = lines_of(played(bytes.fromhex(data), len(data)))
        test(f"the model's lines of {data}", found == ["fresh", *lines], str(found))
    for name, data, should in (("the listing's example", LISTING, LISTED), ("refused frames", BREAKS, BROKEN)):
        reader, data = Reader(), bytes.fromhex(data)
        found = [(answer, start, end, *values) for answer, start, end, _, *values in decided(data, reader)]
        test(f"the model reads {name}", found == should and reader.finish() == [2, len(data)], str(found))
    for consumed, data, *lines in LIMITS:
        data = bytes.fromhex(data)
        found = lines_of(limit_steps(consumed, data))
        test(f"the model reads {len(data)} bytes after {consumed}", found == ["set", *lines], str(found))


def model_writes(test):
    for name, *frame, room, answer, count in WRITTEN:
        output, form = empty_output(room), bytes.fromhex(WIRE[name])[:count] if answer == DONE else b""
        found = write_frame(*frame, output, room)
        right = found == (answer, count) and output == form + empty_output(room - len(form))
        test(f"the model writes {name}, room {room}", right, f"{found} : {output.hex(' ')}")


def model_lists(test):
    for name, data, lines in LISTINGS:
        found = listing(bytes.fromhex(data))
        test(f"the model lists {name}", found == text_of([HEADING, *lines]), found)


def check_model(checks):
    model_reads(checks.test)
    model_writes(checks.test)
    model_lists(checks.test)


def check_program(checks, program):
    for name, steps in scripts():
        wrong = program.wrong_on(steps)
        checks.test(f"the program: {name}", not wrong, wrong)
