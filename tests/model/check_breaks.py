"""The stuffing of a frame broken at each place of its body, the sum too (PROTOCOL 4.6, 4.19).

What is decided at a break is known from how the stream is made: the model's reader, the definitions and the program are
held to it.
"""
import definition
from answers import STUFF, STUFFLATE
from breaks import breaking_byte, broken_at, places, rest_of
from check_streams import differs, some_body, some_cuts, some_front
from checks import lines_of
from stated_examples import played
from wire import FF, STUFFING

SIZES = range(7)  # of the payload
ALL = {(size, place) for size in SIZES for place in range(1, size + 7)}  # the sum is at place size + 6


def each_break(rand):
    """A frame with a payload of each size, broken at each place: its size, a stream, and what is decided at the break.

    A header begins a frame whatever comes before it (PROTOCOL 3.4), so that the start is known.
    """
    for size in SIZES:
        body = some_body(rand, size)
        for place in places(body):
            front, byte = some_front(rand), breaking_byte(rand)
            data = front + broken_at(body, place, byte)
            decision = STUFF if place in (1, 2, 3, 4, 5) else STUFFLATE, len(front), len(data), None, byte
            yield size, data + rest_of(rand, body, place) + some_front(rand), decision


def place_of(data, decision):
    """The place in the body at which the stuffing breaks, from the bytes of the frame."""
    _, start, end, *_ = decision
    return len(data[start + 2 : end - 2].replace(bytes([FF, STUFFING]), bytes([FF])))


def sweeps(checks, seed, count):
    return checks.inputs([("broken at each place", each_break, 1000)], seed, max(1, count // 50), "break sweep")


def test_all_met(checks, who, met):
    checks.test(f"{who}: the stuffing is broken at each place, the sum too", met == ALL, f"missing {sorted(ALL - met)}")


def check_model(checks, seed, count):
    met = set()
    for name, rand, family in sweeps(checks, seed, count):
        wrong = ""
        for size, data, decision in family(rand):
            by_definition = definition.answers_to(data)
            if decision in by_definition[0]:
                met.add((size, place_of(data, decision)))
                found = differs(rand, data, some_cuts, by_definition)
            else:
                found = f"{by_definition[0]} by definition, without {decision}"
            wrong = wrong or found and f"{data.hex(' ')}: {found}"
        checks.test(f"the model's reader: {name}", not wrong, wrong)
    test_all_met(checks, "the model's reader", met)


def is_line_of(line, decision):
    """Whether it says this decision; the count depends on the cut."""
    answer, start, end, _, byte = decision
    word, number, _, *values = line.split(" ")
    return (word, number, *values) == ("feed", str(answer), str(start), str(end), str(byte))


def check_program(checks, program, seed, count):
    met = set()
    for name, rand, family in sweeps(checks, seed, count):
        script = []
        for size, data, decision in family(rand):
            steps = played(data, rand.choice([1, 2, 3, 5, len(data)]))
            if any(is_line_of(line, decision) for line in lines_of(steps)[1:]):
                met.add((size, place_of(data, decision)))
            script += steps
        checks.test_random(f"the program's reader: {name}", program.wrong_on(script))
    test_all_met(checks, "the program's reader", met)
