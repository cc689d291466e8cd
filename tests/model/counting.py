"""Sequence numbers, repeats and waits of a link (PROTOCOL 9.2 to 9.9) by plain counting.

It counts over calls and printed lines alone, and has nothing of the model. A call is the operation, a, b, c, d and the
clock. Operations are 0 offer, 1 tick, 2 receive, 3 and 4 a link in any state, 5 elapsed time, 6 tick in place, any
other a fresh link.
"""
import itertools
import struct


def numbers_from(first):
    """first, .. 254, 255, 0, 1, .. 255, 0, .."""
    return itertools.chain(range(first, 256), itertools.cycle(range(256)))


def late_enough(last, clock):
    reading = clock if clock >= last else clock + 2**32  # counted on from the last sending
    return last + 200 <= reading < last + 2**31


def miscounted(calls, lines, tally):
    """Where the lines first go against the counts, or ''.

    The numbers in their order are 0, 1, .. 255, 0, ..; a wait has at most two repeats, one at each due tick, and the
    due tick after the second ends it. The counts begin at a fresh link, or at one in any state on which nothing waits.
    """
    if len(calls) != len(lines):
        return f"{len(lines)} lines for {len(calls)} records"
    numbers, wait = numbers_from(0), None
    for place, (call, line) in enumerate(zip(calls, lines), 1):
        operation, a, b, _, _, clock = struct.unpack(">5BI", call)
        operation = 1 if operation == 6 else operation
        found = line.partition(" :")[0].split(" ")[1:]
        if operation > 2 and operation != 5:
            first = {3: a, 4: None}.get(operation, 0)
            numbers, wait = None if first is None else numbers_from(first), None
        refused = operation != 1 and found[:1] != ["0"]
        if numbers is None or operation > 2 or refused:
            continue
        if operation == 0:
            should = [] if wait else [0, next(numbers)]
            wait, last, dues = [a, *should[1:]], clock, 0
            tally["numbers used"] += 1
        elif operation == 2:
            should = [0, *wait] if wait and [a - 1, b] == wait else []
            wait = None
        elif wait and late_enough(last, clock):
            dues, last = dues + 1, clock
            should = [0, 1 if dues <= 2 else 2, *wait]
            if dues > 2:
                wait = None
                tally["waits of three due ticks"] += 1
        else:
            should = [0]
        if found != [str(number) for number in should]:
            return f"record {place}, {call.hex(' ')}: {line!r}, by counting {should or 'refused'}"
    return ""
