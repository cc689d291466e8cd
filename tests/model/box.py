"""What the box does with an answer of its reader: link, transfer and reply together."""
from answers import DONE, FRAME, STATE, SUM
from message import read_message
from reply import reply_row
from wire import number_of


def handle(answer, body, transfer, link, clock, piece, buffer, output):
    """The answer's number and values; and command and number of the wait that the frame ended, or []."""
    if not transfer.in_range() or not link.in_range():
        return [STATE, 0], []
    if answer == SUM:
        return reply_row(SUM, [], body[2], body[3], output, len(output)), []
    if answer != FRAME:
        return [DONE], []
    command, number, flags, payload = body[2], body[3], number_of(body[4:6]), body[6:-1]
    ended = link.receive(command, number)[1:]  # STRAY is silent, and has no values
    if command == 0x19:
        return transfer.begin(link, clock, number, payload, piece, buffer, output), ended
    if command == 0x1D:
        return transfer.store(number, flags, payload, buffer, output), ended
    if command == 0x1F:
        return transfer.stop(number, payload, output), ended
    return reply_row(*read_message(command, payload), command, number, output, len(output)), ended
