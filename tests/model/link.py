"""The link: which command waits, under which number, and when it is sent again (PROTOCOL 9)."""
from answers import BUSY, DONE, STATE, STRAY, UNSENT

WAITING = bytes.fromhex("05 09 0B 13 15 17 1B 27 29")  # PROTOCOL 9.1
MAX_REPEATS = 2  # PROTOCOL 9.6
AGAIN, GIVEN_UP = 1, 2  # PROTOCOL 9.13


def next_number(number):
    """PROTOCOL 9.2."""
    return 0 if number == 255 else number + 1


def elapsed(since, clock):
    """Milliseconds from one reading to another (PROTOCOL 9.3)."""
    return (clock - since) % 2**32


def is_due(since, clock):
    """PROTOCOL 9.4, of a command that waits."""
    return 200 <= elapsed(since, clock) < 2**31


class Link:
    """The next sequence number and, where a command waits, [command, number, last sent, repeats].

    A call answers a list: the answer's number and its values.
    """

    def __init__(self, number=0, waits=None):
        self.number, self.waits = number, waits

    def in_range(self):
        """PROTOCOL 9.15. Any number and any clock are in range."""
        if self.waits is None:
            return True
        command, _, _, repeats = self.waits
        return command in WAITING and repeats <= MAX_REPEATS

    def offer(self, command, clock):
        """PROTOCOL 9.2, 9.5, 9.10 and 9.11."""
        if not self.in_range():
            return [STATE, 0]
        if command not in WAITING:
            return [UNSENT]
        if self.waits is not None:
            return [BUSY]
        number = self.number
        self.waits = [command, number, clock, 0]
        self.number = next_number(number)
        return [DONE, number]

    def tick(self, clock):
        """PROTOCOL 9.5 to 9.8."""
        if not self.in_range():
            return [STATE, 0]
        if self.waits is None:
            return [DONE]
        command, number, last, repeats = self.waits
        if not is_due(last, clock):
            return [DONE]
        if repeats < MAX_REPEATS:
            self.waits = [command, number, clock, repeats + 1]
            return [DONE, AGAIN, command, number]
        self.waits = None
        return [DONE, GIVEN_UP, command, number]

    def receive(self, command, number):
        """A received frame: only the one that fits ends the wait (PROTOCOL 9.9)."""
        if not self.in_range():
            return [STATE, 0]
        if self.waits is None or [command, number] != [self.waits[0] + 1, self.waits[1]]:
            return [STRAY]
        waiting, under = self.waits[:2]
        self.waits = None
        return [DONE, waiting, under]
