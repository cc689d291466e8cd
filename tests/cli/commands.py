"""The commands that list a file or standard input, each with inputs that the tests give to it."""
import functools

import model


class Command:
    """Its name and its program.

    Inputs: one frame; what can follow it and is not complete; so many frames that their listing fills any pipe.
    """

    def __init__(self, name, listing, one, half, many):
        self.name, self.program, self.text = name, f"{name}_program", functools.cache(listing)
        self.one, self.half, self.many = one, half, many
        self.heading = self.listing(one).splitlines(True)[0]

    def listing(self, data):
        return self.text(data).encode()

    def both_ways(self, door, room, data):
        """A file, which the program reads itself, and standard input, which the relay reads."""
        path = room / "given"
        path.write_bytes(data)
        yield f"{self.name}, a file", [door, self.name, path], {}
        yield f"{self.name}, standard input", [door, self.name], {"data": data}


FRAME = model.wire(7, 1)
RECORD = model.record(0, FRAME)
RECORDS = b"".join(model.record(turn % 2, FRAME * 500) for turn in range(40))
LIST = Command("list", model.listing, FRAME, FRAME[:8], FRAME * 20000)
REPLAY = Command("replay", lambda data: model.replay(data)[0], model.HEAD + RECORD, RECORD[:8], model.HEAD + RECORDS)
COMMANDS = [LIST, REPLAY]
