"""Random calls on a link. A family has its rounds, and a share in a thousand.

A script is written along the model's link, so that its clocks and numbers can be near the link's.
"""
import itertools

from driver import ELAPSED, FRESH_LINK, OFFER, RECEIVE, SET_IDLE, SET_WAITING, TICKS, LinkCalls
from link import WAITING

LAST = 127  # of the link's operations; from FRESH_LINK on each makes a fresh link
EDGES = [0, 1, 199, 200, 201, 2**31 - 1, 2**31, 2**31 + 1, -1, -200]


def some_clock(rand):
    return rand.choice([0, 2**31, rand.choice(EDGES), rand.randrange(2**32)])


class Script:
    """Calls, each as the operation, a, b, c, d and the clock in `calls`, and as a step in `steps`."""

    def __init__(self, rand):
        self.rand, self.calls, self.made = rand, [], LinkCalls()

    @property
    def steps(self):
        return self.made.steps

    @property
    def waits(self):
        return self.made.link.waits

    def put(self, operation, *fields, clock=None):
        """A call; what is not named has any value."""
        clock = self.rand.randrange(2**32) if clock is None else clock % 2**32
        fields = bytes(byte % 256 for byte in fields) + self.rand.randbytes(4 - len(fields))
        data = fields + clock.to_bytes(4, "big")
        self.calls.append(bytes([operation]) + data)
        self.made.put(operation, data)

    def offer(self, clock=None):
        self.put(OFFER, self.rand.choice(WAITING), clock=some_clock(self.rand) if clock is None else clock)

    def tick(self, after):
        """A tick so long after the last sending, or at that clock where nothing waits."""
        self.tick_at((self.waits[2] if self.waits else 0) + after)

    def tick_at(self, clock):
        self.put(self.rand.choice(TICKS), clock=clock)

    def edge_tick(self):
        self.tick(self.rand.choice([*EDGES, self.rand.randrange(2**32)]))

    def receive(self, command_off=0, number_off=0):
        """The frame that fits, or one so far off; where nothing waits, one that would fit something."""
        command, number = self.waits[:2] if self.waits else (self.rand.choice(WAITING), self.made.link.number - 1)
        self.put(RECEIVE, command + 1 + command_off, number + number_off)


def due_edges(script):
    if script.waits and script.rand.randrange(12):
        script.edge_tick()
    elif script.waits:
        script.receive()
    else:
        script.offer()


def near_the_wrap(script):
    rand = script.rand
    script.offer(rand.randrange(-700, 100))
    for _ in range(rand.randrange(8)):
        if rand.randrange(2):
            script.tick(rand.choice([199, 200, 201]))
        else:
            script.tick_at(rand.randrange(-300, 900))
    script.receive()


def long_run(script):
    """Over 256 accepted commands, most with a reply; between them refused offers and waits that give up."""
    rand = script.rand
    for _ in range(rand.randrange(257, 300)):
        script.offer()
        more = rand.randrange(20)
        if more == 0:
            script.put(OFFER, rand.randrange(256))
        elif more == 1:
            for _ in range(rand.randrange(1, 4)):
                script.tick(200)
        script.receive()


def replies_off(script):
    """The frame that fits among frames off by one in command or number."""
    off_by_one = itertools.product((-1, 0, 1), (-1, 0, 1))
    offs = [*off_by_one, (script.rand.randrange(256), 0), (0, script.rand.randrange(256))]
    script.rand.shuffle(offs)
    script.offer()
    for off in offs:
        script.receive(*off)


def every_command(script):
    """Each command offered where nothing waits and where one waits."""
    rand = script.rand
    commands = [*range(256)] * 2
    rand.shuffle(commands)
    idle = set(range(256))
    for command in commands:
        if command in idle and script.waits:
            script.receive()
        elif command not in idle and not script.waits:
            script.offer()
        idle.discard(command)
        script.put(OFFER, command, clock=some_clock(rand))


# Of each field of a link values in range and out of range. A number is never out of range.
NUMBERS = [0, 1, 2, 128, 254, 255]
FIELDS = [
    (NUMBERS, []),
    (list(WAITING), [0, 4, 6, 7, 8, 0x0A, 0x12, 0x14, 0x16, 0x18, 0x1A, 0x1C, 0x26, 0x28, 0x2A, 255]),
    (NUMBERS, []),
    ([0, 1, 2], [3, 4, 128, 255]),
]
BOUNDED = [place for place, (_, outer) in enumerate(FIELDS) if outer]


def any_state(script):
    """A link in any state, mostly with no field or one out of range, and some calls on it."""
    rand = script.rand
    out = rand.sample(BOUNDED, rand.choice([0, 0, 1, 1, 1, 2]))
    fields = [rand.choice(outer if place in out else inner) for place, (inner, outer) in enumerate(FIELDS)]
    if rand.randrange(4):
        script.put(SET_WAITING, *fields, clock=some_clock(rand))
    else:
        script.put(SET_IDLE, fields[0])
    for _ in range(rand.randrange(1, 7)):
        call = rand.randrange(8)
        if call < 2:
            script.put(OFFER, rand.choice([*WAITING, 7, rand.randrange(256)]), clock=some_clock(rand))
        elif call < 5:
            script.edge_tick()
        elif call < 7:
            script.receive(*rand.choice([(0, 0), (0, 0), (-1, 0), (0, 1)]))
        else:
            script.put(ELAPSED, clock=some_clock(rand))
    if not rand.randrange(8):
        script.put(rand.randint(FRESH_LINK, LAST))


def ticks_only(script):
    """One offer or a link in any state, or neither, then ticks only."""
    rand = script.rand
    begin = rand.randrange(3)
    if begin == 1 and not script.waits:
        script.offer()
    elif begin == 2:
        script.put(SET_WAITING, 0, rand.choice(WAITING), 255, rand.randrange(3), clock=some_clock(rand))
    for _ in range(rand.randrange(5, 20)):
        if rand.randrange(2):
            script.edge_tick()
        else:
            script.tick(rand.randrange(400))


def two_readings(script):
    """Elapsed times at and near the edges, of any readings."""
    since = some_clock(script.rand) % 2**32
    clock = since + script.rand.choice([*EDGES, script.rand.randrange(2**32)])
    script.put(ELAPSED, *since.to_bytes(4, "big"), clock=clock)
    if not script.rand.randrange(8):
        script.offer()


def box_at_work(script):
    """A clock that runs: offers, a tick now and then, replies of which some are lost or late."""
    rand = script.rand
    clock = rand.choice([rand.randrange(2**32), -rand.randrange(3000), 2**31 - rand.randrange(3000)])
    for _ in range(rand.randrange(20, 200)):
        clock += rand.choice([0, 1, 10, 50, 99, 100, 101, 199, 200, 350])
        act = rand.randrange(10)
        if act < 2:
            script.offer(clock)
        elif act == 2 and script.waits:
            script.receive(*rand.choice([(0, 0), (0, 0), (0, -1)]))
        else:
            script.tick_at(clock)


def any_bytes(script):
    script.put(script.rand.choice([0, 1, 2, 3, 4, 5, 0, 1, script.rand.randint(0, LAST)]))


FAMILIES = [
    ("clocks near the due edges", due_edges, 180),
    ("clocks near the wrap", near_the_wrap, 120),
    ("long runs of offers and replies", long_run, 60),
    ("replies off by one", replies_off, 100),
    ("every command offered", every_command, 60),
    ("links in any state", any_state, 180),
    ("ticks only", ticks_only, 80),
    ("elapsed times", two_readings, 60),
    ("a box at work", box_at_work, 120),
    ("any bytes", any_bytes, 40),
]
MAX_CALLS = 2000  # calls of a script


def script_of(rand, family):
    """Calls and steps of some rounds of a family."""
    script = Script(rand)
    size = rand.choice([20, 50, 100, 200, 500, 500, 1000, MAX_CALLS])
    while len(script.calls) < size:
        family(script)
    return script.calls[:MAX_CALLS], script.steps[:MAX_CALLS]
