"""The board of examples/cortex-m3 in QEMU, as a test uses it: its switches, its serial wire, its memory."""
import json
import time

from checks import Dead
from door import PATIENCE, Live, wait_for

LEAF, NEW_VOLUME = "ctrl", "up"  # the keys that QEMU has for the switches SELECT and UP
PORT_E, PORT_F = 0x40024000, 0x40025000
MASK, RAW_STATUS = 0x410, 0x414  # of a port: which pins ask for an interrupt, and which were let go
SELECT = 1 << 1
UART = 0x4000C000


class Board:
    """It runs in a folder, and its files get their names from the image: NAME.elf, NAME.wire, NAME.stack."""

    def __init__(self, folder, name):
        self.folder, self.name = folder, name
        wire = f"pty,id=wire,logfile={name}.wire"
        words = ["-display", "none", "-kernel", f"{name}.elf", "-chardev", wire, "-serial", "chardev:wire"]
        self.live = Live(["qemu-system-arm", "-M", "lm3s6965evb", *words, "-qmp", "stdio"], cwd=folder)

    def __enter__(self):
        self.live.__enter__()
        return self

    def __exit__(self, *error):
        self.live.__exit__(*error)

    def send(self, command, arguments):
        try:
            self.live.send(json.dumps({"execute": command, "arguments": arguments}).encode() + b"\n")
        except OSError as error:
            raise Dead(f"QEMU: {command}: {error}") from error

    def next(self):
        """The next of what QMP says: a greeting, what a command returns, or an event."""
        line = self.live.line()
        while line.startswith("char device"):  # QEMU itself prints the wire's name
            line = self.live.line()
        if not line.startswith("{") or "error" in (found := json.loads(line)):
            raise Dead(f"QEMU: {line}")
        return found

    def ask(self, command, **arguments):
        """What a command returns. Events before it are skipped."""
        self.send(command, arguments)
        while "return" not in (found := self.next()):
            pass
        return found["return"]

    def monitor(self, line):
        return self.ask("human-monitor-command", **{"command-line": line})

    def start(self):
        """The name of the wire, when the box looks at its switches."""
        self.ask("qmp_capabilities")
        self.is_ready()
        names = [found["filename"] for found in self.ask("query-chardev") if found["label"] == "wire"]
        return names[0].removeprefix("pty:")

    def is_ready(self):
        if not wait_for(lambda: self.word(PORT_F + MASK) & SELECT):
            raise Dead(f"{self.name} does not look at its switches in {PATIENCE} seconds")

    def reset(self):
        """The box starts again. Its memory stays as it was."""
        self.send("system_reset", {})
        found = {"return": False, "RESET": False}
        while not all(found.values()):
            said = self.next()
            found[said.get("event", "return")] = True
        self.is_ready()

    def word(self, address):
        return int(self.monitor(f"xp /1wx {address:#x}").split()[1], 16)

    def press(self, *switches):
        """Presses switches and lets them go. The processor does not run in between: it sees all at one moment."""
        keys = [(down, switch) for down in (True, False) for switch in switches]
        self.ask("input-send-event", events=[key_event(*key) for key in keys])
        if not wait_for(lambda: not (self.word(PORT_E + RAW_STATUS) or self.word(PORT_F + RAW_STATUS))):
            raise Dead(f"{self.name} does not take an event in {PATIENCE} seconds")

    def turn(self, switch, down):
        """Presses a switch or lets it go; the processor runs before this returns."""
        self.ask("input-send-event", events=[key_event(down, switch)])
        time.sleep(0.02)
        self.word(PORT_F + RAW_STATUS)

    def line_settings(self):
        """Divider, its 64ths, form of a byte, and what is switched on, of the serial port."""
        return [self.word(UART + place) for place in (0x24, 0x28, 0x2C, 0x30)]

    def memory(self, start, size):
        self.ask("pmemsave", val=start, size=size, filename=f"{self.name}.stack")
        return (self.folder / f"{self.name}.stack").read_bytes()

    def end(self):
        """All that was sent; its record is whole when QEMU has ended."""
        self.ask("quit")
        found = self.live.ended()
        if found.status != 0:
            raise Dead(f"QEMU: {found}")
        return (self.folder / f"{self.name}.wire").read_bytes()


def key_event(down, key):
    return {"type": "key", "data": {"down": down, "key": {"type": "qcode", "data": key}}}
