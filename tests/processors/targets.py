"""The processors: how each one's program is built and run, and the registers that its emulator prints."""
import collections
import pathlib
import platform
import shutil

HERE = pathlib.Path(__file__).resolve().parent
BOARD = HERE / "board"
STACK = HERE.parent / "stack"
SCRIPT = ["-T", str(BOARD / "cortex_m.ld")]
SYSTEM = ["qemu-system-arm", "-display", "none", "-serial", "none", "-monitor", "none", "-chardev", "stdio,id=console",
          "-semihosting-config", "enable=on,target=native,chardev=console", "-M"]
STATIC = ["-static", "-no-pie"]

# Names in the emulator's print: where it is, its stack pointer, and what a function has to leave as it was.
Registers = collections.namedtuple("Registers", "place stack kept")
ARM = Registers("R15", "R13", [f"R{i:02}" for i in range(4, 12)])
AARCH64 = Registers("PC", "SP", [f"X{i}" for i in range(19, 30)])
RISCV = Registers("pc", "x2/sp", ["x8/s0", "x9/s1", *(f"x{i}/s{i - 16}" for i in range(18, 28))])
X86_64 = Registers("RIP", "RSP", ["RBX", "RBP", "R12", "R13", "R14", "R15"])

# A triple of bin/firmware: machine and bits of its ELF file; what runs it, in words and as a command, with the last
# word before the program; the emulator to watch steps with; its sources; how it is linked; another compiler for it.
Target = collections.namedtuple("Target", "name machine bits runs command watch sources script other registers")


def cortex_m(name, board, processor, option):
    command = [*SYSTEM, board, "-kernel"]
    return Target(name, 40, 32, f"`qemu-system-arm -M {board}`, a {processor}", command, command,
                  [BOARD / "cortex_m.c", BOARD / "switch_arm.S"], SCRIPT,
                  ["arm-none-eabi-gcc", f"-mcpu={option}", "-mthumb"], ARM)


def linux(name, machine, bits, emulator, switch, other, registers):
    return Target(name, machine, bits, f"`{emulator}`", [emulator], [emulator], [BOARD / "linux.c", BOARD / switch], [],
                  other, registers)


TARGETS = [
    cortex_m("thumbv6m-none-eabi", "microbit", "Cortex-M0", "cortex-m0"),
    cortex_m("thumbv7m-none-eabi", "lm3s6965evb", "Cortex-M3", "cortex-m3"),
    cortex_m("thumbv7em-none-eabi", "mps2-an386", "Cortex-M4", "cortex-m4"),
    linux("riscv32-unknown-elf", 243, 32, "qemu-riscv32", "switch_riscv32.S", None, RISCV),
    linux("armv7-linux-gnueabi", 40, 32, "qemu-arm", "switch_arm.S",
          ["arm-linux-gnueabi-gcc", "-march=armv7-a", *STATIC], ARM),
    linux("aarch64-linux-gnu", 183, 64, "qemu-aarch64", "switch_aarch64.S", None, AARCH64),
    Target("host", 62, 64, "the machine itself", [], ["qemu-x86_64"],
           [BOARD / "linux.c", STACK / "switch_x86_64.S"], [], ["gcc", *STATIC, "-fno-pie"], X86_64),
]
HOST = TARGETS[-1]


def missing(words):
    """Why a command cannot be run, or ''. No command is the machine itself, which runs the host's programs."""
    if not words:
        return "" if platform.machine() == "x86_64" else f"this machine is {platform.machine()}"
    return "" if shutil.which(words[0]) else f"there is no {words[0]}"
