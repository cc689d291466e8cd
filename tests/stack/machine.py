"""How deep the machine code of a function goes, whatever its input is: as objdump prints the code for x86-64.

Counted are the pushes, what is subtracted from the stack pointer, and what is addressed below it. Everything else that
moves the stack pointer down, a call, a jump to a computed place, and any of these in a loop, is not understood, and
said so.
"""
import re
import subprocess

BESIDE = 16 + 8  # bytes: the writer's seventh argument, with what aligns it, and the return address
LINE = re.compile(r"^ *([0-9a-f]+):\t(.*?)(?:\s*#.*)?$")
ASIDE = re.compile(r"sub +\$0x([0-9a-f]+),%rsp$")
BELOW = re.compile(r"-0x([0-9a-f]+)\(%rsp")
JUMP = re.compile(r"j\w+ +([0-9a-f]+)\b")
STRANGE = re.compile(r"(?:call|enter|leave|pushf|popf|syscall|int)\b|.*\bjmp +\*|.*,%[re]?sp$")
HARMLESS = re.compile(r"(?:sub|add) +\$0x[0-9a-f]+,%rsp$")


def code_of(archive):
    """(place, instruction) of each line of the archive's code; it has one function."""
    done = subprocess.run(["objdump", "-d", "--no-show-raw-insn", archive], capture_output=True, text=True, check=False)
    return code_in(done.stdout)


def code_in(text):
    found = [LINE.match(line) for line in text.splitlines()]
    return [(int(line.group(1), 16), line.group(2).strip()) for line in found if line]


def depth_of(code):
    """The bytes that code puts on the stack or addresses there, and the instructions that are not understood."""
    depth, below, strange = 0, 0, []
    loops = [(int(jump.group(1), 16), place) for place, text in code if (jump := JUMP.match(text))]
    for place, text in code:
        aside = ASIDE.match(text)
        size = 8 if text.startswith("push ") else int(aside.group(1), 16) if aside else 0
        depth += size
        below = max([below, *(int(number, 16) for number in BELOW.findall(text))])
        is_repeated = size > 0 and any(first <= place <= last for first, last in loops)
        if is_repeated or STRANGE.match(text) and not HARMLESS.match(text):
            strange.append(text)
    return depth + below, strange


def check_itself(checks):
    lines = ["push   %rbp", "sub    $0x20,%rsp", "mov    %al,-0x8(%rsp)", "je     18", "add    $0x20,%rsp", "ret"]
    code = [(8 * place, text) for place, text in enumerate(lines)]
    text = "\n".join(f"  {place:x}:\t{line:<20}# note" for place, line in code)
    checks.test("the depth of some code", depth_of(code) == (8 + 0x20 + 8, []), str(depth_of(code)))
    checks.test("code as objdump prints it", code_in(text) == code)
    for more in ("call   40", "lea    -0x50(%rsp),%rsp", "and    $0xffffffffffffffe0,%rsp", "leave", "jmp    0",
                 "jmp    *%rax"):
        checks.test(f"{more} is not understood", depth_of([*code, (80, more)])[1] != [])


def check(checks, archive, limit, measured):
    """The code goes as deep as was measured, or deeper, and stays below the limit."""
    check_itself(checks)
    code = code_of(archive)
    depth, strange = depth_of(code)
    checks.test("the machine code of the writer is there", len(code) > 50, str(len(code)))
    checks.test("the machine code of the writer is understood", not strange, "; ".join(strange))
    checks.test("its depth", measured <= BESIDE + depth < limit, str(BESIDE + depth))
    checks.say(f"by its machine code the writer uses at most {BESIDE + depth} bytes, whatever its input is")
