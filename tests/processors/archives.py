"""What is in an archive of the writer, whatever its processor: one function, and nothing that it needs or keeps."""
import elf
import images

WRITER = "trogonreed_write_frame"
EABI = 5
# Objects that are wrong, each for one reason; the right one comes first.
RIGHT = f"int {WRITER}(void) {{ return 1; }}\n"
WRONG = [
    ("it needs other", f"int other(void); int {WRITER}(void) {{ return 1 + other(); }}\n"),
    ("it keeps 4 bytes in .data", f"int {WRITER}(void) {{ static volatile int n = 7; return n++; }}\n"),
    ("it keeps 4 bytes in .bss", f"int {WRITER}(void) {{ static volatile int n; return n++; }}\n"),
    (f"it exports other, {WRITER}", f"{RIGHT}int other(void) {{ return 2; }}\n"),
    ("it exports nothing", f"static {RIGHT}"),
]


def uses_vectors(word):
    """Whether an instruction of AArch64 names such a register: two bits of it say so, in every group of them."""
    return word >> 26 & 3 == 3


def faults_in(obj, target):
    """What is wrong with the object file of a processor."""
    if (obj.machine, obj.bits) != (target.machine, target.bits):
        yield f"it is for machine {obj.machine} of {obj.bits} bits"
    if obj.machine == elf.ARM and obj.flags >> 24 != EABI:
        yield f"it has version {obj.flags >> 24} of the EABI"
    exported = sorted(symbol.name for symbol in obj.defined())
    if exported != [WRITER]:
        yield f"it exports {', '.join(exported) or 'nothing'}"
    if obj.undefined():
        yield f"it needs {', '.join(symbol.name for symbol in obj.undefined())}"
    for section in obj.kept():
        yield f"it keeps {section.size} bytes in {section.name}"
    if obj.machine == elf.AARCH64 and any(map(uses_vectors, obj.words())):
        yield "it uses registers for floating point or vectors"
    for section in obj.tables():
        yield f"it has a table of {section.size} bytes in {section.name}"
    waits = [symbol for section in obj.code() for symbol in obj.relocations(section)]
    # a linker for RISC-V may shorten code, so its branches are left to it; on x86-64 code reads a constant
    inner = obj.machine in (elf.RISCV, elf.X86_64)
    if any(symbol is None or symbol.section == elf.UNDEFINED or not inner for symbol in waits):
        yield f"its code has {len(waits)} places for a linker to fill"


def look(data, target):
    """What is wrong with an archive, and the bytes of its code with the constants that it reads."""
    try:
        objects = [elf.parse(member) for _, member in elf.members(data)]
        if len(objects) != 1:
            return [f"it has {len(objects)} members"], 0
        obj = objects[0]
        return list(faults_in(obj, target)), sum(section.size for section in obj.code() + obj.constants())
    except elf.NotElf as error:
        return [str(error)], 0


def archive_of(build, name, *texts):
    """An archive with an object of each text, by the host's compiler."""
    sources = [build.folder / f"{name}{i}.c" for i in range(len(texts))]
    for source, text in zip(sources, texts):
        source.write_text(text, encoding="ascii")
    objects = build.compile(sources, "-Wno-unused-function")
    archive = build.folder / f"{name}.a"
    images.run([images.kit_tool("llvm-ar"), "rcsD", archive, *objects], build.folder)
    return elf.read(archive)


def check_vectors(checks):
    """Instructions by their numbers: add, ldr, stp and ret of other registers, and the same of vectors and floats."""
    plain, vectors = [0x8B010000, 0xF9400000, 0xA9BF7BFD, 0xD65F03C0], [0x4E208400, 0x3DC00000, 0xADBF0420, 0x1E212800]
    checks.test("registers for vectors are seen", all(map(uses_vectors, vectors)) and not any(map(uses_vectors, plain)))


def check_reader(checks, build, others):
    """Archives that are wrong are found to be, and for the right reason."""
    check_vectors(checks)
    right = archive_of(build, "right", RIGHT)
    found, code = look(right, build.target)
    checks.test("a right archive is right", not found and 0 < code < 64, f"{found}, {code} bytes")
    for i, (fault, text) in enumerate(WRONG):
        found, _ = look(archive_of(build, f"wrong{i}", text), build.target)
        checks.test(f"an archive is found wrong: {fault}", fault in found, str(found))
    found, _ = look(archive_of(build, "two", RIGHT, "int other(void);\nint other(void) { return 3; }\n"), build.target)
    checks.test("an archive with two members is found wrong", found == ["it has 2 members"], str(found))
    for data in (b"", right[:-20], right[:100], right.replace(b"ELF", b"FLE")):
        checks.test(f"an archive cut or changed, {len(data)} bytes, is found wrong", look(data, build.target)[0])
    for other in others:
        checks.test(f"the host's archive is not taken for {other.name}'s", look(right, other)[0])
