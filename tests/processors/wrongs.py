"""The test of the test: wrong writers are refused, and so are programs that die or print something else."""
import watching
from running import faults_in, run
from targets import BOARD, Registers

# Writers that the program has to refuse, and what is said then: by the program, by the second implementation, or by
# its end, where it dies.
WRONG = [
    ("NO_55_AFTER_SUM", ["another answer: ", "should be: "]),
    ("WRITES_BEYOND", ["the rest of the output is changed: "]),
    ("WRITES_PAYLOAD", ["the payload is changed: "]),
    ("USES_STACK", ["too much stack is used: "]),
    ("TRUNCATES_LENGTH", ["a payload of 2^32 bytes or more is not PAYLOAD: 0", "it ends with status -11"]),
    ("TRUNCATES_ROOM", ["room of 2^32 bytes or more is not ample: 0"]),
    ("READS_WIDE", ["bits above a number are read: "]),
]


def check_wrong(checks, build, seed, count):
    """A writer in C is accepted; with a fault it is refused, and for that fault."""
    def faults_of(name, *words):
        [writer] = build.compile([BOARD / "wrong.c"], *words)
        return faults_in(run([build.link("main", name, writer)]), seed, count)

    faults = faults_of("right")
    checks.test("a right writer in C is refused", not faults, "; ".join(faults))
    for name, wanted in WRONG:
        text = "\n".join(faults_of(name, f"-D{name}"))
        lost = [want for want in wanted if want not in text]
        checks.test(f"a wrong writer is refused: {name}", not lost, f"{lost} are not in {text[-500:]!r}")


def check_ends(checks):
    """A program that dies, or that prints something else, is seen; and so is a register that is not kept."""
    for words, want in ((["sh", "-c", "kill -9 $$"], "it ends with status -9"), (["false"], "it ends with status 1"),
                        (["echo", "board: 72 passed, 0 failed"], "another beginning or end"),
                        (["echo", "strange"], "the second implementation: ")):
        faults = faults_in(run(words), 1, 1)
        checks.test(f"{words} is a wrong run", any(fault.startswith(want) for fault in faults), str(faults))
    names = Registers("at", "sp", ["a", "b"])
    steps = [dict(zip(("at", "sp", "a", "b"), values))
             for values in ((8, 96, 1, 2), (10, 64, 5, 6), (12, 80, 1, 6), (20, 96, 1, 6))]
    found = list(watching.calls_in(steps, names, (8, 14), (20, 30)))
    checks.test("a register that is not kept is seen", found == [(32, ["b"])], str(found))
