"""The layout of the sources: rt fmt has nothing to change, and no line is above 120 columns.

Documents are tests/documents' business. Data (bytes, stored input and output, lock files) has no layout.
"""
import pathlib
import shutil
import subprocess
import sys

HERE = pathlib.Path(__file__).resolve().parent
ROOT = HERE.parents[1]
sys.path.insert(0, str(HERE.parent / "lib"))
from checks import Checks  # noqa: E402

MAX_COLUMNS = 120
# Every kind of source: a name for it, and where it is.
SOURCES = [
    ("Rattle", ["crates/*/src/**/*.rt"]),
    ("specifications", ["crates/*/specs/**/*.antt"]),
    ("proofs", ["crates/*/proofs/**/*.antt"]),
    ("Python", ["tests/**/*.py", "tests/bench/bench", "samples/*.py"]),
    ("shell", ["bin/*", ".ci/run", "tests/*/run", "tests/*/*.sh", "cross/*"]),
    ("Rust", ["tests/differential/src/**/*.rs"]),
    ("C", ["include/*.h", "examples/**/*.[chS]", "examples/**/*.ld", "tests/**/*.[chS]", "tests/**/*.ld"]),
]


def long_lines(text):
    """The numbers of the lines that are too long."""
    return [number for number, line in enumerate(text.splitlines(), 1) if len(line) > MAX_COLUMNS]


def places(paths):
    """file:line of each line that is too long."""
    texts = ((path.relative_to(ROOT), path.read_text(encoding="utf-8")) for path in paths)
    return [f"{name}:{number}" for name, text in texts for number in long_lines(text)]


def main():
    checks = Checks("layout")
    rattle = pathlib.Path(shutil.which("rt") or "rt").resolve().with_name("rattle")
    laid = sorted(str(path) for _, globs in SOURCES[:3] for glob in globs for path in ROOT.glob(glob))
    done = subprocess.run([rattle, "fmt", "--check", *laid], cwd=ROOT, capture_output=True, text=True)
    checks.test("rattle fmt --check", done.returncode == 0, (done.stdout + done.stderr)[-300:])
    checks.test("a line of 121 columns is found", long_lines("x" * 120 + "\n" + "x" * 121) == [2])
    for kind, globs in SOURCES:
        paths = sorted(path for glob in globs for path in ROOT.glob(glob) if path.is_file())
        checks.test(f"{kind}: there are files", bool(paths))
        checks.test(f"{kind}: lines within {MAX_COLUMNS} columns", not (wide := places(paths)), ", ".join(wide[:20]))
    return checks.end()


if __name__ == "__main__":
    sys.exit(main())
