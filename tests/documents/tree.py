"""What the tests of the documents read: files, tables, names in code spans, and what each crate declares."""
import pathlib
import re

ROOT = pathlib.Path(__file__).resolve().parents[2]
SPAN = re.compile(r"`([^`\n]+)`")
THEOREM = re.compile(r"^pub ([^\s:]+) :", re.M)


def text_of(path):
    return path.read_text(encoding="utf-8")


def files(*globs):
    """The files of these patterns, in order; what is built is not among them."""
    paths = (path for glob in globs for path in sorted(ROOT.glob(glob)))
    return [path for path in paths if path.is_file() and not {"target", "out"} & set(path.relative_to(ROOT).parts)]


def name_of(path):
    """A file's name from the root on."""
    return str(path.relative_to(ROOT))


def found(pattern, paths):
    """Every name that a pattern finds in these files."""
    groups = (match for path in paths for match in pattern.findall(text_of(path)))
    return {name for group in groups for name in ([group] if isinstance(group, str) else group) if name}


def tables(text):
    """(first cell of the heading, cells) of each row of each table."""
    head = None
    for line in text.splitlines():
        cells = [cell.strip() for cell in line.strip().strip("|").split("|")] if line.startswith("|") else None
        if cells is None:
            head = None
        elif head is None:
            head = cells[0]
        elif not cells[0] or set(cells[0]) - set("-: "):
            yield head, cells


def edits():
    """Every wrong program, with its text."""
    return {path: text_of(path) for path in files("crates/*/must-fail/*.edit", "tests/mutants/*/*.edit")}


def crate_of(edit):
    """crates/NAME/must-fail/x.edit and tests/mutants/NAME/x.edit are of NAME."""
    parts = edit.relative_to(ROOT).parts
    return parts[1] if parts[0] == "crates" else parts[2]


def edit_names():
    """Every wrong program as NAME/x."""
    return {f"{crate_of(path)}/{path.stem}" for path in edits()}


def crates():
    return [path.name for path in sorted((ROOT / "crates").iterdir()) if path.is_dir()]


def theorems(crate="*"):
    """The public theorems of a crate, or of all."""
    return found(THEOREM, files(f"crates/{crate}/proofs/**/*.antt"))


def spec_files(crate="*"):
    """The specifications of a crate, or of all, without the list of its modules."""
    return [path for path in files(f"crates/{crate}/specs/**/*.antt") if path.name != "Lib.antt"]
