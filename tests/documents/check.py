"""The documents against the tree.

Every name in a code span of README.md, CONTRIBUTING.md and docs/*.md is declared somewhere: a definition, claim, call,
type, field, variant, file, folder, wrong program or command word. In a table of claims the first column names
theorems, and in a table of calls public functions. Notes, CHANGELOG.md, docs/PORT.md, docs/DESIGN-PASS.md and
docs/LOOK-BACK.md speak of earlier trees, so their names are not looked up. docs/WRONG_PROGRAMS.md is what
tests/mutants/table.py makes.
Beside this, rules.py checks the numbers of rules and their citations, trace.py what holds each rule, specs.py the
specifications, promises.py the promises of public calls, and states.py the fields of records.
"""
import itertools
import pathlib
import re
import sys

import promises
import rules
import specs
import states
import trace
from tree import ROOT, SPAN, edits, files, found, name_of, tables, text_of, theorems

sys.path[1:1] = [str(pathlib.Path(__file__).resolve().parents[1] / folder) for folder in ("lib", "mutants")]
from checks import Checks  # noqa: E402
from table import page, what  # noqa: E402

MAX_COLUMNS = 120
NAME = re.compile(r"[^\W\d][\w′]*(?:-[\w′]+)*")
# In a specification or proof: what precedes a colon, in a declaration or in a line of a record or datatype.
ANTT = re.compile(
    r"^\s*(?:(?:pub|abbrev|unfoldable|data|record|ruleset|mod)\s+)*([^\s(){}:]+)(?=\s+(?::|\(|=))", re.M
)
# In Rattle: what a keyword declares, a field or parameter, a variant with named fields or with one value.
RATTLE = re.compile(
    r"\b(?:fn|struct|enum|const|mod|impl|let|mut)\s+(\w+)|^\s*(?:pub\s+)?(\w+):|\b(\w+):\s"
    r"|^\s*(\w+)(?:\s*\{.*\}?)?,?$|^    ([A-Z]\w*)\([A-Z]\w*\),$",
    re.M,
)
PYTHON = re.compile(r"^\s*(?:def|class)\s+(\w+)", re.M)
PUBLIC = re.compile(r"^\s*(?:#\[no_mangle\]\s*)?pub (?:extern \"C\" )?fn (\w+)", re.M)


def tree_words():
    """Words of the names of files and folders; a wrong program is also known without its kind (code, rule)."""
    names = (part for path in files("*", "*/**/*", ".ci/*") for part in path.relative_to(ROOT).parts)
    return {word for name in names for word in NAME.findall(name)} | {path.stem.partition("_")[2] for path in edits()}


def other_words():
    """Names of the language, its libraries and the system, printed words, and placeholders of usage lines."""
    lines = text_of(ROOT / "tests" / "documents" / "words.txt").splitlines()
    return {word for line in lines if not line.startswith("#") for word in line.split()}


def declared():
    """Every name that the tree declares."""
    antt = found(ANTT, files("crates/*/specs/**/*.antt", "crates/*/proofs/**/*.antt"))
    rattle = found(RATTLE, files("crates/*/src/**/*.rt"))
    c = found(re.compile(r"\b(\w+)\b"), files("include/*.h", "examples/*.c"))
    return antt | rattle | c | found(PYTHON, files("tests/**/*.py")) | tree_words() | other_words()


def missing(text, known):
    """The names in code spans that are not declared; one letter stands for any value."""
    names = {name for span in SPAN.findall(text) for name in NAME.findall(span)}
    return sorted(name for name in names if name not in known and len(name) > 1)


def column(text, head, known):
    """The names in a table's first column, the first one of each span, that are not known."""
    cells = [cells[0] for first, cells in tables(text) if first == head]
    spans = [NAME.search(span.split("(")[0].split("::")[-1]) for cell in cells for span in SPAN.findall(cell)]
    return sorted({name.group() for name in spans if name and name.group() not in known})


def variants():
    """(variant, its fields) of each public enum whose variant has two or more.

    A specification knows fields by their places, so the documents state their order again.
    """
    for path in files("crates/*/src/*.rt"):
        for body in re.findall(r"^pub enum \w+ \{\n(.*?)^\}", text_of(path), re.M | re.S):
            for name, fields in re.findall(r"(\w+)\s*\{([^}]*)\}", body):
                names = re.findall(r"(\w+):", fields)
                if len(names) > 1:
                    yield name, names


def misnamed(text):
    """The variants whose fields the documents do not name, or name in another order."""
    pairs = [pair for span in SPAN.findall(text) for pair in re.findall(r"(\w+) \{ ([^}]*) \}", span)]
    stated = [(name, NAME.findall(fields)) for name, fields in pairs]
    return sorted({name for name, fields in variants() if (name, fields) not in stated})


def constants():
    """The public constants with their values, which no contract states."""
    pattern = re.compile(r"^pub const (\w+): \w+ = (\w+);", re.M)
    pairs = [pair for path in files("crates/*/src/*.rt") for pair in pattern.findall(text_of(path))]
    return {name: int(value, 0) for name, value in pairs}


def value_of(number):
    base, _, power = number.replace(",", "").partition("^")
    return int(base) ** int(power or 1)


def misvalued(text):
    """The constants whose value the documents do not state."""
    stated = dict(re.findall(r"`(\w+)`(?: is)? (\d[\d,]*(?:\^\d+)?)", text))
    wrong = (name for name, value in constants().items() if value_of(stated.get(name, "-1").rstrip(",")) != value)
    return sorted(wrong)


def claims_in(text):
    """The claims that an edit names."""
    return re.findall(r"^# claim: (\S+)$", text, re.M)


def unnamed(path, text):
    """Whether an edit lacks what it is to say: what is wrong, and for a definition the claims that refuse it."""
    return not what(text) or path.stem.startswith("rule_") and not claims_in(text)


def first_difference(found, expected):
    """The first line in which two pages differ, or ''."""
    pairs = itertools.zip_longest(found.splitlines(), expected.splitlines())
    return next((f"line {number}: {line}" for number, (line, other) in enumerate(pairs, 1) if line != other), "")


def long_lines(text):
    """The numbers of the lines that are too long."""
    return [number for number, line in enumerate(text.splitlines(), 1) if len(line) > MAX_COLUMNS]


def check_names(checks):
    known, proved, public = declared(), theorems(), found(PUBLIC, files("crates/*/src/**/*.rt"))
    checks.test("the tree declares names", len(known) > 500 and len(proved) > 50 and len(public) > 20)
    checks.test("a name that is not there is found", missing("`clockValues`, `feed`", known) == ["clockValues"])
    for path in files("README.md", "CONTRIBUTING.md", "docs/*.md"):
        text, name = text_of(path), name_of(path)
        if name in ("docs/PORT.md", "docs/DESIGN-PASS.md", "docs/LOOK-BACK.md"):
            continue
        checks.none(f"{name}: names that are not there", missing(text, known))
        checks.none(f"{name}: claims that are not theorems", column(text, "claim", proved))
        checks.none(f"{name}: calls that are not public functions", column(text, "call", public))


def check_api(checks):
    text = text_of(ROOT / "docs" / "API.md")
    checks.none("variants without their fields in order", misnamed(text))
    checks.test("two exchanged fields are found", misnamed(text.replace("{ index, total }", "{ total, index }")) != [])
    checks.none("public constants without their value", misvalued(text))
    other = text.replace("`MAX_REPEATS` 2", "`MAX_REPEATS` 3")
    checks.test("another value is found", misvalued(other) == ["MAX_REPEATS"])


def check_wrong_programs(checks):
    proved, text = theorems(), text_of(ROOT / "docs" / "WRONG_PROGRAMS.md")
    checks.none("edits without their words", [name_of(path) for path, edit in edits().items() if unnamed(path, edit)])
    claims = {claim for edit in edits().values() for claim in claims_in(edit)}
    checks.none("claims of edits that are not theorems", sorted(claims - proved))
    checks.test("the page of wrong programs", not (line := first_difference(text, page())), f"made anew: {line}")
    checks.test("a missing entry is found", first_difference(text.replace("- `base/", "", 1), page()) != "")
    stated = re.findall(r"(\d+)\s+wrong programs", text_of(ROOT / "README.md"))
    checks.test("README counts the wrong programs", set(stated) == {str(len(edits()))}, f"{stated}, not {len(edits())}")


def check_columns(checks):
    checks.test("a line of 121 columns is found", long_lines("x" * 120 + "\n" + "x" * 121) == [2])
    for path in files("*.md", "docs/*.md", "docs/notes/*.md"):
        checks.none(f"{name_of(path)}: lines above {MAX_COLUMNS} columns", map(str, long_lines(text_of(path))))


class Faults(Checks):
    """Checks that also test a list of faults, which has to be empty."""

    def none(self, what, faults):
        faults = list(faults)
        self.test(what, not faults, "; ".join(faults[:40]) + " .." * (len(faults) > 40))


def main():
    checks = Faults("documents")
    for check in (check_names, check_api, check_wrong_programs, check_columns):
        check(checks)
    for module in (rules, trace, specs, promises, states):
        module.check(checks)
    return checks.end()


if __name__ == "__main__":
    sys.exit(main())
