"""docs/TRACE.md: each rule of docs/PROTOCOL.md with definitions, claims and tests that exist.

The first cell of a row is the rule; a row without one continues the row above it. Names are in code spans:
`crate::name` and `crate::Record.field` for a definition, `crate::theorem-name` for a claim, a path or `mutant crate/x`
for a test.
"""
import re

from rules import protocol, rules_of
from specs import claims_of
from tree import ROOT, SPAN, crates, edit_names, files, spec_files, tables, text_of

# A definition of a specification, and a field of its record or a case of its datatype; what code declares.
OPENING = re.compile(r"(?:(?:abbrev|unfoldable) pub|pub (?:record|data)) ([^\s(:]+)")
FIELD = re.compile(r"\s+(?:pub )?([^\s:()]+) :")
CODE = re.compile(r"\b(?:fn|struct|enum|const) (\w+)")
# Why a row has neither claim nor test, with the documents that say so.
REASON = re.compile(r"\b(?:trusted|by design)\b(.*)")
DOCUMENT = re.compile(r"[\w/]+\.(?:md|h)")


def definitions_of(crate):
    """The definitions of a crate, each with its fields or cases, and what its code declares."""
    found = {}
    for path in spec_files(crate):
        fields = set()
        for line in text_of(path).splitlines():
            if match := OPENING.match(line.strip()):
                fields = found.setdefault(match.group(1), set())
            elif match := FIELD.match(line):
                fields.add(match.group(1))
    for path in files(f"crates/{crate}/src/**/*.rt"):
        found.update((name, set()) for name in CODE.findall(text_of(path)) if name not in found)
    return found


class Tree:
    """What a row can name."""

    def __init__(self):
        self.definitions = {crate: definitions_of(crate) for crate in crates()}
        self.claims = {crate: claims_of(crate) for crate in crates()}
        self.edits = edit_names()

    def defines(self, span):
        crate, _, name = span.partition("::")
        name, _, field = name.partition(".")
        fields = self.definitions.get(crate, {}).get(name)
        return fields is not None and (not field or field in fields)

    def proves(self, span):
        crate, _, name = span.partition("::")
        return name in self.claims.get(crate, ())

    def tests(self, span):
        kind, _, name = span.rpartition(" ")
        if kind:
            return kind == "mutant" and name in self.edits
        return span.startswith(("tests/", "crates/")) and (ROOT / span).exists()


def reasons_in(cell):
    """The documents that a cell gives as its reason."""
    match = REASON.search(cell)
    return [span for span in SPAN.findall(match.group(1)) if DOCUMENT.fullmatch(span)] if match else []


def rows_of(text):
    """[rule, definition, claim, test] of each row, with the rows that continue it."""
    rows = []
    for head, cells in tables(text):
        if head == "rule" and cells[0]:
            rows.append(cells)
        elif head == "rule" and rows:
            rows[-1] = [rows[-1][0], *(f"{above} {cell}".strip() for above, cell in zip(rows[-1][1:], cells[1:]))]
    return rows


def unmatched(rules, rows):
    """Rules without a row, rows without a rule, and rules with two rows."""
    numbers = [row[0] for row in rows]
    lost = [f"{rule} has no row" for rule in rules if rule not in numbers]
    stray = [f"{number} is not a rule" for number in numbers if number not in rules]
    return lost + stray + [f"{number} has two rows" for number in sorted(set(numbers)) if numbers.count(number) > 1]


def unknown(rows, tree):
    """Names in rows that do not exist."""
    columns = [("definition", tree.defines), ("claim", tree.proves), ("test", tree.tests)]
    faults = []
    for rule, *cells in rows:
        for (what, exists), cell in zip(columns, cells):
            reasons = reasons_in(cell)
            spans = [span for span in SPAN.findall(cell) if span not in reasons]
            faults += [f"{rule}: `{span}` is not a {what}" for span in spans if not exists(span)]
            faults += [f"{rule}: {name} is not a document" for name in reasons if not (ROOT / name).is_file()]
    return faults


def unheld(rows, tree):
    """Rows of another shape, without a definition, or with neither claim nor test, that do not say why."""
    faults = [f"{row[0]} has {len(row)} cells" for row in rows if len(row) != 4]
    for rule, definition, claim, test in (row for row in rows if len(row) == 4):
        if not SPAN.findall(definition) and not re.match(r"- \w", definition):
            faults.append(f"{rule} has no definition, and does not say why")
        holds = any(map(tree.proves, SPAN.findall(claim))) or any(map(tree.tests, SPAN.findall(test)))
        if not holds and not reasons_in(claim) + reasons_in(test):
            faults.append(f"{rule} has neither claim nor test, and does not say why")
    return faults


def unused(rows, tree):
    """Claims that no row names."""
    named = {span for _, _, claim, _ in rows for span in SPAN.findall(claim)}
    claims = {f"{crate}::{name}" for crate, names in tree.claims.items() for name in names}
    return sorted(claims - named)


def check_rows(checks, good, tree):
    """That each fault of a row is found: `good` has none."""
    checks.test("two rows for two rules", unmatched(["9.8", "9.9"], [["9.8"], good]) == [])
    checks.test("a rule without a row is found", unmatched(["9.8", "9.9"], [good]) == ["9.8 has no row"])
    checks.test("a row without a rule is found", unmatched([], [good]) == ["9.9 is not a rule"])
    checks.test("a rule with two rows is found", unmatched(["9.9"], [good, good]) == ["9.9 has two rows"])
    text = "| rule | a | b | c |\n|---|---|---|---|\n| 9.9 | a | b | c |\n| | d | | e |\n"
    checks.test("a row that is continued", rows_of(text) == [["9.9", "a d", "b", "c e"]])
    checks.test("a row of what exists", unknown([good], tree) + unheld([good], tree) == [])
    for place, old, new in [
        (1, "frame::Good", "frame::Bad"),
        (1, "frame::Good", "link::Good"),
        (1, "sum_holds", "sum_lost"),
        (2, "frame::stuffing", "frame::Stuffing"),
        (2, "frame::", "link::"),
        (3, "tests/lib", "tests/lost"),
        (3, "tests/lib", "README.md"),
        (3, "mutant ", "mutant x"),
        (3, "mutant ", "mutation "),
    ]:
        wrong = [cell.replace(old, new) if number == place else cell for number, cell in enumerate(good)]
        checks.test(f"{new} instead of {old} is found", len(unknown([wrong], tree)) == 1)


def check_reasons(checks, good, tree):
    """That a row without a definition, or with nothing that holds its rule, is found unless it says why."""
    for name, row, held in [
        ("no definition", ["9.9", "", *good[2:]], False),
        ("a dash alone", ["9.9", "-", *good[2:]], False),
        ("a dash and words", ["9.9", "- no definition of its own", *good[2:]], True),
        ("a claim alone", [*good[:3], ""], True),
        ("a test alone", [*good[:2], "", good[3]], True),
        ("neither claim nor test", [*good[:2], "", "-"], False),
        ("three cells", good[:3], False),
        ("a reason", [*good[:2], "", "trusted: `docs/PROTOCOL.md`"], True),
        ("a reason without a document", [*good[:2], "", "trusted"], False),
    ]:
        checks.test(f"a row with {name}", (unheld([row], tree) == []) == held)
    lost = [*good[:2], "", "by design: `docs/lost.md`"]
    checks.test("a document that is not there is found", len(unknown([lost], tree)) == 1)


def check(checks):
    tree, path = Tree(), ROOT / "docs" / "TRACE.md"
    rows = rows_of(text_of(path)) if path.is_file() else []
    checks.none("TRACE.md: rules and rows", unmatched(rules_of(protocol()), rows))
    checks.none("TRACE.md: names that do not exist", unknown(rows, tree))
    checks.none("TRACE.md: rules that nothing holds", unheld(rows, tree))
    checks.none("TRACE.md: claims that hold no rule", unused(rows, tree))
    checks.test("a claim that no row names is found", "frame::stuffing" in unused([], tree))
    mutant = min(tree.edits)
    good = ["9.9", "`frame::Good.sum_holds`, `frame::feed`", "`frame::stuffing`", f"`tests/lib`, `mutant {mutant}`"]
    check_rows(checks, good, tree)
    check_reasons(checks, good, tree)
