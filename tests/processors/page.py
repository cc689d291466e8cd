"""The table of processors: its rows as the test makes them, and as docs/PROCESSORS.md has them."""
import pathlib

PAGE = pathlib.Path(__file__).resolve().parents[2] / "docs" / "PROCESSORS.md"
HEAD = ["triple", "what runs it", "code", "archive", "stack", "of these arguments"]
NOT_MEASURED = "-"
STACK = (4, 5)  # the cells that need the processor to be run


def cells_of(name, runs, *numbers):
    """The row of a triple; a number that was not measured is None."""
    return [f"`{name}`", runs, *(NOT_MEASURED if number is None else f"{number:,}" for number in numbers)]


def text_of(cells):
    return f"| {' | '.join(cells)} |"


def page_rows(text):
    """The rows that have a triple in backquotes in their first cell, and as many cells as the table."""
    rows = {}
    for line in text.splitlines():
        cells = [cell.strip() for cell in line.strip().strip("|").split("|")]
        if line.startswith("| `") and len(cells) == len(HEAD) and cells[0].endswith("`"):
            rows[cells[0]] = cells
    return rows


def difference(found, stated):
    """Where a row that was measured and the page's differ, or ''."""
    if stated is None:
        return "the page has no such row"
    skipped = [place for place in STACK if found[place] == NOT_MEASURED]
    wrong = [f"{HEAD[place]}: {one} is measured, the page has {other}"
             for place, (one, other) in enumerate(zip(found, stated)) if one != other and place not in skipped]
    return "; ".join(wrong)


def check_page(checks, rows):
    """The page has each row as it was measured, and no other."""
    sample = cells_of("thumb", "`qemu`, a core", 468, 1452, 136, None)
    checks.test("a row is read", page_rows(f"text\n{text_of(sample)}\n| `x` | y |\n") == {"`thumb`": sample})
    checks.test("a row that differs is seen", "code" in difference(sample, [*sample[:2], "469", *sample[3:]]))
    checks.test("a row that was not measured is not compared", difference(sample, [*sample[:5], "24"]) == "")
    checks.test("a row that is missing is seen", difference(sample, None) != "")
    checks.test("there is a page", PAGE.is_file(), str(PAGE))
    stated = page_rows(PAGE.read_text(encoding="utf-8") if PAGE.is_file() else "")
    for cells in rows:
        wrong = difference(cells, stated.pop(cells[0], None))
        checks.test(f"{PAGE.name}: {cells[0]}", not wrong, wrong)
    checks.test(f"{PAGE.name} has rows of other triples", not stated, ", ".join(stated))
