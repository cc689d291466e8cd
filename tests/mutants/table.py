#!/usr/bin/env python3
"""Writes docs/WRONG_PROGRAMS.md from the edits: table.py > docs/WRONG_PROGRAMS.md.

The first line of an edit says what the program does wrong; its `# claim:` lines name the theorems that refuse it.
"""
import pathlib
import re
import textwrap

ROOT = pathlib.Path(__file__).resolve().parents[2]
WIDTH = 120
KINDS = {
    "rule_": "Definition and code, refused by claims",
    "code_": "Code alone, refused by contracts",
    "promise_": "A wrong contract, refused by the code's proof",
    "example_": "A wrong entry in the list of worked examples",
}
HEAD = """\
# Wrong programs

A contract that follows a wrong definition is met by a wrong program. So a claim says again, in other words, whatever
a definition decides: in literal bytes at literal places, by exactly when, by what stays, or by a worked table. The
test of this is a wrong program in which definition and code are changed alike, so that each function keeps its
contract. A claim must refuse it.

Each entry below is such a program, an edit of one crate; a theorem named after the arrow is no longer admitted. A
second list for each crate has the edits of the code alone, which a contract refuses. `tests/mutants` tries all of
them over a crate that is proved first, and looks for each named theorem among the refused ones. At least one of each
crate stands in `crates/NAME/must-fail/` and is tried by `rt ci` too. This page is made by `tests/mutants/table.py` from
the edits, and `tests/documents` holds it to them.

What no claim can refuse: a constructor of the logic has no field names, so a variant whose two fields of one type
are declared in the other order, with code to match, is not refused. `docs/API.md` names the fields of each variant in
their order, `tests/documents` compares, and the test driver prints them by name.
"""


def edits():
    """(crate, path) of each edit, by crate and name."""
    found = [(path.parents[1].name, path) for path in ROOT.glob("crates/*/must-fail/*.edit")]
    found += [(path.parent.name, path) for path in ROOT.glob("tests/mutants/*/*.edit")]
    order = [line.split(":")[0].split()[0] for line in (ROOT / "crates.txt").read_text(encoding="utf-8").splitlines()]
    return sorted(found, key=lambda entry: (order.index(entry[0]), entry[1].stem))


def what(text):
    """What the program does wrong: the lines that begin an edit."""
    lines = []
    for line in text.splitlines():
        if not line.startswith("#") or line.startswith("# claim: "):
            break
        lines.append(line.lstrip("# ").strip())
    return " ".join(lines)


def item(crate, path):
    """The entry of an edit."""
    text = path.read_text(encoding="utf-8")
    claims = re.findall(r"^# claim: (\S+)$", text, re.M)
    refused = f" → {', '.join(f'`{claim}`' for claim in claims)}" if claims else ""
    return textwrap.fill(f"- `{crate}/{path.stem}`: {what(text)}{refused}", WIDTH, subsequent_indent="  ",
                         break_long_words=False, break_on_hyphens=False)


def page():
    """The whole page."""
    blocks = [HEAD]
    entries = edits()
    for crate in dict.fromkeys(crate for crate, _ in entries):
        own = [path for name, path in entries if name == crate]
        blocks.append(f"## `{crate}`\n")
        for kind, title in KINDS.items():
            paths = [path for path in own if path.stem.startswith(kind)]
            if paths:
                blocks.append(f"{title}:\n\n" + "\n".join(item(crate, path) for path in paths) + "\n")
    return "\n".join(blocks)


if __name__ == "__main__":
    print(page(), end="")
