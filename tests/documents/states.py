"""The records of docs/STATES.md against their declarations: the same fields, in order, with the same types.

A range such as 0 to 255 may be all that a type holds. No claim knows the type, so this test holds it. A record is a
struct or an enum; the fields of an enum are those of its variants, each of which stands on one line or on several. What
an `Option` may hold has its fields too.
"""
import re

from tree import ROOT, SPAN, files, tables, text_of

TYPE = re.compile(r"^pub (struct|enum) (\w+) \{\n(.*?)^\}", re.M | re.S)
COMMENT = re.compile(r"//.*")
FIELD = re.compile(r"\b(\w+): ([^{},]+?)\s*(?=[,}])")
OPTION = re.compile(r"Option<(\w+)>")
SECTION = re.compile(r"^## `(\w+)::(\w+)`\n(.*?)(?=^## |\Z)", re.M | re.S)


def types_in(text):
    """Of each public type in a text whether it is a struct or an enum, and its fields with their types."""
    return {name: (kind, FIELD.findall(body)) for kind, name, body in TYPE.findall(COMMENT.sub("", text))}


def declared(crate):
    """The public types of a crate."""
    texts = (text_of(path) for path in files(f"crates/{crate}/src/*.rt"))
    return {name: fields for text in texts for name, fields in types_in(text).items()}


def fields_in(types, name, path=""):
    """The fields of a type and of the crate's own types inside it.

    A struct is its fields; an enum, and an option, has a row too.
    """
    for field, kind in types[name][1]:
        held = OPTION.sub(r"\1", kind)
        word, inner = types.get(held, ("", []))
        if word != "struct" or held != kind:
            yield path + field, kind
        if inner:
            yield from fields_in(types, held, f"{path}{field}.")


def stated(section):
    """The fields and types in the table of a section."""
    rows = [cells for head, cells in tables(section) if head == "field"]
    return [(SPAN.findall(cells[0])[0], SPAN.findall(cells[1])[0]) for cells in rows]


def check_itself(checks):
    fields = [("size", "u32"), ("body", "[u8; 2]"), ("stored", "u16")]
    line = "pub enum T {\n    Absent,\n    Open { size: u32, body: [u8; 2], stored: u16 },\n}\n"
    checks.test("a variant on one line", types_in(line) == {"T": ("enum", fields)})
    lines = line.replace("{ s", "{\n        s").replace(", ", ",  // 16: bits\n        ").replace(" }", ",\n    }")
    checks.test("a variant on several lines", "// 16" in lines and types_in(lines) == types_in(line))
    struct = line.replace("enum", "struct").replace("    Absent,\n    Open { ", "    pub ").replace(" },\n}", ",\n}")
    checks.test("a struct", types_in(struct) == {"T": ("struct", fields)})
    nested = types_in(line + "pub struct S {\n    pub at: u8,\n    pub t: T,\n}\n")
    inner = [(f"t.{name}", kind) for name, kind in fields]
    checks.test("a type inside another", list(fields_in(nested, "S")) == [("at", "u8"), ("t", "T"), *inner])
    held = types_in(struct + "pub struct S {\n    pub t: Option<T>,\n    pub at: Option<u8>,\n}\n")
    rows = [("t", "Option<T>"), *inner, ("at", "Option<u8>")]
    checks.test("a type in an option", list(fields_in(held, "S")) == rows)


def check(checks):
    check_itself(checks)
    sections = SECTION.findall(text_of(ROOT / "docs" / "STATES.md"))
    checks.test("there are records with tables", len(sections) >= 5)
    for crate, name, section in sections:
        found = list(fields_in(declared(crate), name))
        checks.test(f"the fields of {crate}::{name}", stated(section) == found, f"{stated(section)}, {found}")
        other = section.replace("| `u", "| `i").replace("| `[u", "| `[i").replace("`Reader`", "`Transfer`")
        other = other.replace("`Link`", "`Reader`")
        checks.test(f"another type of {crate}::{name} is found", stated(other) != found)
