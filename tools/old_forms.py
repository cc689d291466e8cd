#!/usr/bin/env python3
"""Lists the places of older forms in src/, by point of docs/DESIGN-PASS.md.

usage: old_forms.py [--count | --crates] [POINT..]    from the top of the checkout; --count prints a line for each
       point alone, --crates a table by crate

It reads the sources line by line and by item; what it prints is a place to look at. Points:
  1 answers     enums of the shape of Option or Result, structs of an answer and a state, flags beside values, numbers for kinds
  2 twins       functions of one crate whose names say that they are one function for another size, number or source
  3 loops       loops that count an index or turns by hand
  4 by hand     comparisons, copies, conversions and numbers that a derive, From, TryFrom or std's method makes
  5 together    parameters that travel together through three functions or more; facts in three contracts or more
  6 beside      buffers with a length beside them, places into a payload
  7 switches    a match that picks a step, a reader or a helper for each case
  8 proofs      proof texts of functions, in lines
"""
import collections
import pathlib
import re
import signal
import sys

TOP = pathlib.Path(".")
ITEM = re.compile(r"^(?:pub(?:\([a-z]+\))? )?(?:const )?(enum|struct|fn|trait|impl)\b", re.M)


def sources():
    for path in sorted(TOP.glob("crates/*/src/*.rt")):
        yield path, path.read_text(encoding="utf-8")


def items(text):
    """Each item at the margin: its kind, its first line's number, and its text up to the closing brace."""
    lines = text.split("\n")
    at = 0
    while at < len(lines):
        found = ITEM.match(lines[at])
        if not found:
            at += 1
            continue
        end = at
        while end < len(lines) and lines[end] not in ("}", "};") and not (end == at and lines[at].endswith((";", "}"))):
            end += 1
        yield found.group(1), at + 1, "\n".join(lines[at:end + 1])
        if found.group(1) == "impl":
            at += 1
            continue
        at = end + 1


def functions(text):
    """Each function, also in an impl: name, line, parameters, clauses, body."""
    for found in re.finditer(r"^( *)(?:pub(?:\([a-z]+\))? )?(?:const )?(?:extern \"C\" )?fn (\w+)", text, re.M):
        start = found.start()
        end = text.find("\n" + found.group(1) + "}", start)
        whole = text[start:end if end > 0 else len(text)]
        head, _, body = whole.partition("\n" + found.group(1) + "{")
        if not body:
            head, _, body = whole.partition(" {\n")
        line = text.count("\n", 0, start) + 1
        yield found.group(2), line, head, body


def variants(enum):
    body = enum[enum.index("{") + 1:]
    body = re.sub(r"//[^\n]*", "", body)
    found = re.findall(r"^\s{4}(\w+)\s*([({][^;]*?)?(?:,|\n\})", body, re.M | re.S)
    return [(name, bool(value and value.strip())) for name, value in found]


REFUSALS = {"State", "Used", "Unwritten", "Refused", "Command", "Size", "Field", "Busy", "Unsent", "Stray", "Payload", "Room"}
NOTHING = {"Absent", "Idle", "Nothing", "Quiet", "None", "Missing", "More"}


def answers():
    carried = set(re.findall(r"Result<(\w+),", "".join(text for _, text in sources())))
    for path, text in sources():
        for kind, line, item in items(text):
            name = re.search(r"(?:enum|struct) (\w+)", item)
            if kind == "enum" and "{" in item:
                found = variants(item)
                names = {n for n, _ in found}
                valued = [n for n, v in found if v]
                if len(found) == 2 and len(valued) == 1 and names & NOTHING:
                    yield path, line, f"enum {name.group(1)}: an Option"
                elif name.group(1).endswith("Error") or name.group(1) in carried:
                    continue  # an error enum, or what an Ok carries: what is said of the data
                elif names & REFUSALS and (set(valued) - REFUSALS or (names - REFUSALS)) and name.group(1) not in ("Message", "Kind", "Cause", "Code", "Refusal", "Owed"):
                    yield path, line, f"enum {name.group(1)}: a Result"
            if kind == "struct" and "{" in item:
                fields = re.findall(r"^\s{4}(?:pub(?:\([a-z]+\))? )?(\w+): ([^,\n]+)", item, re.M)
                if any(n == "answer" for n, _ in fields):
                    yield path, line, f"struct {name.group(1)}: an answer and a state"
                flags = [n for n, t in fields if t == "bool"]
                others = [n for n, t in fields if t != "bool"]
                if flags and others and name.group(1) not in ("Status", "Network", "Control", "Flags"):
                    yield path, line, f"struct {name.group(1)}: {', '.join(flags)} beside {', '.join(others)}"
        for name, line, head, body in functions(text):
            flags = re.findall(r"(\w+): bool", head)
            if flags and re.search(r"-> (\w+Result|Check)\b", head):
                yield path, line, f"fn {name}: handed {', '.join(flags)}"
            if re.search(r"_number$|^number$", name) and "match" in body:
                yield path, line, f"fn {name}: a number for a kind"
            if re.search(r"_of$", name) and re.search(r"\d+ => \w+::", body) and "TryFrom" not in text[:1]:
                yield path, line, f"fn {name}: a kind of a number"


TWINS = [
    ("write write_chunks write_within chunks_within", "frame"), ("put_byte put_bytes put_chunks", "frame"),
    ("measured sized", "frame"), ("closed half header", "frame"), ("line answer_line", "listing"),
    ("frame_line refused_line", "listing"), ("put_bytes", "listing"), ("two_at four_at eight_at", "base message"),
    ("two_bytes four_bytes attribute_bytes time_bytes time_bytes_and", "base message"), ("by_box to_box", "message"),
    ("checked checked_with", "message"), ("way_allowed code_allowed", "message"), ("way_of code_of mode_of", "message"),
    ("way_number code_number mode_number", "message"), ("write_announcement write_ready write_piece", "message"),
    ("status_allowed control_allowed", "message"), ("status_of control_of", "message"), ("write_first write_last", "standard_io"),
    ("last play_head", "replay"), ("tick tick_by_value ticked", "link"), ("announcement_of piece_of stop_faulty", "transfer"),
    ("is_refusal refusal", "listing"), ("has_argument", "list_program replay_program box_program"),
]


def twins():
    seen = collections.defaultdict(list)
    for path, text in sources():
        for name, line, _, _ in functions(text):
            seen[(path.parts[1], name)].append((path, line))
    for names, crates in TWINS:
        found = [place for crate in crates.split() for name in names.split() for place in seen.get((crate, name), [])]
        if len(found) > 1 or (names == "put_bytes" and found):
            yield found[0][0], found[0][1], f"{names} ({crates}): {len(found)} functions"


def loops():
    for path, text in sources():
        lines = text.split("\n")
        for at, line in enumerate(lines):
            if re.match(r"\s+while ", line) or re.match(r"\s+(let \w+ = )?loop \{", line) or re.match(r".*= loop \{", line):
                depth = len(line) - len(line.lstrip())
                body = []
                for other in lines[at + 1:]:
                    if other.startswith(" " * depth + "}"):
                        break
                    body.append(other)
                if any(re.search(r"\b\w+ [+-]= ", other) for other in body):
                    yield path, at + 1, line.strip()


def by_hand():
    for path, text in sources():
        for name, line, head, body in functions(text):
            if name in ("from", "try_from"):
                continue
            if re.search(r"-> bool", head) and re.search(r"=> (true|false)", body):
                yield path, line, f"fn {name}: a match that says true or false"
            elif re.search(r"-> bool", head) and re.search(r"return (true|false);", body):
                yield path, line, f"fn {name}: true or false by returns"
            elif re.search(r"-> (u8|u64|u32|usize)", head) and len(re.findall(r"\w+::\w+[^=\n]*=> \d+", body)) > 1 and "number" not in name:
                yield path, line, f"fn {name}: numbers of variants"
            elif len(re.findall(r"(\w+)::(\w+)[^=\n]*=> \w+::\2\b", body)) > 1:
                yield path, line, f"fn {name}: variant by variant into another enum"
        for at, line in enumerate(text.split("\n")):
            if re.search(r"\w+: _[,\s]", line):
                yield path, at + 1, "a field passed over by its name: " + line.strip()
            if re.search(r"[/%] (256|65536|4294967296)\b", line):
                yield path, at + 1, "a byte by division: " + line.strip()
            if re.match(r"\s+let (\w+) = [\w.]+\.\1;$", line):
                yield path, at + 1, "a field before use: " + line.strip()
            if re.search(r"wrapping_(add|sub)_u", line):
                yield path, at + 1, "a free function for a method: " + line.strip()
            if re.search(r"base::min\(|\bmin\(a", line):
                yield path, at + 1, "min: " + line.strip()
            if re.search(r"as (u16|u32|u64)\b", line) and not re.search(r"(usize|len\(\)|count|size) as", line):
                yield path, at + 1, "a widening by as: " + line.strip()


GROUPS = [
    ("command", "number", "flags"), ("start", "end"), ("first", "second", "third"), ("opaque", "number", "flags", "out"), ("transfer", "link"),
    ("prefix", "body", "out"), ("size", "piece", "stored"), ("start", "end", "prefix"), ("number", "body", "transfer", "heard"),
    ("clock", "piece", "buffer", "out"), ("reader", "input", "out"),
]
FACTS = ["limit ≤ 65279", "first_number max_repeats", "consumed.0 < 2 ^ 62", "Ready limit", "Ready frame_limit", "length word.now ≤ 64"]


def together():
    groups = collections.defaultdict(list)
    facts = collections.Counter()
    for path, text in sources():
        for name, line, head, _ in functions(text):
            names = set(re.findall(r"(\w+): ", head.split(" ensures ")[0].split(" requires ")[0]))
            for group in GROUPS:
                if set(group) <= names:
                    groups[(path.parts[1], group)].append((path, line, name))
            for fact in FACTS:
                if fact in " ".join(head.split()):
                    facts[(path.parts[1], fact)] += 1
    for (crate, group), found in sorted(groups.items()):
        if len(found) >= 3:
            yield found[0][0], found[0][1], f"({', '.join(group)}) in {len(found)} functions: {', '.join(n for _, _, n in found)}"
    for (crate, fact), count in sorted(facts.items()):
        if count >= 3:
            yield pathlib.Path("crates") / crate, 0, f"`{fact}` in {count} contracts"


def beside():
    for path, text in sources():
        for at, line in enumerate(text.split("\n")):
            if re.search(r"let mut (line\d|head|opaque|data|kept|window) = \[0", line) or re.search(r"\b(kept|held): usize", line):
                yield path, at + 1, "a buffer, its length beside it: " + line.strip()
            if re.search(r"^    (pub )?\w+: Place,$|^(pub )?fn .*: Place\b|^pub struct Place", line):
                yield path, at + 1, "a place in bytes: " + line.strip()


def switches():
    for path, text in sources():
        for name, line, head, body in functions(text):
            arms = re.findall(r"^\s+[\w:]+(?: \{[^}]*\}|\([^)]*\))? => (?:\{\s*)?(\w+(?:(?:::|\.)\w+)*)\(", body, re.M)
            if len(set(arms)) >= 4:
                yield path, line, f"fn {name}: {len(arms)} arms to {len(set(arms))} helpers"
            if "Direction::FromModule =>" in body and name != "from":
                yield path, line, f"fn {name}: by direction"


def proofs():
    for path in sorted(TOP.glob("crates/*/proofs/**/*.antt")):
        if path.name in ("Answers.antt", "Invariants.antt"):
            yield path, 1, f"{len(path.read_text(encoding='utf-8').splitlines())} lines"


POINTS = {"1": answers, "2": twins, "3": loops, "4": by_hand, "5": together, "6": beside, "7": switches, "8": proofs}


def main():
    words = sys.argv[1:]
    signal.signal(signal.SIGPIPE, signal.SIG_DFL)
    if "--crates" in words:
        names = [line.split()[0].rstrip(":") for line in (TOP / "crates.txt").read_text(encoding="utf-8").splitlines()]
        print("| crate | " + " | ".join(POINTS) + " |")
        print("|---|" + "---|" * len(POINTS))
        found = {point: collections.Counter(path.parts[1] for path, _, _ in list(walk())) for point, walk in POINTS.items()}
        for name in names:
            print(f"| {name} | " + " | ".join(str(found[point][name]) for point in POINTS) + " |")
        print("| all | " + " | ".join(str(sum(found[point].values())) for point in POINTS) + " |")
        return
    count = "--count" in words
    wanted = [w for w in words if w in POINTS] or list(POINTS)
    for point in wanted:
        found = list(POINTS[point]())
        print(f"{point} {POINTS[point].__name__}: {len(found)}")
        if not count:
            for path, line, what in found:
                print(f"  {path}:{line}: {what}" if line else f"  {path}: {what}")


if __name__ == "__main__":
    main()
