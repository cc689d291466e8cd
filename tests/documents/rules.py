"""The rules of docs/PROTOCOL.md: their numbers, and every citation of one in the tree.

A citation is the word PROTOCOL and a number: a rule (3.4), a section (3), a list of them, or a range (3.4 to 3.16).
"""
import re

from tree import ROOT, files, name_of, text_of

SECTION = re.compile(r"## (\d+)\. ")
RULE = re.compile(r"(?:\| )?\*\*(\d+\.\d+)\*\*")
# PROTOCOL.md itself cites a rule by its number alone. A version of the protocol has three numbers.
REFERENCE = re.compile(r"(?<![\d.,])\d{1,2}\.\d{1,2}(?![.,]?\d)")
NUMBER = r"\d+(?:\.\d+)?"
GAP = r"[\s#*/-]"  # a citation can run on to the next line of a comment
CITATION = re.compile(rf"\bPROTOCOL(?:\.md)?{GAP}+({NUMBER}(?:{GAP}*(?:,|\bto\b|\band\b|\bor\b){GAP}*{NUMBER})*)")
RANGE = re.compile(rf"({NUMBER})(?:{GAP}*\bto\b{GAP}*({NUMBER}))?")
CITING = ("*.md", ".ci/*", "bin/*", "crates/**/*", "cross/*", "docs/**/*", "examples/**/*", "include/*", "tests/**/*")


def protocol():
    return text_of(ROOT / "docs" / "PROTOCOL.md")


def rules_of(text):
    """The numbers of all rules, in the order of the text."""
    return [match.group(1) for line in text.splitlines() if (match := RULE.match(line))]


def misnumbered(text):
    """Rules that are doubled, skipped or not in their section."""
    section, last, faults = 0, 0, []
    for line in text.splitlines():
        if match := SECTION.match(line):
            section, last = int(match.group(1)), 0
        elif match := RULE.match(line):
            expected, last = f"{section}.{last + 1}", int(match.group(1).split(".")[1])
            if match.group(1) != expected:
                faults.append(f"{match.group(1)} where {expected} is next")
    return faults


def numbers_between(first, last):
    """The numbers of a range, of one across sections its ends; a range backward is its own text, not a number."""
    low, high = ([int(part) for part in number.split(".")] for number in (first, last))
    if low >= high or len(low) != len(high):
        return [f"{first} to {last}"]
    if low[:-1] != high[:-1]:
        return [first, last]
    return [".".join(map(str, [*low[:-1], number])) for number in range(low[-1], high[-1] + 1)]


def numbers_in(cited):
    """The numbers that one citation names. After a rule, a number without a dot is not part of the citation."""
    found = RANGE.findall(cited)
    dotted = "." in found[0][0]
    for first, last in found:
        if dotted == ("." in first):
            yield from numbers_between(first, last) if last else [first]


def uncited(text, known):
    """The numbers that a text cites and that are not known."""
    return [number for cited in CITATION.findall(text) for number in numbers_in(cited) if number not in known]


def citing_texts():
    """(name, text) of every file that can cite a rule."""
    for path in files(*CITING):
        try:
            yield name_of(path), text_of(path)
        except UnicodeDecodeError:
            continue


def check_numbers(checks, text, rules):
    checks.test("PROTOCOL.md has rules", len(rules) > 100)
    checks.none("PROTOCOL.md: rules out of order", misnumbered(text))
    lost = [number for number in REFERENCE.findall(text) if number not in rules]
    checks.none("PROTOCOL.md: references to rules that are not there", lost)
    first, second, *_ = rules
    doubled = misnumbered(text.replace(f"**{second}**", f"**{first}**"))
    checks.test("a doubled rule is found", f"{first} where {second} is next" in doubled)
    skipped = misnumbered(text.replace(f"**{first}**", ""))
    checks.test("a skipped rule is found", f"{second} where {first} is next" in skipped)
    moved = misnumbered(text.replace(f"**{first}**", "**99.1**"))
    checks.test("a rule in another section is found", f"99.1 where {first} is next" in moved)


def check_citations(checks, known):
    word = "PROTOCOL"  # apart from its number, so that this file cites nothing
    for text, faults in [
        ("3.4", []),
        ("3.4.", []),
        ("99.1", ["99.1"]),
        ("3.99", ["3.99"]),
        ("3 and 4", []),
        ("99", ["99"]),
        ("2.1, 2.3 and 2.99", ["2.99"]),
        ("3.4 to\n    -- 3.16", []),
        ("3.1 to 3.99", [f"3.{n}" for n in range(1, 100) if f"3.{n}" not in known]),
        ("3.16 to 3.4", ["3.16 to 3.4"]),
        ("3.4 to 4.4", []),
        ("3.4 to 4.99", ["4.99"]),
        ("3 to 5", []),
        ("9.4, 200 ms", []),
    ]:
        checks.test(f"the citation {text!r}", uncited(f"{word} {text}", known) == faults)
    texts = list(citing_texts())
    checks.test("texts that can cite are found", len(texts) > 200)
    lost = [f"{name}: {number}" for name, text in texts for number in uncited(text, known)]
    checks.none("citations of rules that are not there", lost)


def check(checks):
    text = protocol()
    rules = rules_of(text)
    check_numbers(checks, text, rules)
    check_citations(checks, {*rules, *(rule.partition(".")[0] for rule in rules)})
