"""The specifications: each file says in its first line what it is, and each claim has its theorem.

A file is a Statement (what is to be believed), the Model (which claims hold to the statements) or Claims. Lib.antt
lists the modules in a group for each kind. A claim has a heading, `-- ---- name: ..`, and a theorem of that name.
"""
import re

from tree import ROOT, crates, name_of, spec_files, text_of, theorems

KINDS = {"Statement": "Statements", "Model": "Model", "Claims": "Claims"}
HEAD = re.compile(r"-- (Statement|Model|Claims): \S")
GROUP = re.compile(r"-- (Statements|Model|Claims)\b(?! +\w)")
MODULE = re.compile(r"pub mod (\w+)")
HEADING = re.compile(r"^-- ---- ([a-z0-9]+(?:[-_][a-z0-9]+)*)(:|,|$)", re.M)  # of several words, it is a subtitle


def kind_of(text):
    """The kind that a specification's first line names, or ''."""
    match = HEAD.match(text)
    return match.group(1) if match else ""


def groups_in(lib):
    """(module, the group that it is listed in) of each module of Lib.antt."""
    group = ""
    for line in lib.splitlines():
        if match := GROUP.match(line):
            group = match.group(1)
        elif match := MODULE.match(line):
            yield match.group(1), group


def misplaced(lib, kinds):
    """Modules that Lib.antt does not list once, in the group of their kind."""
    listed = list(groups_in(lib))
    names = [module for module, _ in listed]
    faults = [f"{name} is listed {names.count(name)} times" for name in kinds if names.count(name) != 1]
    faults += [f"{name} has no file" for name in names if name not in kinds]
    wrong = [(name, group) for name, group in listed if name in kinds and group != KINDS.get(kinds[name])]
    return faults + [f"{name} is in the group '{group}', its head says '{kinds[name]}'" for name, group in wrong]


def claims_in(text):
    """The claims that a specification's headings name. In a file of claims every heading of one word is one."""
    is_claims = kind_of(text) == "Claims"
    return [name for name, mark in HEADING.findall(text) if mark == ":" or is_claims]


def claims_of(crate):
    """The claims of a crate."""
    return {name for path in spec_files(crate) for name in claims_in(text_of(path))}


def unproved(text, proved):
    """Headings without their theorem, and a file of claims that has none."""
    claims = claims_in(text)
    faults = [f"{name} is not a theorem" for name in claims if name not in proved]
    return faults + ["it has no claim"] * (kind_of(text) == "Claims" and not claims)


def check_crate(checks, crate):
    paths, proved = spec_files(crate), theorems(crate)
    kinds = {path.stem: kind_of(text_of(path)) for path in paths}
    checks.none(f"{crate}: specifications whose first line names no kind", [name for name in kinds if not kinds[name]])
    lib = ROOT / "crates" / crate / "specs" / "Lib.antt"
    checks.none(f"{name_of(lib)}: modules", misplaced(text_of(lib), kinds))
    faults = [f"{name_of(path)}: {fault}" for path in paths for fault in unproved(text_of(path), proved)]
    checks.none(f"{crate}: claims", faults)


def check_itself(checks):
    kinds = {"Wire": "Statement", "Rules": "Model", "Stream": "Claims"}
    lib = "-- Statements: ..\npub mod Wire\n-- Model\npub mod Rules\n-- Claims\npub mod Stream\n"
    checks.test("a list of modules in groups", misplaced(lib, kinds) == [])
    for name, other, faults in [
        ("a module in another group", lib.replace("-- Model\n", ""), 1),
        ("a module that is missing", lib.replace("pub mod Wire\n", ""), 1),
        ("a module twice", lib + "pub mod Stream\n", 1),
        ("a module without a file", lib + "pub mod Lost\n", 1),
    ]:
        checks.test(f"{name} is found", len(misplaced(other, kinds)) == faults)
    checks.test("a head", [kind_of(f"-- {kind}: what a frame is.") for kind in KINDS] == list(KINDS))
    checks.test("another head is found", kind_of("-- What a frame is.") == kind_of("-- Claims") == "")
    claims = "-- Claims: of a stream.\n-- ---- one-list: a stream has one\n-- ---- two lists\n-- ---- worked\n"
    checks.test("the claims of a file", claims_in(claims) == ["one-list", "worked"])
    checks.test("a claim without a theorem is found", unproved(claims, {"worked"}) == ["one-list is not a theorem"])
    model = claims.replace("-- Claims", "-- Model")
    checks.test("one word in a model is a subtitle", unproved(model, {"one-list"}) == [])
    checks.test("a file of claims without any is found", unproved("-- Claims: none.", set()) == ["it has no claim"])


def check(checks):
    check_itself(checks)
    for crate in crates():
        if (ROOT / "crates" / crate / "specs" / "Lib.antt").is_file():
            check_crate(checks, crate)
