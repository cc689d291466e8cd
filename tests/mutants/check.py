"""Wrong programs, each an edit of one crate: the prover must refuse every one, at a fact.

The start of an edit's name says what it changes. `code_`: the code alone, and its contract refuses it. `rule_`: a
definition, and the code alike where it follows it. A `rule_` edit names the claims that refuse it: each is a theorem
that the prover must not admit.

A check of a whole crate takes minutes, so an edit is tried over an incremental folder: rt checks only what reads the
text that changed. The folder holds the modules that rt proved of the crate without the edit. It is made anew for every
check, of links, so that none sees what another one left. Before the first edit rt has to prove the crate over the same
folder without one. The incremental check is not a verdict that something is proved. For a refusal it is enough: each
error is one that the prover found now. One `rule_` edit of each crate stands in crates/NAME/must-fail all the same,
where rt ci tries it too; rt prints its first message alone, so this test tries it once more, for the claims.

A check of the whole crate proves each function that rests on what an edit changed, and its claims are what counts. So a
`rule_` edit is tried first with a function whose contract is the claims that it names, and rt checks that function
alone: with it the claims' proofs, and all that these rest on. An edit that this does not show to be refused is tried
over the whole crate, and that decides.

A batch is some `code_` edits of a crate that one check tries together. They change bodies of functions alone, and no
function that another one of them changes or rests on. A function is proved by itself, against contracts, so it is
refused for its own edit, and the check is of these functions alone. batches.py says which edits these are, and which
error is about which of them; the error is judged as that of a check of the edit alone. An edit that a batch does not
show to be refused is tried alone, over the whole crate, and that decides. So no edit passes in a batch that does not
pass alone.

Words of the command line, CRATE or CRATE/EDIT, ask for these alone. MUTANTS_WORKERS says how many checks run side by
side (2), MUTANTS_LOGS names a folder for the output of each check, MUTANTS_WHOLE=1 has each check be of a whole crate.
"""
import concurrent.futures
import os
import pathlib
import re
import shutil
import subprocess
import sys
import tempfile
import threading
import time

HERE = pathlib.Path(__file__).resolve().parent
ROOT = HERE.parents[1]
sys.path.insert(0, str(HERE.parent / "lib"))
import check_batches  # noqa: E402
import check_claims  # noqa: E402
from batches import batches, changed, merged, shares  # noqa: E402
from checks import Checks  # noqa: E402

PATIENCE = 1200  # seconds for one check
WORKERS = int(os.environ.get("MUTANTS_WORKERS", "2"))
LOGS = os.environ.get("MUTANTS_LOGS")
WHOLE = bool(os.environ.get("MUTANTS_WHOLE"))
ASKING = "asks_for_claims"
MAY_CHANGE = {"code": ("src/",), "rule": ("src/", "specs/")}
# About a text that does not fit, a name that is gone or a shape that changed, and not about what has to be proved.
MISFITS = re.compile(r"has no `Need-|can be named from here|has no field|is not in scope|is no name|exports no `"
                     r"|operand is missing|expected the end|cannot continue|was not expected"
                     r"|explicit (?:fields?|arguments?), (?:and|but) this pattern|and this pattern writes")
ERROR = re.compile(r"^(?:\./)?(?P<file>[^\s:]+):\d+:\d+: error(?:\[[^]]*\])?: (?:`(?P<name>[^`]+)`: )?"
                   r"(?P<text>.*(?:\n +.*)*)", re.M)
VERDICT = re.compile(r"^(logic=(?:not-)?proved\b|only=\d+ proved=\d+$)", re.M)
NOT_BUILT = re.compile(r"^rt: the library \w+ did not build", re.M)
FOLLOWS = re.compile(r"\d+ declarations? that depends? on `(?P<cause>[^`]+)`, which was (?:not admitted|rejected), "
                     r"(?:was|were) not checked: (?P<names>.*)")


def replacements(edit):
    """(file, old text, new text) for each pair of an edit, as rt reads them in crates/NAME/must-fail."""
    file = old = None
    for line in edit.read_text(encoding="utf-8").splitlines():
        if line.startswith("file: "):
            file = line[len("file: "):]
        elif line.startswith("old: "):
            old = line[len("old: "):]
        elif line.startswith("new:"):
            yield file, old, line[len("new:"):].removeprefix(" ")


def edited(crate, edit):
    """The texts of the files that an edit changes; each old text has to be there once."""
    texts = {}
    allowed = MAY_CHANGE.get(edit.stem.partition("_")[0], ())
    for file, old, new in replacements(edit):
        if not (file or "").startswith(allowed):
            raise ValueError(f"it changes {file}, and its name does not say so")
        text = texts.get(file) or (crate / file).read_text(encoding="utf-8")
        if not old or text.count(old) != 1:
            raise ValueError(f"an old text is not in {file} once: {old}")
        texts[file] = text.replace(old, new)
    if not texts:
        raise ValueError("it changes nothing")
    return texts


def code_of(crate):
    """The texts of a crate's code."""
    paths = crate.glob("src/**/*.rt")
    return {path.relative_to(crate).as_posix(): path.read_text(encoding="utf-8") for path in paths}


def bodies_of(crate, edit):
    """{function: its new body} of a `code_` edit that may be in a batch; {} of any other edit."""
    try:
        return changed(code_of(crate), edited(crate, edit)) if edit.stem.startswith("code_") else {}
    except (OSError, ValueError):
        return {}  # tried alone, it says what is wrong


def claims_of(edit):
    """The claims that an edit says refuse it."""
    return re.findall(r"^# claim: (\S+)$", edit.read_text(encoding="utf-8"), re.M)


def write(crate, texts):
    """Writes files of a crate."""
    for file, text in texts.items():
        (crate / file).parent.mkdir(parents=True, exist_ok=True)
        (crate / file).write_text(text, encoding="utf-8")


def statement(crate, claim):
    """(the module of a claim's theorem, its type, the module of that), or None where the type is more than a name."""
    name = crate.name
    for file in sorted((crate / "proofs").rglob("*.antt")):
        text = file.read_text(encoding="utf-8")
        if own := re.search(rf"^pub {re.escape(claim)} : ([\w'-]+)$", text, re.M):
            module = ".".join(file.relative_to(crate / "proofs").with_suffix("").parts)
            uses = re.findall(rf"^use (Rattle\.{name}\.specs\.[\w.'+-]+)\.\{{([^}}]*)\}}", text, re.M)
            stated = [of for of, names in uses if own[1] in re.split(r"[\s,]+", names)]
            return (f"Rattle.{name}.proofs.{module}", own[1], stated[0]) if len(stated) == 1 else None
    return None


def asking(crate, claims):
    """The files of a function whose contract is these claims, by their theorems; {} where it cannot be written so.

    A check of this function alone reads their proofs and what these rest on, and proves none of the crate's functions.
    """
    found = [statement(crate, claim) for claim in claims]
    if not claims or None in found or len({kind for _, kind, _ in found}) < len(found):
        return {}
    uses = "".join(f"ghost use {of}.{{{kind}}};\n" for _, kind, of in found)
    clauses = "".join(f"    ensures claim_{n} {{ {kind} }}\n" for n, (_, kind, _) in enumerate(found))
    goals = [f"returns-clause-claim_{n}" if found[1:] else "returns" for n in range(len(found))]
    answers = "".join(f"use {of}.{{{claim}}}\n" for claim, (of, _, _) in zip(claims, found))
    answers += f"use Rattle.{crate.name}.proofs.{ASKING}.{ASKING}.Goals as goal\n"
    answers += "".join(f"\npub {goal} : goal.{goal}\n{goal} c = {claim}\n" for goal, claim in zip(goals, claims))
    return {f"src/{ASKING}.rt": f"{uses}\nfn {ASKING}()\n{clauses}{{}}\n",
            f"proofs/{ASKING}/{ASKING}/Answers.antt": answers}


def verdict_of(status, output):
    """Whether a check proved what it was asked for, refused it, or neither, by its status and its last word on it.

    Where a library below is not built, that word is of a pass over the sources.
    """
    said = VERDICT.findall(output)
    if not said or NOT_BUILT.search(output):
        return "stopped"
    if status == 0 and said[-1] != "logic=not-proved":
        return "proved"
    return "refused" if status == 1 and said[-1] != "logic=proved" else "stopped"


def prove(room, name, only):
    """The output of a check, whether it proved the crate, refused it, or neither, and its processor seconds.

    `only` names the functions to check, none for all: then "proved" says nothing of the others.
    """
    words = ["timeout", "--kill-after=9", str(PATIENCE), "rt", "check", "--jobs", "1"]
    words += [word for function in only for word in ("--only", function)]
    with tempfile.TemporaryFile() as told:
        ran = subprocess.Popen(words, cwd=room / "crates" / name, stdin=subprocess.DEVNULL, stdout=told, stderr=told)
        _, status, used = os.wait4(ran.pid, 0)
        ran.returncode = os.waitstatus_to_exitcode(status)
        told.seek(0)
        output = told.read().decode("utf-8", "replace")
    return output, verdict_of(ran.returncode, output), used.ru_utime + used.ru_stime


def first_error(output):
    """The line of the first error that does not follow from another one.

    Where the prover answers a function by itself, that is the function's first note.
    """
    errors = list(re.finditer(r"^(\S+:\d+:\d+): error.*", output, re.M))
    own = next((error for error in errors if not FOLLOWS.search(error.group(0))), None)
    return own or re.search(r"^note: (\S+:\d+:\d+): .*", output, re.M) or next(iter(errors), None)


def refused_names(output):
    """{declaration: whether it falls by an error about more than a text that does not fit}, of those not admitted.

    A declaration that was not checked follows the one that it depends on, which is not admitted either. rt names three
    of those that follow and counts the rest, so one may follow from any list that was cut: all of these have to be
    sound.
    """
    own, causes, cut = {}, {}, set()
    for error in ERROR.finditer(output):
        if follows := FOLLOWS.search(error["text"].split("\n")[0]):
            names, _, more = follows["names"].partition(" and ")
            causes |= dict.fromkeys(re.sub(r" \(via [^)]*\)", "", names).split(", "), {follows["cause"]})
            cut |= {follows["cause"]} if more else set()
        elif error["name"]:
            own[error["name"]] = own.get(error["name"], False) or not MISFITS.search(error["text"])

    def is_sound(name, seen):
        """Whether a declaration falls by such an error; one that follows from itself says nothing."""
        if name in own:
            return own[name]
        after = causes.get(name, cut) - seen
        return bool(after) and all(is_sound(cause, seen | {name}) for cause in after)

    fallen = {*own, *causes, *(cause for those in causes.values() for cause in those)}
    return {name: is_sound(name, frozenset()) for name in fallen}


def unrefused(edit, output):
    """Why a `rule_` edit is not refused by each claim that it names, or ''."""
    if not edit.stem.startswith("rule_"):
        return ""
    claims = claims_of(edit)
    if not claims:
        return "it names no claim"
    names = refused_names(output)
    admitted = [claim for claim in claims if claim not in names]
    if admitted:
        return f"the claim {admitted[0]} does not refuse it"
    unfit = [claim for claim in claims if not names[claim]]
    return f"the claim {unfit[0]} falls only where a text does not fit" if unfit else ""


def unread(output):
    """The first error that says that the prover did not admit a text of src/ or specs/, or ''.

    No proof stands there, so such an error is about the text of the edit: a name that is gone, or a type that does not
    fit. The function that asks for claims is no part of it.
    """
    for error in ERROR.finditer(output):
        if error["file"].startswith(("src/", "specs/")) and error["file"] != f"src/{ASKING}.rt":
            if not FOLLOWS.search(error["text"]):
                return error.group(0)
    return ""


def misfit_of(edit, output, error):
    """The first message that says that a proof's text does not fit, or ''.

    Some `rule_` edits need another proof for a function, whose error may come later: there the first one and those of
    the claims count. Of an edit of the code each one counts, in all of its lines.
    """
    if edit.stem.startswith("rule_"):
        return error.group(0) if MISFITS.search(error.group(0)) else ""
    first = re.match(r".*(?:\n +.*)*", output[error.start():]).group(0)
    messages = (first, *(other.group(0) for other in ERROR.finditer(output)))
    return next((message for message in messages if MISFITS.search(message)), "")


def fault_of(edit, output, verdict):
    """Why a check does not show what its edit has to show, or '', and the place of the first error."""
    if verdict != "refused":
        return f"it is {verdict}, and must be refused: {output[-300:]}", ""
    error = first_error(output)
    if not error:
        return f"refused without a place: {output[-300:]}", ""
    place = error.group(1).removeprefix("./")
    if not place.startswith(("src/", "specs/", "proofs/")):
        return f"refused outside the crate: {error.group(0)[:300]}", place
    if bad := unread(output):
        return f"the prover does not admit its text: {bad[:300]}", place
    if misfit := misfit_of(edit, output, error):
        return f"refused where a proof file does not fit the code: {misfit[:300]}", place
    wrong = unrefused(edit, output)
    return wrong and f"{wrong}; first at {place}", place


def shown(name, batch, texts, output, verdict):
    """{edit: the place of its first error} of the edits of a batch that its check shows to be refused."""
    faults = {edit: fault_of(edit, share, verdict) for edit, share in shares(name, batch, texts, output).items()}
    return {edit: place for edit, (wrong, place) in faults.items() if not wrong}


def link_or_copy(source, target):
    """A file that nobody writes in place: linked, or copied where the target is on another disk."""
    try:
        os.link(source, target)
    except OSError:
        shutil.copy2(source, target)


def link(source, target):
    """A folder of what rt proved: links, since rt never writes in such a file, and copies of the rest.

    Where a check of an upper crate has built this one as a library, its folder is there already, and goes.
    """
    shutil.rmtree(target, ignore_errors=True)
    shutil.copytree(source, target, symlinks=True,
                    copy_function=lambda one, two: (link_or_copy if one.endswith(".oantt") else shutil.copy2)(one, two))


def furnish(room):
    """A room of its own to try edits in: the crates, and the libraries that rt proved of them."""
    shutil.copytree(ROOT / "crates", room / "crates", ignore=shutil.ignore_patterns("out", "must-fail"))
    shutil.copy(ROOT / "crates.txt", room)
    for library in (ROOT / "crates").glob("*/out/rlib"):
        shutil.copytree(library, room / library.relative_to(ROOT), copy_function=link_or_copy)


class Rooms:
    """A room for each worker, and for each crate its incremental folder as it is without an edit."""

    def __init__(self, folder):
        self.folder = pathlib.Path(folder)
        self.checked = []  # the edits of each check
        self.seconds = {}  # {crate: the processor seconds of its checks}

    def own(self):
        """The room of the worker that asks."""
        room = self.folder / str(threading.get_ident())
        if not room.is_dir():
            furnish(room)
        return room

    def run(self, room, name, what, only=()):
        """A check; its output and verdict, and its time is noted."""
        output, verdict, seconds = prove(room, name, only)
        self.seconds.setdefault(name, []).append(seconds)
        if LOGS:
            place = pathlib.Path(LOGS) / name / f"{what}.log"
            place.parent.mkdir(parents=True, exist_ok=True)
            place.write_text(f"{output}\nverdict={verdict} processor-seconds={seconds:.1f}\n", encoding="utf-8")
        return output, verdict

    def prove(self, name):
        """Proves a crate without an edit and keeps its incremental folder; what is wrong, or '', and a line on it."""
        room = self.own()
        kept = room / "crates" / name / "out" / "incremental"
        seed = ROOT / "crates" / name / "out" / "incremental"
        if seed.is_dir():
            link(seed, kept)
        output, verdict = self.run(room, name, "without-an-edit")
        if verdict != "proved":
            return f"it is {verdict}: {output[-300:]}", ""
        (self.folder / "proved").mkdir(exist_ok=True)
        kept.rename(self.folder / "proved" / name)
        modules = re.search(rf"^crate {name}: (.*)", output, re.M)
        return "", f"proved ({modules.group(1) if modules else 'modules not counted'})"

    def check(self, name, edits, texts, only=()):
        """Checks a crate with the texts of edits; its output, with places as seen from the crate, and its verdict."""
        self.checked.append(edits)
        room = self.own()
        crate = room / "crates" / name
        kept = {file: (crate / file).read_text(encoding="utf-8") for file in texts if (crate / file).is_file()}
        link(self.folder / "proved" / name, crate / "out" / "incremental")
        write(crate, texts)
        what = f"{edits[0].stem}-and-{len(edits) - 1}-more" if edits[1:] else edits[0].stem
        output, verdict = self.run(room, name, what, only)
        write(crate, kept)
        for file in texts.keys() - kept.keys():
            (crate / file).unlink()
        for part in ("src", "proofs"):
            shutil.rmtree(crate / part / ASKING, ignore_errors=True)
        shutil.rmtree(crate / "out" / "incremental")
        return output.replace(f"{crate}/", ""), verdict

    def try_edit(self, name, edit):
        """Tries an edit; why it does not show what it has to show, or '', and a line on it."""
        began = time.monotonic()
        try:
            texts = edited(self.own() / "crates" / name, edit)
        except (OSError, ValueError) as error:
            return str(error), ""
        wrong, place = self.try_claims(name, edit, texts) or fault_of(edit, *self.check(name, [edit], texts))
        return wrong, f"refused, first at {place} ({time.monotonic() - began:.0f} s)"

    def try_claims(self, name, edit, texts):
        """Tries a `rule_` edit by a check of its claims alone; what fault_of says if this shows it to be refused."""
        crate = self.own() / "crates" / name
        more = asking(crate, claims_of(edit)) if edit.stem.startswith("rule_") and not WHOLE else {}
        if not more:
            return None
        root = texts.get("src/lib.rt") or (crate / "src/lib.rt").read_text(encoding="utf-8")
        more["src/lib.rt"] = f"{root}\nmod {ASKING};\n"
        wrong, place = fault_of(edit, *self.check(name, [edit], texts | more, [f"{ASKING}::{ASKING}"]))
        return None if wrong else (wrong, place)

    def try_together(self, name, batch):
        """Tries a batch in one check; what try_edit says, of the edits that this shows to be refused."""
        began = time.monotonic()
        texts = merged(code_of(self.own() / "crates" / name), batch)
        only = sorted({function.replace("/", "::") for bodies in batch.values() for function in bodies})
        places = shown(name, batch, texts, *self.check(name, list(batch), texts, only))
        took = f"{time.monotonic() - began:.0f} s for {len(batch)} edits"
        return {edit: ("", f"refused, first at {place} ({took})") for edit, place in places.items()}

    def try_batch(self, name, batch):
        """Tries a batch, and alone each edit that this does not show to be refused; what try_edit says, of each."""
        found = self.try_together(name, batch) if all(batch.values()) else {}
        return {edit: found.get(edit) or self.try_edit(name, edit) for edit in batch}


def all_edits():
    """(crate, edit) of every edit; crates that take longest come first, so that no worker is idle to the end.

    Of those in crates/NAME/must-fail the `rule_` edits: for the others rt ci's own verdict is enough.
    """
    found = [(edit.parent.name, edit) for edit in sorted(HERE.glob("*/*.edit"))]
    found += [(edit.parents[1].name, edit) for edit in sorted((ROOT / "crates").glob("*/must-fail/rule_*.edit"))]
    size = {name: len(list((ROOT / "crates" / name / "proofs").rglob("*.antt"))) for name, _ in found}
    return sorted(found, key=lambda job: (-size[job[0]], job[0]))


def is_wanted(job, words):
    """Whether words, each CRATE or CRATE/EDIT, ask for an edit; none ask for all."""
    name, edit = job
    return not words or name in words or f"{name}/{edit.stem}" in words


def batches_of(jobs):
    """(crate, batch) of each batch of the edits."""
    for name in dict.fromkeys(name for name, _ in jobs):
        crate = ROOT / "crates" / name
        edits = {edit: bodies_of(crate, edit) for other, edit in jobs if other == name}
        yield from ((name, batch) for batch in batches(edits, code_of(crate)))


def account(checked):
    """A line on the checks of `code_` edits, from the edits of each check."""
    code = [edits for edits in checked if edits[0].stem.startswith("code_")]
    tried = [edit for edits in code for edit in edits]
    again = len(tried) - len(set(tried))
    return f"{len(set(tried))} code edits in {len(code)} checks, {again} of them again alone" if code else ""


def tests(rooms, pool, words):
    """(what, why it is wrong or '', a line) of everything that is tried."""
    jobs = [job for job in all_edits() if is_wanted(job, words)]
    crates = list(dict.fromkeys(name for name, _ in jobs))
    proofs = dict(zip(crates, pool.map(rooms.prove, crates)))
    for name, (wrong, line) in proofs.items():
        yield f"{name} without an edit", wrong, line
    tried = [(name, edit) for name, edit in jobs if not proofs[name][0]]
    turns = list(batches_of(tried))
    for (name, _), found in zip(turns, pool.map(lambda turn: rooms.try_batch(*turn), turns)):
        for edit, (wrong, line) in found.items():
            yield f"{name}/{edit.stem}", wrong, line
    left = {edit for _, edit in tried} - {edit for _, batch in turns for edit in batch}
    yield "no edit is left out", ", ".join(edit.stem for edit in left), account(rooms.checked)
    lost = [word for word in words if not any(is_wanted(job, [word]) for job in jobs)]
    yield "there are edits to try", "" if jobs and not lost else f"there is none {', '.join(lost)}".strip(), ""


def main():
    checks = Checks("mutants")
    check_batches.check(checks, shown)
    # Not below ROOT: rt ci refuses a checkout with a .rt file outside of its crates.
    with tempfile.TemporaryDirectory(prefix="mutants.") as folder, \
            concurrent.futures.ThreadPoolExecutor(WORKERS) as pool:
        check_claims.check(checks, fault_of, folder)
        check_claims.check_verdicts(checks, verdict_of)
        rooms = Rooms(folder)
        for what, wrong, line in tests(rooms, pool, sys.argv[1:]):
            checks.test(what, not wrong, wrong)
            if not wrong and line:
                checks.say(f"{what}: {line}")
    for name, seconds in rooms.seconds.items():
        checks.say(f"{name}: {len(seconds)} checks in {sum(seconds):.0f} s of processor time")
    return checks.end()


sys.exit(main())
