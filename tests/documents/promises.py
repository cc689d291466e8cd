"""Promises of the code's form that no theorem can state (PROTOCOL 1.3, 12.1 and 12.2).

A public call of a library has no `requires` and has an `ensures`. A definition that is over any limit, first number or
count of repeats is stated there with the code's own, by name: no claim reads a contract. Of the proofs of another
layer, the proofs of a layer cite only theorems that are claims there. base has laws for all crates and is not a layer.
"""
import re

from specs import claims_of
from tree import files, name_of, text_of

CALL = re.compile(r"^ *pub (?:extern \"C\" )?fn (\w+)(.*?)\{$", re.M | re.S)  # up to the brace that opens its body
LIMIT, SENDING = {"limit": "frame_limit"}, {"first": "first_number", "max": "max_repeats"}  # parameters: the code's own
ALL = LIMIT | SENDING
OWN = {"link": SENDING, "transfer": ALL, "device": ALL, "stack_driver": ALL}  # in all other crates: LIMIT
DEFINED = re.compile(r"^ghost use Rattle\.(\w+?)\.specs\.(\w+)\.\{([^}]*)\};", re.M)
LAYERS = ("message", "link", "transfer", "device", "firmware", "listing", "capture", "replay", "stack_driver")
ALONE = ("capture", "stack_driver")  # cites definitions of other layers, and no theorem
CITED = re.compile(r"^use Rattle\.(\w+)\.proofs\.(\w+(?:\.\w+)*)(?:\.\{([^}]*)\})?", re.M)


def calls_in(text):
    """(name, signature and contract) of each public function."""
    return CALL.findall(text)


def unpromised(text):
    """Public calls that require something, or that leave their result unstated."""
    requiring = [f"{name} requires something" for name, contract in calls_in(text) if "requires" in contract]
    return requiring + [f"{name} ensures nothing" for name, contract in calls_in(text) if "ensures" not in contract]


def parameters(text, own):
    """What follows the name of each definition that begins with such parameters."""
    found = re.findall(rf"^(\w+)((?: (?:{'|'.join(own)}))+)\b.* =", text, re.M)
    return {name: "".join(f" {own[word]}" for word in words.split()) for name, words in found}


def needed_in_tree():
    """The same of every specification, by its crate and file."""
    sources = [(path.parents[1].name, path) for path in files("crates/*/specs/*.antt")]
    return {(crate, path.stem): parameters(text_of(path), OWN.get(crate, LIMIT)) for crate, path in sources}


def unnamed(text, needed):
    """Public calls whose contract gives something else to a definition, by the crate and file that it is from."""
    pairs = [((crate, file), name.strip()) for crate, file, names in DEFINED.findall(text) for name in names.split(",")]
    after = {name: needed.get(origin, {}).get(name, "") for origin, name in pairs}
    for name, contract in calls_in(text):
        contract = " ".join(contract.split())
        for place in re.finditer(r"\w+", contract):
            if not contract.startswith(after.get(place.group(), ""), place.end()):
                yield f"{name}: {place.group()}"


def cited_inside(text, claims, own=""):
    """What a proof cites of the proofs of another layer, and that is not a claim there."""
    open_to_all = {"base", "core", "std", own}
    cited = [(crate, names or module) for crate, module, names in CITED.findall(text) if crate not in open_to_all]
    pairs = [(crate, name.split(" as ")[0].strip()) for crate, names in cited for name in names.split(",")]
    return [f"{crate}'s {name}" for crate, name in pairs if name not in claims(crate)]


def cited_crates(texts):
    return {crate for text in texts for crate, _, _ in CITED.findall(text)}


def check_calls(checks):
    good = "pub fn f(n: u8) -> u8\n    ensures { r }\n{\n    g(n)\n}\n"
    checks.test("a call that promises", unpromised(good) == [])
    requiring = good.replace("ensures", "requires { a }\n    ensures")
    checks.test("a call that requires is found", unpromised(requiring) == ["f requires something"])
    bare = "pub fn h() -> u8 {\n    0\n}\n" + good
    checks.test("a call that promises nothing is found", unpromised(bare) == ["h ensures nothing"])
    paths = [path for path in files("crates/*/src/**/*.rt") if path.parent.with_name("specs").is_dir()]
    checks.test("public calls are found", sum(len(calls_in(text_of(path))) for path in paths) > 20)
    for path in paths:
        checks.none(f"{name_of(path)}: public calls", unpromised(text_of(path)))


def check_parameters(checks):
    text = "sum_of first max n = n\nsum_of first max (n) =\nbound_of limit = limit\n"
    needed = parameters(text, SENDING)
    checks.test("parameters are found", needed == {"sum_of": " first_number max_repeats"})
    checks.test("those of the frame too", parameters(text, ALL) == {**needed, "bound_of": " frame_limit"})
    three = parameters("call_of limit first max n =\n", ALL)
    checks.test("all three in their order", three == {"call_of": " frame_limit first_number max_repeats"})
    used = "ghost use Rattle.link.specs.Sums.{sum_of};\n"
    call = used + "pub fn f(n: u8) -> u8\n    ensures { r ≡ sum_of first_number max_repeats n }\n{\n"
    needed = {("link", "Sums"): needed}
    checks.test("a call with the code's own", not list(unnamed(call, needed)))
    checks.test("one with a number is found", list(unnamed(call.replace("max_repeats", "3"), needed)) == ["f: sum_of"])
    needed = needed_in_tree()
    for crate, file, name in [("transfer", "Calls", "begin_of"), ("device", "Handling", "handle_of")]:
        checks.test(f"the parameters of {name}", needed[crate, file].get(name) == three["call_of"])
    paths = files("crates/*/src/**/*.rt")
    stated = [name for path in paths for name in re.findall("frame_limit|max_repeats", text_of(path))]
    checks.test("such definitions are stated", len(stated) > 30, f"{len(stated)}")
    for path in paths:
        checks.none(f"{name_of(path)}: other parameters", unnamed(text_of(path), needed))


def check_layers(checks):
    used = "use Rattle.frame.proofs.Round.{round-trip, made as good}\nuse Rattle.base.proofs.Tests.{tests}\n"
    checks.test("a citation of a claim", cited_inside(used, lambda _: {"round-trip", "made"}) == [])
    checks.test("one from inside a layer is found", cited_inside(used, lambda _: {"made"}) == ["frame's round-trip"])
    module = "use Rattle.frame.proofs.Moves\n"
    checks.test("a whole module of a layer is found", cited_inside(module, lambda _: {"made"}) == ["frame's Moves"])
    for layer in LAYERS:
        texts = {name_of(path): text_of(path) for path in files(f"crates/{layer}/proofs/**/*.antt")}
        lost = [f"{name}: {fault}" for name, text in texts.items() for fault in cited_inside(text, claims_of, layer)]
        checks.none(f"{layer}: citations from inside another layer", lost)
        is_citing = any(crate not in {"base", "core", "std", layer} for crate in cited_crates(texts.values()))
        checks.test(f"whether {layer} cites another layer", is_citing != (layer in ALONE))


def check(checks):
    check_calls(checks)
    check_parameters(checks)
    check_layers(checks)
