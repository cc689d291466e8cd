"""What the compiler itself says of a crate: its functions and all they reach, their variables and their arrays.

It is a second opinion on arrays.py, which reads the sources: both have to find the same functions and the same arrays
above a size. `rt lib` keeps the compiler's own representation, MIR, of each library that it builds. Of a static library
it keeps none, so the crate is built once more as a library, in a folder of its own.

A function with parameters of types is followed once for each types that it is called with: a call names them, and the
impls that stand for its bounds, so that a call by a trait is the call of one function.
"""
import json
import os
import pathlib
import shutil
import subprocess

import layout

# Statements of a function's body: those with parts, and the others, which are words.
STATEMENTS = {"Assign", "Call", "Exit", "If", "LendStatic", "Switch"}
WORDS = {"Block", "Loop", "Return", "Seq", "Skip", "Unreachable"}
PLAIN = {"Bool": (1, 1), "Unit": (0, 1), "Ptr": (8, 8)}
RLIB = pathlib.Path("out", "rlib")  # in a crate: the library that rt lib makes of it
PARTS = (pathlib.Path("src"), pathlib.Path("specs"), pathlib.Path("proofs"), RLIB)
PATIENCE = 900  # seconds


class Strange(Exception):
    """Something in the MIR that is not understood, or not there: it could use any amount of stack."""


def below(root, crate):
    """A crate and those below it, each with the libraries that it names."""
    lines = (root / "crates.txt").read_text(encoding="utf-8").splitlines()
    heads = [line.partition(":") for line in lines if line.partition("#")[0].strip()]
    named = {head.split()[0]: rest.split() for head, _, rest in heads}
    found, waiting = {}, [crate]
    while waiting:
        name = waiting.pop()
        if name in named and name not in found:
            found[name] = named[name]
            waiting.extend(named[name])
    return found


def linked_or_copied(source, target):
    try:
        os.link(source, target)
    except OSError:
        shutil.copy(source, target)


def build(root, crate, top):
    """Builds a crate as a library in a folder of its own, over the libraries that are built; whether it is proved."""
    crates = below(root, crate)
    for name in crates:
        source, target = root / "crates" / name, top / "crates" / name
        for part in PARTS:
            if (source / part).is_dir() and (name, part) != (crate, RLIB):
                copy = linked_or_copied if part == RLIB else shutil.copy
                shutil.copytree(source / part, target / part, copy_function=copy)
    lines = [f"{name}: {' '.join(used)}\n" for name, used in crates.items()]
    (top / "crates.txt").write_text("".join(lines), encoding="utf-8")
    folder = top / "crates" / crate
    done = subprocess.run(["rt", "lib"], cwd=folder, capture_output=True, text=True, timeout=PATIENCE, check=False)
    return done.returncode == 0


class Libraries:
    """The functions of libraries: of those that are built in a folder, and of the kit's."""

    def __init__(self, crates, kit):
        self.crates, self.kit, self.read, self.impls = crates, kit, {}, {}

    def functions(self, crate):
        """Each function of a library by its name."""
        if crate not in self.read:
            inside = pathlib.Path(f"{crate}.rlib", "toolchain", "mir.json")
            files = [self.crates / crate / RLIB / inside, self.kit / "rlibs" / inside]
            file = next((file for file in files if file.is_file()), None)
            if file is None:
                raise Strange(f"there is no MIR of {crate}")
            self.read[crate] = dict(json.loads(file.read_text(encoding="utf-8")))
        return self.read[crate]

    def function(self, name):
        function = self.functions(name.partition("::")[0]).get(name)
        if function is None:
            raise Strange(f"there is no MIR of {name}")
        return function

    def reached(self, starts):
        """Functions and all that they call, each with the types that it is called with: (name, function) of each."""
        found, waiting = {}, [(name, {"types": [], "dicts": []}) for name in starts]
        while waiting:
            name, given = waiting.pop()
            try:
                key = name, json.dumps(given, sort_keys=True)
                if key not in found:
                    found[key] = made_for(name, self.function(name), given)
                    self.impls |= {each["name"]: each for each in found[key]["generics"]["impls"]}
                    waiting.extend(self.resolved(callee) for callee in called(name, found[key]))
            except RecursionError as error:
                raise Strange(f"{name} is called with ever wider types") from error
        declared = declared_in(found.values())
        return [(name, {**function, "declared": declared}) for (name, _), function in found.items()]

    def resolved(self, callee):
        """The name of the function that a call means, and what it is given."""
        if "Fn" in callee:
            return callee["Fn"]
        bound, place, given = callee["Method"]
        if list(bound) != ["Impl"] or bound["Impl"][0] not in self.impls:
            raise Strange(f"a call by {bound}")
        (impl, types, dicts), among = bound["Impl"], self.impls[bound["Impl"][0]]
        name = among["methods"][place]
        if "Trait" in (self.function(name)["generics"]["method_of"] or ()) or not name.startswith(impl):
            raise Strange(f"{name} is the method of no impl")
        return name, {"types": types + given["types"], "dicts": dicts + given["dicts"]}


def filled(tree, types, dicts):
    """A tree with types and impls in the places of parameters."""
    if isinstance(tree, list):
        return [filled(each, types, dicts) for each in tree]
    if not isinstance(tree, dict):
        return tree
    if list(tree) == ["Param"] or list(tree) == ["Given"]:
        (word, place), = tree.items()
        among = types if word == "Param" else dicts
        if not isinstance(place, int) or place >= len(among):
            raise Strange(f"the MIR has a parameter {place}")
        return among[place]
    return {key: filled(each, types, dicts) for key, each in tree.items()}


def made_for(name, function, given):
    """A function with what a call gives it in the places of its parameters."""
    generics = function["generics"]
    if [len(generics["types"]), len(generics["bounds"])] != [len(given["types"]), len(given["dicts"])]:
        raise Strange(f"{name} has parameters of types that are not given")
    parts = {key: filled(function[key], given["types"], given["dicts"]) for key in ("locals", "body")}
    return {**function, **parts}


def nodes(tree):
    """Every object in a tree."""
    waiting = [tree]
    while waiting:
        node = waiting.pop()
        if isinstance(node, dict):
            yield node
            waiting.extend(node.values())
        elif isinstance(node, list):
            waiting.extend(node)


def flat(body):
    """The statements of a body, which stand in lists in lists."""
    for each in body:
        if isinstance(each, list):
            yield from flat(each)
        else:
            yield each


def called(name, function):
    """The functions that one names, and the methods that it calls."""
    for statement in flat(function["body"]):
        known, word = (STATEMENTS, *statement) if isinstance(statement, dict) else (WORDS, statement)
        if word not in known:
            raise Strange(f"{name} has a statement {word}")
    for node in nodes(function["body"]):
        if "Call" in node and list(node["Call"][0]) not in (["Fn"], ["Method"]):
            raise Strange(f"{name} calls {node['Call'][0]}")
        if "Fn" in node or "Method" in node:
            yield node


def layout_of(kind, declared):
    """The size and the alignment of a type."""
    if isinstance(kind, str) and kind in PLAIN:
        return PLAIN[kind]
    word, inside = next(iter(kind.items())) if isinstance(kind, dict) else (kind, None)
    if word in ("Int", "Float"):
        return inside // 8, inside // 8
    if word in ("Ref", "Ptr"):
        return PLAIN["Ptr"]
    if word == "Array" and "Lit" in inside[1]:
        return layout.of_array(layout_of(inside[0], declared), inside[1]["Lit"])
    if word == "Struct":
        return layout.laid_out([layout_of(field, declared) for field in inside[1]])
    if word == "Named" and inside[0]["name"] in declared:
        return layout_of(filled(declared[inside[0]["name"]], inside[1], []), declared)
    if word == "Fields":
        return layout.laid_out([layout_of(field, declared) for field in inside])
    if word == "Variants":
        return layout.of_enum([[layout_of(field, declared) for field in each] for each in inside])
    raise Strange(f"the MIR has a type {kind}")


def declared_in(functions):
    """Each type that functions declare, by its name. One that is called with a type may not declare it itself."""
    declared = {}
    for each in (each for function in functions for each in function["types"]):
        if declared.setdefault(each["name"], each["shape"]) != each["shape"]:
            raise Strange(f"the MIR has two types {each['name']}")
    return declared


def arrays_in(function):
    """The bytes of each array type in a function, also in the types that it names."""
    declared = function["declared"]
    inside = [function["locals"], function["body"], *shapes_in(function, declared)]
    return {layout_of(node, declared)[0] for node in nodes(inside) if "Array" in node}


def shapes_in(function, declared):
    """The types that a function's variables and body name, each as it is declared, and those that these name."""
    waiting = [node["Named"] for node in nodes([function["locals"], function["body"]]) if is_named(node)]
    seen = []
    while waiting:
        name, types = waiting.pop()
        if name["name"] not in declared:
            raise Strange(f"the MIR has no type {name['name']}")
        shape = filled(declared[name["name"]], types, [])
        if shape not in seen:
            seen.append(shape)
            waiting.extend(node["Named"] for node in nodes(shape) if is_named(node))
    return seen


def is_named(node):
    """Whether a node is a declared type, and not a lifetime."""
    return isinstance(node.get("Named"), list)


def variables_in(function):
    """The bytes of each variable of a function, its parameters and its result among them."""
    return [layout_of(local["ty"], function["declared"])[0] for local in function["locals"]]
