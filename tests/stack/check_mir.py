"""mir.py on a made-up program: what it has to find, and what it must not pass over."""
import copy
import pathlib

import mir

BYTE, SLICE = {"Int": 8}, {"Struct": ["&[]", [{"Ref": ["Erased", "Imm", {"Int": 8}]}, {"Int": 64}]]}

PARAMETER = {"Param": 0}


def named(name, *inside):
    return {"Named": [{"name": name, "lifetimes": []}, list(inside)]}


def array(element, count):
    return {"Array": [element, {"Lit": count}]}


def called(callee):
    return {"Call": [callee, [], {"local": 0, "steps": []}]}


def call(name, *types, dicts=()):
    return called({"Fn": [name, {"types": list(types), "dicts": list(dicts)}]})


def call_by(bound, place=0):
    """A call of a method of a trait."""
    return called({"Method": [bound, place, {"types": [], "dicts": []}]})


def impl(name, *types):
    return {"Impl": [name, list(types), []]}


def function(variables, body, **types):
    """A function: its variables, its body, and the types that it names."""
    return {"generics": {"types": [], "bounds": [], "impls": [], "method_of": None}, "body": body,
            "types": [{"name": name, "shape": shape} for name, shape in types.items()],
            "locals": [{"ty": kind, "home": "ValueLocal"} for kind in variables]}


def generic(made, types=1, bounds=0, impls=(), method_of=None):
    """A function with parameters of types, bounds on them, and the impls that it names, each with its methods."""
    named_impls = [{"name": name, "methods": methods} for name, methods in impls]
    given = {"types": [{}] * types, "bounds": [{}] * bounds}
    return {**made, "generics": {**given, "impls": named_impls, "method_of": method_of}}


LIBRARIES = {
    "box": {
        "box::send": function([BYTE, SLICE], ["Seq", call("box::inner::put"), ["Loop", call("base::store")]]),
        "box::inner::put": function([array(BYTE, 6), named("Kept")], ["Return"], Kept={"Fields": [BYTE, {"Int": 32}]}),
        "box::apart": function([array(BYTE, 1026)], ["Return"]),
    },
    "base": {"base::store": function([named("Each")], [], Each={"Variants": [[], [{"Int": 64}, "Bool"]]})},
}
# What a variable of one of the functions is, the types that are named, and the bytes of it and of the arrays there.
FINDS = [
    ("an array", array(BYTE, 1026), {}, 1026, {1026}),
    ("arrays in an array", array(array({"Int": 16}, 3), 4), {}, 24, {6, 24}),
    ("a field of a struct", named("A"), {"A": {"Fields": [BYTE, array({"Int": 32}, 5)]}}, 24, {20}),
    ("a field of a variant", named("A"), {"A": {"Variants": [[], [array(BYTE, 99)]]}}, 100, {99}),
    ("a struct in a struct", named("A"), {"A": {"Fields": [named("B")]}, "B": {"Fields": [array(BYTE, 50)]}}, 50, {50}),
    ("an array of structs", array(named("A"), 3), {"A": {"Fields": [{"Int": 32}, "Bool"]}}, 24, {24}),
    ("an array behind a reference", {"Ref": ["Erased", "Mut", array(BYTE, 18)]}, {}, 8, {18}),
    ("an array in a type with parameters", named("A", {"Int": 32}), {"A": {"Fields": [array(PARAMETER, 5)]}}, 20, {20}),
    ("a type in a parameter's place", named("A", array(BYTE, 9)), {"A": {"Variants": [[], [PARAMETER]]}}, 10, {9}),
]
# A body that calls in another way, or a variable of another kind, and what is said of it.
STRANGE = [
    ("a function that is not there", [call("base::lost")], BYTE),
    ("a library that is not there", [call("best::store")], BYTE),
    ("a call by a bound that is not there", [call_by({"Given": 0})], BYTE),
    ("a call by an impl that is not there", [call_by(impl("base::LostWide"))], BYTE),
    ("a call of a value", [called({"Prim": "Load"})], BYTE),
    ("a function that is given types and has none", [call("base::plain", BYTE)], BYTE),
    ("a call of a function of C", [{"Foreign": ["write", []]}], BYTE),
    ("a word that is not known", ["Leap"], BYTE),
    ("a type that is a parameter", [], PARAMETER),
    ("an array as long as a parameter says", [], {"Array": [BYTE, {"Param": 0}]}),
    ("a type that is not there", [], named("Lost")),
    ("a type with parameters that is not there", [], named("Lost", BYTE)),
]
# Libraries with parameters of types: `store` calls `any` with two types, and that calls a method by its bound, whose
# impl has a parameter of its own. In `endless` a function calls itself with ever wider types.
WIDE = ["base::Wide", ["base::Wide::wide"]]
GENERIC = {
    "base::store": generic(function([], [call("base::any", {"Int": 32}, dicts=[impl("base::Wide", BYTE)]),
                                         call("base::any", {"Int": 64}, dicts=[impl("base::Wide", {"Int": 16})])]),
                           types=0, impls=[WIDE]),
    "base::any": generic(function([array(PARAMETER, 5)], [call_by({"Given": 0})]), bounds=1),
    "base::Wide::wide": generic(function([array(PARAMETER, 99)], []), method_of={"Impl": ["base::Wide", 0]}),
}
ENDLESS = {
    "base::store": function([], [call("base::again", BYTE)]),
    "base::again": generic(function([], [call("base::again", array(PARAMETER, 1))])),
}
OF_TRAIT = {
    "base::store": generic(function([], [call_by(impl("base::Wide", BYTE))]), types=0, impls=[WIDE]),
    "base::Wide::wide": generic(function([], []), method_of={"Trait": ["base::Wide", 0]}),
}


def reached_all(libraries):
    nowhere = pathlib.Path("/dev/null")
    found = mir.Libraries(nowhere, nowhere)
    found.read = libraries
    return found.reached(["box::send"])


def reached(libraries):
    return dict(reached_all(libraries))


def with_one(kind, types, body=()):
    """The made-up program with another variable and another body in the function that is called last."""
    libraries = copy.deepcopy(LIBRARIES)
    libraries["base"] |= {"base::store": function([kind], list(body), **types), "base::plain": function([], [])}
    return libraries


def with_library(functions):
    """The made-up program over another library."""
    return {**LIBRARIES, "base": functions}


def is_strange(libraries):
    try:
        for _, each in reached_all(libraries):
            mir.arrays_in(each), mir.variables_in(each)
    except mir.Strange:
        return True
    return False


def check(checks):
    program = reached(LIBRARIES)
    checks.test("what a function calls", set(program) == {"box::send", "box::inner::put", "base::store"}, str(program))
    checks.test("the variables of a function", mir.variables_in(program["box::inner::put"]) == [6, 8])
    checks.test("an enum has a tag", mir.variables_in(program["base::store"]) == [24])
    for what, kind, types, size, sizes in FINDS:
        found = reached(with_one(kind, types))["base::store"]
        both = mir.variables_in(found), mir.arrays_in(found)
        checks.test(f"{what} is found by the compiler", both == ([size], sizes), str(both))
    for what, body, kind in STRANGE:
        checks.test(f"{what} is strange", is_strange(with_one(kind, {}, body)))
    libraries = copy.deepcopy(LIBRARIES)
    libraries["base"]["base::store"]["generics"]["types"] = [{}]
    checks.test("a parameter of types that is not given is strange", is_strange(libraries))
    sizes = [(name, mir.variables_in(each)) for name, each in reached_all(with_library(GENERIC)) if each["locals"]]
    wanted = [("base::Wide::wide", [99]), ("base::Wide::wide", [198]), ("base::any", [20]), ("base::any", [40])]
    checks.test("a function for each type is followed with each", sorted(sizes)[:4] == wanted, str(sizes))
    checks.test("a function for ever wider types is strange", is_strange(with_library(ENDLESS)))
    checks.test("a method that a trait itself has is strange", is_strange(with_library(OF_TRAIT)))
    two = {"base::store": function([], [], Kept={"Fields": [BYTE]})}
    checks.test("two types of one name are strange", is_strange(with_library(two)))
