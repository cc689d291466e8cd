"""Reads sources of Rattle: their tokens, the items that each module declares, and what a name in a module means.

It knows as much of the language as that takes. What it cannot read is an Unreadable, and never passed over: a function
that is not found could use any amount of stack. So is an `impl` of a trait that stands behind an operator or a `for`,
which call a function without its name. An `impl` of a trait of ours, of From or of TryFrom is read: its functions are
called by a name, or by a `?`. What is derived is known: it goes field by field, and makes no array of its own.
"""
import dataclasses
import re

TOKEN = re.compile(
    r"""(?P<space>\s+|//[^\n]*|/\*.*?\*/)
      | (?P<raw>b?r\#*")
      | (?P<string>b?"(?:[^"\\]|\\.)*"|b'(?:[^'\\]|\\x..|\\.)')
      | (?P<number>\d\w*(?:\.\d\w*)?)
      | (?P<name>'?[^\W\d]\w*)
      | (?P<mark>::|->|=>|\.\.=|\.\.|[-+*/%&|^<>=!]=|&&|\|\||<<|>>|.)""",
    re.X | re.S,
)
PAIRS = {"(": ")", "[": "]", "{": "}"}
DECLARING = ("fn", "struct", "enum", "const", "type", "trait")
DERIVED = {"Clone", "Copy", "Debug", "Default", "Drop", "Eq", "PartialEq"}  # each goes field by field
CONVERTING = {"From", "TryFrom"}  # traits of std whose functions are called by a name, or by a `?`


class Unreadable(Exception):
    """Something in the sources that this reader does not understand, or that is not there."""


@dataclasses.dataclass(frozen=True)
class Item:
    """What a module declares: `path` is its whole name, `home` the path of its module, `tokens` all of its text.

    Of a function in an `impl`, `owner` is the text of the type, and `trait` the name of the trait, if there is one.
    """

    kind: str
    path: tuple
    home: tuple
    tokens: tuple
    is_exported: bool  # for C
    derived: frozenset = frozenset()  # the traits
    owner: tuple = ()
    trait: str = ""
    parameters: frozenset = frozenset()  # of types, its own and those of its `impl`

    @property
    def name(self):
        return "::".join(self.path)


def is_misread(found):
    """Whether a token may end at another place than here: a comment in a comment, a raw string, a string of lines."""
    text = found.group()
    if found.lastgroup == "space":
        return text.startswith("/*") and "/*" in text[2:]
    return found.lastgroup == "raw" or found.lastgroup == "string" and "\n" in text


def tokens_of(text):
    found = list(TOKEN.finditer(text))
    for token in filter(is_misread, found):
        raise Unreadable(f"a comment or a string: {token.group()[:40]}")
    return tuple(token.group() for token in found if token.lastgroup != "space")


def closing(tokens, at):
    """The place of the bracket that closes the one at a place."""
    depth = 0
    for place in range(at, len(tokens)):
        depth += (tokens[place] in PAIRS) - (tokens[place] in PAIRS.values())
        if depth == 0:
            return place
    raise Unreadable(f"a bracket is not closed: {' '.join(tokens[at:at + 8])}")


def split(tokens, mark):
    """The runs between the marks that stand in no bracket; none for no tokens."""
    runs, start, place = [], 0, 0
    while place < len(tokens):
        if tokens[place] in PAIRS:
            place = closing(tokens, place)
        elif tokens[place] == mark:
            runs.append(tokens[start:place])
            start = place + 1
        place += 1
    return runs + [tokens[start:]] if tokens[start:] else runs


def end_of_clause(tokens, at):
    """The place after a clause of a contract. A comment in it, of antt's, may have a bracket or a quote."""
    end = closing(tokens, tokens.index("{", at)) + 1
    if {("-", "-"), ("{", "-")} & set(zip(tokens[at:end], tokens[at + 1 : end])):
        raise Unreadable(f"a comment in a contract: {' '.join(tokens[at:at + 8])}")
    return end


def without_contract(tokens):
    """The tokens of an item without what it requires and ensures, and without a trait's ghosts: these are no code."""
    kept, place = [], 0
    while place < len(tokens):
        if tokens[place] in ("requires", "ensures"):
            place = end_of_clause(tokens, place)
        elif tokens[place] == "ghost" and tokens[0] == "trait":
            place = end_of_item(tokens, place, "const")
        else:
            kept.append(tokens[place])
            place += 1
    return tuple(kept)


def end_of_item(tokens, at, kind):
    """The place after an item that begins at a place: after its body, or its semicolon."""
    place = at
    while tokens[place] != ";":
        if tokens[place] in ("requires", "ensures"):
            place = end_of_clause(tokens, place)
        elif tokens[place] == "{" and kind != "const":
            return closing(tokens, place) + 1
        else:
            place = closing(tokens, place) + 1 if tokens[place] in PAIRS else place + 1
    return place + 1


def type_parameters(tokens):
    """The names of the parameters between the < at the front of tokens and its >, and the place after this one."""
    if tokens[:1] != ("<",):
        return frozenset(), 0
    depth, place = 0, 0
    while place == 0 or depth:
        depth += (tokens[place] == "<") - (tokens[place] == ">") - 2 * (tokens[place] == ">>")
        place += 1
    opened = [each for each in range(place) if tokens[each] in ("<", ",")]
    return frozenset(tokens[each + 1] for each in opened if tokens[each + 1][0].isupper()), place


def spelled(tokens):
    """The compiler's name of a type or a trait, as it stands in the name of an `impl`: `&[u8]` is RefSliceU8.

    A lifetime has no name there.
    """
    if tokens[:1] == ("&",):
        return "Ref" + spelled(tokens[1:])
    if tokens[:1] == ("[",) and closing(tokens, 0) == len(tokens) - 1 and len(split(tokens[1:-1], ";")) == 1:
        return "Slice" + spelled(tokens[1:-1])
    if "<" in tokens and tokens[-1] == ">":
        at = tokens.index("<")
        inside = [each for each in split(tokens[at + 1 : -1], ",") if not each[0].startswith("'")]
        return spelled(tokens[:at]) + "".join(map(spelled, inside))
    if len(tokens) == 1 and tokens[0][0].isalpha():
        return tokens[0][0].upper() + tokens[0][1:]
    raise Unreadable(f"an impl names {' '.join(tokens)}")


def imports_in(tokens):
    """(name, path) for each name that a `use` declares; its tree of names may be in braces."""
    for run in split(tokens, ","):
        if "{" in run:
            at = run.index("{")
            for name, path in imports_in(run[at + 1 : closing(run, at)]):
                yield name, tuple(part for part in run[:at] if part != "::") + path
        else:
            path = tuple(part for part in run if part != "::")
            if path[-1] == "*":
                raise Unreadable(f"all names of {'::'.join(path[:-1])} are imported")
            yield (path[-1], path[:-2]) if "as" in path else (path[-1], path)


class Sources:
    """The crates of a tree. `read` gives the text of a module, crate first, or None where there is none.

    Of a crate that is_whole every module is read. Of another one, which has much of the language that is not known
    here, only those that are named on the way.
    """

    def __init__(self, read, is_whole=lambda crate: True):
        self.read, self.is_whole = read, is_whole
        self.modules, self.methods, self.inline = {}, {}, {}

    def module(self, path):
        """The items, the imports and the inner modules of a module."""
        if path not in self.modules:
            text = None if path in self.inline else self.read(path)
            if text is None and path not in self.inline:
                raise Unreadable(f"there is no module {'::'.join(path)}")
            self.modules[path] = found = ({}, {}, set())
            try:
                self.declare(path, self.inline[path] if text is None else tokens_of(text), found)
            except (IndexError, ValueError) as error:
                raise Unreadable(f"{'::'.join(path)}: {error}") from error
            for inner in found[2] if self.is_whole(path[0]) else ():
                self.module((*path, inner))
        return self.modules[path]

    def declare(self, path, tokens, found):
        """Enters what tokens declare at their top."""
        items, imports, inner = found
        place, is_exported, derived = 0, False, frozenset()
        while place < len(tokens):
            if tokens[place] == "#":
                opening = place + 1 + (tokens[place + 1] == "!")
                end = closing(tokens, opening) + 1
                derived |= self.derived_by(path, tokens[opening + 1 : end - 1])
                is_exported, place = is_exported or "no_mangle" in tokens[place:end], end
            elif tokens[place] == "(":  # after `pub`
                place = closing(tokens, place) + 1
            elif tokens[place] in ("pub", "extern", '"C"') or tokens[place : place + 2] == ("const", "fn"):
                place += 1
            elif tokens[place] == "ghost":
                place = end_of_item(tokens, place, "const")
            elif tokens[place] == "use":
                end = tokens.index(";", place)
                imports.update(imports_in(tokens[place + 1 : end]))
                place = end + 1
            elif tokens[place] == "mod":
                name, end = tokens[place + 1], place + 3
                if tokens[place + 2] == "{":
                    end = closing(tokens, place + 2) + 1
                    self.inline[(*path, name)] = tokens[place + 3 : end - 1]
                inner.add(name)
                place = end
            elif tokens[place] == "impl":
                place = self.declare_methods(path, tokens, place)
            elif tokens[place] in DECLARING:
                kind, name, end = tokens[place], tokens[place + 1], end_of_item(tokens, place, tokens[place])
                # arrays.is_local goes by the capital
                if name in items or kind != "fn" and not name[0].isupper():
                    raise Unreadable(f"{'::'.join(path)}: {kind} {name}")
                text, inside = without_contract(tokens[place:end]), type_parameters(tokens[place + 2 : end])[0]
                items[name] = Item(kind, (*path, name), path, text, is_exported, derived, parameters=inside)
                place, is_exported, derived = end, False, frozenset()
            else:
                raise Unreadable(f"{'::'.join(path)}: {' '.join(tokens[place:place + 6])}")

    def declare_methods(self, path, tokens, at):
        """Enters the functions of an `impl`, each under its own name, and returns the place after it.

        The compiler's name of an `impl` of a trait is that of the type and the trait: ModeTryFromU8.
        """
        opening = tokens.index("{", at)
        end, found = closing(tokens, opening), ({}, {}, set())
        parameters, start = type_parameters(tokens[at + 1 : opening])
        head = tokens[at + 1 + start : opening]
        trait, owner = (head[: head.index("for")], head[head.index("for") + 1 :]) if "for" in head else ((), head)
        if trait and self.is_whole(path[0]):
            if trait[0] not in CONVERTING and not self.is_own_trait(path, trait):
                raise Unreadable(f"{'::'.join(path)}: impl {' '.join(head)}")
            name = spelled(owner) + spelled(trait)
        else:
            name = owner[0]
        self.declare((*path, name), tokens[opening + 1 : end], found)
        for function, item in found[0].items():
            inside = item.parameters | parameters
            item = dataclasses.replace(item, home=path, owner=owner, trait=(*trait, "")[0], parameters=inside)
            self.methods.setdefault(function, {})[item.path] = item
        return end + 1

    def is_own_trait(self, path, trait):
        """Whether a trait is one that a crate of those that are read whole declares."""
        found = self.resolve(path, trait[:1]) if len(trait) == 1 else None
        return isinstance(found, Item) and found.kind == "trait" and self.is_whole(found.path[0])

    def derived_by(self, path, attribute):
        """The traits that an attribute derives. In a crate that is read whole each has to be one that is known."""
        if attribute[:1] != ("derive",):
            return frozenset()
        found = frozenset(attribute[2:-1]) - {","}
        if self.is_whole(path[0]) and not found <= DERIVED:
            raise Unreadable(f"{'::'.join(path)}: {' '.join(attribute)}")
        return found

    def derived_names(self, crate):
        """The compiler's names of what is derived in a crate, without the function's own name."""
        inside = [items for path, (items, _, _) in self.modules.items() if path[0] == crate]
        return {f"{item.name}{trait}" for items in inside for item in items.values() for trait in item.derived}

    def exported(self, crate):
        """The functions that a crate exports for C."""
        self.module((crate,))
        inside = [items for path, (items, _, _) in self.modules.items() if path[0] == crate]
        return [item for items in inside for item in items.values() if item.is_exported]

    def resolve(self, home, path):
        """What a path means in a module: an item, a module's path, or None."""
        first, rest = path[0], path[1:]
        if first == "super":
            found = home[:-1]
        elif first in ("self", "crate"):
            found = home if first == "self" else home[:1]
        else:
            found = self.declared(home, first)
            if found is None and self.read((first,)) is not None:
                found = (first,)
        return self.follow(found, rest)

    def declared(self, home, name):
        """What a name that a module declares or imports means, or None."""
        items, imports, inner = self.module(home)
        if name in items:
            return items[name]
        if name in inner:
            return (*home, name)
        return self.resolve(home, imports[name]) if name in imports and imports[name] != (name,) else None

    def follow(self, found, rest):
        """What the rest of a path means after its beginning."""
        for place, name in enumerate(rest):
            if found is None:
                return None
            if isinstance(found, Item):
                return self.member(found, rest[place:])
            found = self.declared(found, name)
        return found

    def member(self, item, rest):
        """What stands after a type in a path: a function or constant of its own, or a variant, which is the type.

        So is `default`, where it is derived.
        """
        if len(rest) == 1:
            method = self.methods.get(rest[0], {}).get((*item.path, rest[0])) or self.of_type(item, rest[0])
            is_variant = item.kind == "enum" and rest[0][0].isupper() and rest[0] in item.tokens
            if method or is_variant or rest[0] == "default" and "Default" in item.derived:
                return method or item
        raise Unreadable(f"{item.name} has no {'::'.join(rest)}")

    def of_type(self, item, name):
        """The function of this name in an `impl` for a type, in whatever module it is; None where there is none."""
        found = [method for method in self.methods.get(name, {}).values() if self.owner_of(method) == item]
        if len(found) > 1:
            raise Unreadable(f"{item.name} has several {name}")
        return found[0] if found else None

    def owner_of(self, method):
        """The type whose function one is, where a crate declares it."""
        return self.declared(method.home, method.owner[0]) if len(method.owner) == 1 else None

    def compiled_name(self, item):
        """The compiler's name of a function: one of a type alone has the name of the type's module before it."""
        owner = self.owner_of(item) if item.owner and not item.trait else None
        return f"{owner.name}::{item.path[-1]}" if isinstance(owner, Item) else item.name

