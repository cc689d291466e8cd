"""The arrays of a function and of all that it reaches, with the size of each in bytes.

Reached are the functions that it calls, and the types, traits and constants that it names, and what these reach. A
method is known by its name alone, so each method of that name is reached, of each `impl` that has it. A `?` reaches the
`from` of each `impl` that makes the function's error. An array is a type `[T; n]`, a value `[v; n]` or `[a, b, c]`, or
a byte string; a pattern makes none. Where the text does not say of what type the elements of a value are, they count 16
bytes, as a slice has.

What std has is known here by its name, in lists: each of these words makes no array, or one of a number's bytes. A word
of std that is in none of them is not found. mir.py looks at the same words, as the compiler has them.
"""
import re

import layout
from rattle import Item, Unreadable, closing, split

SIZES = {"bool": 1, "u8": 1, "i8": 1, "u16": 2, "i16": 2, "u32": 4, "i32": 4, "f32": 4}
SIZES |= dict.fromkeys(("u64", "i64", "f64", "usize", "isize"), 8)
WIDEST, SLICE = 8, (16, 8)  # the bytes of a number; a reference to a slice, and its alignment
NAME = re.compile(r"[^\W\d]\w*$")
NUMBER = re.compile(r"(0x[\da-fA-F_]+|0b[01_]+|0o[0-7_]+|\d[\d_]*?)_?([uif](?:8|16|32|64|size))?$")
OPERATORS = {"+", "-", "*", "/", "%", "(", ")", "<<", ">>"}
KEYWORDS = {"as", "break", "const", "continue", "else", "enum", "extern", "false", "fn", "for", "if", "impl", "in"}
KEYWORDS |= {"let", "loop", "match", "mut", "pub", "return", "struct", "trait", "true", "type", "where", "while", "_"}
# Of std: names of types, of their variants and of traits; methods; a macro, whose text is read as any other text is;
# and what stands in paths such as u64::MAX, where `from` and `try_from` may be ours too.
NAMES = {"Option", "None", "Some", "Result", "Err", "Ok", "Clone", "Copy", "From", "TryFrom"}
BUILT_IN = {"and_then", "checked_add", "checked_sub", "contains", "copied", "copy_from_slice", "div_ceil", "err", "get"}
BUILT_IN |= {"is_empty", "is_none", "is_ok", "is_err", "is_some", "len", "map", "map_err", "map_or", "max", "min", "ok"}
BUILT_IN |= {"ok_or", "saturating_add", "saturating_sub", "split_at", "to_be_bytes", "unwrap_or", "wrapping_add"}
BUILT_IN |= {"is_none_or", "wrapping_sub"}
INTO = {"into": "from", "try_into": "try_from"}  # methods of std that call one of ours
OPENING = {"(", "[", "{", ",", ";", "=", "=>", "&", "mut", "return", "move"}  # what a closure may follow
MACROS = {"matches"}
CONVERTING = {"from": "From", "try_from": "TryFrom"}
OF_NUMBERS = {"count_ones", "leading_zeros", "trailing_zeros", "MAX", "MIN", "BITS", "from_be_bytes", *CONVERTING}


def path_at(tokens, place):
    """The path that begins at a place, and the place of its last name."""
    path = [tokens[place]]
    while tokens[place + 1 : place + 2] == ("::",):
        path.append(tokens[place + 2])
        place += 2
    return tuple(path), place


def paths_in(tokens):
    """(path, what follows it, what precedes it) for each name or path in tokens."""
    place = 0
    while place < len(tokens):
        if NAME.match(tokens[place]) and tokens[place] not in KEYWORDS:
            before = tokens[place - 1] if place else ""
            path, place = path_at(tokens, place)
            yield path, tokens[place + 1] if place + 1 < len(tokens) else "", before
        place += 1


def is_local(path, after, before):
    """Whether a name is one of the function's own: a variable, a parameter, a field. A type begins with a capital."""
    return len(path) == 1 and (before == "." or after != "(" and not path[0][0].isupper())


def own_path(item, path):
    """A path in an item: `Self` is the type whose function the item is."""
    if path[0] != "Self":
        return path
    if len(item.owner) != 1:
        raise Unreadable(f"{item.name}: Self is {' '.join(item.owner) or 'no type'}")
    return (item.owner[0], *path[1:])


def result_of(item):
    """The text of the type that a function returns."""
    opening = item.tokens.index("(", item.tokens.index("fn") + 2)
    end = closing(item.tokens, opening) + 1
    if item.tokens[end] != "->":
        return ()
    place = end + 1
    while item.tokens[place] not in ("{", "where", ";"):
        place = closing(item.tokens, place) + 1 if item.tokens[place] in ("(", "[") else place + 1
    return item.tokens[end + 1 : place]


def arguments(tokens):
    """The types between the < and the > of a type, such as `Result<(), Denial>`."""
    depth, start, found = 0, tokens.index("<") + 1, []
    for place in range(start, len(tokens) - 1):
        depth += (tokens[place] in PAIRED) - (tokens[place] in PAIRED.values())
        if tokens[place] == "," and depth == 0:
            found.append(tokens[start:place])
            start = place + 1
    return [*found, tokens[start:-1]]


PAIRED = {"(": ")", "[": "]", "<": ">"}


def conversions(sources, item):
    """What a `?` in a function calls: each `from` of ours that makes the function's error; of an Option nothing."""
    result = result_of(item)
    if result[:2] == ("Option", "<"):
        return
    if result[:2] != ("Result", "<") or result[-1] != ">" or has_closure(item.tokens):
        raise Unreadable(f"{item.name}: what a ? makes is not known")
    error = arguments(result)[-1]
    yield from made_by(sources, "from", error, sources.resolve(item.home, own_path(item, path_at(error, 0)[0])))


def has_closure(tokens):
    """Whether there is a closure, in which a ? would make another error than the function's."""
    return any(mark in ("|", "||") and before in OPENING for before, mark in zip(tokens, tokens[1:]))


def made_by(sources, name, text, found=None):
    """Each `from` or `try_from` in an `impl` of ours that makes a type, by its text, or by what this means."""
    for method in sources.methods.get(name, {}).values():
        if method.trait == CONVERTING[name]:
            owner = sources.resolve(method.home, method.owner[:1]) if len(method.owner) == 1 else None
            if method.owner == text or found is not None and owner == found:
                yield method


def named_in(sources, item):
    """The items that an item names."""
    if item.kind == "fn" and (")", "(") in zip(item.tokens, item.tokens[1:]):
        raise Unreadable(f"{item.name}: what is called stands in brackets")
    if item.kind == "fn" and "?" in item.tokens:
        yield from conversions(sources, item)
    for path, after, before in paths_in(item.tokens[2:]):
        if after == "!" and path[-1] not in MACROS:
            raise Unreadable(f"{item.name}: a macro, {path[-1]}")
        if before == "::":
            raise Unreadable(f"{item.name}: {path[0]} of a type that is in no path")
        if before == "." and after == "(":
            yield from methods_named(sources, item, path[0])
        is_declared = item.kind == "trait" and before == "fn"
        if after == "!" or is_declared or is_local(path, after, before) or path[0] in SIZES and len(path) == 1:
            continue
        if path[0] in SIZES and path[1] in OF_NUMBERS:
            yield from made_by(sources, path[1], path[:1]) if path[1] in CONVERTING else ()
        elif path[0] in item.parameters or item.kind == "trait" and path[0] == "Self":
            yield from methods_named(sources, item, path[-1]) if len(path) > 1 else ()
        else:
            yield from item_named(sources, item, path)


def methods_named(sources, item, name):
    """Every method of a name. One of std alone has to be known."""
    methods = sources.methods.get(INTO.get(name, name), {}).values()
    if not methods and name not in BUILT_IN:
        raise Unreadable(f"{item.name}: there is no method {name}")
    return methods


def item_named(sources, item, path):
    """The item that a path names; none for a variant where it is declared, and for a name of std that is known."""
    found = sources.resolve(item.home, own_path(item, path))
    if isinstance(found, Item):
        yield found
    elif not (item.kind == "enum" and len(path) == 1 or len(path) == 1 and path[0] in NAMES and found is None):
        raise Unreadable(f"{item.name}: {'::'.join(path)} is not found")


def reached(sources, start):
    """All items that an item reaches, itself first.

    A method may be one of a crate that is only read on the way, so this goes on until no module is new: what is not
    found then is nowhere.
    """
    known = -1
    while known != len(sources.modules):
        known, found, waiting, lost = len(sources.modules), {}, [start], []
        while waiting:
            item = waiting.pop()
            if item.path not in found:
                found[item.path] = item
                try:
                    waiting += named_in(sources, item)
                except Unreadable as error:
                    lost.append(error)
    if lost:
        raise lost[0]
    return list(found.values())


class Reader:
    """The arrays of one item."""

    def __init__(self, sources, item):
        self.sources, self.item = sources, item

    def fail(self, why):
        raise Unreadable(f"{self.item.name}: {why}")

    def number(self, tokens):
        """The value of a constant expression: numbers, constants, operators and casts."""
        words, place = [], 0
        while place < len(tokens):
            token = tokens[place]
            if token == "as":
                place += 1
            elif NUMBER.match(token):
                digits = NUMBER.match(token).group(1).replace("_", "")
                words.append(str(int(digits, 0 if digits[1:2].isalpha() else 10)))
            elif token in OPERATORS:
                words.append("//" if token == "/" else token)
            else:
                path, place = path_at(tokens, place)
                words.append(str(self.constant(path)))
            place += 1
        if "-" in words and {"//", "%"} & set(words):  # below 0 Python rounds another way
            self.fail(f"the length {' '.join(tokens)} is not known")
        try:
            return int(eval(" ".join(words), {"__builtins__": {}}))  # numbers and operators only
        except (SyntaxError, ArithmeticError):
            return self.fail(f"the length {' '.join(tokens)} is not known")

    def constant(self, path):
        """The value of a constant."""
        found = self.sources.resolve(self.item.home, own_path(self.item, path)) if NAME.match(path[0]) else None
        if not isinstance(found, Item) or found.kind != "const":
            self.fail(f"{'::'.join(path)} is not a constant")
        return Reader(self.sources, found).number(found.tokens[found.tokens.index("=") + 1 : -1])

    def layout_of_type(self, tokens):
        """The size and the alignment of a type, or None where the tokens are not one."""
        if tokens[:1] == ("&",):
            return SLICE
        if tokens[:1] == ("(",) and closing(tokens, 0) == len(tokens) - 1:
            inside = [self.layout_of_type(run) for run in split(tokens[1:-1], ",")]
            return None if None in inside else layout.laid_out(inside)
        if tokens[:2] in (("Option", "<"), ("Result", "<")) and tokens[-1] == ">":
            inside = [self.layout_of_type(run) for run in arguments(tokens)]
            return None if None in inside else layout.of_enum([[each] for each in inside])
        if tokens[:1] == ("[",) and closing(tokens, 0) == len(tokens) - 1:
            runs = split(tokens[1:-1], ";")
            element = self.layout_of_type(runs[0]) if len(runs) == 2 else None
            return element and layout.of_array(element, self.number(runs[1]))
        if len(tokens) == 1 and tokens[0] in SIZES:
            return SIZES[tokens[0]], SIZES[tokens[0]]
        found = self.type_named(tokens)
        return found and Reader(self.sources, found).layout_of_declared()

    def type_named(self, tokens):
        """The declared type that tokens name, or None."""
        if not tokens or not NAME.match(tokens[0]):
            return None
        path, end = path_at(tokens, 0)
        path = own_path(self.item, path)
        found = self.sources.resolve(self.item.home, path) if end == len(tokens) - 1 else None
        return found if isinstance(found, Item) and found.kind in ("struct", "enum", "type") else None

    def layout_of_declared(self):
        """The size and the alignment of a type that the sources declare."""
        if self.item.kind == "type":
            return self.layout_of_type(self.item.tokens[3:-1]) or self.fail("it is not a type")
        opening = next((place for place, token in enumerate(self.item.tokens) if token in ("{", "(")), None)
        if opening is None:
            return layout.laid_out([])
        inside = self.item.tokens[opening + 1 : closing(self.item.tokens, opening)]
        if self.item.kind == "struct":
            return layout.laid_out(self.layouts_of_fields(inside))
        return layout.of_enum([self.layouts_of_fields(run[2:-1]) for run in split(inside, ",")])

    def layouts_of_fields(self, tokens):
        """Of each field of a struct or a variant, with or without a name."""
        found = []
        for run in split(tokens, ","):
            run = run[1:] if run[0] == "pub" else run
            run = run[closing(run, 0) + 1 :] if run[0] == "(" else run
            run = run[2:] if run[1:2] == (":",) else run
            found.append(self.layout_of_type(run) or self.fail(f"{' '.join(run)} is not a type"))
        return found

    def is_type(self, tokens):
        """Whether tokens are a type, as between the brackets of the type `[T]` of a slice."""
        tokens = tokens[next((place for place, token in enumerate(tokens) if token not in ("&", "mut")), 0) :]
        tokens = tokens[tokens[:1] != () and tokens[0].startswith("'") :]
        if tokens[:1] == ("[",) and closing(tokens, 0) == len(tokens) - 1 and len(split(tokens[1:-1], ",")) == 1:
            return self.is_type(tokens[1:-1]) or self.layout_of_type(tokens) is not None
        return set(tokens) <= self.item.parameters or self.layout_of_type(tokens) is not None

    def size_of_value(self, tokens):
        """The bytes of a value where its text says them, by a cast, a suffix, a byte or an array; else None."""
        if len(tokens) > 2 and tokens[-2] == "as" and tokens[-1] in SIZES:
            return SIZES[tokens[-1]]
        if len(tokens) == 1:
            number = NUMBER.match(tokens[0])
            if tokens[0].startswith("b'") or tokens[0] in ("true", "false"):
                return 1
            return number and SIZES.get(number.group(2))
        if tokens[:1] == ("[",) and closing(tokens, 0) == len(tokens) - 1:
            return self.size_of_array(tokens[1:-1])
        return None

    def size_of_array(self, tokens):
        """The bytes of what stands between two brackets."""
        runs = split(tokens, ";")
        if len(runs) == 2:
            element = self.layout_of_type(runs[0])
            return (element[0] if element else self.size_of_element(runs[:1])) * self.number(runs[1])
        values = split(tokens, ",")
        return len(values) * self.size_of_element(values)

    def size_of_element(self, values):
        """The bytes of each of some values of one type: of those that say it, or at most those of a number, or more."""
        known = [size for size in map(self.size_of_value, values) if size is not None]
        are_numbers = any(len(value) == 1 and NUMBER.match(value[0]) for value in values)
        return max(known) if known else WIDEST if are_numbers else SLICE[0]

    def arrays(self):
        """(text, bytes) of each array in the item."""
        tokens = self.item.tokens
        for place, token in enumerate(tokens):
            if token.startswith('b"'):
                yield token, len(re.sub(r"\\(x..|.)", "?", token)) - 3
            elif token == "[" and not follows_value(tokens, place) and not is_pattern(tokens, place):
                inside = tokens[place + 1 : closing(tokens, place)]
                if len(split(inside, ",")) != 1 or len(split(inside, ";")) == 2 or not self.is_type(inside):
                    yield "[" + " ".join(inside[:12]) + "]", self.size_of_array_at(place, inside)

    def size_of_array_at(self, place, inside):
        """The bytes of an array at a place, which may say of what type it is: the result, or the bytes of a number."""
        count, tokens = len(split(inside, ",")), self.item.tokens
        if tokens[max(place - 2, 0) : place] == ("from_be_bytes", "("):
            return count
        result = result_of(self.item) if self.item.kind == "fn" else ()
        is_last = closing(tokens, place) == len(tokens) - 2
        if is_last and len(split(inside, ";")) == 1 and result[:1] == ("[",):
            return self.layout_of_type(result)[0]
        return self.size_of_array(inside)


def is_pattern(tokens, place):
    """Whether a bracket is a pattern of a `let`, which names elements of an array and makes none."""
    return tokens[max(place - 1, 0) : place] == ("let",) or tokens[max(place - 2, 0) : place] == ("let", "&")


def follows_value(tokens, place):
    """Whether a bracket is an index, or an attribute's."""
    before = tokens[place - 1] if place else ""
    if before == ")" and "pub" in tokens[max(place - 4, 0) : place]:
        return False
    return before in (")", "]", "#") or bool(re.match(r"\w", before)) and before not in KEYWORDS


def arrays_of(sources, item):
    """(item, text, bytes) of each array of an item and of all that it reaches."""
    return [(found, *array) for found in reached(sources, item) for array in Reader(sources, found).arrays()]
