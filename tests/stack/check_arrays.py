"""arrays.py on made-up crates: what it has to find, what it has to leave, and what it must not pass over."""
from arrays import Reader, arrays_of, reached
from rattle import Sources, Unreadable

CRATES = {
    ("box",): """
        // A writer [u8; 99] that reaches both other modules.
        #![tactic(auto)]
        ghost use Rattle.some.specs.Thing.{far, [], ◌∷◌};
        mod inner;
        use base::store;
        #[unsafe(no_mangle)]
        pub extern "C" fn send(n: u8, bytes: &[u8]) -> u8
            requires { n ≡ 0 }
            ensures named { result ≡ get_or { [u8; 99] } }
        {
            let k = inner::put(n);
            store(k, bytes[1])
        }
        """,
    ("box", "inner"): """
        use super::super::nothing as unused;
        use base::Kept;
        const SIZE: usize = 2 * EIGHT;
        const EIGHT: usize = 0x8;
        pub(crate) fn put(n: u8) -> u8 {
            let a: [u8; SIZE] = [0u8; 16];
            let k = Kept { first: a[0], rest: n };
            k.least() + a[1]
        }
        fn apart() -> [u8; 1026] {
            [0; 1026]
        }
        """,
    ("base",): """
        mod kept;
        pub use kept::Kept;
        pub use kept::store;
        """,
    ("base", "kept"): """
        #[derive(Clone, Copy)]
        pub struct Kept {
            pub first: u8,
            pub rest: u8,
        }
        pub enum Apart {
            One([u8; 99]),
        }
        impl Kept {
            pub fn least(self) -> u8 {
                self.first
            }
        }
        pub fn store(a: u8, b: u8) -> u8 {
            let both = [a as u8, b];
            both[0]
        }
        """,
    ("kit",): """
        // A library that is read only where it is named.
        pub use inner::{Kind, wide};
        pub(crate) mod inner;
        mod never;
        pub mod flat {
            pub use crate::inner::Kind;
            pub fn all(n: u8) -> u8 {
                let b = [0u8; 31];
                b[0]
            }
        }
        pub mod strange {
            macro all
        }
        """,
    ("kit", "inner"): """
        pub struct Kind(pub(crate) u8);
        impl Eq for Kind {
            ghost laws = { first; second };
            fn eq(&self, other: &Kind) -> bool {
                true
            }
        }
        pub const fn wide(n: u8) -> u8
            ensures value { result ≡ n }
        {
            let b = [0u8; 30];
            b[0].wrapping_add(n)
        }
        """,
    ("kit", "never"): "macro all",
    ("far",): """
        pub struct Made {
            n: u8,
        }
        pub fn make(n: u8) -> Made {
            Made { n }
        }
        impl Made {
            pub fn least(self) -> u8 {
                let b = [0u8; 1026];
                b[0]
            }
        }
        """,
}
# What some of the edits below name.
NAMED = """
    const TABLE: [u32; 5] = [1, 2, 3, 4, 5];
    const EIGHTY: usize = 80;
    struct Wide {
        wide: u32,
        narrow: u8,
    }
    enum Each {
        Wide { wide: u64 },
        Empty,
    }
    #[derive(Clone, Copy, Debug, Default, PartialEq, Eq)]
    struct Fault(u8);
    #[derive(Default)]
    struct Late {
        late: [u8; 20],
    }
    impl From<Kept> for Fault {
        ghost from_gives = { λ kept fault. fault.0 ≡ kept.first };
        fn from(kept: Kept) -> Self {
            let b = [0u8; 21];
            Self(b[0])
        }
    }
    impl From<Kept> for u8 {
        fn from(kept: Kept) -> u8 {
            let b = [0u8; 22];
            b[0]
        }
    }
    impl TryFrom<u8> for Fault {
        type Error = u8;
        fn try_from(n: u8) -> Result<Self, u8> {
            let b = [0u8; 23];
            Err(b[0])
        }
    }
    fn tried(n: u8) -> Result<u8, Fault>
        ensures { result ≡ n }
    {
        let found = kept(n)?;
        Ok(found)
    }
    fn tried_within(n: u8) -> Result<u8, Fault> {
        Ok(n.map(|b| kept(b)?))
    }
    fn lost_of<P: Bytes>(n: P) -> P {
        P::least_of_all(n)
    }
    fn other<P>(n: Q) -> P {
        n
    }
    fn kept(n: u8) -> Result<(u8, u8), Kept> {
        n.get(0).ok_or(n)
    }
    trait Bytes: Copy {
        ghost bytes: { Self → List };
        fn bytes(self) -> Option<usize>
            ensures { result ≡ [] };
        fn two(self) -> Option<usize> {
            let b = [0u8; 25];
            Some(b[0])
        }
    }
    impl Bytes for &[u8] {
        fn bytes(self) -> Option<usize> {
            let b = [0u8; 24];
            b.get(n).copied()
        }
    }
    fn sized<P: Bytes>(payload: P) -> usize {
        payload.bytes().unwrap_or(0)
    }
    fn seven(n: u8) -> [u8; 17] {
        let [a, b, c, d, e, f, g] = wide(n);
        [a, b, c, d, e, f, g, n, n, n, n, n, n, n, n, n, n]
    }
    fn of<const N: usize>(n: [u8; N]) -> u8 {
        n[0]
    }
    struct Twice(u8);
    impl From<u8> for Twice {
        fn from(n: u8) -> Twice {
            Twice(n)
        }
    }
    impl From<u16> for Twice {
        fn from(n: u16) -> Twice {
            Twice(n)
        }
    }
    use base::Kept as Same;
    impl Same {
        fn elsewhere(self) -> u8 {
            let b = [0u8; 27];
            b[0]
        }
    }
    trait Own {
        fn own(self) -> u8;
    }
    impl Own for &[u8] {
        fn own(self) -> u8 {
            let b: [Self; 1] = self;
            b[0]
        }
    }
    fn wide(n: u8) -> usize {
        usize::from(u16::from_be_bytes([a, b, c, d, e, f, g, n, n, n]))
    }
    """
INNER, KEPT = ("box", "inner"), ("base", "kept")
# What is put where, and the bytes of the largest array that is then reached.
FINDS = [
    ("an array of 17 bytes", INNER, "let k =", "let b = [0u8; 17]; let k =", 17),
    ("one whose length is a constant", INNER, "2 * EIGHT", "2 * EIGHT + 1", 17),
    ("one whose elements are wide", INNER, "let k =", "let b: [u32; 5] = x; let k =", 20),
    ("arrays in an array", INNER, "let k =", "let b = [[0u8; 6]; 3]; let k =", 18),
    ("elements one by one", KEPT, "[a as u8, b]", "[" + ", ".join(["0u8"] * 17) + "]", 17),
    ("elements of a cast", KEPT, "[a as u8, b]", "[a as u16, b, " + ", ".join("abcdefg") + "]", 18),
    ("a byte string", KEPT, "let both", 'let t = b"0123456789abcde\\n\\x00"; let both', 17),
    ("a field of a struct", KEPT, "pub rest: u8", "pub rest: [u8; 1026]", 1026),
    ("a struct in a struct", KEPT, "pub rest: u8", "pub rest: Far } pub struct Far { all: [u8; 50]", 50),
    ("a tuple struct", KEPT, "pub rest: u8", "pub rest: Far } pub struct Far([u8; 50]); pub struct B { b: u8", 50),
    ("a variant of an enum", KEPT, "pub rest: u8", "pub rest: Apart", 99),
    ("a type of its own name", KEPT, "pub rest: u8", "pub rest: Far } type Far = [u8; 50]; pub struct B { b: u8", 50),
    ("an array of structs", INNER, "let k =", "let b: [Kept; 9] = x; let k =", 18),
    ("a parameter", KEPT, "a: u8, b: u8", "a: &[u8; 18], b: u8", 18),
    ("a result", KEPT, "b: u8) -> u8", "b: u8) -> [u8; 18]", 18),
    ("what a method does", KEPT, "self.first", "let b = [0u8; 19]; b[0]", 19),
    ("an array of structs that are padded", INNER, "let k =", "let b: [Wide; 3] = x; let k =", 24),
    ("an array of enums, with their tags", INNER, "let k =", "let b: [Each; 2] = x; let k =", 32),
    ("a length of two constants alike", INNER, "let k =", "let b = [0u8; EIGHT + EIGHTY]; let k =", 88),
    ("a length in another base", INNER, "let k =", "let b = [0u8; (0b10_0 + 0o2usize) * 3]; let k =", 18),
    ("a method of a crate that is read later", INNER, "let k =", "let b = far::make(n); n.least(); let k =", 1026),
    ("what a constant is", INNER, "let k =", "let b = TABLE[n]; let k =", 40),
    ("what is called inside a call", INNER, "let k =", "let k = apart(apart(n)); let k =", 8208),
    ("what a library of the kit does", INNER, "let k =", "let b = kit::wide(n); let k =", 30),
    ("what a module in a file does", INNER, "let k =", "let b = kit::flat::all(n); let k =", 31),
    ("an array of a type of the kit", INNER, "let k =", "let b: [kit::Kind; 20] = kit::Kind::eq(n); let k =", 20),
    ("elements of which nothing is known", KEPT, "[a as u8, b]", "[a, b]", 32),
    ("elements that are numbers", KEPT, "[a as u8, b]", "[1, a, b]", 24),
    ("an array of options", INNER, "let k =", "let b: [Option<u32>; 3] = x; let k =", 24),
    ("an array of results", INNER, "let k =", "let b: [Result<(), (u8, u16)>; 3] = x; let k =", 18),
    ("a value that is the result", INNER, "let k =", "let b = seven(n); let k =", 17),
    ("what a ? makes", INNER, "let k =", "let b = tried(n); let k =", 21),
    ("what a type is made from", INNER, "let k =", "let b = Fault::from(n); let k =", 21),
    ("what a number is made from", INNER, "let k =", "let b = u8::from(n); let k =", 22),
    ("what a type is tried from", INNER, "let k =", "let b = Fault::try_from(n); let k =", 23),
    ("what an into makes", INNER, "let k =", "let b = n.into(); let k =", 22),
    ("what a try_into makes", INNER, "let k =", "let b = n.try_into(); let k =", 23),
    ("what a trait of ours does", INNER, "let k =", "let b = n.bytes(); let k =", 24),
    ("what a parameter of types does", INNER, "let k =", "let b = sized(n); let k =", 25),
    ("what a type does in another module", INNER, "let k =", "let b = Kept::elsewhere(n); let k =", 27),
    ("a default that is derived", INNER, "let k =", "let b = Late::default(); let k =", 20),
    ("what a closure does", INNER, "let k =", "let b = n.map(|b| apart(b)); let k =", 8208),
    ("what a loop does", INNER, "let k =", "for b in n { let c = apart(b); } let k =", 8208),
    ("what a loop goes over", INNER, "let k =", "for b in [0u8; 18] { } let k =", 18),
    ("what a matches! looks at", INNER, "let k =", "let b = matches!(apart(n), 0..5); let k =", 8208),
    ("what is done where a let fails", INNER, "let k =", "let Some(b) = n.get(1) else { apart(n) }; let k =", 8208),
]
# What is no array, or one of a number's bytes: with it the largest array is the one that was there.
PASSED = [
    ("an equality that is derived", "let b = Fault(n) == Fault(1);"),
    ("a pattern", "let &[a, b, c, d, e, f, g] = bytes else { return n; };"),
    ("the bytes of a number", "let [a, b] = n.to_be_bytes();"),
    ("a number of bytes", "let b = wide(n);"),
    ("words of std", "let b = Some(n).copied().map_or(Ok(n), |b| Err(b.min(n)));"),
]
# What stands between two brackets of a function, and the bytes of the arrays that it is.
BRACKETS = [
    ("[]", [0]),
    ("[n]", [16]),
    ("[7]", [8]),
    ("[&bytes]", [16]),
    ("[[0u8; 9]]", [9, 9]),
    ("n as &[u8]", []),
    ("n as &'a [&mut [Wide]]", []),
    ("n as &[&[P]]", []),
    ("n[7]", []),
]
LOST = [
    ("a function", INNER, "let k =", "let b = far(n); let k ="),
    ("a method", INNER, "k.least()", "k.most()"),
    ("a type", INNER, "Kept {", "Lost {"),
    ("a length", INNER, "2 * EIGHT", "2 * SEVEN"),
    ("a variant", INNER, "let k =", "let b = Kept::None; let k ="),
    ("a module", ("base",), "mod kept;", "mod lost;"),
    ("a crate", INNER, "use base::Kept;", "use best::Kept;"),
    ("a name of all of a module's", INNER, "use base::Kept;", "use base::*;"),
    ("what stands in brackets", INNER, "let k =", "let b = (apart)(n); let k ="),
    ("an item without its capital", INNER, "const SIZE", "const size: usize = 9; const SIZE"),
    ("the end of a raw string", INNER, "let k =", 'let b = br"0123456789abcdefgh"; let k ='),
    ("the end of a comment", INNER, "let k =", '/* /* */ " */ let b = [0u8; 1026]; /* " */ let k ='),
    ("the second of two items of one name", INNER, "fn apart()", "type Put = u8; type Put = u8; fn apart()"),
    ("a module of the kit", INNER, "let k =", "let b = kit::strange::all(n); let k ="),
    ("a file of the kit", INNER, "let k =", "let b = kit::never::all(n); let k ="),
    ("a method of std", INNER, "let k =", "let b = n.to_vec(); let k ="),
    ("a type of std", INNER, "let k =", "let b: Vec<u8> = n; let k ="),
    ("a word of a number", INNER, "let k =", "let b = u8::from_str_radix(n); let k ="),
    ("a default", INNER, "let k =", "let b = Wide::default(); let k ="),
    ("a function of a trait, by the trait's name", INNER, "let k =", "let b = Bytes::two(n); let k ="),
    ("a function of a parameter of types", INNER, "let k =", "let b = lost_of(n); let k ="),
    ("a function that follows a type in brackets", INNER, "let k =", "let b = <u8 as Bytes>::apart(n); let k ="),
    ("a parameter of types", INNER, "let k =", "let b = other(n); let k ="),
    ("a length that is a parameter", INNER, "let k =", "let b = of(n); let k ="),
    ("a type that has two functions of a name", INNER, "let k =", "let b = Twice::from(n); let k ="),
    ("what Self is in an impl for a slice", INNER, "let k =", "let b = n.own(); let k ="),
]
# What calls a function without its name.
HIDDEN = [
    ("what a macro writes", INNER, "let k =", "let b = far!(n); let k ="),
    ("what a loop calls", KEPT, "impl Kept", "impl Iterator for Kept { fn next(self) -> u8 { 0 } } impl Kept"),
    ("what a ? calls where nothing is returned for it", INNER, "k.least()", "k.least()?"),
    ("what a ? calls in a closure", INNER, "let k =", "let b = tried_within(n); let k ="),
    ("what an operator calls", KEPT, "impl Kept", "impl Add for Kept { fn add(self) -> u8 { 0 } } impl Kept"),
    ("what an equality calls", KEPT, "impl Kept", "impl PartialEq for Kept { fn eq(self) -> u8 { 0 } } impl Kept"),
    ("what the end of a value calls", KEPT, "impl Kept", "impl Drop for Kept { fn drop(self) {} } impl Kept"),
    ("what a derive makes that is not known", KEPT, "derive(Clone, Copy)", "derive(Clone, Copy, Hash)"),
    ("what a parameter is called with", INNER, "let k =", "let b = n(1); let k ="),
]


def edited(module, old, new):
    """The made-up crates with one edit."""
    crates = dict(CRATES)
    crates[INNER] += NAMED
    assert crates[module].count(old) == 1
    crates[module] = crates[module].replace(old, new)
    return sources_of(crates)


def sources_of(crates):
    return Sources(crates.get, lambda crate: crate != "kit")


def largest(sources):
    (start,) = sources.exported("box")
    return max(size for _, _, size in arrays_of(sources, start))


def is_lost(sources):
    try:
        largest(sources)
    except Unreadable:
        return True
    return False


def check(checks):
    sources = sources_of(CRATES)
    (start,) = sources.exported("box")
    names = {item.name for item in reached(sources, start)}
    inner = {f"box::inner::{name}" for name in ("put", "SIZE", "EIGHT")}
    kept = {f"base::kept::{name}" for name in ("store", "Kept", "Kept::least")}
    checks.test("what a function reaches", names == {"box::send"} | inner | kept, str(names))
    checks.test("arrays of 16 bytes", largest(sources) == 16)
    for what, module, old, new, size in FINDS:
        found = largest(edited(module, old, new))
        checks.test(f"{what} is found", found == size, f"{found} bytes, not {size}")
    for what, text in PASSED:
        found = largest(edited(INNER, "let k =", f"{text} let k ="))
        checks.test(f"{what} is no array above a number's bytes", found == 16, f"{found} bytes")
    for text, wanted in BRACKETS:
        other = edited(INNER, "fn apart()", f"fn all<P>(bytes: P) -> u8 {{ let b = {text}; b }} fn apart()")
        found = [size for _, size in Reader(other, other.module(INNER)[0]["all"]).arrays()]
        checks.test(f"the arrays of {text}", found == wanted, str(found))
    for what, *edit in LOST:
        checks.test(f"{what} that is not there is not passed over", is_lost(edited(*edit)))
    for what, *edit in HIDDEN:
        checks.test(f"{what} is not passed over", is_lost(edited(*edit)))
