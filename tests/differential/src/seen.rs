//! How often a run shows each kind of answer: one that no input leads to would go untested.

use crate::families::{Program, PROGRAMS};

/// The answers that decide about a frame: their word in a listing (PROTOCOL 10.4, 10.5) and their number (PROTOCOL 4).
const KINDS: [(&str, &str); 7] = [
    ("frame", "1"),
    ("short", "11"),
    ("long", "12"),
    ("stuff", "13"),
    ("cut", "14"),
    ("sum", "15"),
    ("stufflate", "19"),
];

/// The answers of a transfer and of the whole box, as their lines begin. On the wire no check code is too long.
const CALLS: [&str; 37] = [
    "begin 0",
    "begin 17",
    "begin 21",
    "begin 22",
    "begin 32",
    "begin 41",
    "begin 61",
    "begin 62",
    "begin 63",
    "store 0",
    "store 17",
    "store 22",
    "store 32",
    "store 62",
    "store 63",
    "store 64",
    "store 65",
    "store 66",
    "stop 0",
    "stop 17",
    "stop 22",
    "stop 32",
    "cancel 0",
    "cancel 17",
    "cancel 22",
    "cancel 41",
    "device 0",
    "device 17",
    "device 22",
    "device 32",
    "device 41",
    "device 61",
    "device 62",
    "device 63",
    "device 64",
    "device 65",
    "device 66",
];

#[derive(Default)]
pub struct Seen {
    kinds: [[u64; KINDS.len()]; PROGRAMS.len()],
    calls: Counts,
}

struct Counts([u64; CALLS.len()]);

impl Default for Counts {
    fn default() -> Counts {
        Counts([0; CALLS.len()])
    }
}

impl Seen {
    /// What one text of a program shows.
    pub fn in_text(program: Program, text: &[u8]) -> Seen {
        let mut seen = Seen::default();
        for line in text.split(|&byte| byte == b'\n') {
            if let Some(kind) = kind(program, line) {
                seen.kinds[program as usize][kind] += 1;
            } else if let Some(call) = call(program, line) {
                seen.calls.0[call] += 1;
            }
        }
        seen
    }

    pub fn add(&mut self, more: &Seen) {
        for (count, more) in self.kinds.iter_mut().flatten().zip(more.kinds.iter().flatten()) {
            *count += more;
        }
        for (count, more) in self.calls.0.iter_mut().zip(more.calls.0) {
            *count += more;
        }
    }

    /// Each kind with its count.
    pub fn by(&self, program: Program) -> impl Iterator<Item = (&'static str, u64)> {
        let calls = if program == Program::Driver { &CALLS[..] } else { &[] };
        let kinds = KINDS.map(|(word, _)| word).into_iter().zip(self.kinds[program as usize]);
        kinds.chain(calls.iter().copied().zip(self.calls.0))
    }
}

/// The place in KINDS of what this line shows; of `test_driver` only feeds count.
fn kind(program: Program, line: &[u8]) -> Option<usize> {
    let mut words = line.split(|&byte| byte == b' ');
    let first = words.next()?;
    match program {
        Program::List => KINDS.iter().position(|(word, _)| word.as_bytes() == first),
        Program::Replay => words.next().and_then(|kind| KINDS.iter().position(|(word, _)| word.as_bytes() == kind)),
        Program::Driver if first != b"feed" => None,
        Program::Driver => words.next().and_then(|kind| KINDS.iter().position(|(_, number)| number.as_bytes() == kind)),
    }
}

/// The place in CALLS of the first two words of this line.
fn call(program: Program, line: &[u8]) -> Option<usize> {
    if program != Program::Driver {
        return None;
    }
    let is_first = |call: &&str| line.strip_prefix(call.as_bytes()).is_some_and(|rest| matches!(rest, [] | [b' ', ..]));
    CALLS.iter().position(is_first)
}

#[cfg(test)]
mod tests {
    use super::*;

    fn counts(program: Program, text: &str) -> Vec<u64> {
        Seen::in_text(program, text.as_bytes()).by(program).map(|(_, count)| count).take(KINDS.len()).collect()
    }

    fn shown(seen: &Seen, program: Program) -> Vec<(&'static str, u64)> {
        seen.by(program).filter(|&(_, count)| count > 0).collect()
    }

    #[test]
    fn lines_by_kind() {
        let listing = "kind start end\nframe 0 9 7 1 0 0\nstuff 9 18 - - - -\nstufflate 18 28 - - - -\nclean 28\n";
        assert_eq!(counts(Program::List, listing), [1, 0, 0, 1, 0, 0, 1]);
        let replay = "dir kind start\n0 sum 0 9 - - - -\n1 stufflate 0 10 - - - -\n0 clean 9\n1 clean 10\n";
        assert_eq!(counts(Program::Replay, replay), [0, 0, 0, 0, 0, 1, 1]);
        let driver = "feed 19 10 0 10 0\nfeed 0 1\nfeed 14 6 10 16\nend 16 16 14\nwrite 1 15 : 13\nfeed 19 9 14 23 1\n";
        assert_eq!(counts(Program::Driver, driver), [0, 0, 0, 0, 1, 0, 2]);
    }

    #[test]
    fn lines_by_call() {
        let driver =
            "begin 0 22 26 9 : ff\nbegin 41\nstore 6 1\nstore 66 10 : ff\nstored 0\ndevice 0 : : : : 0\nstop\n";
        let seen = Seen::in_text(Program::Driver, driver.as_bytes());
        assert_eq!(shown(&seen, Program::Driver), [("begin 0", 1), ("begin 41", 1), ("store 66", 1), ("device 0", 1)]);
        assert_eq!(shown(&Seen::in_text(Program::List, driver.as_bytes()), Program::List), []);
    }

    #[test]
    fn counts_add_up() {
        let mut seen = Seen::in_text(Program::List, b"sum 0 9 - - - -\n");
        seen.add(&Seen::in_text(Program::List, b"sum 0 9 - - - -\ncut 9 12 - - - -\n"));
        seen.add(&Seen::in_text(Program::Driver, b"feed 15 9 0 9 14 13 : 00\ncancel 41 : : : 0\n"));
        seen.add(&Seen::in_text(Program::Driver, b"cancel 41 : : : 0\n"));
        assert_eq!(shown(&seen, Program::List), [("cut", 1), ("sum", 2)]);
        assert_eq!(shown(&seen, Program::Driver), [("sum", 1), ("cancel 41", 2)]);
    }
}
