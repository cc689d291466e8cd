//! The streaming reader (PROTOCOL 3 and 4): raw bytes in, at most one decision for each call, places counted over the
//! whole stream.

/// The greatest length field of a frame.
pub const LIMIT: usize = 1_024;
/// A body: the length field itself (2 bytes) and what it counts.
pub const BODY_SIZE: usize = LIMIT + 2;
/// The least length: command, sequence number, flags and checksum.
const LEAST_LENGTH: usize = 5;
/// The body bytes before the payload: length, command, sequence number and flags.
const FIELDS_SIZE: usize = 6;
/// The most bytes that one reader consumes.
const MAX_TAKEN: u64 = 1 << 62;

/// What the reader remembers of the last raw byte, and whether a frame is open.
#[derive(Clone, Copy, PartialEq, Eq)]
enum Phase {
    /// No frame open, the last byte is not FF.
    Idle,
    /// No frame open, the last byte is FF.
    Half,
    /// The last two bytes are a header, no body byte yet.
    Header,
    /// A frame is open, the last byte is not FF.
    Open,
    /// A frame is open, an FF of its body waits for its stuffing byte.
    Escape,
}

/// What is decided about a frame, with the values of its answer after count, start and end (PROTOCOL 4.19, 4.20).
#[derive(Clone, Copy, PartialEq, Eq, Debug)]
pub enum Verdict {
    Frame,
    Short,
    Long,
    /// The stuffing breaks before the payload. The byte is the one that breaks it.
    Stuff {
        byte: u8,
    },
    /// The stuffing breaks in the payload or at the checksum.
    StuffLate {
        byte: u8,
    },
    Cut,
    Sum {
        found: u8,
        computed: u8,
    },
}

impl Verdict {
    /// The number in the table of answers.
    pub fn number(self) -> u64 {
        match self {
            Verdict::Frame => 1,
            Verdict::Short => 11,
            Verdict::Long => 12,
            Verdict::Stuff { .. } => 13,
            Verdict::Cut => 14,
            Verdict::Sum { .. } => 15,
            Verdict::StuffLate { .. } => 19,
        }
    }

    /// What the answer returns after count, start and end.
    pub fn values(self) -> Vec<u64> {
        match self {
            Verdict::Frame | Verdict::Short | Verdict::Long | Verdict::Cut => vec![],
            Verdict::Stuff { byte } | Verdict::StuffLate { byte } => vec![byte.into()],
            Verdict::Sum { found, computed } => vec![found.into(), computed.into()],
        }
    }
}

#[derive(Clone, Copy, PartialEq, Eq, Debug)]
pub enum Answer {
    More { count: usize },
    Decided { verdict: Verdict, count: usize, start: u64, end: u64 },
    State,
    Used,
}

#[derive(Clone, Copy, PartialEq, Eq, Debug)]
pub enum Ending {
    Clean { consumed: u64 },
    Open { consumed: u64, start: u64 },
    State,
}

pub struct Reader {
    phase: Phase,
    consumed: u64,
    start: u64,
    filled: usize,
    length: usize,
    sum: u8,
    body: [u8; BODY_SIZE],
}

impl Reader {
    pub fn new() -> Reader {
        Reader::having_consumed(0)
    }

    /// Fresh but for the count of bytes consumed; out of range above 2^62.
    pub fn having_consumed(consumed: u64) -> Reader {
        Reader { phase: Phase::Idle, consumed, start: 0, filled: 0, length: 0, sum: 0, body: [0; BODY_SIZE] }
    }

    /// Feed: consumes the bytes up to the one that decides something.
    pub fn feed(&mut self, bytes: &[u8]) -> Answer {
        if self.consumed > MAX_TAKEN {
            return Answer::State;
        }
        if self.consumed + bytes.len() as u64 > MAX_TAKEN {
            return Answer::Used;
        }
        let mut count = 0;
        loop {
            count += self.take_run(&bytes[count..]);
            let Some(&byte) = bytes.get(count) else { return Answer::More { count } };
            count += 1;
            if let Some((verdict, start)) = self.take_byte(byte) {
                return Answer::Decided { verdict, count, start, end: self.consumed };
            }
        }
    }

    /// Finish: changes nothing.
    pub fn finish(&self) -> Ending {
        match self.phase {
            _ if self.consumed > MAX_TAKEN => Ending::State,
            Phase::Idle | Phase::Half => Ending::Clean { consumed: self.consumed },
            _ => Ending::Open { consumed: self.consumed, start: self.start },
        }
    }

    /// The body of the frame just completed.
    pub fn body(&self) -> &[u8] {
        &self.body[..self.length + 2]
    }

    /// Consumes the bytes at the front that cannot decide anything, in one go, because most bytes are such.
    fn take_run(&mut self, bytes: &[u8]) -> usize {
        let run = match self.phase {
            Phase::Idle => bytes.iter().take_while(|&&byte| byte != 0xFF).count(),
            Phase::Open if self.filled >= 2 => self.store_run(bytes),
            _ => 0,
        };
        self.consumed += run as u64;
        run
    }

    /// Stores body bytes, each stuffed FF with its 55, but never the checksum: that one decides.
    fn store_run(&mut self, bytes: &[u8]) -> usize {
        let free = &mut self.body[self.filled..self.length + 1];
        let (mut raw, mut stored, mut sum) = (0, 0, self.sum);
        while stored < free.len() && raw < bytes.len() {
            let byte = bytes[raw];
            if byte == 0xFF {
                if bytes.get(raw + 1) != Some(&0x55) {
                    break;
                }
                raw += 1;
            }
            raw += 1;
            free[stored] = byte;
            stored += 1;
            sum = sum.wrapping_add(byte);
        }
        self.filled += stored;
        self.sum = sum;
        raw
    }

    /// Consumes one raw byte; a decision comes with the start of the frame that it is about.
    fn take_byte(&mut self, byte: u8) -> Option<(Verdict, u64)> {
        let place = self.consumed;
        self.consumed += 1;
        match (self.phase, byte) {
            (Phase::Idle | Phase::Half, _) if byte != 0xFF => self.phase = Phase::Idle,
            (Phase::Idle, _) => self.phase = Phase::Half,
            (Phase::Half, _) => self.open(place - 1),
            // One more FF after a header: the header is now the last two.
            (Phase::Header, 0xFF) => self.start += 1,
            (Phase::Open, 0xFF) => self.phase = Phase::Escape,
            (Phase::Escape, 0xFF) => {
                let cut = self.start;
                self.open(place - 1);
                return Some((Verdict::Cut, cut));
            }
            (Phase::Escape, 0x55) => return self.body_byte(0xFF),
            (Phase::Escape, _) => return Some(self.close(self.broken_by(byte))),
            (Phase::Header | Phase::Open, _) => return self.body_byte(byte),
        }
        None
    }

    fn open(&mut self, start: u64) {
        self.phase = Phase::Header;
        self.start = start;
        self.filled = 0;
        self.sum = 0;
    }

    /// PROTOCOL 4.6: the FF that waits is not stored, so it is not among the body bytes that count.
    fn broken_by(&self, byte: u8) -> Verdict {
        if self.filled < FIELDS_SIZE {
            Verdict::Stuff { byte }
        } else {
            Verdict::StuffLate { byte }
        }
    }

    /// The deciding byte is never FF here, so no half header is left.
    fn close(&mut self, verdict: Verdict) -> (Verdict, u64) {
        self.phase = Phase::Idle;
        (verdict, self.start)
    }

    /// Stores one body byte, stuffing removed.
    fn body_byte(&mut self, byte: u8) -> Option<(Verdict, u64)> {
        self.phase = Phase::Open;
        self.body[self.filled] = byte;
        self.filled += 1;
        if self.filled == 2 {
            self.length = usize::from(u16::from_be_bytes([self.body[0], byte]));
            if self.length < LEAST_LENGTH {
                return Some(self.close(Verdict::Short));
            }
            if self.length > LIMIT {
                return Some(self.close(Verdict::Long));
            }
        } else if self.filled > 2 && self.filled == self.length + 2 {
            // The sum so far is of all bytes before this one.
            let computed = self.sum;
            let verdict = if byte == computed { Verdict::Frame } else { Verdict::Sum { found: byte, computed } };
            return Some(self.close(verdict));
        }
        self.sum = self.sum.wrapping_add(byte);
        None
    }
}

#[cfg(test)]
mod tests {
    use super::*;

    fn first_answer(bytes: &[u8]) -> Answer {
        Reader::new().feed(bytes)
    }

    fn decided(verdict: Verdict, count: usize, start: u64, end: u64) -> Answer {
        Answer::Decided { verdict, count, start, end }
    }

    const HEARTBEAT: [u8; 9] = [0xFF, 0xFF, 0, 5, 7, 1, 0, 0, 0x0D];

    #[test]
    fn frames() {
        assert_eq!(first_answer(&HEARTBEAT), decided(Verdict::Frame, 9, 0, 9));
        let number_ff = [0xFF, 0xFF, 0, 5, 7, 0xFF, 0x55, 0, 0, 0x0B];
        assert_eq!(first_answer(&number_ff), decided(Verdict::Frame, 10, 0, 10));
        let sum_ff = [0xFF, 0xFF, 0, 5, 7, 0xF3, 0, 0, 0xFF, 0x55];
        assert_eq!(first_answer(&sum_ff), decided(Verdict::Frame, 10, 0, 10));
        assert_eq!(first_answer(&sum_ff[..9]), Answer::More { count: 9 });
        let report = [0xFF, 0xFF, 0, 14, 5, 2, 0, 0, 4, 5, 0, 3, 0, 0, 0, 0xFF, 0x55, 0, 0x20];
        assert_eq!(first_answer(&report), decided(Verdict::Frame, 19, 0, 19));
        let behind_ff = [&[0xFF][..], &HEARTBEAT].concat();
        assert_eq!(first_answer(&behind_ff), decided(Verdict::Frame, 10, 1, 10));
    }

    #[test]
    fn refusals() {
        assert_eq!(first_answer(&[0xFF, 0xFF, 0, 4]), decided(Verdict::Short, 4, 0, 4));
        assert_eq!(first_answer(&[0xFF, 0xFF, 0, 5]), Answer::More { count: 4 });
        assert_eq!(first_answer(&[0xFF, 0xFF, 4, 1]), decided(Verdict::Long, 4, 0, 4));
        assert_eq!(first_answer(&[0xFF, 0xFF, 4, 0]), Answer::More { count: 4 });
        assert_eq!(first_answer(&[0xFF, 0xFF, 0xFF, 0x55, 0]), decided(Verdict::Long, 5, 1, 5));
    }

    /// The examples of PROTOCOL 11.4.
    #[test]
    fn broken_stuffing() {
        let in_flags = [0xFF, 0xFF, 0, 5, 7, 1, 0, 0xFF, 0];
        assert_eq!(first_answer(&in_flags), decided(Verdict::Stuff { byte: 0 }, 9, 0, 9));
        let at_sum = [0xFF, 0xFF, 0, 5, 7, 1, 0, 0, 0xFF, 0];
        assert_eq!(first_answer(&at_sum), decided(Verdict::StuffLate { byte: 0 }, 10, 0, 10));
        let after_stuffed = [0xFF, 0xFF, 0, 5, 7, 0xFF, 0x55, 0, 0xFF, 1];
        assert_eq!(first_answer(&after_stuffed), decided(Verdict::Stuff { byte: 1 }, 10, 0, 10));
        let in_number = [0xFF, 0xFF, 0, 5, 7, 0xFF, 0];
        assert_eq!(first_answer(&in_number), decided(Verdict::Stuff { byte: 0 }, 7, 0, 7));
    }

    /// A break after one to eight body bytes, in one call and byte by byte, with and without stuffing before it.
    #[test]
    fn breaks_after_each_count() {
        let bodies: [[&[u8]; 8]; 2] = [
            [&[0], &[7], &[1], &[2], &[3], &[4], &[5], &[6]],
            [&[0], &[7], &[0xFF, 0x55], &[0xFF, 0x55], &[0xFF, 0x55], &[0x55], &[0xFF, 0x55], &[0xFF, 0x55]],
        ];
        for body in bodies {
            for count in 1..=8 {
                let wire = [&[0xFF, 0xFF][..], &body[..count].concat(), &[0xFF, 9]].concat();
                let verdict = if count <= 5 { Verdict::Stuff { byte: 9 } } else { Verdict::StuffLate { byte: 9 } };
                assert_eq!(first_answer(&wire), decided(verdict, wire.len(), 0, wire.len() as u64));
                let (mut reader, last) = (Reader::new(), wire.len() - 1);
                for &byte in &wire[..last] {
                    assert_eq!(reader.feed(&[byte]), Answer::More { count: 1 });
                }
                assert_eq!(reader.feed(&[9]), decided(verdict, 1, 0, wire.len() as u64));
                assert_eq!(reader.finish(), Ending::Clean { consumed: wire.len() as u64 });
            }
        }
    }

    #[test]
    fn wrong_sums() {
        let mut wire = HEARTBEAT;
        for found in (0..0xFF).filter(|&found| found != 0x0D) {
            wire[8] = found;
            assert_eq!(first_answer(&wire), decided(Verdict::Sum { found, computed: 0x0D }, 9, 0, 9));
        }
        let found_ff = [&HEARTBEAT[..8], &[0xFF, 0x55]].concat();
        assert_eq!(first_answer(&found_ff), decided(Verdict::Sum { found: 0xFF, computed: 0x0D }, 10, 0, 10));
        let computed_ff = [0xFF, 0xFF, 0, 5, 7, 0xF3, 0, 0, 0];
        assert_eq!(first_answer(&computed_ff), decided(Verdict::Sum { found: 0, computed: 0xFF }, 9, 0, 9));
        let above_255 = [0xFF, 0xFF, 0, 6, 7, 0xFF, 0x55, 0, 0, 0xFF, 0x55, 0x0C];
        assert_eq!(first_answer(&above_255), decided(Verdict::Sum { found: 0x0C, computed: 0x0B }, 12, 0, 12));
    }

    #[test]
    fn numbers_and_values() {
        let verdicts = [
            (Verdict::Frame, 1, vec![]),
            (Verdict::Short, 11, vec![]),
            (Verdict::Long, 12, vec![]),
            (Verdict::Stuff { byte: 3 }, 13, vec![3]),
            (Verdict::Cut, 14, vec![]),
            (Verdict::Sum { found: 14, computed: 13 }, 15, vec![14, 13]),
            (Verdict::StuffLate { byte: 4 }, 19, vec![4]),
        ];
        for (verdict, number, values) in verdicts {
            assert_eq!((verdict.number(), verdict.values()), (number, values));
        }
    }

    #[test]
    fn limits() {
        let mut reader = Reader::having_consumed(MAX_TAKEN - 1);
        assert_eq!(reader.feed(&[0, 0]), Answer::Used);
        assert_eq!(reader.feed(&[0]), Answer::More { count: 1 });
        assert_eq!(reader.finish(), Ending::Clean { consumed: MAX_TAKEN });
        assert_eq!(reader.feed(&[]), Answer::More { count: 0 });
        assert_eq!(reader.feed(&[0]), Answer::Used);
        let mut beyond = Reader::having_consumed(MAX_TAKEN + 1);
        assert_eq!(beyond.feed(&[]), Answer::State);
        assert_eq!(beyond.finish(), Ending::State);
    }
}
