//! A transfer: the module announces a table, and the box stores it piece by piece at the front of the caller's
//! buffer. Every call says what it writes before it changes anything, so that a lack of room leaves all as it was.

use crate::answers::{acknowledgement, other_error};
use crate::link::Link;
use crate::messages::{self, Message};
use crate::writer::{wire_form, MAX_PAYLOAD};
use std::ops::Range;

pub const ANNOUNCEMENT: u8 = 0x19;
const READY: u8 = 0x1B;
pub const PIECE: u8 = 0x1D;
pub const STOP: u8 = 0x1F;
const CANCEL: u8 = 0x27;

/// The number of a piece has 2 bytes.
const MAX_PIECES: u64 = 65_535;
/// The flag of a piece that holds one line of a HEX file.
const HEX_LINE: u16 = 1;

/// A frame that arrived.
#[derive(Clone, Copy)]
pub struct Frame<'a> {
    pub command: u8,
    pub number: u8,
    pub flags: u16,
    pub payload: &'a [u8],
}

impl Frame<'_> {
    /// The frame whose body a reader holds.
    pub fn in_body(body: &[u8]) -> Frame<'_> {
        let flags = u16::from_be_bytes([body[4], body[5]]);
        Frame { command: body[2], number: body[3], flags, payload: &body[6..body.len() - 1] }
    }
}

/// What the caller lends to a call: the buffer for the table, and the output for frames.
pub struct Lent<'a> {
    pub buffer: &'a mut [u8],
    pub out: &'a mut [u8],
}

/// Nothing is open in a fresh one.
#[derive(Clone, Copy, PartialEq, Eq, Debug)]
pub struct Transfer {
    pub open: Option<Open>,
}

#[derive(Clone, Copy, PartialEq, Eq, Debug)]
pub struct Open {
    /// Bytes announced.
    pub size: u32,
    /// Bytes of each piece but the last.
    pub piece: u16,
    /// The number just stored, which is also how many are stored.
    pub stored: u16,
}

/// What the module is told by a rejection.
#[derive(Clone, Copy, PartialEq, Eq, Debug)]
pub enum Refusal {
    Size = 32,
    Empty = 61,
    TooBig = 62,
    Pieces = 63,
    HexLines = 64,
    Turn = 65,
    Piece = 66,
}

/// Where nothing is written, nothing changes.
#[derive(Clone, Copy, PartialEq, Eq, Debug)]
pub enum Answer {
    /// Two frames are written; the second one, 1B, begins at `ready`.
    Began {
        count: usize,
        ready: usize,
    },
    /// One frame with this command is written: 1E, 20 or 27.
    Written {
        count: usize,
        command: u8,
    },
    /// The rejection is written.
    Refused {
        count: usize,
        refusal: Refusal,
    },
    State,
    Busy,
    Payload,
    /// All that would be written has this many bytes.
    Room {
        needed: usize,
    },
}

impl Answer {
    /// The number of the answer and its values.
    pub fn row(self) -> Vec<u64> {
        match self {
            Answer::Began { count, ready } => vec![0, count as u64, (ANNOUNCEMENT + 1).into(), ready as u64],
            Answer::Written { count, command } => vec![0, count as u64, command.into()],
            Answer::Refused { count, refusal } => vec![refusal as u64, count as u64],
            Answer::State => vec![17, 0],
            Answer::Busy => vec![41],
            Answer::Payload => vec![21, 0],
            Answer::Room { needed } => vec![22, needed as u64],
        }
    }
}

#[derive(Clone, Copy, PartialEq, Eq, Debug)]
pub enum Progress {
    Absent,
    /// Bytes stored and bytes announced.
    Open {
        stored: u64,
        size: u64,
    },
    State,
}

impl Open {
    /// How many pieces the table has. In 64 bits no sum wraps; the piece size is not 0.
    fn total(&self) -> u64 {
        u64::from(self.size).div_ceil(self.piece.into())
    }

    fn is_in_range(&self) -> bool {
        self.size > 0 && self.piece > 0 && self.total() <= MAX_PIECES && u64::from(self.stored) <= self.total()
    }

    /// Where this piece lies in the table; only the last one is cut. It is one of the pieces.
    fn place(&self, number: u16) -> Range<usize> {
        let start = (u64::from(number) - 1) * u64::from(self.piece);
        let end = (start + u64::from(self.piece)).min(self.size.into());
        start as usize..end as usize
    }

    fn bytes_stored(&self) -> u64 {
        (u64::from(self.stored) * u64::from(self.piece)).min(self.size.into())
    }

    fn is_above(&self, buffer: &[u8]) -> bool {
        u64::from(self.size) > buffer.len() as u64
    }

    /// The next number up to the last one, and the number just stored if there is one.
    fn allows(&self, number: u16) -> bool {
        let (number, stored) = (u64::from(number), u64::from(self.stored));
        let is_next = number == stored + 1 && number <= self.total();
        let is_again = number == stored && stored > 0;
        is_next || is_again
    }

    /// Whether a transfer may begin like this.
    fn check_announced(&self, buffer: &[u8]) -> Result<(), Refusal> {
        if self.size == 0 || self.piece == 0 {
            return Err(Refusal::Empty);
        }
        if self.is_above(buffer) {
            return Err(Refusal::TooBig);
        }
        if self.total() > MAX_PIECES {
            return Err(Refusal::Pieces);
        }
        Ok(())
    }
}

impl Transfer {
    pub fn new() -> Transfer {
        Transfer { open: None }
    }

    pub fn is_in_range(&self) -> bool {
        self.open.is_none_or(|open| open.is_in_range())
    }

    /// A 19 arrived: 1A under its number, then 1B under the link's. The piece size is the box's own.
    pub fn begin(&mut self, link: &mut Link, clock: u32, piece: u16, frame: Frame, lent: Lent) -> Answer {
        if !self.is_in_range() || !link.is_in_range() {
            return Answer::State;
        }
        let Ok(Message::Announcement { size, check_code }) = messages::read(ANNOUNCEMENT, frame.payload) else {
            return refused(Refusal::Size, frame.number, lent.out);
        };
        let mut busy_link = *link;
        let Ok(sequence) = busy_link.offer(READY, clock) else { return Answer::Busy };
        let open = Open { size, piece, stored: 0 };
        if let Err(refusal) = open.check_announced(lent.buffer) {
            return refused(refusal, frame.number, lent.out);
        }
        let payload = Message::Ready { check_code, piece_size: piece }.payload();
        if payload.len() > MAX_PAYLOAD {
            return Answer::Payload;
        }
        let received = acknowledgement(ANNOUNCEMENT, frame.number);
        let pair = [&received[..], &wire_form(READY, sequence, 0, &payload)].concat();
        if let Err(no_room) = put(&pair, lent.out) {
            return no_room;
        }
        self.open = Some(open);
        *link = busy_link;
        Answer::Began { count: pair.len(), ready: received.len() }
    }

    /// A 1D arrived. The number just stored is only answered.
    pub fn store(&mut self, frame: Frame, lent: Lent) -> Answer {
        if !self.is_in_range() {
            return Answer::State;
        }
        let (mut open, number, data) = match self.checked_piece(frame, lent.buffer) {
            Ok(piece) => piece,
            Err(refusal) => return refused(refusal, frame.number, lent.out),
        };
        let reply = acknowledgement(PIECE, frame.number);
        if let Err(no_room) = put(&reply, lent.out) {
            return no_room;
        }
        if number != open.stored {
            lent.buffer[open.place(number)].copy_from_slice(data);
            open.stored = number;
            self.open = Some(open);
        }
        Answer::Written { count: reply.len(), command: PIECE + 1 }
    }

    /// The transfer that the piece is for, its number and its data. Size and total are compared only in a transfer.
    fn checked_piece<'a>(&self, frame: Frame<'a>, buffer: &[u8]) -> Result<(Open, u16, &'a [u8]), Refusal> {
        let Ok(Message::Piece { index, total, data }) = messages::read(PIECE, frame.payload) else {
            return Err(Refusal::Size);
        };
        if self.open.is_some_and(|open| open.is_above(buffer)) {
            return Err(Refusal::TooBig);
        }
        if frame.flags & HEX_LINE != 0 {
            return Err(Refusal::HexLines);
        }
        let open = self.open.ok_or(Refusal::Turn)?;
        if u64::from(total) != open.total() {
            return Err(Refusal::Pieces);
        }
        if !open.allows(index) {
            return Err(Refusal::Turn);
        }
        let there = &buffer[open.place(index)];
        if data.len() != there.len() || index == open.stored && data != there {
            return Err(Refusal::Piece);
        }
        Ok((open, index, data))
    }

    /// A 1F arrived: it is answered without a transfer too, because the module repeats it where our 20 was lost.
    pub fn stop(&mut self, frame: Frame, out: &mut [u8]) -> Answer {
        if !self.is_in_range() {
            return Answer::State;
        }
        if messages::read(STOP, frame.payload).is_err() {
            return refused(Refusal::Size, frame.number, out);
        }
        let reply = acknowledgement(STOP, frame.number);
        if let Err(no_room) = put(&reply, out) {
            return no_room;
        }
        self.open = None;
        Answer::Written { count: reply.len(), command: STOP + 1 }
    }

    /// The box sends a 27, with or without a transfer.
    pub fn cancel(&mut self, link: &mut Link, clock: u32, out: &mut [u8]) -> Answer {
        if !self.is_in_range() || !link.is_in_range() {
            return Answer::State;
        }
        let mut busy_link = *link;
        let Ok(sequence) = busy_link.offer(CANCEL, clock) else { return Answer::Busy };
        let wire = wire_form(CANCEL, sequence, 0, &[]);
        if let Err(no_room) = put(&wire, out) {
            return no_room;
        }
        self.open = None;
        *link = busy_link;
        Answer::Written { count: wire.len(), command: CANCEL }
    }

    pub fn progress(&self) -> Progress {
        match self.open {
            None => Progress::Absent,
            Some(open) if !open.is_in_range() => Progress::State,
            Some(open) => Progress::Open { stored: open.bytes_stored(), size: open.size.into() },
        }
    }
}

/// The rejection of a frame of the module.
fn refused(refusal: Refusal, number: u8, out: &mut [u8]) -> Answer {
    let rejection = other_error(number);
    match put(&rejection, out) {
        Ok(()) => Answer::Refused { count: rejection.len(), refusal },
        Err(no_room) => no_room,
    }
}

/// Writes to the front of the output, or says what is to be answered where it does not fit.
pub fn put(wire: &[u8], out: &mut [u8]) -> Result<(), Answer> {
    let front = out.get_mut(..wire.len()).ok_or(Answer::Room { needed: wire.len() })?;
    front.copy_from_slice(wire);
    Ok(())
}

#[cfg(test)]
mod tests {
    use super::*;

    fn frame(command: u8, number: u8, payload: &[u8]) -> Frame<'_> {
        Frame { command, number, flags: 0, payload }
    }

    /// Three pieces, the last one short, each sent twice.
    #[test]
    fn pieces_in_turn() {
        let (mut transfer, mut link) = (Transfer::new(), Link::new());
        let (mut buffer, mut out) = ([0xAA; 12], [0xAA; 40]);
        let announcement = [0, 0, 0, 10, 0, 1, 0x63];
        let lent = Lent { buffer: &mut buffer, out: &mut out };
        let answer = transfer.begin(&mut link, 100, 4, frame(ANNOUNCEMENT, 5, &announcement), lent);
        assert_eq!(answer, Answer::Began { count: 23, ready: 9 });
        assert_eq!(link.arrive(0x1C, 0), Ok((READY, 0)));
        for (number, data) in [(1, &b"abcd"[..]), (1, b"abcd"), (2, b"efgh"), (2, b"efgh"), (3, b"ij"), (3, b"ij")] {
            let payload = [&[0, number, 0, 3], data].concat();
            let lent = Lent { buffer: &mut buffer, out: &mut out };
            let answer = transfer.store(frame(PIECE, 6, &payload), lent);
            assert_eq!(answer, Answer::Written { count: 9, command: 0x1E });
            assert_eq!(transfer.open, Some(Open { size: 10, piece: 4, stored: number.into() }));
        }
        assert_eq!(&buffer, b"abcdefghij\xAA\xAA");
        assert_eq!(transfer.progress(), Progress::Open { stored: 10, size: 10 });
        assert_eq!(transfer.stop(frame(STOP, 7, &[]), &mut out), Answer::Written { count: 9, command: 0x20 });
        assert_eq!(transfer, Transfer::new());
        assert_eq!(transfer.cancel(&mut link, 200, &mut out), Answer::Written { count: 9, command: CANCEL });
        assert_eq!(transfer.cancel(&mut link, 200, &mut out), Answer::Busy);
    }

    /// Both frames of a 19 are counted; the room that is said is enough, and one byte less is not.
    #[test]
    fn rooms() {
        let announcement = [0, 0, 0, 10, 0, 2, 0xAB, 0xCD];
        for (number, next, needed) in [(5, 3, 24), (0xFF, 3, 25), (5, 0xFF, 25), (0xFF, 0xFF, 26)] {
            let (mut transfer, mut link) = (Transfer::new(), Link { next, waiting: None });
            let mut begin = |room: usize| {
                let lent = Lent { buffer: &mut [0; 10], out: &mut vec![0xAA; room] };
                transfer.begin(&mut link, 0, 4, frame(ANNOUNCEMENT, number, &announcement), lent)
            };
            for room in 0..needed {
                assert_eq!(begin(room), Answer::Room { needed });
            }
            assert_eq!(begin(needed), Answer::Began { count: needed, ready: if number == 0xFF { 10 } else { 9 } });
        }
        let (mut transfer, mut link) = (Transfer::new(), Link { next: 0xFF, waiting: None });
        assert_eq!(transfer.stop(frame(STOP, 5, &[]), &mut []), Answer::Room { needed: 9 });
        assert_eq!(transfer.stop(frame(STOP, 0xFF, &[0]), &mut [0; 10]), Answer::Room { needed: 11 });
        assert_eq!(transfer.cancel(&mut link, 0, &mut [0; 9]), Answer::Room { needed: 10 });
        assert_eq!(transfer.cancel(&mut link, 0, &mut [0; 10]), Answer::Written { count: 10, command: CANCEL });
    }

    #[test]
    fn ranges() {
        let is_in_range = |size, piece, stored| Open { size, piece, stored }.is_in_range();
        for (size, piece, stored) in [(1, 1, 1), (65_535, 1, 65_535), (4_294_836_225, 65_535, 65_535), (1, 65_535, 1)] {
            assert!(is_in_range(size, piece, stored));
            assert!(is_in_range(size, piece, 0));
            assert!(stored == 65_535 || !is_in_range(size, piece, stored + 1));
        }
        for (size, piece) in [(0, 1), (1, 0), (0, 0), (65_536, 1), (4_294_836_226, 65_535), (u32::MAX, 65_535)] {
            assert!(!is_in_range(size, piece, 0));
        }
    }

    /// The last piece ends with the table, also where the next place would not fit 32 bits.
    #[test]
    fn places() {
        let open = Open { size: 4_294_836_225, piece: 65_535, stored: 0 };
        assert_eq!(open.place(65_535), 4_294_770_690..4_294_836_225);
        let open = Open { size: 10, piece: 4, stored: 0 };
        assert_eq!([1, 2, 3].map(|number| open.place(number)), [0..4, 4..8, 8..10]);
        let open = Open { size: 8, piece: 4, stored: 0 };
        assert_eq!((open.total(), open.place(2)), (2, 4..8));
    }

    #[test]
    fn rows() {
        let rows = [
            (Answer::Began { count: 23, ready: 9 }, vec![0, 23, 26, 9]),
            (Answer::Written { count: 9, command: 0x1E }, vec![0, 9, 30]),
            (Answer::Written { count: 9, command: 0x20 }, vec![0, 9, 32]),
            (Answer::Written { count: 10, command: 0x27 }, vec![0, 10, 39]),
            (Answer::Refused { count: 10, refusal: Refusal::Size }, vec![32, 10]),
            (Answer::Refused { count: 10, refusal: Refusal::Empty }, vec![61, 10]),
            (Answer::Refused { count: 10, refusal: Refusal::TooBig }, vec![62, 10]),
            (Answer::Refused { count: 10, refusal: Refusal::Pieces }, vec![63, 10]),
            (Answer::Refused { count: 10, refusal: Refusal::HexLines }, vec![64, 10]),
            (Answer::Refused { count: 10, refusal: Refusal::Turn }, vec![65, 10]),
            (Answer::Refused { count: 11, refusal: Refusal::Piece }, vec![66, 11]),
            (Answer::State, vec![17, 0]),
            (Answer::Busy, vec![41]),
            (Answer::Payload, vec![21, 0]),
            (Answer::Room { needed: 24 }, vec![22, 24]),
        ];
        for (answer, row) in rows {
            assert_eq!(answer.row(), row);
        }
    }
}
