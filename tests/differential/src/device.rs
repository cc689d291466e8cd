//! What the box does with each answer of its reader: the link sees the frame, and the reply is made.

use crate::answers::{self, Reply};
use crate::link::Link;
use crate::reader::{self, Reader, Verdict};
use crate::transfer::{self, put, Frame, Lent, Transfer, ANNOUNCEMENT, PIECE, STOP};

/// The number of the answer and its values; and the command and number of the wait that the frame ended.
#[derive(PartialEq, Eq, Debug)]
pub struct Handled {
    pub row: Vec<u64>,
    pub ended: Option<(u8, u8)>,
}

/// What the box holds between two frames.
pub struct Held<'a> {
    pub transfer: &'a mut Transfer,
    pub link: &'a mut Link,
}

/// The answer is the reader's last one. The piece size is the box's own, for a 19.
pub fn handle(answer: reader::Answer, reader: &Reader, held: Held, clock: u32, piece: u16, lent: Lent) -> Handled {
    if !held.transfer.is_in_range() || !held.link.is_in_range() {
        return Handled { row: transfer::Answer::State.row(), ended: None };
    }
    match answer {
        reader::Answer::Decided { verdict: Verdict::Frame, .. } => {
            let frame = Frame::in_body(reader.body());
            // A frame that ends no wait is passed over in silence.
            let ended = held.link.arrive(frame.command, frame.number).ok();
            Handled { row: row(frame, held, clock, piece, lent), ended }
        }
        reader::Answer::Decided { verdict: Verdict::Sum { .. }, .. } => {
            let number = Frame::in_body(reader.body()).number;
            Handled { row: replied(answers::to_wrong_sum(number), lent.out), ended: None }
        }
        _ => Handled { row: Reply::Nothing.row(), ended: None },
    }
}

fn row(frame: Frame, held: Held, clock: u32, piece: u16, lent: Lent) -> Vec<u64> {
    match frame.command {
        ANNOUNCEMENT => held.transfer.begin(held.link, clock, piece, frame, lent).row(),
        PIECE => held.transfer.store(frame, lent).row(),
        STOP => held.transfer.stop(frame, lent.out).row(),
        _ => replied(answers::to_frame(frame.command, frame.number, frame.payload), lent.out),
    }
}

fn replied(reply: Reply, out: &mut [u8]) -> Vec<u64> {
    match reply.wire().map(|wire| put(wire, out)) {
        Some(Err(no_room)) => no_room.row(),
        _ => reply.row(),
    }
}

#[cfg(test)]
mod tests {
    use super::*;
    use crate::link::Waiting;

    /// What the box does with these bytes, with an output of this size, while a 27 waits under number 0.
    fn handled(bytes: &[u8], room: usize, repeats: u8) -> (Handled, Link) {
        let (mut reader, mut transfer) = (Reader::new(), Transfer::new());
        let mut link = Link { next: 1, waiting: Some(Waiting { command: 0x27, number: 0, sent: 0, repeats }) };
        let said = reader.feed(bytes);
        let held = Held { transfer: &mut transfer, link: &mut link };
        let lent = Lent { buffer: &mut [], out: &mut vec![0xAA; room] };
        (handle(said, &reader, held, 0, 4, lent), link)
    }

    const FAULTY: [u8; 10] = [0xFF, 0xFF, 0, 6, 0x28, 0, 0, 0, 0, 0x2E];

    #[test]
    fn a_faulty_answer_ends_a_wait() {
        let idle = Link { next: 1, waiting: None };
        let ended = Some((0x27, 0));
        assert_eq!(handled(&FAULTY, 10, 0), (Handled { row: vec![0, 10, 18, 3, 32], ended }, idle));
        assert_eq!(handled(&FAULTY, 9, 0), (Handled { row: vec![22, 10], ended }, idle));
    }

    #[test]
    fn state_comes_first() {
        for bytes in [&FAULTY[..], &FAULTY[..9], &[]] {
            let (handled, link) = handled(bytes, 10, 3);
            assert_eq!(handled, Handled { row: vec![17, 0], ended: None });
            assert!(link.waiting.is_some());
        }
    }

    #[test]
    fn a_wrong_sum_ends_no_wait() {
        let wrong = [&FAULTY[..9], &[0x2D]].concat();
        let (handled, link) = handled(&wrong, 10, 0);
        assert_eq!(handled, Handled { row: vec![0, 10, 18, 1, 15], ended: None });
        assert!(link.waiting.is_some());
    }
}
