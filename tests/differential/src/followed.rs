//! A script of the records of a transfer, a link and the whole box, and what such scripts are made of.

use crate::driver::{push_record, Driver, LINK, MAX_DATA};
use crate::link_scripts::{self, step};
use crate::module::{self, Module};
use crate::random::Rng;
use crate::transfer::{self, Frame, Open};
use crate::transfers::{BEGIN, CANCEL, DEVICE, FILL, FRESH, PROGRESS, SET, SHOW, STOP, STORE};
use crate::writer::wire_form;

/// A script, and a driver that follows it to know what comes next.
pub struct Script {
    pub records: Vec<u8>,
    pub driver: Driver,
    pub clock: u32,
}

/// What the box brings to a call: its piece size, the size of its buffer and that of its output.
#[derive(Clone, Copy)]
pub struct Terms {
    pub piece: u16,
    pub buffer: u32,
    pub room: u16,
}

/// An output that holds any single frame of the box, and one byte more.
pub const ONE_FRAME: u16 = 12;

impl Script {
    pub fn new(rng: &mut Rng) -> Script {
        Script { records: Vec::new(), driver: Driver::new(), clock: rng.next() as u32 }
    }

    pub fn record(&mut self, operation: u8, parts: &[&[u8]]) {
        let data = parts.concat();
        assert!(data.len() <= MAX_DATA, "a larger record ends the program");
        self.driver.play_record(operation, &data, &mut Vec::new());
        push_record(&mut self.records, operation, &data);
    }

    /// A 19, 1D or 1F as a call of its own. Each of them leaves out the terms that it does not know.
    pub fn call(&mut self, frame: Frame, terms: Terms) {
        let (clock, flags) = (self.clock.to_be_bytes(), frame.flags.to_be_bytes());
        let (piece, buffer, room) = (terms.piece.to_be_bytes(), terms.buffer.to_be_bytes(), terms.room.to_be_bytes());
        let number = [frame.number];
        match frame.command {
            transfer::ANNOUNCEMENT => self.record(BEGIN, &[&number, &clock, &piece, &buffer, &room, frame.payload]),
            transfer::PIECE => self.record(STORE, &[&number, &flags, &buffer, &room, frame.payload]),
            _ => self.record(STOP, &[&number, &room, frame.payload]),
        }
    }

    /// Bytes on the wire.
    pub fn device(&mut self, bytes: &[u8], terms: Terms) {
        let (piece, buffer, room) = (terms.piece.to_be_bytes(), terms.buffer.to_be_bytes(), terms.room.to_be_bytes());
        self.record(DEVICE, &[&self.clock.to_be_bytes(), &piece, &buffer, &room, bytes]);
    }

    pub fn cancel(&mut self, room: u16) {
        self.record(CANCEL, &[&self.clock.to_be_bytes(), &room.to_be_bytes()]);
    }

    pub fn fresh(&mut self) {
        self.record(FRESH, &[]);
    }

    pub fn set(&mut self, open: Open) {
        self.record(SET, &[&open.size.to_be_bytes(), &open.piece.to_be_bytes(), &open.stored.to_be_bytes()]);
    }

    pub fn progress(&mut self) {
        self.record(PROGRESS, &[]);
    }

    pub fn show(&mut self, from: u32, size: u16) {
        self.record(SHOW, &[&from.to_be_bytes(), &size.to_be_bytes()]);
    }

    pub fn fill(&mut self, byte: u8) {
        self.record(FILL, &[&[byte]]);
    }

    pub fn link(&mut self, operation: u8, fields: [u8; 4]) {
        self.record(LINK + operation, &[&fields, &self.clock.to_be_bytes()]);
    }

    /// The answer to the command that waits, if any, or one that misses.
    pub fn answer(&mut self, rng: &mut Rng) {
        let (command, number) = self.fitting();
        let missed = u8::from(rng.once_in(6));
        self.link(link_scripts::ANSWER, [command, number.wrapping_add(missed), 0, 0]);
    }

    /// Command and number of the answer that the link waits for; any answer where it does not.
    pub fn fitting(&self) -> (u8, u8) {
        self.driver.link.waiting.map_or((0x1C, 0), |waiting| (waiting.command.wrapping_add(1), waiting.number))
    }

    /// The answer that fits, if a command waits.
    pub fn end_wait(&mut self) {
        let (command, number) = self.fitting();
        self.link(link_scripts::ANSWER, [command, number, 0, 0]);
    }

    /// Whether no transfer is open, or one that is complete.
    pub fn is_free(&self) -> bool {
        let is_complete = |open: Open| u32::from(open.stored) * u32::from(open.piece) >= open.size;
        self.driver.transfer.open.is_none_or(is_complete)
    }

    /// Whether the module's 19 was just accepted.
    pub fn has_begun(&self, module: &Module) -> bool {
        self.driver.transfer.open == Some(Open { size: module.table.len() as u32, piece: module.piece, stored: 0 })
    }

    pub fn stored(&self) -> u16 {
        self.driver.transfer.open.map_or(0, |open| open.stored)
    }

    /// A place where something was stored last, or a place by chance.
    pub fn show_some(&mut self, rng: &mut Rng) {
        let piece = self.driver.transfer.open.map_or(1, |open| u32::from(open.piece));
        let from = u32::from(self.stored()).saturating_mul(piece).saturating_sub(rng.below(20) as u32);
        self.show(from, rng.between(0, 60) as u16);
    }

    /// One of the link's calls; ticks are frequent, so that a wait can end without an answer.
    pub fn any_link_call(&mut self, rng: &mut Rng) {
        match rng.below(8) {
            0..=2 => self.answer(rng),
            3..=5 => self.link(rng.pick(&[link_scripts::TICK, link_scripts::TICK_IN_PLACE]), [0; 4]),
            6 => self.link(link_scripts::OFFER, [rng.pick(&[0x05, 0x1B, 0x27, 0x19]), 0, 0, 0]),
            _ => self.link(link_scripts::ELAPSED, [0; 4]),
        }
    }

    pub fn advance(&mut self, rng: &mut Rng) {
        self.clock = self.clock.wrapping_add(step(rng));
    }
}

/// The output that both frames of an accepted 19 fill.
pub fn pair_size(number: u8, next: u8, module: &Module) -> usize {
    let payload =
        [&(module.check_code.len() as u16).to_be_bytes()[..], &module.check_code, &module.piece.to_be_bytes()];
    wire_form(0x1A, number, 0, &[]).len() + wire_form(0x1B, next, 0, &payload.concat()).len()
}

/// The payload of a 19 and what the box brings to it, as it should be or with a fault in one of them.
pub fn any_announcement(module: &Module, usual: Terms, rng: &mut Rng) -> (Vec<u8>, Terms) {
    let code = &module.check_code;
    match rng.below(24) {
        0 => (module::announcement(0, code), usual),
        1 => (module.announcement(), Terms { piece: 0, ..usual }),
        2 => (module.announcement()[1..].to_vec(), usual),
        3 => {
            let size = rng.pick(&[131_073, u32::MAX - 1, u32::MAX]);
            (module::announcement(size, code), Terms { buffer: size, ..usual })
        }
        4 => {
            let (size, piece) = rng.pick(&[(65_536, 1), (70_000, 1), (131_072, 1), (131_071, 2), (131_072, 2)]);
            (module::announcement(size, code), Terms { piece, buffer: size, ..usual })
        }
        5 | 6 => {
            // The longest check codes: of a 19 on the wire, of a 1B, and one byte more.
            let code = vec![rng.byte(); rng.pick(&[1_013, 1_015, 1_016, 1_016])];
            (module::announcement(module.table.len() as u32, &code), Terms { room: 2_100, ..usual })
        }
        _ => (module.announcement(), usual),
    }
}

/// An output for one frame, most often enough: a frame of the box has 9 to 11 bytes.
pub fn any_small_room(rng: &mut Rng) -> u16 {
    match rng.below(16) {
        0 => rng.below(9) as u16,
        1 => 8,
        2 => rng.pick(&[9, 10, 11]),
        3 if rng.once_in(20) => rng.pick(&[2_099, 2_100, 2_101, 65_535]),
        _ => ONE_FRAME,
    }
}

/// An output around what is needed, most often enough.
pub fn any_room(needed: usize, rng: &mut Rng) -> u16 {
    let room = match rng.below(24) {
        0 => rng.between(0, ONE_FRAME.into()),
        1 => needed - 1,
        2 => needed,
        3 => needed + 1,
        _ => needed + rng.between(0, 6),
    };
    room as u16
}

/// A buffer that holds the table, most often.
pub fn any_buffer(size: usize, rng: &mut Rng) -> u32 {
    let size = size as u32;
    match rng.below(16) {
        0 => size.saturating_sub(1),
        1 => rng.below(u64::from(size)) as u32,
        2..=4 => size,
        5 => rng.pick(&[131_072, 131_073, u32::MAX]),
        _ => size + rng.below(100) as u32,
    }
}

/// Numbers of the module; some are stuffed or make a sum that is stuffed.
pub fn any_number(rng: &mut Rng) -> u8 {
    let any = rng.byte();
    rng.pick(&[any, any, any, 0xFF, 0xE0, 0xDC, 0xDA, 0xE4])
}

/// Sizes at which something changes: of the table that is lent, of 65,535 pieces, and of a number.
const SIZES: [u32; 16] = [
    0,
    1,
    2,
    10,
    65_534,
    65_535,
    65_536,
    65_537,
    131_070,
    131_071,
    131_072,
    131_073,
    4_294_836_225,
    4_294_836_226,
    u32::MAX - 1,
    u32::MAX,
];
const PIECES: [u16; 12] = [0, 1, 1, 2, 2, 3, 10, 128, 1_016, 32_768, 65_534, 65_535];

/// About half of them are out of range.
pub fn any_open(rng: &mut Rng) -> Open {
    let piece = if rng.once_in(6) { rng.next() as u16 } else { rng.pick(&PIECES) };
    let size = match rng.below(4) {
        0 => rng.pick(&SIZES),
        1 => rng.next() as u32,
        _ => {
            let times = rng.pick(&[1, 2, 3, 7, 65_534, 65_535, 65_536]);
            let near = u64::from(piece) * times + rng.below(3);
            near.saturating_sub(1).min(u32::MAX.into()) as u32
        }
    };
    let total = total(size, piece);
    let any = rng.next() as u16;
    let stored = rng.pick(&[0, 0, 1, total.saturating_sub(1), total, total.saturating_add(1), any % total.max(1), any]);
    Open { size, piece, stored }
}

/// As many pieces as there can be where there would be more; 0 where the piece size is 0.
pub fn total(size: u32, piece: u16) -> u16 {
    if piece == 0 {
        return 0;
    }
    u64::from(size).div_ceil(piece.into()).min(u16::MAX.into()) as u16
}

/// A link in any state, in range or not.
pub fn any_link(script: &mut Script, rng: &mut Rng) {
    let next = rng.pick(&[0, 1, 0xE0, 0xFE, 0xFF]);
    match rng.below(6) {
        0..=2 => script.link(link_scripts::SET_IDLE, [next, 0, 0, 0]),
        3 => script.link(link_scripts::SET_WAITING, [next, rng.byte(), rng.byte(), rng.pick(&[0, 3, 255])]),
        _ => script.link(link_scripts::SET_WAITING, [next, rng.pick(&[0x05, 0x1B, 0x27]), next.wrapping_sub(1), 0]),
    }
}

#[cfg(test)]
mod tests {
    use super::*;
    use crate::transfer::Transfer;

    #[test]
    fn made_up_transfers_are_in_range_and_out_of_it() {
        let mut rng = Rng::new(1);
        let in_range = (0..1_000).filter(|_| Transfer { open: Some(any_open(&mut rng)) }.is_in_range()).count();
        assert!((200..800).contains(&in_range), "{in_range}");
    }
}
