//! Scripts of a link's records.

use crate::driver::{push_record, FEED, FINISH, LINK, STREAM};
use crate::link::{Link, SENDABLE};
use crate::links::{play_record, DATA_SIZE};
use crate::random::Rng;

pub const OFFER: u8 = 0;
pub const TICK: u8 = 1;
pub const ANSWER: u8 = 2;
pub const SET_IDLE: u8 = 3;
pub const SET_WAITING: u8 = 4;
pub const ELAPSED: u8 = 5;
pub const TICK_IN_PLACE: u8 = 6;
const FRESH: u8 = 7;

const RECORDS: usize = 2_000;

/// A script, and a link that follows it to know which answers fit.
struct Script {
    records: Vec<u8>,
    link: Link,
    clock: u32,
}

impl Script {
    fn new(rng: &mut Rng) -> Script {
        // Many scripts begin shortly before the clock wraps.
        let clock = if rng.once_in(2) { u32::MAX - rng.below(1_000) as u32 } else { rng.next() as u32 };
        Script { records: Vec::new(), link: Link::new(), clock }
    }

    fn record(&mut self, operation: u8, fields: [u8; 4], clock: u32) {
        let data = [fields, clock.to_be_bytes()].concat();
        play_record(&mut self.link, operation, &data, &mut Vec::new());
        push_record(&mut self.records, LINK + operation, &data);
    }

    fn offer(&mut self, rng: &mut Rng) {
        let command = if rng.once_in(5) { rng.byte() } else { rng.pick(&SENDABLE) };
        self.record(OFFER, [command, rng.byte(), 0, 0], self.clock);
    }

    fn tick(&mut self, rng: &mut Rng) {
        let operation = rng.pick(&[TICK, TICK_IN_PLACE]);
        self.record(operation, [rng.byte(); 4], self.clock);
    }

    /// The answer that fits, or one that misses by a little.
    fn answer(&mut self, rng: &mut Rng) {
        let (command, number) = match self.link.waiting {
            Some(waiting) => (waiting.command.wrapping_add(1), waiting.number),
            None => (rng.pick(&SENDABLE).wrapping_add(1), self.link.next),
        };
        let (command, number) = match rng.below(6) {
            0 => (command, number.wrapping_add(1)),
            1 => (command.wrapping_sub(1), number),
            2 => (rng.byte(), rng.byte()),
            _ => (command, number),
        };
        self.record(ANSWER, [command, number, 0, 0], self.clock);
    }

    fn elapsed(&mut self, rng: &mut Rng) {
        let back = step(rng);
        self.record(ELAPSED, self.clock.wrapping_sub(back).to_be_bytes(), self.clock);
    }

    /// A link in any state; about half of them have a command or repeats out of range.
    fn set(&mut self, rng: &mut Rng) {
        let next = rng.pick(&[0, 1, 2, 254, 255, 255]);
        if rng.once_in(5) {
            return self.record(SET_IDLE, [next, rng.byte(), rng.byte(), rng.byte()], self.clock);
        }
        let command = if rng.once_in(4) { rng.byte() } else { rng.pick(&SENDABLE) };
        let number = rng.pick(&[0, 0, 1, 7, 254, 255, 255]);
        let repeats = rng.pick(&[0, 1, 2, 2, 3, 3, 4, 255]);
        let sent = self.clock.wrapping_sub(step(rng));
        self.record(SET_WAITING, [next, command, number, repeats], sent);
    }

    /// Something that must not touch the link.
    fn reader(&mut self, rng: &mut Rng) {
        let size = rng.between(0, 12);
        push_record(&mut self.records, rng.pick(&[FEED, FINISH, STREAM]), &rng.bytes_from(&[0xFF, 0, 5, 7], size));
    }

    fn advance(&mut self, rng: &mut Rng) {
        self.clock = self.clock.wrapping_add(step(rng));
    }
}

/// Milliseconds around the ones at which something changes.
pub fn step(rng: &mut Rng) -> u32 {
    const HALF: u32 = 1 << 31;
    match rng.below(12) {
        0..=4 => rng.below(250) as u32,
        5..=7 => rng.pick(&[199, 200, 201]),
        8 => rng.pick(&[0, 1, u32::MAX, u32::MAX - 199]),
        9 => rng.pick(&[HALF - 1, HALF, HALF + 1, HALF + 200]),
        10 => rng.below(100_000) as u32,
        _ => rng.next() as u32,
    }
}

/// A link that lives long enough for its numbers to begin again.
pub fn long_life(rng: &mut Rng, _index: u64) -> Vec<u8> {
    let mut script = Script::new(rng);
    for _ in 0..2 * RECORDS {
        match rng.below(20) {
            0..=6 => script.offer(rng),
            7..=13 => script.tick(rng),
            14..=17 => script.answer(rng),
            18 => script.reader(rng),
            _ => script.elapsed(rng),
        }
        if rng.once_in(2) {
            script.advance(rng);
        }
    }
    script.records
}

/// Links in any state, each with a few calls.
pub fn any_state(rng: &mut Rng, _index: u64) -> Vec<u8> {
    let mut script = Script::new(rng);
    for _ in 0..RECORDS / 5 {
        match rng.once_in(12) {
            true => script.record(rng.pick(&[FRESH, 8, 127]), [rng.byte(); 4], rng.next() as u32),
            false => script.set(rng),
        }
        for _ in 0..rng.between(1, 6) {
            match rng.below(3) {
                0 => script.offer(rng),
                1 => script.tick(rng),
                _ => script.answer(rng),
            }
            script.advance(rng);
        }
    }
    script.records
}

/// Any data, some of it of another size, with the operations made likely.
pub fn any_record(records: &mut Vec<u8>, rng: &mut Rng) {
    let operation = if rng.once_in(20) { rng.byte() } else { rng.byte() % 8 };
    let size = if rng.once_in(20) { rng.between(0, DATA_SIZE + 2) } else { DATA_SIZE };
    push_record(records, LINK | operation, &rng.bytes(size));
}

/// Any records, and an incomplete one at the end.
pub fn noise(rng: &mut Rng, _index: u64) -> Vec<u8> {
    let mut records = Vec::new();
    for _ in 0..RECORDS {
        any_record(&mut records, rng);
    }
    push_record(&mut records, LINK, &rng.bytes(DATA_SIZE));
    let cut = rng.between(1, DATA_SIZE + 3);
    records.truncate(records.len() - cut);
    records
}
