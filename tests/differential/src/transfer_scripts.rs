//! Scripts of a transfer's records.

use crate::driver::{push_record, FEED, FINISH, LINK, MAX_DATA, REPLY, STREAM};
use crate::followed::{
    any_announcement, any_buffer, any_link, any_number, any_open, any_room, any_small_room, pair_size, total, Script,
    Terms,
};
use crate::module::{self, Module};
use crate::random::Rng;
use crate::streams;
use crate::transfer::{self, Frame, Open};
use crate::transfers::{BEGIN, DEVICE, STORE};

const RECORDS: usize = 400;

/// Transfers one after the other by calls, with pieces lost, repeated, reordered, damaged and too large, cancelled from
/// either side, restarted, and with outputs of all sizes.
pub fn life(rng: &mut Rng, _index: u64) -> Vec<u8> {
    let mut script = Script::new(rng);
    let mut module = Module::any(rng);
    let mut buffer = module.table.len() as u32;
    for _ in 0..RECORDS {
        match rng.below(40) {
            0..=7 if script.is_free() => announce_another(&mut script, &mut module, &mut buffer, rng),
            0 => announce_another(&mut script, &mut module, &mut buffer, rng),
            1 => announce(&mut script, &module, buffer, rng),
            2..=28 => {
                let (flags, payload) = module.troubled_piece(script.stored(), rng);
                let lent = if rng.once_in(30) { any_buffer(module.table.len(), rng) } else { buffer };
                let frame = Frame { command: transfer::PIECE, number: any_number(rng), flags, payload: &payload };
                script.call(frame, Terms { piece: 0, buffer: lent, room: any_small_room(rng) });
            }
            29 if rng.once_in(2) => stop(&mut script, rng),
            30 if rng.once_in(2) => script.cancel(any_small_room(rng)),
            31..=36 => script.any_link_call(rng),
            37 | 38 => script.progress(),
            _ => script.show_some(rng),
        }
        if rng.once_in(3) {
            script.advance(rng);
        }
    }
    script.show(0, (module.table.len() + 10) as u16);
    script.records
}

/// A 19 for another table. Where it is refused, the old one is often sent on.
fn announce_another(script: &mut Script, module: &mut Module, buffer: &mut u32, rng: &mut Rng) {
    if !rng.once_in(4) {
        script.end_wait();
    }
    let other = Module::any(rng);
    let lent = any_buffer(other.table.len(), rng);
    announce(script, &other, lent, rng);
    if script.has_begun(&other) || rng.once_in(6) {
        (*module, *buffer) = (other, lent);
    }
}

/// A 19, sometimes with a fault.
fn announce(script: &mut Script, module: &Module, buffer: u32, rng: &mut Rng) {
    let number = any_number(rng);
    let room = any_room(pair_size(number, script.driver.link.next, module), rng);
    let (payload, terms) = any_announcement(module, Terms { piece: module.piece, buffer, room }, rng);
    script.call(Frame { command: transfer::ANNOUNCEMENT, number, flags: 0, payload: &payload }, terms);
}

fn stop(script: &mut Script, rng: &mut Rng) {
    let payload = vec![0; rng.pick(&[0, 0, 0, 0, 1, 2])];
    let frame = Frame { command: transfer::STOP, number: any_number(rng), flags: 0, payload: &payload };
    script.call(frame, Terms { piece: 0, buffer: 0, room: any_small_room(rng) });
}

/// Transfers made up, in range or not, each with a few calls.
pub fn any_state(rng: &mut Rng, _index: u64) -> Vec<u8> {
    let mut script = Script::new(rng);
    script.fill(rng.byte());
    for _ in 0..RECORDS / 4 {
        script.set(any_open(rng));
        if rng.once_in(3) {
            any_link(&mut script, rng);
        }
        for _ in 0..rng.between(1, 4) {
            match rng.below(12) {
                0..=6 => any_piece(&mut script, rng),
                7 | 8 => script.progress(),
                9 => stop(&mut script, rng),
                10 => script.cancel(any_small_room(rng)),
                _ => {
                    let module = Module::any(rng);
                    announce(&mut script, &module, module.table.len() as u32, rng);
                }
            }
        }
        script.show_some(rng);
    }
    script.records
}

/// A piece for the transfer that is open, most often right. What is there already is sent again, or damaged.
fn any_piece(script: &mut Script, rng: &mut Rng) {
    let Open { size, piece, stored } = script.driver.transfer.open.unwrap_or(Open { size: 1, piece: 1, stored: 0 });
    let total = total(size, piece);
    let any = rng.next() as u16;
    let next = stored.wrapping_add(1);
    let number = rng.pick(&[next, next, next, next, stored, stored, stored, next.wrapping_add(1), 0, total, any]);
    let start = (u64::from(number.max(1)) - 1) * u64::from(piece);
    let end = (start + u64::from(piece)).min(size.into()).min(start + 4_000).max(start);
    let mut data = match script.driver.table.get(start as usize..end as usize) {
        Some(there) => there.to_vec(),
        None => rng.bytes((end - start) as usize),
    };
    match rng.below(12) {
        0 => data.push(0),
        1 => drop(data.pop()),
        2..=5 if !data.is_empty() => {
            let place = rng.between(0, data.len() - 1);
            data[place] ^= 1 << rng.below(8);
        }
        _ => {}
    }
    let total = if rng.once_in(12) { total.wrapping_add(1) } else { total };
    let flags = rng.pick(&[0, 0, 0, 0, 0, 0, 0, 0, 1, 2, 0xFFFE, 0xFFFF]);
    let payload = module::piece(number, total, &data);
    let frame = Frame { command: transfer::PIECE, number: any_number(rng), flags, payload: &payload };
    let buffer = if rng.once_in(12) { any_buffer(size.clamp(1, 131_072) as usize, rng) } else { size };
    script.call(frame, Terms { piece: 0, buffer, room: any_small_room(rng) });
}

/// Any records of all kinds, some of them too short, and an incomplete one at the end.
pub fn noise(rng: &mut Rng, _index: u64) -> Vec<u8> {
    let mut records = Vec::new();
    for _ in 0..RECORDS / 4 {
        let operation = match rng.below(20) {
            0 => rng.between(DEVICE.into(), 127) as u8,
            1..=3 => LINK + rng.below(8) as u8,
            4 | 5 => rng.pick(&[FEED, FINISH, STREAM, REPLY]),
            _ => rng.between(BEGIN.into(), DEVICE.into()) as u8,
        };
        let size = if rng.once_in(3) { rng.between(0, 12) } else { rng.between(12, 40) };
        let mut data = rng.bytes_from(&[0, 0, 0, 0, 0, 0, 1, 2, 0x0A, 0xFF], size);
        if operation == DEVICE && size >= 12 {
            data.truncate(12);
            data.extend(streams::frames(rng, 3));
            data.truncate(MAX_DATA);
        }
        push_record(&mut records, operation, &data);
    }
    push_record(&mut records, STORE, &rng.bytes(20));
    let cut = rng.between(1, 22);
    records.truncate(records.len() - cut);
    records
}

#[cfg(test)]
mod tests {
    use super::*;
    use crate::driver::{number, Driver};
    use crate::transfer::Progress;
    use crate::transfers::{CANCEL, STOP};

    fn records(mut script: &[u8]) -> Vec<(u8, &[u8])> {
        let mut records = Vec::new();
        while let Some((&[operation, high, low], rest)) = script.split_first_chunk() {
            let (data, rest) = rest.split_at(u16::from_be_bytes([high, low]).into());
            records.push((operation, data));
            script = rest;
        }
        records
    }

    /// What is said of every list of calls, told from the records and whether they are accepted.
    struct Ledger {
        /// Numbers and data of the pieces since the last accepted 19.
        pieces: Option<Vec<(u16, Vec<u8>)>>,
        size: u64,
        /// The buffer when that began.
        table: Vec<u8>,
    }

    impl Ledger {
        fn accept(&mut self, operation: u8, data: &[u8], table: &[u8]) {
            match operation {
                BEGIN => {
                    self.pieces = Some(Vec::new());
                    self.size = number(data, 13, 4);
                    self.table = table.to_vec();
                }
                STORE => {
                    let pieces = self.pieces.as_mut().expect("no piece is accepted without a transfer");
                    let piece = (number(data, 9, 2) as u16, data[13..].to_vec());
                    match pieces.iter().find(|known| known.0 == piece.0) {
                        Some(known) => assert_eq!(*known, piece),
                        None => pieces.push(piece),
                    }
                }
                _ => self.pieces = None,
            }
        }

        fn check(&mut self, driver: &Driver) {
            let Some(pieces) = &self.pieces else {
                assert_eq!(driver.transfer.progress(), Progress::Absent);
                return;
            };
            let joined: Vec<u8> = pieces.iter().flat_map(|(_, data)| data.clone()).collect();
            let stored = joined.len();
            assert_eq!(driver.transfer.progress(), Progress::Open { stored: stored as u64, size: self.size });
            assert!(driver.table[..stored] == joined && driver.table[stored..] == self.table[stored..]);
        }
    }

    #[test]
    fn stored_bytes_are_the_accepted_pieces_joined() {
        let mut complete = 0;
        for index in 0..20 {
            let script = life(&mut Rng::new(index), index);
            let mut driver = Driver::new();
            let mut ledger = Ledger { pieces: None, size: 0, table: driver.table.clone() };
            for (operation, data) in records(&script) {
                let (table, mut line) = (driver.table.clone(), Vec::new());
                driver.play_record(operation, data, &mut line);
                let is_accepted = line.split(|&byte| byte == b' ').nth(1) == Some(b"0");
                if matches!(operation, BEGIN | STORE | STOP | CANCEL) && is_accepted {
                    ledger.accept(operation, data, &table);
                    ledger.check(&driver);
                    let progress = driver.transfer.progress();
                    complete += usize::from(matches!(progress, Progress::Open { stored, size } if stored == size));
                } else {
                    assert!(driver.table == table);
                }
            }
            ledger.check(&driver);
        }
        assert!(complete > 20, "{complete}");
    }
}
