//! Scripts of bytes on the wire that the whole box handles.

use crate::driver::{FEED, FINISH, MAX_DATA, SET, STREAM};
use crate::followed::{
    any_announcement, any_buffer, any_link, any_number, any_open, any_room, any_small_room, pair_size, Script, Terms,
};
use crate::link::SENDABLE;
use crate::link_scripts::{SET_IDLE, SET_WAITING};
use crate::module::Module;
use crate::payloads;
use crate::random::Rng;
use crate::refusal_scripts::{set_link, set_transfer, BEFORE};
use crate::streams;
use crate::transfer::{self, Open};
use crate::transfers::TABLE_SIZE;
use crate::writer::wire_form;

/// The most bytes on the wire that one record holds.
pub const MAX_BYTES: usize = MAX_DATA - 12;
const RECORDS: usize = 300;

/// Frames on their way to the box.
#[derive(Default)]
pub struct Wire {
    pub bytes: Vec<u8>,
    /// A frame that the next one overtakes.
    late: Vec<u8>,
}

impl Wire {
    /// Most frames arrive as they were sent; others are damaged, lost, doubled or late.
    pub fn send(&mut self, mut frame: Vec<u8>, rng: &mut Rng) {
        match rng.below(40) {
            0 | 1 => streams::damage(&mut frame, rng),
            2 => frame.clear(),
            3 => frame.extend(frame.clone()),
            4 if self.late.is_empty() => std::mem::swap(&mut frame, &mut self.late),
            _ => frame.append(&mut self.late),
        }
        self.bytes.append(&mut frame);
    }

    /// All of it, most often in one record.
    pub fn arrive(&mut self, script: &mut Script, terms: Terms, rng: &mut Rng) {
        let mut left = &self.bytes[..];
        while !left.is_empty() {
            let most = left.len().min(MAX_BYTES);
            let size = if rng.once_in(6) { rng.between(1, most) } else { most };
            script.device(&left[..size], terms);
            left = &left[size..];
        }
        self.bytes.clear();
    }
}

/// Transfers one after the other on the wire, among other frames and calls of the link.
pub fn life(rng: &mut Rng, _index: u64) -> Vec<u8> {
    let mut script = Script::new(rng);
    let mut wire = Wire::default();
    let mut module = Module::any(rng);
    let mut buffer = module.table.len() as u32;
    for _ in 0..RECORDS {
        let terms = Terms { piece: module.piece, buffer, room: any_small_room(rng) };
        match rng.below(40) {
            0..=9 if script.is_free() => announce_another(&mut script, &mut wire, &mut module, &mut buffer, rng),
            0 => announce_another(&mut script, &mut wire, &mut module, &mut buffer, rng),
            1..=25 => {
                let (flags, payload) = module.troubled_piece(script.stored(), rng);
                wire.send(wire_form(transfer::PIECE, any_number(rng), flags, &payload), rng);
            }
            26 if rng.once_in(2) => {
                let payload = vec![0; rng.pick(&[0, 0, 0, 1])];
                wire.send(wire_form(transfer::STOP, any_number(rng), rng.next() as u16, &payload), rng);
            }
            27..=31 => wire.send(answer(&script, rng), rng),
            32 => wire.send(streams::frames(rng, 1), rng),
            _ => between(&mut script, &mut wire, terms, rng),
        }
        if !rng.once_in(6) {
            wire.arrive(&mut script, terms, rng);
        }
        if rng.once_in(3) {
            script.advance(rng);
        }
    }
    script.show(0, module.table.len() as u16 + 10);
    script.records
}

/// The answer that the link waits for, sometimes with a faulty payload.
fn answer(script: &Script, rng: &mut Rng) -> Vec<u8> {
    let (command, number) = script.fitting();
    let payload = payloads::likely(command, rng);
    wire_form(command, number, 0, &payload)
}

/// A 19 for another table. Where it is refused or lost, the old one is often sent on.
fn announce_another(script: &mut Script, wire: &mut Wire, module: &mut Module, buffer: &mut u32, rng: &mut Rng) {
    if !rng.once_in(4) {
        let (command, number) = script.fitting();
        wire.send(wire_form(command, number, 0, &[]), rng);
    }
    let other = Module::any(rng);
    let number = any_number(rng);
    let room = any_room(pair_size(number, script.driver.link.next, &other), rng);
    let lent = any_buffer(other.table.len(), rng);
    let (payload, terms) = any_announcement(&other, Terms { piece: other.piece, buffer: lent, room }, rng);
    wire.send(wire_form(transfer::ANNOUNCEMENT, number, rng.next() as u16, &payload), rng);
    wire.arrive(script, terms, rng);
    if script.has_begun(&other) || rng.once_in(6) {
        (*module, *buffer) = (other, lent);
    }
}

/// Calls between two frames, or inside one.
fn between(script: &mut Script, wire: &mut Wire, terms: Terms, rng: &mut Rng) {
    match rng.below(10) {
        0 | 1 => script.cancel(any_small_room(rng)),
        2..=5 => script.any_link_call(rng),
        6 => script.progress(),
        7 => {
            let size = rng.between(0, 4);
            wire.send(rng.bytes_from(&[0xFF, 0x55, 0x00], size), rng);
        }
        8 => {
            // The other calls of the reader take bytes away from the box.
            let size = rng.between(0, wire.bytes.len().min(20));
            let bytes: Vec<u8> = wire.bytes.drain(..size).collect();
            script.record(rng.pick(&[FEED, STREAM, FINISH]), &[&bytes]);
        }
        _ => script.device(&[], terms),
    }
}

/// A stream of any kind, handled in records of up to some size, among calls of the link.
pub fn of_stream(stream: &[u8], rng: &mut Rng) -> Vec<u8> {
    let mut script = Script::new(rng);
    match rng.below(8) {
        0 => script.set(any_open(rng)),
        1..=3 => script.set(Open { size: 10, piece: 4, stored: 2 }),
        _ => {}
    }
    let (size, piece) = (rng.pick(&[7, 60, 500, MAX_BYTES, MAX_BYTES]), rng.pick(&[0, 1, 4, 4, 128]));
    for bytes in stream.chunks(size) {
        if rng.once_in(8) {
            any_link(&mut script, rng);
        }
        let room = rng.pick(&[0, 9, 10, 11, 12, 12, 12, 60]);
        script.device(bytes, Terms { piece, buffer: TABLE_SIZE as u32, room });
    }
    script.records
}

/// Every command with payloads around its sizes, where the link often waits for it, and with small outputs.
pub fn commands(rng: &mut Rng, _index: u64) -> Vec<u8> {
    let mut script = Script::new(rng);
    for command in 0..=0xFF_u8 {
        for payload in payloads::around_sizes(command, rng) {
            let number = any_number(rng);
            let waiting = if rng.once_in(4) { rng.pick(&SENDABLE) } else { command.wrapping_sub(1) };
            let waiting = if SENDABLE.contains(&waiting) { waiting } else { rng.pick(&SENDABLE) };
            match rng.below(4) {
                0 => script.link(SET_IDLE, [number, 0, 0, 0]),
                1 => script.link(SET_WAITING, [number, waiting, number.wrapping_add(1), 0]),
                _ => script.link(SET_WAITING, [number, waiting, number, 0]),
            }
            let flags = if rng.once_in(2) { 0 } else { rng.next() as u16 };
            let room = rng.pick(&[0, 8, 9, 10, 11, 12, 60]);
            let wire = wire_form(command, number, flags, &payload);
            script.device(&wire, Terms { piece: 128, buffer: TABLE_SIZE as u32, room });
        }
    }
    script.records
}

/// Every answer of the reader in each state of transfer and link, and of the reader itself.
pub fn states(rng: &mut Rng, _index: u64) -> Vec<u8> {
    let mut script = Script::new(rng);
    for bytes in answered(rng) {
        for (transfer, link) in BEFORE.into_iter().flat_map(|transfer| BEFORE.map(|link| (transfer, link))) {
            for consumed in [0, 0, (1 << 62) - 9, (1 << 62) + 1] {
                script.record(SET, &[&u64::to_be_bytes(consumed)]);
                set_transfer(&mut script, transfer, rng);
                set_link(&mut script, link, rng);
                let room = rng.pick(&[0, 9, 10, 11, 60, 60, 60]);
                script.device(&bytes, Terms { piece: 4, buffer: 10, room });
            }
        }
    }
    script.records
}

/// Bytes for each answer of the reader, and for each kind of frame.
fn answered(rng: &mut Rng) -> Vec<Vec<u8>> {
    let number = any_number(rng);
    let frame = |command, payload: &[u8]| wire_form(command, number, 0, payload);
    let heartbeat = frame(0x07, &[]);
    let mut wrong_sum = frame(transfer::PIECE, &[0, 1, 0, 3, 1, 2, 3, 4]);
    wrong_sum[8] ^= 1;
    vec![
        vec![],
        vec![0xFF, 0xFF, 0],
        vec![0xFF, 0xFF, 0, 4],
        vec![0xFF, 0xFF, 4, 1],
        vec![0xFF, 0xFF, 0, 5, 7, 0xFF, 0],
        vec![0xFF, 0xFF, 0, 5, 7, 1, 0, 0, 0xFF, 0],
        [&[0xFF, 0xFF, 0][..], &heartbeat].concat(),
        [&wrong_sum[..], &heartbeat].concat(),
        heartbeat,
        frame(0x01, &[]),
        frame(0x03, &[2]),
        frame(0x1C, &[]),
        frame(0x28, &[0]),
        frame(0x06, &[]),
        frame(0x99, &[]),
        frame(transfer::ANNOUNCEMENT, &[0, 0, 0, 10, 0, 0]),
        frame(transfer::ANNOUNCEMENT, &[0, 0, 0, 10, 0, 1]),
        frame(transfer::PIECE, &[0, 3, 0, 3, 1, 2]),
        frame(transfer::PIECE, &[0, 3, 0]),
        frame(transfer::STOP, &[]),
        frame(transfer::STOP, &[0]),
    ]
}

#[cfg(test)]
mod tests {
    use super::*;
    use crate::reader::{Answer, Reader};

    /// Each answer of the reader is met where transfer and link are in range.
    #[test]
    fn every_answer_of_the_reader() {
        let streams = answered(&mut Rng::new(1));
        let mut numbers = Vec::new();
        for stream in &streams {
            for consumed in [0, (1 << 62) - 9, (1 << 62) + 1] {
                numbers.push(match Reader::having_consumed(consumed).feed(stream) {
                    Answer::More { .. } => 0,
                    Answer::Decided { verdict, .. } => verdict.number(),
                    Answer::State => 17,
                    Answer::Used => 18,
                });
            }
        }
        numbers.sort();
        numbers.dedup();
        assert_eq!(numbers, [0, 1, 11, 12, 13, 14, 15, 17, 18, 19]);
    }
}
