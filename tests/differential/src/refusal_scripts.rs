//! Scripts in which a call of a transfer could be refused for several reasons at once, and with every size of the
//! output.

use crate::followed::{any_number, pair_size, Script, Terms};
use crate::link_scripts::{SET_IDLE, SET_WAITING};
use crate::module::{self, any_bytes, Module};
use crate::random::Rng;
use crate::transfer::{self, Frame, Open};
use crate::writer::wire_form;

/// A transfer in range, and some that are not.
const IN_RANGE: Open = Open { size: 10, piece: 4, stored: 2 };
const OUT_OF_RANGE: [Open; 5] = [
    Open { size: 0, piece: 4, stored: 0 },
    Open { size: 10, piece: 0, stored: 0 },
    Open { size: 10, piece: 4, stored: 4 },
    Open { size: 65_536, piece: 1, stored: 0 },
    Open { size: u32::MAX, piece: 65_535, stored: 0 },
];

/// What a transfer or a link is before the call.
#[derive(Clone, Copy, PartialEq)]
pub enum Before {
    Nothing,
    InRange,
    OutOfRange,
}

pub const BEFORE: [Before; 3] = [Before::Nothing, Before::InRange, Before::OutOfRange];

pub fn set_transfer(script: &mut Script, before: Before, rng: &mut Rng) {
    match before {
        Before::Nothing => script.fresh(),
        Before::InRange => script.set(IN_RANGE),
        Before::OutOfRange => script.set(rng.pick(&OUT_OF_RANGE)),
    }
}

pub fn set_link(script: &mut Script, before: Before, rng: &mut Rng) {
    let next = any_number(rng);
    match before {
        Before::Nothing => script.link(SET_IDLE, [next, 0, 0, 0]),
        Before::InRange => script.link(SET_WAITING, [next, rng.pick(&[0x05, 0x1B, 0x27]), next.wrapping_sub(1), 2]),
        Before::OutOfRange => {
            let (command, repeats) = rng.pick(&[(0x05, 3), (0x1B, 255), (0x1A, 0), (0x00, 0), (0x2A, 1)]);
            script.link(SET_WAITING, [next, command, 0, repeats]);
        }
    }
}

/// How many scripts `announcements` has: one for each state of transfer and link.
pub const ANNOUNCEMENT_SETS: u64 = 9;

/// Every 19 in one state of transfer and link: its size, the buffer, our piece size, its check code and its output can
/// each be wrong.
pub fn announcements(rng: &mut Rng, index: u64) -> Vec<u8> {
    let mut script = Script::new(rng);
    let (transfer, link) = (BEFORE[index as usize % 3], BEFORE[index as usize / 3]);
    for (size, piece) in pairs(&[0, 10, 70_000], &[0, 1, 200]) {
        for (lacking, code_size) in pairs(&[0, 1], &[2, 1_015, 1_016]) {
            for (cut, room) in pairs(&[0, 1], &[0, 9, 12, 1_100]) {
                set_transfer(&mut script, transfer, rng);
                set_link(&mut script, link, rng);
                let mut payload = module::announcement(size, &vec![0x63; code_size]);
                if cut == 1 {
                    payload.truncate(rng.between(0, payload.len() - 1));
                } else if rng.once_in(12) {
                    payload.push(0);
                }
                let frame =
                    Frame { command: transfer::ANNOUNCEMENT, number: any_number(rng), flags: 0, payload: &payload };
                script.call(frame, Terms { piece, buffer: size.saturating_sub(lacking), room });
            }
        }
    }
    script.records
}

/// Transfers with 3 pieces of 4 bytes, the last one of 2, and others whose sizes are extreme.
const PLACES: [Option<Open>; 8] = [
    None,
    Some(Open { size: 10, piece: 4, stored: 0 }),
    Some(Open { size: 10, piece: 4, stored: 1 }),
    Some(Open { size: 10, piece: 4, stored: 2 }),
    Some(Open { size: 10, piece: 4, stored: 3 }),
    Some(Open { size: 65_535, piece: 1, stored: 65_534 }),
    Some(Open { size: 131_070, piece: 2, stored: 65_535 }),
    Some(Open { size: 10, piece: 4, stored: 4 }),
];

/// How many scripts `pieces` has: one for each of these transfers.
pub const PIECE_SETS: u64 = PLACES.len() as u64;

/// Every 1D for one transfer: its size, the buffer, its flags, total, number and data and its output can each be wrong.
/// What it stores is shown.
pub fn pieces(rng: &mut Rng, index: u64) -> Vec<u8> {
    let mut script = Script::new(rng);
    script.fill(0x5A);
    let before = PLACES[index as usize];
    let open = before.unwrap_or(Open { size: 10, piece: 4, stored: 1 });
    let total = open.size.div_ceil(open.piece.into()) as u16;
    let near = [0, open.stored.wrapping_sub(1), open.stored, open.stored.wrapping_add(1), open.stored.wrapping_add(2)];
    for (number, data) in pairs(&near, &[Data::Right, Data::Other, Data::Less, Data::More]) {
        for (lacking, hex_line) in pairs(&[0, 1], &[0, 1]) {
            for (wrong_total, room) in pairs(&[0, 1], &[rng.below(9) as u16, 12]) {
                match before {
                    None => script.fresh(),
                    Some(open) => script.set(open),
                }
                let mut payload =
                    module::piece(number, total.wrapping_add(wrong_total), &data.for_piece(number, open, &script, rng));
                if rng.once_in(12) {
                    payload.truncate(rng.between(0, 4));
                }
                let flags = rng.pick(&[0, 0xFFFE, 0x0100, 2]) | hex_line;
                let frame = Frame { command: transfer::PIECE, number: any_number(rng), flags, payload: &payload };
                script.call(frame, Terms { piece: 0, buffer: open.size - lacking, room });
                let start = u32::from(number.saturating_sub(1)) * u32::from(open.piece);
                script.show(start.saturating_sub(2), open.piece + 4);
            }
        }
    }
    script.records
}

/// The data of a piece: what is there, one byte of it changed, one byte less or one more.
#[derive(Clone, Copy)]
enum Data {
    Right,
    Other,
    Less,
    More,
}

impl Data {
    fn for_piece(self, number: u16, open: Open, script: &Script, rng: &mut Rng) -> Vec<u8> {
        let start = usize::from(number.saturating_sub(1)) * usize::from(open.piece);
        let end = (start + usize::from(open.piece)).min(open.size as usize).max(start);
        let mut data = script.driver.table.get(start..end).unwrap_or(&[0]).to_vec();
        match self {
            Data::Right => {}
            Data::Other if data.is_empty() => {}
            Data::Other => {
                let place = rng.between(0, data.len() - 1);
                data[place] ^= 1 << rng.below(8);
            }
            Data::Less => drop(data.pop()),
            Data::More => data.push(0x5A),
        }
        data
    }
}

/// Every 1F and every 27 in each state of transfer and link.
pub fn cancellations(rng: &mut Rng, _index: u64) -> Vec<u8> {
    let mut script = Script::new(rng);
    for (transfer, link) in pairs(&BEFORE, &BEFORE) {
        for room in 0..=12 {
            for size in [0, 1] {
                set_transfer(&mut script, transfer, rng);
                let payload = rng.bytes(size);
                let frame = Frame { command: transfer::STOP, number: any_number(rng), flags: 0, payload: &payload };
                script.call(frame, Terms { piece: 0, buffer: 0, room });
            }
            set_transfer(&mut script, transfer, rng);
            set_link(&mut script, link, rng);
            script.cancel(room);
            script.progress();
        }
    }
    script.records
}

/// Each call that writes something, accepted and refused, with every size of the output from 0 to two more than it
/// needs, as a call and on the wire.
pub fn every_room(rng: &mut Rng, _index: u64) -> Vec<u8> {
    let mut script = Script::new(rng);
    let module = Module::new(any_bytes(10, rng), 4, rng);
    let number = any_number(rng);
    let next = any_number(rng);
    let [first, second] = [1, 2].map(|place| module.piece(place));
    let wrong = [&first[..4], &[first[4] ^ 1], &first[5..]].concat();
    let announcement = module.announcement();
    let pair = pair_size(number, next, &module);
    let cases: [(u8, &[u8], usize); 8] = [
        (transfer::ANNOUNCEMENT, &announcement, pair),
        (transfer::ANNOUNCEMENT, &[0; 6], 11),
        (transfer::PIECE, &second, 11),
        (transfer::PIECE, &first, 11),
        (transfer::PIECE, &wrong, 11),
        (transfer::STOP, &[], 11),
        (transfer::STOP, &[0], 11),
        (0x07, &[], 11),
    ];
    for (command, payload, needed) in cases {
        let frame = Frame { command, number, flags: 0, payload };
        let wire = wire_form(command, number, 0, payload);
        for room in 0..=needed as u16 + 2 {
            let terms = Terms { piece: module.piece, buffer: 10, room };
            for on_the_wire in [false, true] {
                open_with_one_piece(&mut script, &module, next);
                if on_the_wire {
                    script.device(&wire, terms);
                } else if command != 0x07 {
                    script.call(frame, terms);
                }
                script.show(0, 12);
            }
        }
    }
    for room in 0..=13 {
        open_with_one_piece(&mut script, &module, next);
        script.cancel(room);
    }
    script.records
}

/// A transfer whose first piece is stored, and an idle link.
fn open_with_one_piece(script: &mut Script, module: &Module, next: u8) {
    script.fill(0xAA);
    script.set(Open { size: module.table.len() as u32, piece: module.piece, stored: 0 });
    script.link(SET_IDLE, [next, 0, 0, 0]);
    let payload = module.piece(1);
    let frame = Frame { command: transfer::PIECE, number: 0, flags: 0, payload: &payload };
    script.call(frame, Terms { piece: 0, buffer: module.table.len() as u32, room: 9 });
}

fn pairs<A: Copy, B: Copy>(first: &[A], second: &[B]) -> Vec<(A, B)> {
    first.iter().flat_map(|&a| second.iter().map(move |&b| (a, b))).collect()
}
