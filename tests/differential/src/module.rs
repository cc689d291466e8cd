//! The module's side of a transfer: a table that it announces and sends in pieces, with or without trouble.

use crate::random::Rng;

/// The most bytes of a piece that a frame can carry.
pub const MAX_PIECE: usize = 1_015;

pub struct Module {
    pub table: Vec<u8>,
    pub check_code: Vec<u8>,
    /// Bytes of each piece but the last, as the box wants them.
    pub piece: u16,
}

impl Module {
    pub fn new(table: Vec<u8>, piece: u16, rng: &mut Rng) -> Module {
        let size = rng.pick(&[0, 1, 2, 32, 32, 40]);
        Module { table, check_code: any_bytes(size, rng), piece }
    }

    /// A table of which most have few pieces, so that many are sent whole.
    pub fn any(rng: &mut Rng) -> Module {
        let size = match rng.below(8) {
            0 => rng.between(1, 3),
            1..=5 => rng.between(2, 60),
            6 => rng.between(60, 400),
            // A piece of all of it still fits a record.
            _ => rng.between(1_000, 3_800),
        };
        let piece = match rng.below(8) {
            0 => size,
            1 => size + 1,
            2 => (size - 1).max(1),
            3 => rng.pick(&[1, 128, MAX_PIECE, MAX_PIECE + 1, 65_535]),
            _ => rng.between(size.div_ceil(8), size),
        };
        Module::new(any_bytes(size, rng), piece as u16, rng)
    }

    /// How many pieces the table has.
    pub fn total(&self) -> u16 {
        self.table.len().div_ceil(self.piece.into()) as u16
    }

    /// The payload of a 19.
    pub fn announcement(&self) -> Vec<u8> {
        announcement(self.table.len() as u32, &self.check_code)
    }

    /// The payload of a 1D; a piece beyond the table has no data.
    pub fn piece(&self, number: u16) -> Vec<u8> {
        piece(number, self.total(), self.data(number))
    }

    fn data(&self, number: u16) -> &[u8] {
        let data = self.table.chunks(self.piece.into()).nth(usize::from(number).wrapping_sub(1));
        data.unwrap_or(&[])
    }

    /// Flags and payload of a 1D while this number is the last that the box stored. About half are the next piece as it
    /// should be; others are repeated, lost, late, damaged or too large.
    pub fn troubled_piece(&self, stored: u16, rng: &mut Rng) -> (u16, Vec<u8>) {
        let number = match rng.below(20) {
            0..=12 => stored.wrapping_add(1),
            13..=15 => stored,
            16 => stored.wrapping_add(2),
            17 => stored.wrapping_sub(1),
            18 => rng.pick(&[0, 1, self.total(), self.total().wrapping_add(1), 65_535]),
            _ => rng.next() as u16,
        };
        let mut data = self.data(number).to_vec();
        trouble(&mut data, rng);
        let total = if rng.once_in(20) { any_total(self.total(), rng) } else { self.total() };
        let flags = match rng.below(24) {
            0 => 1,
            1 => rng.next() as u16,
            2 => 0xFFFE,
            3 => 1 << rng.below(16),
            _ => 0,
        };
        let mut payload = piece(number, total, &data);
        if rng.once_in(40) {
            payload.truncate(rng.between(0, 4));
        }
        (flags, payload)
    }
}

/// A byte changed, lost or added, or many of them; most data stay as they are.
fn trouble(data: &mut Vec<u8>, rng: &mut Rng) {
    match rng.below(24) {
        0 if !data.is_empty() => {
            let place = rng.between(0, data.len() - 1);
            data[place] ^= 1 << rng.below(8);
        }
        1 => drop(data.pop()),
        2 => data.push(rng.byte()),
        3 => data.clear(),
        4 => {
            let more = rng.between(1, 200);
            data.extend(rng.bytes(more));
        }
        5 => data.resize(rng.pick(&[MAX_PIECE, 128]), 0),
        _ => {}
    }
}

fn any_total(total: u16, rng: &mut Rng) -> u16 {
    rng.pick(&[0, 1, 65_535, total.wrapping_sub(1), total.wrapping_add(1), total.swap_bytes()])
}

pub fn announcement(size: u32, check_code: &[u8]) -> Vec<u8> {
    [&size.to_be_bytes()[..], &(check_code.len() as u16).to_be_bytes(), check_code].concat()
}

pub fn piece(number: u16, total: u16, data: &[u8]) -> Vec<u8> {
    [&number.to_be_bytes()[..], &total.to_be_bytes(), data].concat()
}

/// Some tables are full of FF, as far as can be.
pub fn any_bytes(size: usize, rng: &mut Rng) -> Vec<u8> {
    match rng.below(4) {
        0 => rng.bytes_from(&[0xFF, 0xFF, 0x55, 0x00], size),
        1 => vec![rng.pick(&[0xFF, 0xAA, 0x00]); size],
        _ => rng.bytes(size),
    }
}
