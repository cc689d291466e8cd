//! Long random streams for measuring.

use crate::random::Rng;
use crate::writer::{wire_form, MAX_PAYLOAD};
use std::io::{self, Write};

const CHUNK: usize = 64 * 1_024;

#[derive(Clone, Copy)]
pub enum Kind {
    Reports,
    AllFf,
    Noise,
}

impl Kind {
    pub fn named(name: &str) -> Option<Kind> {
        match name {
            "reports" => Some(Kind::Reports),
            "ff" => Some(Kind::AllFf),
            "noise" => Some(Kind::Noise),
            _ => None,
        }
    }
}

/// Writes so many bytes; frames are whole, so it may be up to one frame more.
pub fn generate(kind: Kind, seed: u64, count: u64, output: &mut impl Write) -> io::Result<()> {
    let mut rng = Rng::new(seed);
    let mut number = 0u8;
    let mut leaf = 0u32;
    let mut left = count;
    while left > 0 {
        let mut chunk = Vec::with_capacity(2 * CHUNK);
        let size = left.min(CHUNK as u64) as usize;
        while chunk.len() < size {
            number = if number == 255 { 1 } else { number + 1 };
            leaf = leaf.wrapping_add(1);
            match kind {
                Kind::Reports => chunk.extend(wire_form(0x05, number, 0, &report(leaf, &mut rng))),
                Kind::AllFf => chunk.extend(wire_form(0x1D, number, 0, &[0xFF; MAX_PAYLOAD])),
                Kind::Noise => noise(&mut chunk, size, &mut rng),
            }
        }
        output.write_all(&chunk)?;
        left = left.saturating_sub(chunk.len() as u64);
    }
    output.flush()
}

fn noise(chunk: &mut Vec<u8>, size: usize, rng: &mut Rng) {
    while chunk.len() < size {
        let word = rng.next().to_be_bytes();
        let part = word.len().min(size - chunk.len());
        chunk.extend_from_slice(&word[..part]);
    }
}

/// A counter at work: the leaf runs on, faults are rare.
fn report(leaf: u32, rng: &mut Rng) -> [u8; 9] {
    let draw = rng.next();
    let mode = (draw % 3) as u8;
    let lamp = (draw >> 8 & 1) as u8;
    let volume = (draw >> 16) as u8 % 40;
    let faults = if draw >> 32 & 63 == 0 { 1 << (draw >> 40 & 1) } else { 0 };
    let [a, b, c, d] = leaf.to_be_bytes();
    [4, 1 | lamp << 1 | mode << 2, 0, volume, a, b, c, d, faults]
}
