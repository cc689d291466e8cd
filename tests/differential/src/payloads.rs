//! Payloads for each command, mostly right and sometimes wrong in size or fields.

use crate::random::Rng;

/// Sizes around which a payload of this command is worth trying.
pub fn sizes(command: u8) -> &'static [usize] {
    match command {
        0x02 => &[66, 74, 106],
        0x03 => &[1, 5],
        0x04 => &[0, 9],
        0x05 => &[1, 9],
        0x09 | 0x11 | 0x12 => &[1],
        0x0D => &[2],
        0x18 => &[7, 11],
        0x19 => &[6, 7, 38],
        0x1B => &[4, 5, 36],
        0x1D => &[4, 5, 132],
        _ => &[0],
    }
}

/// Each size, one less and one more, with fields drawn anew.
pub fn around_sizes(command: u8, rng: &mut Rng) -> Vec<Vec<u8>> {
    let mut payloads = Vec::new();
    for &size in sizes(command) {
        for near in [size, size, size.saturating_sub(1), size + 1] {
            payloads.push(sample(command, near, rng));
        }
    }
    let any = rng.between(0, 140);
    payloads.push(sample(command, any, rng));
    payloads
}

/// One payload of a size that fits the command, most of the time.
pub fn likely(command: u8, rng: &mut Rng) -> Vec<u8> {
    let size = if rng.once_in(6) { rng.between(0, 120) } else { rng.pick(sizes(command)) };
    sample(command, size, rng)
}

/// A payload of this size; its fields are allowed ones more often than not.
pub fn sample(command: u8, size: usize, rng: &mut Rng) -> Vec<u8> {
    let mut payload = rng.bytes(size);
    match command {
        0x03 => request(&mut payload, rng),
        0x04 | 0x05 => status(command - 1, &mut payload, rng),
        0x09 => first(&mut payload, &[0, 1, 1, 2, 2, 3, 0xFF], rng),
        0x11 | 0x12 => first(&mut payload, &[0, 1, 2, 3, 4, 5, 0xFF], rng),
        0x19 => count_field(&mut payload, 4, 6, rng),
        0x1B => count_field(&mut payload, 0, 4, rng),
        _ => {}
    }
    payload
}

fn first(payload: &mut [u8], choices: &[u8], rng: &mut Rng) {
    if let Some(byte) = payload.first_mut() {
        *byte = rng.pick(choices);
    }
}

/// Control (5 bytes) or query (1 byte); the first byte says which.
fn request(payload: &mut [u8], rng: &mut Rng) {
    let begin = if payload.len() == 1 { 2 } else { 1 };
    first(payload, &[begin, begin, begin, begin, 0, 1, 2, 3], rng);
    for place in [1, 2] {
        keep_low_bits(payload, place, 7, rng);
    }
}

fn status(begin: u8, payload: &mut [u8], rng: &mut Rng) {
    first(payload, &[begin, begin, begin, begin, begin, 1, 3, 4], rng);
    keep_low_bits(payload, 1, 15, rng);
    keep_low_bits(payload, 8, 7, rng);
}

/// Clears the bits that must be zero, or mostly so.
fn keep_low_bits(payload: &mut [u8], place: usize, bits: u8, rng: &mut Rng) {
    if let Some(byte) = payload.get_mut(place) {
        *byte &= bits;
        if rng.once_in(8) {
            *byte |= 1 << rng.below(8);
        }
    }
}

/// The two bytes that count a check code, right but for one time in four.
fn count_field(payload: &mut [u8], place: usize, others: usize, rng: &mut Rng) {
    let off = rng.pick(&[0, 0, 0, 0, 0, 0, 1, 0xFFFF]);
    let count = (payload.len() as u16).wrapping_sub(others as u16).wrapping_add(off);
    if let Some(field) = payload.get_mut(place..place + 2) {
        field.copy_from_slice(&count.to_be_bytes());
    }
}
