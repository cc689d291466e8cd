//! Families of byte streams, each aimed at one kind of trouble.

use crate::breaks;
use crate::payloads;
use crate::random::Rng;
use crate::writer::{body, framed, sealed, wire_form, MAX_PAYLOAD};

/// Bytes that headers, stuffing and lengths are made of.
const FEW: [u8; 6] = [0xFF, 0x55, 0x00, 0x05, 0x04, 0x01];
/// Lengths at which something changes.
const EDGES: [u16; 22] = [
    0, 1, 4, 5, 6, 7, 0x00FE, 0x00FF, 0x0100, 1_022, 1_023, 1_024, 1_025, 1_026, 0x04FF, 0x05FF, 65_278, 65_279,
    65_280, 65_281, 0xFFFE, 0xFFFF,
];

/// Valid frames, sometimes with other bytes between them.
pub fn whole(rng: &mut Rng, _index: u64) -> Vec<u8> {
    let mut stream = Vec::new();
    for _ in 0..rng.between(1, 8) {
        stream.extend(frame(rng));
        if rng.once_in(4) {
            let size = rng.between(1, 12);
            stream.extend(rng.bytes(size));
        }
    }
    stream
}

/// Frames with a few bytes changed, dropped or doubled.
pub fn damaged(rng: &mut Rng, _index: u64) -> Vec<u8> {
    let mut stream = frames(rng, 4);
    for _ in 0..rng.between(1, 3) {
        damage(&mut stream, rng);
    }
    stream
}

/// Changes, drops or doubles one byte.
pub fn damage(stream: &mut Vec<u8>, rng: &mut Rng) {
    if stream.is_empty() {
        return;
    }
    let place = rng.between(0, stream.len() - 1);
    match rng.below(4) {
        0 => stream[place] = rng.byte(),
        1 => stream[place] = rng.pick(&FEW),
        2 => drop(stream.remove(place)),
        _ => stream.insert(place, stream[place]),
    }
}

/// Frames cut by the next header.
pub fn cut(rng: &mut Rng, _index: u64) -> Vec<u8> {
    let mut stream = Vec::new();
    for _ in 0..rng.between(1, 6) {
        let frame = frame(rng);
        let kept = rng.between(0, frame.len());
        stream.extend_from_slice(&frame[..kept]);
    }
    stream.extend(frame(rng));
    stream
}

/// Payloads that need as much stuffing as can be.
pub fn brim(rng: &mut Rng, _index: u64) -> Vec<u8> {
    let mut stream = Vec::new();
    for _ in 0..rng.between(1, 3) {
        let size = rng.pick(&[MAX_PAYLOAD, MAX_PAYLOAD - 1, 1, 64]);
        let size = if rng.once_in(2) { size } else { rng.between(0, MAX_PAYLOAD) };
        let payload = rng.bytes_from(&[0xFF, 0xFF, 0x55], size);
        stream.extend(any_frame(&payload, rng));
    }
    stream
}

/// Any bytes; in half of the streams FF is frequent, because headers are rare otherwise.
pub fn noise(rng: &mut Rng, _index: u64) -> Vec<u8> {
    let size = rng.between(1, 3_000);
    let mut stream = rng.bytes(size);
    if rng.once_in(2) {
        for byte in &mut stream {
            *byte |= if rng.once_in(6) { 0xFF } else { 0 };
        }
    }
    stream
}

/// Noise in which headers, lengths and stuffing are frequent, and here and there a frame made of the same bytes.
pub fn few_bytes(rng: &mut Rng, _index: u64) -> Vec<u8> {
    let mut stream = Vec::new();
    for _ in 0..rng.between(1, 12) {
        let size = rng.between(1, 120);
        stream.extend(rng.bytes_from(&FEW, size));
        let size = rng.between(0, 12);
        let payload = rng.bytes_from(&FEW, size);
        stream.extend(wire_form(rng.pick(&FEW), rng.pick(&FEW), u16::from(rng.pick(&FEW)) << 8, &payload));
    }
    stream
}

/// Runs of FF before, inside and after frames.
pub fn half_headers(rng: &mut Rng, _index: u64) -> Vec<u8> {
    let mut stream = ff_run(rng);
    for _ in 0..rng.between(1, 4) {
        let mut frame = frame(rng);
        if rng.once_in(2) {
            let place = rng.between(0, frame.len());
            let rest = frame.split_off(place);
            frame.extend(ff_run(rng));
            frame.extend(rest);
        }
        stream.extend(frame);
        stream.extend(ff_run(rng));
    }
    stream
}

pub fn all_ff(rng: &mut Rng, _index: u64) -> Vec<u8> {
    let mut stream = Vec::new();
    for _ in 0..rng.between(1, 3) {
        let size = if rng.once_in(4) { MAX_PAYLOAD } else { rng.between(0, MAX_PAYLOAD) };
        stream.extend(any_frame(&vec![0xFF; size], rng));
    }
    stream
}

/// Length fields at their edges, then as many bytes as they name, or another number of bytes.
pub fn lengths(rng: &mut Rng, _index: u64) -> Vec<u8> {
    let mut stream = Vec::new();
    for _ in 0..rng.between(1, 5) {
        let length = rng.pick(&EDGES);
        let named = usize::from(length).saturating_sub(1).min(1_200);
        let size = if rng.once_in(4) { rng.between(0, 20) } else { named };
        let mut body = length.to_be_bytes().to_vec();
        body.extend(if rng.once_in(2) { rng.bytes(size) } else { rng.bytes_from(&FEW, size) });
        stream.extend(framed(&sealed(body)));
    }
    stream.extend(frame(rng));
    stream
}

pub fn empty(_rng: &mut Rng, _index: u64) -> Vec<u8> {
    Vec::new()
}

/// Frames of one command, the index modulo 256, with payloads around its sizes.
pub fn commands(rng: &mut Rng, index: u64) -> Vec<u8> {
    let command = index as u8;
    let mut stream = Vec::new();
    for payload in payloads::around_sizes(command, rng) {
        let flags = if rng.once_in(2) { 0 } else { rng.next() as u16 };
        stream.extend(wire_form(command, rng.byte(), flags, &payload));
    }
    stream
}

/// Frames of which some have a wrong checksum.
pub fn wrong_sums(rng: &mut Rng, _index: u64) -> Vec<u8> {
    let mut stream = Vec::new();
    for _ in 0..rng.between(2, 8) {
        let command = command(rng);
        let payload = payloads::likely(command, rng);
        let mut body = sealed(body(command, rng.byte(), 0, &payload));
        if rng.once_in(2) {
            let off = rng.pick(&[1, 0xFF, 0x55, 0x80]);
            let last = body.len() - 1;
            body[last] = body[last].wrapping_add(off);
        }
        stream.extend(framed(&body));
    }
    stream
}

/// How many inputs `every_sum` has.
pub const SUM_SETS: u64 = 8;

/// One body with every byte as its checksum: both sums are answered (PROTOCOL 4.20).
pub fn every_sum(rng: &mut Rng, index: u64) -> Vec<u8> {
    let payload = if index.is_multiple_of(2) { vec![0xFF; index as usize] } else { rng.bytes(index as usize) };
    let body = body(rng.byte(), rng.byte(), rng.next() as u16, &payload);
    (0..=0xFF).flat_map(|sum| framed(&[&body[..], &[sum]].concat())).collect()
}

/// More than any program reads at once, of all kinds.
pub fn long(rng: &mut Rng, index: u64) -> Vec<u8> {
    let size = rng.between(70_000, 300_000);
    let kinds: [fn(&mut Rng, u64) -> Vec<u8>; 11] =
        [whole, damaged, cut, brim, noise, few_bytes, half_headers, all_ff, lengths, wrong_sums, breaks::anywhere];
    let mut stream = Vec::new();
    while stream.len() < size {
        let kind = rng.pick(&kinds);
        stream.extend(kind(rng, index));
    }
    stream
}

/// How many inputs `every_bit` has.
pub const BIT_SETS: u64 = 9;

/// Every value of the bytes that are read bit by bit or that choose something.
pub fn every_bit(rng: &mut Rng, index: u64) -> Vec<u8> {
    let of_byte = |value: u8, rng: &mut Rng| -> Vec<(u8, Vec<u8>)> {
        let low = rng.below(8) as u8;
        match index {
            0 => vec![(3, vec![1, value >> 4, value & 15, 1, 2])],
            1 => vec![(3, vec![1, value, low, 1, 2]), (3, vec![1, low, value, 1, 2])],
            2 | 3 => {
                let command = 2 + index as u8;
                let status = |switches, faults| vec![command - 1, switches, 1, 2, 3, 4, 5, 6, faults];
                vec![(command, status(value, low)), (command, status(low, value))]
            }
            4 => [0x09, 0x11, 0x12].map(|command| (command, vec![value])).into(),
            5 => vec![(0x0D, vec![value, rng.byte()]), (0x0D, vec![rng.byte(), value])],
            6 => [0, 4].map(|rest| (3, [vec![value], vec![0; rest]].concat())).into(),
            7 => [0, 8].map(|rest| (4, [vec![value], vec![0; rest]].concat())).into(),
            _ => [0, 8].map(|rest| (5, [vec![value], vec![0; rest]].concat())).into(),
        }
    };
    let mut stream = Vec::new();
    for value in 0..=255 {
        for (command, payload) in of_byte(value, rng) {
            stream.extend(wire_form(command, value, 0, &payload));
        }
    }
    stream
}

/// Some valid frames, one after the other.
pub fn frames(rng: &mut Rng, most: usize) -> Vec<u8> {
    (0..rng.between(1, most)).flat_map(|_| frame(rng)).collect()
}

/// A valid frame, most often of a listed command and with a payload of its kind.
fn frame(rng: &mut Rng) -> Vec<u8> {
    let command = command(rng);
    let payload = payloads::likely(command, rng);
    let flags = if rng.once_in(3) { rng.next() as u16 } else { 0 };
    wire_form(command, rng.byte(), flags, &payload)
}

/// A valid frame with this payload and anything else.
fn any_frame(payload: &[u8], rng: &mut Rng) -> Vec<u8> {
    wire_form(rng.byte(), rng.byte(), rng.next() as u16, payload)
}

fn command(rng: &mut Rng) -> u8 {
    if rng.once_in(8) {
        rng.byte()
    } else {
        rng.between(0, 0x2B) as u8
    }
}

fn ff_run(rng: &mut Rng) -> Vec<u8> {
    vec![0xFF; rng.between(0, 5)]
}
