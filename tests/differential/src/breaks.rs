//! Families of streams with frames whose stuffing breaks (PROTOCOL 3.11, 4.6, 4.19). None breaks at the first body
//! byte: an FF directly after the header moves the start.

use crate::random::Rng;
use crate::streams;
use crate::writer::{body, framed, sealed, MAX_PAYLOAD};

/// Bytes that break the stuffing and are one bit away from 55 or from FF, and the least two.
const NEAR: [u8; 18] =
    [0x54, 0x57, 0x51, 0x5D, 0x45, 0x75, 0x15, 0xD5, 0xFE, 0xFD, 0xFB, 0xF7, 0xEF, 0xDF, 0xBF, 0x7F, 0x00, 0x01];
/// Sizes of payloads at which something changes: the least, those whose length has the byte FF, and the greatest.
const EDGES: [usize; 8] = [0, 1, 2, 250, 506, 1_018, MAX_PAYLOAD - 1, MAX_PAYLOAD];

/// Frames of any size, each broken at any place of its body. The places around the first payload byte and the checksum
/// come more often than others.
pub fn anywhere(rng: &mut Rng, _index: u64) -> Vec<u8> {
    let mut stream = Vec::new();
    for _ in 0..rng.between(1, 6) {
        let any = rng.between(0, MAX_PAYLOAD);
        let size = rng.pick(&[any % 20, any % 20, any, EDGES[any % EDGES.len()]]);
        let body = any_body(size, rng);
        let last = body.len() - 1;
        let place = match rng.below(4) {
            0 => rng.between(4, 8).min(last),
            1 => last,
            _ => rng.between(1, last),
        };
        add_broken(&mut stream, &body, place, rng);
    }
    stream.extend(streams::frames(rng, 1));
    stream
}

/// The sizes of payloads that `every_place` has: from 0 on, one for each index.
pub const SWEPT_SIZES: u64 = 40;

/// One frame again and again, broken at each place of its body from the second on, up to and with its checksum.
pub fn every_place(rng: &mut Rng, index: u64) -> Vec<u8> {
    let body = any_body((index % SWEPT_SIZES) as usize, rng);
    swept(&body, rng)
}

/// The same for the largest body; the second one has as much stuffing as can be.
pub fn every_place_of_largest(rng: &mut Rng, index: u64) -> Vec<u8> {
    let fields_and_payload = if index == 0 { rng.bytes(MAX_PAYLOAD + 4) } else { vec![0xFF; MAX_PAYLOAD + 4] };
    swept(&body_of(&fields_and_payload), rng)
}

/// How many body bytes are complete at the breaks of `every_byte`: from 1 to this, one for each index.
pub const COUNTS: u64 = 8;

/// Each byte that breaks the stuffing, always after the same count of body bytes.
pub fn every_byte(rng: &mut Rng, index: u64) -> Vec<u8> {
    let place = 1 + index as usize;
    let mut stream = Vec::new();
    for byte in (0..=0xFF).filter(|&byte| is_breaking(byte)) {
        stream.extend(broken(&any_body(3, rng), place, byte));
    }
    stream
}

fn swept(body: &[u8], rng: &mut Rng) -> Vec<u8> {
    let mut stream = Vec::new();
    for place in 1..body.len() {
        add_broken(&mut stream, body, place, rng);
    }
    stream
}

/// Adds a broken frame, sometimes with frames or noise before it, or with the rest of its body or noise after it.
fn add_broken(stream: &mut Vec<u8>, body: &[u8], place: usize, rng: &mut Rng) {
    match rng.below(8) {
        0 => stream.extend(streams::frames(rng, 2)),
        1 => add_noise(stream, rng),
        _ => {}
    }
    stream.extend(broken(body, place, any_breaking(rng)));
    match rng.below(4) {
        0 => stream.extend_from_slice(&framed(&body[place + 1..])[2..]),
        1 => add_noise(stream, rng),
        _ => {}
    }
}

/// The header and so many body bytes, stuffed; then FF and a byte that breaks the stuffing.
fn broken(body: &[u8], place: usize, byte: u8) -> Vec<u8> {
    [&framed(&body[..place])[..], &[0xFF, byte]].concat()
}

fn is_breaking(byte: u8) -> bool {
    byte != 0x55 && byte != 0xFF
}

fn any_breaking(rng: &mut Rng) -> u8 {
    let (any, near) = (rng.byte(), rng.pick(&NEAR));
    if is_breaking(any) && rng.once_in(2) {
        any
    } else {
        near
    }
}

fn add_noise(stream: &mut Vec<u8>, rng: &mut Rng) {
    let size = rng.between(1, 8);
    stream.extend(if rng.once_in(2) { rng.bytes(size) } else { rng.bytes_from(&[0xFF, 0x55, 0x00], size) });
}

/// A good body. In half of them most bytes are FF, so that a place on the wire is soon above its place in the body.
fn any_body(payload_size: usize, rng: &mut Rng) -> Vec<u8> {
    let size = payload_size + 4;
    body_of(&if rng.once_in(2) { rng.bytes(size) } else { rng.bytes_from(&[0xFF, 0xFF, 0x55, 0x00], size) })
}

/// The good body with this command, sequence number, flags and payload.
fn body_of(bytes: &[u8]) -> Vec<u8> {
    sealed(body(bytes[0], bytes[1], u16::from_be_bytes([bytes[2], bytes[3]]), &bytes[4..]))
}

#[cfg(test)]
mod tests {
    use super::*;
    use crate::reader::{Answer, Reader, Verdict};

    /// All breaks of a stream, in order.
    fn breaks(mut stream: &[u8]) -> Vec<Verdict> {
        let (mut reader, mut breaks) = (Reader::new(), Vec::new());
        while let Answer::Decided { verdict, count, .. } = reader.feed(stream) {
            stream = &stream[count..];
            if matches!(verdict, Verdict::Stuff { .. } | Verdict::StuffLate { .. }) {
                breaks.push(verdict);
            }
        }
        breaks
    }

    /// What PROTOCOL 4.6 says of a break after so many body bytes.
    fn verdict(place: usize, byte: u8) -> Verdict {
        if place < 6 {
            Verdict::Stuff { byte }
        } else {
            Verdict::StuffLate { byte }
        }
    }

    #[test]
    fn each_place_breaks_at_its_end() {
        let mut rng = Rng::new(1);
        for size in [0, 1, 2, 30, 250, 1_019] {
            let body = any_body(size, &mut rng);
            for place in 1..body.len() {
                let (byte, start) = (any_breaking(&mut rng), 0);
                let wire = broken(&body, place, byte);
                let (count, end) = (wire.len(), wire.len() as u64);
                let expected = Answer::Decided { verdict: verdict(place, byte), count, start, end };
                assert_eq!(Reader::new().feed(&wire), expected);
            }
        }
    }

    /// Noise may break more.
    #[test]
    fn sweeps_break_at_every_place() {
        let largest = (0..2).map(|index| (MAX_PAYLOAD, every_place_of_largest(&mut Rng::new(index), index)));
        let small = (0..SWEPT_SIZES).map(|index| (index as usize, every_place(&mut Rng::new(index), index)));
        for (payload_size, stream) in small.chain(largest) {
            let breaks = breaks(&stream);
            let late = breaks.iter().filter(|verdict| matches!(verdict, Verdict::StuffLate { .. })).count();
            assert!(breaks.len() - late >= 5 && late > payload_size, "{} {late} {payload_size}", breaks.len());
        }
    }

    #[test]
    fn every_byte_after_one_to_eight_body_bytes() {
        for index in 0..COUNTS {
            let expected: Vec<Verdict> =
                (0..=0xFE).filter(|&byte| byte != 0x55).map(|byte| verdict(1 + index as usize, byte)).collect();
            assert_eq!(breaks(&every_byte(&mut Rng::new(index), index)), expected);
        }
    }
}
