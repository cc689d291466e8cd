//! Families of captures, each aimed at one kind of trouble.

use crate::breaks;
use crate::capture::{push_head, push_record, Direction, DIRECTIONS, HEAD_SIZE, MAX_COUNT, RECORD_HEAD_SIZE};
use crate::random::Rng;
use crate::streams;
use crate::text;
use crate::vectors;
use crate::writer::wire_form;

type Record = (Direction, Vec<u8>);

/// Bytes that heads of captures and of records are made of, and some that are wrong there.
const FEW: [u8; 9] = [b'L', b'F', b'T', 0, 1, 2, 5, 9, 0xFF];
const STREAMS: [fn(&mut Rng, u64) -> Vec<u8>; 10] = [
    streams::whole,
    streams::damaged,
    streams::cut,
    streams::noise,
    streams::few_bytes,
    streams::half_headers,
    streams::lengths,
    streams::wrong_sums,
    streams::empty,
    breaks::anywhere,
];

/// Streams of both directions, mixed, in records of any size.
pub fn whole(rng: &mut Rng, _index: u64) -> Vec<u8> {
    made_of(&any_records(rng), rng)
}

/// Frames over many records.
pub fn small_records(rng: &mut Rng, _index: u64) -> Vec<u8> {
    let streams = [streams::frames(rng, 3), streams::frames(rng, 3)];
    let most = rng.pick(&[1, 2, 4]);
    made_of(&mixed(streams, most, rng), rng)
}

/// Records of which most are empty.
pub fn empty_records(rng: &mut Rng, _index: u64) -> Vec<u8> {
    let mut records = any_records(rng);
    for _ in 0..rng.between(1, 30) {
        let place = rng.between(0, records.len());
        records.insert(place, (rng.pick(&DIRECTIONS), Vec::new()));
    }
    made_of(&records, rng)
}

/// Both directions have the same bytes, byte by byte in turn: one reader for both would see each byte twice.
pub fn in_step(rng: &mut Rng, index: u64) -> Vec<u8> {
    let stream = streams::damaged(rng, index);
    let size = rng.between(1, 9);
    let pieces = stream.chunks(size);
    let records: Vec<Record> = pieces.flat_map(|piece| DIRECTIONS.map(|direction| (direction, piece.into()))).collect();
    made_of(&records, rng)
}

/// Payloads and noise that are full of FF.
pub fn all_ff(rng: &mut Rng, index: u64) -> Vec<u8> {
    let streams = [streams::all_ff(rng, index), vec![0xFF; rng.between(0, 40)]];
    let most = rng.pick(&[2, 40, 3_000]);
    made_of(&mixed(streams, most, rng), rng)
}

/// Frames of both directions broken at every place of their bodies, the FF often in one record and its next byte in
/// another.
pub fn breaks(rng: &mut Rng, index: u64) -> Vec<u8> {
    let streams = [breaks::every_place(rng, index), breaks::every_place(rng, index / 2)];
    let most = rng.pick(&[1, 4, 40, 3_000]);
    made_of(&mixed(streams, most, rng), rng)
}

/// A vector in both directions, in records of a few bytes.
pub fn of_vector(rng: &mut Rng, index: u64) -> Vec<u8> {
    let stream = &vectors::all()[index as usize];
    let most = rng.pick(&[1, 2, 5]);
    made_of(&mixed([stream.clone(), stream.clone()], most, rng), rng)
}

/// Ends at any place.
pub fn cut(rng: &mut Rng, index: u64) -> Vec<u8> {
    let mut capture = whole(rng, index);
    capture.truncate(rng.between(0, capture.len()));
    capture
}

/// Ends within the head of a record, or close to one.
pub fn cut_heads(rng: &mut Rng, index: u64) -> Vec<u8> {
    let mut capture = whole(rng, index);
    let starts = starts(&capture);
    let end = rng.pick(&starts) + rng.between(0, RECORD_HEAD_SIZE + 1);
    capture.truncate(end);
    capture
}

/// Bytes changed, dropped or doubled anywhere.
pub fn damaged(rng: &mut Rng, index: u64) -> Vec<u8> {
    let mut capture = small_records(rng, index);
    for _ in 0..rng.between(1, 3) {
        streams::damage(&mut capture, rng);
    }
    capture
}

/// A byte of the head, or of the head of one record, is another one.
pub fn damaged_heads(rng: &mut Rng, index: u64) -> Vec<u8> {
    let mut capture = whole(rng, index);
    let start = if rng.once_in(4) { 0 } else { rng.pick(&starts(&capture)) };
    let size = if start == 0 { HEAD_SIZE } else { RECORD_HEAD_SIZE };
    let place = start + rng.between(0, size - 1);
    if let Some(byte) = capture.get_mut(place) {
        *byte = if rng.once_in(2) { rng.byte() } else { rng.pick(&FEW) };
    }
    capture
}

/// A direction that is not there, sometimes with nothing after it.
pub fn directions(rng: &mut Rng, index: u64) -> Vec<u8> {
    let mut capture = whole(rng, index);
    let start = rng.pick(&starts(&capture));
    capture.truncate(if rng.once_in(2) { start } else { capture.len() });
    let wrong = if rng.once_in(2) { 2 } else { rng.between(2, 255) as u8 };
    if start == capture.len() {
        capture.push(wrong);
    } else {
        capture[start] = wrong;
    }
    capture
}

/// Heads and records by chance.
pub fn few_bytes(rng: &mut Rng, _index: u64) -> Vec<u8> {
    let mut capture = Vec::new();
    push_head(&mut capture);
    if rng.once_in(3) {
        capture.truncate(rng.between(0, HEAD_SIZE));
    }
    let size = rng.between(0, 60);
    capture.extend(rng.bytes_from(&FEW, size));
    capture
}

/// Any bytes, most often after a head.
pub fn noise(rng: &mut Rng, index: u64) -> Vec<u8> {
    let mut capture = Vec::new();
    if !rng.once_in(5) {
        push_head(&mut capture);
    }
    if !rng.once_in(3) {
        capture.push(rng.pick(&[0, 1]));
    }
    capture.extend(streams::noise(rng, index));
    capture
}

/// Records of the greatest counts.
pub fn full_records(rng: &mut Rng, index: u64) -> Vec<u8> {
    let mut stream = streams::long(rng, index);
    let mut records = Vec::new();
    while records.len() < 3 {
        let size = (MAX_COUNT - rng.pick(&[0, 0, 1, 2])).min(stream.len());
        let rest = stream.split_off(size);
        records.push((rng.pick(&DIRECTIONS), stream));
        stream = rest;
    }
    records.push((rng.pick(&DIRECTIONS), streams::whole(rng, index)));
    let mut capture = made_of(&records, rng);
    if rng.once_in(3) {
        capture.truncate(rng.between(0, capture.len()));
    }
    capture
}

/// More than any program reads at once.
pub fn long(rng: &mut Rng, index: u64) -> Vec<u8> {
    let streams = [streams::long(rng, index), streams::long(rng, index)];
    let most = rng.pick(&[50, 3_000, MAX_COUNT]);
    let mut capture = made_of(&mixed(streams, most, rng), rng);
    if rng.once_in(2) {
        streams::damage(&mut capture, rng);
    }
    capture
}

/// A frame over two records for every cut into two and three reads, most often with one byte wrong.
pub fn short(rng: &mut Rng, index: u64) -> Vec<u8> {
    let frame = wire_form(7, rng.byte(), 0, &[]);
    let (front, rest) = frame.split_at(rng.between(0, frame.len()));
    let first = rng.pick(&DIRECTIONS);
    let second = if rng.once_in(3) { rng.pick(&DIRECTIONS) } else { first };
    let mut capture = made_of(&[(first, front.into()), (second, rest.into())], rng);
    if !index.is_multiple_of(2) {
        streams::damage(&mut capture, rng);
    }
    capture
}

/// Captures of up to 12 bytes for all their cuts.
const SHORTEST: [&str; 12] = [
    "4C46540001 01 00000000 0000",
    "4C46540001 01 00000000 00",
    "4C46540001 00 00000000",
    "4C46540001 02 00000000",
    "4C46540001 00",
    "4C46540001 02",
    "4C46540001",
    "4C46540002",
    "4C46540100",
    "4C465500",
    "4C4654",
    "4C46",
];

pub const SHORTEST_COUNT: u64 = SHORTEST.len() as u64;

pub fn shortest(_rng: &mut Rng, index: u64) -> Vec<u8> {
    text::from_hex(SHORTEST[index as usize]).expect("hex")
}

pub fn worked(_rng: &mut Rng, _index: u64) -> Vec<u8> {
    vectors::replayed()
}

/// One capture of any of the random families.
pub fn any(rng: &mut Rng, index: u64) -> Vec<u8> {
    let families: [fn(&mut Rng, u64) -> Vec<u8>; 13] = [
        whole,
        small_records,
        empty_records,
        in_step,
        all_ff,
        breaks,
        cut,
        cut_heads,
        damaged,
        damaged_heads,
        directions,
        few_bytes,
        noise,
    ];
    if index % 200 == 199 {
        return full_records(rng, index);
    }
    families[index as usize % families.len()](rng, index)
}

fn any_records(rng: &mut Rng) -> Vec<Record> {
    let streams = [rng.pick(&STREAMS)(rng, 0), rng.pick(&STREAMS)(rng, 0)];
    let most = rng.pick(&[3, 20, 300, 5_000]);
    mixed(streams, most, rng)
}

/// The streams of both directions in records of up to some size, in any order.
fn mixed(streams: [Vec<u8>; 2], most: usize, rng: &mut Rng) -> Vec<Record> {
    let mut records = Vec::new();
    let mut left = [&streams[0][..], &streams[1][..]];
    while left.iter().any(|stream| !stream.is_empty()) {
        let direction = rng.pick(&DIRECTIONS);
        let stream = &mut left[direction as usize];
        let (piece, rest) = stream.split_at(rng.between(0, most).min(stream.len()));
        *stream = rest;
        records.push((direction, piece.into()));
    }
    records
}

/// The milliseconds are any number: they decide nothing.
fn made_of(records: &[Record], rng: &mut Rng) -> Vec<u8> {
    let mut capture = Vec::new();
    push_head(&mut capture);
    for (direction, payload) in records {
        push_record(&mut capture, *direction, rng.next() as u32, payload);
    }
    capture
}

/// Where the records of a whole capture begin, and where it ends.
fn starts(capture: &[u8]) -> Vec<usize> {
    let mut starts = vec![HEAD_SIZE];
    let mut start = HEAD_SIZE;
    while start < capture.len() {
        let count = u16::from_be_bytes([capture[start + 5], capture[start + 6]]);
        start += RECORD_HEAD_SIZE + usize::from(count);
        starts.push(start);
    }
    starts
}
