//! Scripts of calls: streams cut into calls or played whole, and records for the writer.

use crate::driver::{push_record, FEED, FINISH, MAX_DATA, MAX_ROOM, REPLY, SET, STREAM, WRITE};
use crate::link_scripts;
use crate::payloads;
use crate::random::Rng;
use crate::reader::{Answer, Reader};
use crate::streams;
use crate::transcript;
use crate::vectors;
use crate::writer::{wire_form, MAX_PAYLOAD};

/// Any operation that has no meaning of its own makes a fresh reader.
const FRESH: u8 = 0;
/// A stream of up to so many bytes is cut in every way.
const SHORT_STREAM: usize = 12;
const MAX_TAKEN: u64 = 1 << 62;

/// A script, and a reader that follows it to know which bytes are left over.
struct Script {
    records: Vec<u8>,
    reader: Reader,
}

impl Script {
    fn new() -> Script {
        Script { records: Vec::new(), reader: Reader::new() }
    }

    fn record(&mut self, operation: u8, data: &[u8]) {
        push_record(&mut self.records, operation, data);
    }

    /// Returns how many bytes are consumed, or None where the call is refused.
    fn feed(&mut self, data: &[u8]) -> Option<usize> {
        self.record(FEED, data);
        match self.reader.feed(data) {
            Answer::More { count } | Answer::Decided { count, .. } => Some(count),
            Answer::State | Answer::Used => None,
        }
    }

    fn finish(&mut self) {
        self.record(FINISH, &[]);
    }

    fn fresh(&mut self, operation: u8) {
        self.record(operation, &[]);
        self.reader = Reader::new();
    }

    fn set(&mut self, consumed: u64) {
        self.record(SET, &consumed.to_be_bytes());
        self.reader = Reader::having_consumed(consumed);
    }

    /// Plays the bytes as those of a stream.
    fn stream(&mut self, data: &[u8]) {
        self.record(STREAM, data);
        transcript::lines(&mut self.reader, data, &mut Vec::new());
    }

    /// Offers the bytes until all are consumed.
    fn feed_all(&mut self, mut bytes: &[u8]) {
        while !bytes.is_empty() {
            let Some(count) = self.feed(bytes) else { return };
            bytes = &bytes[count..];
        }
    }

    /// One way to cut a short stream: bit i of the mask cuts after byte i. What a call leaves comes again first.
    fn one_cut(&mut self, stream: &[u8], mask: u32) {
        let mut consumed = 0;
        for end in 1..=stream.len() {
            if end == stream.len() || mask >> (end - 1) & 1 == 1 {
                consumed += self.feed(&stream[consumed..end]).unwrap_or(0);
            }
        }
        self.feed_all(&stream[consumed..]);
        self.finish();
        self.fresh(FRESH);
    }
}

/// A stream played by one reader, in records of up to some size.
pub fn in_records(stream: &[u8], rng: &mut Rng) -> Vec<u8> {
    let mut records = Vec::new();
    let size = rng.pick(&[20, 500, MAX_DATA, MAX_DATA]);
    for piece in stream.chunks(size) {
        push_record(&mut records, STREAM, piece);
    }
    records
}

/// A stream fed in random pieces, with finish between them. Half of the scripts are steady: what a call leaves always
/// comes again first. In the others some bytes are dropped, and the reader is replaced now and then.
pub fn random_cuts(stream: &[u8], rng: &mut Rng) -> Vec<u8> {
    let mut script = Script::new();
    let mut place = 0;
    let most = rng.pick(&[1, 3, 10, 100, MAX_DATA]);
    let steady = rng.once_in(2);
    if !steady && rng.once_in(2) {
        script.set(near_limit(rng));
    }
    while place < stream.len() {
        let size = rng.between(0, most).min(stream.len() - place);
        if rng.once_in(10) {
            script.stream(&stream[place..place + size]);
            place += size;
            continue;
        }
        match script.feed(&stream[place..place + size]) {
            Some(count) if steady || !rng.once_in(16) => place += count,
            Some(_) => place += size,
            None if rng.once_in(2) => script.fresh(FRESH),
            None => place += size.max(1),
        }
        between_calls(&mut script, rng);
        if !steady && rng.once_in(20) {
            replace_reader(&mut script, rng);
        }
    }
    script.finish();
    last_record(&mut script, rng);
    script.records
}

/// Now and then something between two calls that must not touch the reader.
fn between_calls(script: &mut Script, rng: &mut Rng) {
    match rng.below(40) {
        0..=5 => script.finish(),
        6..=7 => drop(script.feed(&[])),
        8 => {
            let payload = rng.bytes(3);
            script.record(WRITE, &[&[7, 1, 0, 0, 0, 30][..], &payload].concat());
        }
        9..=10 => link_scripts::any_record(&mut script.records, rng),
        _ => {}
    }
}

fn replace_reader(script: &mut Script, rng: &mut Rng) {
    match rng.below(5) {
        0 => script.set(near_limit(rng)),
        1 => script.set(rng.below(1 << 40)),
        2 => short_set(script, rng),
        _ => script.fresh(rng.pick(&[0, 13, 100, 127])),
    }
}

/// A set with fewer than 8 bytes, or more: missing ones are 0, others count for nothing.
fn short_set(script: &mut Script, rng: &mut Rng) {
    let size = rng.between(0, 10);
    let data = rng.bytes_from(&[0, 0x3F, 0x40, 0xFF], size);
    let mut consumed = [0; 8];
    for (byte, &given) in consumed.iter_mut().zip(&data) {
        *byte = given;
    }
    script.record(SET, &data);
    script.reader = Reader::having_consumed(u64::from_be_bytes(consumed));
}

/// Ends some scripts with a record that is too large or incomplete; nothing is played after it.
fn last_record(script: &mut Script, rng: &mut Rng) {
    match rng.below(16) {
        0 => script.record(FEED, &vec![0; MAX_DATA + 1]),
        1 => {
            script.record(FEED, &[1, 2, 3]);
            script.records.pop();
        }
        2 => script.records.push(FINISH),
        3 => script.record(FEED, &vec![0xFF; MAX_DATA]),
        _ => {}
    }
}

fn near_limit(rng: &mut Rng) -> u64 {
    match rng.below(6) {
        0 => MAX_TAKEN,
        1 => MAX_TAKEN + 1,
        2 => MAX_TAKEN + rng.below(5_000),
        3 => u64::MAX - rng.below(3),
        4 => MAX_TAKEN - rng.below(40),
        _ => MAX_TAKEN - rng.below(6_000),
    }
}

/// Streams fed to a reader that is close to its limit from the start.
pub fn limits(rng: &mut Rng, _index: u64) -> Vec<u8> {
    let mut script = Script::new();
    for _ in 0..20 {
        script.set(near_limit(rng));
        let stream = streams::frames(rng, 2);
        let size = rng.between(0, 60).min(stream.len());
        let mut bytes = &stream[..size];
        for _ in 0..6 {
            let most = rng.between(0, bytes.len());
            bytes = &bytes[script.feed(&bytes[..most]).unwrap_or(0)..];
            script.finish();
        }
    }
    script.records
}

pub fn is_short(stream: &[u8]) -> bool {
    (1..=SHORT_STREAM).contains(&stream.len())
}

/// All ways to cut a short stream into calls, 2^(n-1) for n bytes.
fn every_cut(stream: &[u8]) -> Vec<u8> {
    let mut script = Script::new();
    for mask in 0..1 << (stream.len() - 1) {
        script.one_cut(stream, mask);
    }
    script.records
}

/// Every cut of a short vector.
pub fn every_cut_of_vector(_rng: &mut Rng, index: u64) -> Vec<u8> {
    every_cut(&vectors::short()[index as usize])
}

/// Every cut of a short vector that was damaged.
pub fn every_cut_of_damaged(rng: &mut Rng, _index: u64) -> Vec<u8> {
    let vectors = vectors::short();
    let mut stream = vectors[rng.below(vectors.len() as u64) as usize].clone();
    for _ in 0..rng.between(1, 2) {
        streams::damage(&mut stream, rng);
    }
    stream.truncate(SHORT_STREAM);
    every_cut(&stream)
}

/// How many scripts `every_stream` has.
pub const STREAM_SETS: u64 = 4;

/// Every stream of some size over five bytes: without and with a header before it, whole and byte by byte.
pub fn every_stream(_rng: &mut Rng, index: u64) -> Vec<u8> {
    let (front, choices, size): (&[u8], [u8; 5], u32) = match index / 2 {
        0 => (&[], [0xFF, 0x55, 0x00, 0x05, 0x04], 7),
        // Numbers of which many add up to a checksum that holds.
        _ => (&[0xFF, 0xFF, 0, 5], [0xFF, 0x55, 0x00, 0x05, 0x0A], 6),
    };
    let mask = if index.is_multiple_of(2) { 0 } else { u32::MAX };
    let mut script = Script::new();
    for number in 0..5u32.pow(size) {
        let digits = (0..size).map(|place| choices[(number / 5u32.pow(place) % 5) as usize]);
        let stream: Vec<u8> = front.iter().copied().chain(digits).collect();
        script.one_cut(&stream, mask);
    }
    script.records
}

/// Records for the writer with payloads and outputs of random and of extreme sizes.
pub fn writer(rng: &mut Rng, _index: u64) -> Vec<u8> {
    let mut script = Script::new();
    for _ in 0..12 {
        let size = rng.pick(&[0, 1, 9, 1_018, 1_019, 1_020, 1_021]);
        let size = if rng.once_in(3) { rng.between(0, MAX_DATA - 6) } else { size };
        let payload = if rng.once_in(2) { rng.bytes(size) } else { rng.bytes_from(&[0xFF, 0x55], size) };
        let (command, number, flags) = (rng.byte(), rng.pick(&[0, 1, 0xFF]), rng.pick(&[0, 0xFFFF, 0x55FF]));
        let needed = if size > MAX_PAYLOAD { 0 } else { wire_form(command, number, flags, &payload).len() };
        let any = rng.between(0, MAX_ROOM);
        for room in [needed.saturating_sub(1), needed, needed + 2, any, 0xFFFF] {
            write_record(&mut script, command, number, flags, room, &payload);
        }
    }
    let size = rng.between(0, 6);
    let header_only = rng.bytes(size);
    script.record(WRITE, &header_only);
    script.records
}

/// One frame with every size of the output from 0 to two more than it needs.
pub fn every_room(rng: &mut Rng, _index: u64) -> Vec<u8> {
    let mut script = Script::new();
    let size = rng.pick(&[0, 1, 9, 30, 74]);
    let payload = rng.bytes_from(&[0xFF, 0x55, 0x00, 0x07], size);
    let (command, number, flags) = (rng.byte(), rng.byte(), rng.next() as u16);
    let needed = wire_form(command, number, flags, &payload).len();
    for room in 0..=needed + 2 {
        write_record(&mut script, command, number, flags, room, &payload);
    }
    script.records
}

/// The longest frame with output sizes in steps, and every one around those it needs.
pub fn every_large_room(_rng: &mut Rng, _index: u64) -> Vec<u8> {
    let mut script = Script::new();
    for (filling, needed) in [(0x00, 1_028), (0xFF, 2_047)] {
        let payload = vec![filling; MAX_PAYLOAD];
        let rooms = (0..needed).step_by(97).chain(needed - 3..=needed + 2);
        for room in rooms {
            write_record(&mut script, 7, 1, 0, room, &payload);
            write_record(&mut script, 7, 1, 0, room, &[&payload[..], &[0]].concat());
        }
    }
    script.records
}

fn write_record(script: &mut Script, command: u8, number: u8, flags: u16, room: usize, payload: &[u8]) {
    let [flags_high, flags_low] = flags.to_be_bytes();
    let [room_high, room_low] = (room as u16).to_be_bytes();
    let head = [command, number, flags_high, flags_low, room_high, room_low];
    script.record(WRITE, &[&head[..], payload].concat());
}

/// Replies to single frames, with outputs of all sizes. Those that a transfer decides about come more often.
pub fn replies(rng: &mut Rng, _index: u64) -> Vec<u8> {
    let mut script = Script::new();
    for _ in 0..60 {
        let command = if rng.once_in(3) { rng.pick(&[0x19, 0x1D, 0x1F]) } else { rng.between(0, 0x2B) as u8 };
        let payload = payloads::likely(command, rng);
        let room = if rng.once_in(8) { rng.next() as u16 } else { rng.below(17) as u16 };
        let [high, low] = room.to_be_bytes();
        script.record(REPLY, &[&[high, low, command, rng.byte()][..], &payload].concat());
    }
    script.records
}
