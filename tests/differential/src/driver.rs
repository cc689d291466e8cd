//! The program `test_driver`: records played on one reader, one link, one transfer and the writer. Messages to write
//! and the calls of captures are not played here.

use crate::answers;
use crate::link::Link;
use crate::links;
use crate::reader::{Answer, Ending, Reader, Verdict};
use crate::text;
use crate::transcript;
use crate::transfer::Transfer;
use crate::transfers::{self, TABLE_SIZE};
use crate::writer;
use std::io::{self, Read, Write};

/// Operations of a script; any other below LINK that `test_driver` does not know either makes a fresh reader.
pub const FEED: u8 = 1;
pub const FINISH: u8 = 2;
pub const SET: u8 = 3;
pub const WRITE: u8 = 4;
pub const STREAM: u8 = 5;
pub const REPLY: u8 = 7;
/// The link's operations begin here.
pub const LINK: u8 = 128;

pub const MAX_DATA: usize = 4_096;
pub const MAX_ROOM: usize = 2_100;
/// The greatest output of a reply alone.
const REPLY_ROOM: usize = 16;
/// Each output byte before the call, so that an untouched byte is seen.
pub const UNTOUCHED: u8 = 0xAA;

/// What the program holds from one record to the next.
pub struct Driver {
    pub reader: Reader,
    pub link: Link,
    pub transfer: Transfer,
    pub table: Vec<u8>,
}

/// Plays the script to its end, or to the first record that is too large or incomplete. Each record's lines are written
/// before more is read.
pub fn play(input: &mut impl Read, output: &mut impl Write) -> io::Result<()> {
    let mut driver = Driver::new();
    let mut lines = Vec::new();
    while let Some((operation, data)) = record(input) {
        driver.play_record(operation, &data, &mut lines);
        output.write_all(&lines)?;
        output.flush()?;
        lines.clear();
    }
    Ok(())
}

impl Driver {
    pub fn new() -> Driver {
        let table = vec![UNTOUCHED; TABLE_SIZE];
        Driver { reader: Reader::new(), link: Link::new(), transfer: Transfer::new(), table }
    }

    pub fn play_record(&mut self, operation: u8, data: &[u8], lines: &mut Vec<u8>) {
        match operation {
            LINK.. => links::play_record(&mut self.link, operation - LINK, data, lines),
            transfers::BEGIN..=transfers::DEVICE => transfers::play_record(self, operation, data, lines),
            _ => play_record(&mut self.reader, operation, data, lines),
        }
    }
}

fn play_record(reader: &mut Reader, operation: u8, data: &[u8], lines: &mut Vec<u8>) {
    match operation {
        FEED => feed(reader, data, lines),
        FINISH => finish(reader, lines),
        SET => {
            *reader = Reader::having_consumed(number(data, 0, 8));
            lines.extend_from_slice(b"set");
        }
        WRITE => write(data, lines),
        STREAM => return transcript::lines(reader, data, lines),
        REPLY => return reply(data, lines),
        _ => {
            *reader = Reader::new();
            lines.extend_from_slice(b"fresh");
        }
    }
    lines.push(b'\n');
}

/// A record at the end of a script.
pub fn push_record(script: &mut Vec<u8>, operation: u8, data: &[u8]) {
    script.push(operation);
    script.extend_from_slice(&(data.len() as u16).to_be_bytes());
    script.extend_from_slice(data);
}

fn record(input: &mut impl Read) -> Option<(u8, Vec<u8>)> {
    let mut head = [0; 3];
    input.read_exact(&mut head).ok()?;
    let [operation, high, low] = head;
    let size = usize::from(u16::from_be_bytes([high, low]));
    if size > MAX_DATA {
        return None;
    }
    let mut data = vec![0; size];
    input.read_exact(&mut data).ok()?;
    Some((operation, data))
}

/// A big-endian number at a place; missing bytes count as 0.
pub fn number(data: &[u8], place: usize, size: usize) -> u64 {
    let byte = |place: usize| u64::from(data.get(place).copied().unwrap_or(0));
    (place..place + size).fold(0, |number, place| number << 8 | byte(place))
}

fn feed(reader: &mut Reader, data: &[u8], line: &mut Vec<u8>) {
    line.extend_from_slice(b"feed");
    match reader.feed(data) {
        Answer::More { count } => text::numbers(line, &[0, count as u64]),
        Answer::Decided { verdict, count, start, end } => {
            text::numbers(line, &[verdict.number(), count as u64, start, end]);
            text::numbers(line, &verdict.values());
            if matches!(verdict, Verdict::Frame | Verdict::Sum { .. }) {
                line.extend_from_slice(b" :");
                text::spaced_bytes(line, reader.body());
            }
        }
        Answer::State => text::numbers(line, &[17, 0]),
        Answer::Used => text::numbers(line, &[18, 0]),
    }
}

fn finish(reader: &Reader, line: &mut Vec<u8>) {
    line.extend_from_slice(b"end");
    match reader.finish() {
        Ending::Clean { consumed } => text::numbers(line, &[2, consumed]),
        Ending::Open { consumed, start } => text::numbers(line, &[16, consumed, start]),
        Ending::State => text::numbers(line, &[17, 0]),
    }
}

fn write(data: &[u8], line: &mut Vec<u8>) {
    let room = (number(data, 4, 2) as usize).min(MAX_ROOM);
    let (command, sequence, flags) = (number(data, 0, 1) as u8, number(data, 1, 1) as u8, number(data, 2, 2) as u16);
    let payload = data.get(6..).unwrap_or(&[]);
    let mut out = vec![UNTOUCHED; room];
    line.extend_from_slice(b"write");
    match writer::write(command, sequence, flags, payload, &mut out) {
        Ok(count) => text::numbers(line, &[0, count as u64]),
        Err(refusal) => text::numbers(line, &refusal.row()),
    }
    line.extend_from_slice(b" :");
    text::spaced_bytes(line, &out);
}

fn reply(data: &[u8], lines: &mut Vec<u8>) {
    let room = (number(data, 0, 2) as usize).min(REPLY_ROOM);
    let (command, sequence) = (number(data, 2, 1) as u8, number(data, 3, 1) as u8);
    let payload = data.get(4..).unwrap_or(&[]);
    transcript::answer_in_room(answers::to_frame(command, sequence, payload), room, lines);
}
