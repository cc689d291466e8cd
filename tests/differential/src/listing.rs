//! The listing of a stream (PROTOCOL 10): one line for each decision.

use crate::reader::{Answer, Ending, Reader, Verdict};
use crate::text;
use std::io::{self, ErrorKind, Read, Write};

pub const READ_SIZE: usize = 64 * 1_024;
const TITLE: &[u8] = b"kind start end cmd sn flags payload\n";

/// Lists the input. What was decided is written before more is read, so that a slow line can be watched.
/// The caller reports a failed read; a failed write ends the listing, since nobody reads it any more.
pub fn list(input: &mut impl Read, output: &mut impl Write) -> io::Result<()> {
    let mut reader = Reader::new();
    let mut bytes = vec![0; READ_SIZE];
    let mut lines = TITLE.to_vec();
    loop {
        if output.write_all(&lines).and_then(|()| output.flush()).is_err() {
            return Ok(());
        }
        lines.clear();
        let size = read_some(input, &mut bytes)?;
        if size == 0 {
            break;
        }
        add_lines(b"", &mut reader, &bytes[..size], &mut lines);
    }
    add_last_line(b"", &reader, &mut lines);
    let _ = output.write_all(&lines).and_then(|()| output.flush());
    Ok(())
}

/// One read that a signal does not end.
pub fn read_some(input: &mut impl Read, bytes: &mut [u8]) -> io::Result<usize> {
    loop {
        match input.read(bytes) {
            Err(error) if error.kind() == ErrorKind::Interrupted => {}
            result => return result,
        }
    }
}

/// The lines that some bytes decide, with the same text before each one.
pub fn add_lines(prefix: &[u8], reader: &mut Reader, mut bytes: &[u8], lines: &mut Vec<u8>) {
    while !bytes.is_empty() {
        match reader.feed(bytes) {
            Answer::Decided { verdict, count, start, end } => {
                lines.extend_from_slice(prefix);
                add_line(verdict, start, end, reader, lines);
                bytes = &bytes[count..];
            }
            // All bytes are consumed; no real stream reaches a reader's limits.
            Answer::More { .. } | Answer::State | Answer::Used => return,
        }
    }
}

/// The values of PROTOCOL 4.19 and 4.20 are not printed.
fn add_line(verdict: Verdict, start: u64, end: u64, reader: &Reader, lines: &mut Vec<u8>) {
    lines.extend_from_slice(name(verdict));
    text::numbers(lines, &[start, end]);
    if verdict == Verdict::Frame {
        let body = reader.body();
        let flags = u16::from_be_bytes([body[4], body[5]]);
        text::numbers(lines, &[body[2].into(), body[3].into(), flags.into(), body.len() as u64 - 7]);
        lines.push(b'\n');
    } else {
        lines.extend_from_slice(b" - - - -\n");
    }
}

pub fn add_last_line(prefix: &[u8], reader: &Reader, lines: &mut Vec<u8>) {
    let (word, number) = match reader.finish() {
        Ending::Clean { consumed } => (&b"clean"[..], consumed),
        Ending::Open { start, .. } => (&b"open"[..], start),
        Ending::State => return,
    };
    lines.extend_from_slice(prefix);
    lines.extend_from_slice(word);
    text::numbers(lines, &[number]);
    lines.push(b'\n');
}

fn name(verdict: Verdict) -> &'static [u8] {
    match verdict {
        Verdict::Frame => b"frame",
        Verdict::Short => b"short",
        Verdict::Long => b"long",
        Verdict::Stuff { .. } => b"stuff",
        Verdict::StuffLate { .. } => b"stufflate",
        Verdict::Cut => b"cut",
        Verdict::Sum { .. } => b"sum",
    }
}
