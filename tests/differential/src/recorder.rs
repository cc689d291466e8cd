//! Makes captures for measuring and for other tests, and replays many of them in one run.
//!
//! Many captures, or many texts, in one stream: each one is its size in 4 bytes, big-endian, and its bytes.

use crate::capture::{push_head, push_record, Direction, MAX_COUNT};
use crate::captures;
use crate::random::Rng;
use crate::reader::{Answer, Reader};
use crate::replay;
use std::io::{self, Read, Write};

/// Random captures of all families.
pub fn random_captures(seed: u64, count: u64, output: &mut impl Write) -> io::Result<()> {
    for index in 0..count {
        put(&captures::any(&mut Rng::for_test(seed, 0, index), index), output)?;
    }
    output.flush()
}

/// The text of each capture.
pub fn replay_each(input: &mut impl Read, output: &mut impl Write) -> io::Result<()> {
    let mut bytes = Vec::new();
    input.read_to_end(&mut bytes)?;
    let mut left = &bytes[..];
    while let Some((&size, rest)) = left.split_first_chunk() {
        let (mut capture, rest) = rest.split_at(rest.len().min(u32::from_be_bytes(size) as usize));
        let mut text = Vec::new();
        replay::replay(&mut capture, &mut text)?;
        put(&text, output)?;
        left = rest;
    }
    output.flush()
}

fn put(bytes: &[u8], output: &mut impl Write) -> io::Result<()> {
    output.write_all(&(bytes.len() as u32).to_be_bytes())?;
    output.write_all(bytes)
}

/// The capture of a stream, in records of one size, or of one frame each; the directions come in turn.
pub fn record(
    size: Option<u64>,
    directions: &[Direction],
    input: &mut impl Read,
    output: &mut impl Write,
) -> io::Result<()> {
    let mut stream = Vec::new();
    input.read_to_end(&mut stream)?;
    let mut capture = Vec::with_capacity(2 * stream.len());
    push_head(&mut capture);
    let (mut reader, mut left) = (Reader::new(), &stream[..]);
    for (&direction, number) in directions.iter().cycle().zip(0..) {
        let size = match size {
            _ if left.is_empty() => break,
            Some(size) => (size as usize).clamp(1, MAX_COUNT),
            None => frame_size(&mut reader, left),
        };
        let (payload, rest) = left.split_at(size.min(left.len()));
        push_record(&mut capture, direction, number, payload);
        left = rest;
    }
    output.write_all(&capture)?;
    output.flush()
}

/// The bytes up to the next decision.
fn frame_size(reader: &mut Reader, stream: &[u8]) -> usize {
    match reader.feed(&stream[..stream.len().min(MAX_COUNT)]) {
        Answer::Decided { count, .. } | Answer::More { count } => count,
        Answer::State | Answer::Used => stream.len(),
    }
}

#[cfg(test)]
mod tests {
    use super::*;
    use crate::capture::{front, Front, DIRECTIONS, HEAD_SIZE, RECORD_HEAD_SIZE};

    const STREAM: [u8; 18] = [0xFF, 0xFF, 0, 5, 7, 1, 0, 0, 0x0D, 0xFF, 0xFF, 0, 5, 8, 1, 0, 0, 0x0E];

    fn recorded(size: Option<u64>) -> Vec<(Direction, Vec<u8>)> {
        let (mut capture, mut records) = (Vec::new(), Vec::new());
        record(size, &DIRECTIONS, &mut &STREAM[..], &mut capture).expect("memory can be read and written");
        assert_eq!(front(0, &capture), Front::Head);
        let mut left = &capture[HEAD_SIZE..];
        while let Front::Record { direction, payload } = front(5, left) {
            records.push((direction, payload.to_vec()));
            left = &left[RECORD_HEAD_SIZE + payload.len()..];
        }
        assert!(left.is_empty());
        records
    }

    #[test]
    fn what_is_recorded_is_read_back() {
        let [module, from_box] = DIRECTIONS;
        assert_eq!(recorded(None), [(module, STREAM[..9].to_vec()), (from_box, STREAM[9..].to_vec())]);
        assert_eq!(recorded(Some(16)), [(module, STREAM[..16].to_vec()), (from_box, STREAM[16..].to_vec())]);
        assert_eq!(recorded(Some(1)).len(), STREAM.len());
    }

    #[test]
    fn texts_with_their_sizes() {
        let mut texts = Vec::new();
        replay_each(&mut &[0, 0, 0, 0, 0, 0, 0, 3, b'L', b'F', b'T'][..], &mut texts).expect("memory can be read");
        let mut expected = Vec::new();
        for last in [&b"refused 51 0\n"[..], b"refused 52 3\n"] {
            put(&[replay::TITLE, last].concat(), &mut expected).expect("memory can be written");
        }
        assert_eq!(texts, expected);
    }
}
