//! The text of a capture: the listing of both directions, each with a reader of its own.

use crate::capture::{front, refused_at_end, Direction, Front, Refusal, DIRECTIONS, HEAD_SIZE, RECORD_HEAD_SIZE};
use crate::listing::{add_last_line, add_lines, read_some, READ_SIZE};
use crate::reader::Reader;
use crate::text;
use std::io::{self, Read, Write};

pub const TITLE: &[u8] = b"dir kind start end cmd sn flags payload\n";

pub struct Replay {
    readers: [Reader; 2],
    /// Where the bytes that are left begin.
    place: u64,
    /// The front of a head or record that is not complete yet: no reader may see its bytes.
    left: Vec<u8>,
    refused: Option<(Refusal, u64)>,
}

impl Replay {
    pub fn new() -> Replay {
        Replay { readers: [Reader::new(), Reader::new()], place: 0, left: Vec::new(), refused: None }
    }

    /// Adds the lines of all records that these bytes complete. After a refusal bytes count for nothing.
    pub fn feed(&mut self, bytes: &[u8], lines: &mut Vec<u8>) {
        self.left.extend_from_slice(bytes);
        let mut used = 0;
        while self.refused.is_none() {
            let size = match front(self.place, &self.left[used..]) {
                Front::Incomplete => break,
                Front::Refused(refusal, place) => {
                    self.refused = Some((refusal, place));
                    break;
                }
                Front::Head => HEAD_SIZE,
                Front::Record { direction, payload } => {
                    add_lines(prefix(direction), &mut self.readers[direction as usize], payload, lines);
                    RECORD_HEAD_SIZE + payload.len()
                }
            };
            used += size;
            self.place += size as u64;
        }
        self.left.drain(..used);
    }

    pub fn is_refused(&self) -> bool {
        self.refused.is_some()
    }

    /// The last lines; true if the capture is whole.
    pub fn finish(&self, lines: &mut Vec<u8>) -> bool {
        let refused = self.refused.or_else(|| refused_at_end(self.place, &self.left));
        if let Some((refusal, place)) = refused {
            lines.extend_from_slice(b"refused");
            text::numbers(lines, &[refusal as u64, place]);
            lines.push(b'\n');
        } else {
            for direction in DIRECTIONS {
                add_last_line(prefix(direction), &self.readers[direction as usize], lines);
            }
        }
        refused.is_none()
    }
}

fn prefix(direction: Direction) -> &'static [u8] {
    match direction {
        Direction::FromModule => b"0 ",
        Direction::FromBox => b"1 ",
    }
}

/// Replays the input; true if the capture is whole. The lines of a record are written before more is read. The caller
/// reports a failed read; a failed write ends the replay, since nobody reads it any more.
pub fn replay(input: &mut impl Read, output: &mut impl Write) -> io::Result<bool> {
    let mut replay = Replay::new();
    let mut bytes = vec![0; READ_SIZE];
    let mut lines = TITLE.to_vec();
    while !replay.is_refused() {
        if output.write_all(&lines).and_then(|()| output.flush()).is_err() {
            return Ok(false);
        }
        lines.clear();
        let size = read_some(input, &mut bytes)?;
        if size == 0 {
            break;
        }
        replay.feed(&bytes[..size], &mut lines);
    }
    let is_whole = replay.finish(&mut lines);
    let _ = output.write_all(&lines).and_then(|()| output.flush());
    Ok(is_whole)
}

#[cfg(test)]
mod tests {
    use super::*;
    use crate::vectors;

    fn text_of(mut capture: &[u8]) -> (String, bool) {
        let mut output = Vec::new();
        let is_whole = replay(&mut capture, &mut output).expect("memory can be read and written");
        (String::from_utf8(output).expect("text"), is_whole)
    }

    #[test]
    fn worked_capture() {
        assert_eq!(text_of(&vectors::replayed()), (vectors::REPLAY.into(), true));
    }

    #[test]
    fn last_lines() {
        for (capture, last, is_whole) in [
            (&b"LFT\0\x01"[..], "0 clean 0\n1 clean 0\n", true),
            (b"", "refused 51 0\n", false),
            (b"LFT", "refused 52 3\n", false),
            (b"LFT\0", "refused 52 3\n", false),
            (b"LFT\0\x02", "refused 52 3\n", false),
            (b"LFT\0\x01\x02", "refused 53 5\n", false),
            (b"LFT\0\x01\0", "refused 54 5\n", false),
        ] {
            let title = String::from_utf8_lossy(TITLE);
            assert_eq!(text_of(capture), (format!("{title}{last}"), is_whole));
        }
    }

    #[test]
    fn byte_by_byte() {
        let mut replay = Replay::new();
        let mut lines = TITLE.to_vec();
        for byte in vectors::replayed() {
            replay.feed(&[byte], &mut lines);
        }
        assert!(replay.finish(&mut lines));
        assert_eq!(lines, vectors::REPLAY.as_bytes());
    }
}
