//! A capture: a mark, a version, then records of two directions.

const MARK: &[u8] = b"LFT";
const VERSION: &[u8] = &[0, 1];
pub const HEAD_SIZE: usize = 5;
/// Direction (1 byte), milliseconds (4) and count (2).
pub const RECORD_HEAD_SIZE: usize = 7;
pub const MAX_COUNT: usize = 0xFFFF;

#[derive(Clone, Copy, PartialEq, Eq, Debug)]
pub enum Direction {
    FromModule = 0,
    FromBox = 1,
}

pub const DIRECTIONS: [Direction; 2] = [Direction::FromModule, Direction::FromBox];

#[derive(Clone, Copy, PartialEq, Eq, Debug)]
pub enum Refusal {
    Mark = 51,
    Version = 52,
    Direction = 53,
    Ended = 54,
}

/// What stands at the front of the bytes that are left.
#[derive(PartialEq, Eq, Debug)]
pub enum Front<'a> {
    Head,
    Record {
        direction: Direction,
        payload: &'a [u8],
    },
    /// Only more bytes, or their end, can decide.
    Incomplete,
    /// With the place in the capture of what is refused.
    Refused(Refusal, u64),
}

/// The place is that of the first byte in the capture. A byte that is wrong refuses at once, whatever follows.
pub fn front(place: u64, bytes: &[u8]) -> Front<'_> {
    if place == 0 {
        head(bytes)
    } else {
        record(place, bytes)
    }
}

/// What the bytes that are left mean at the end of the capture, where the front is incomplete.
pub fn refused_at_end(place: u64, bytes: &[u8]) -> Option<(Refusal, u64)> {
    match (place, bytes.len()) {
        (0, size) if size < MARK.len() => Some((Refusal::Mark, 0)),
        (0, _) => Some((Refusal::Version, MARK.len() as u64)),
        (_, 0) => None,
        _ => Some((Refusal::Ended, place)),
    }
}

fn head(bytes: &[u8]) -> Front<'_> {
    let (mark, rest) = bytes.split_at(bytes.len().min(MARK.len()));
    let version = &rest[..rest.len().min(VERSION.len())];
    if !MARK.starts_with(mark) {
        Front::Refused(Refusal::Mark, 0)
    } else if !VERSION.starts_with(version) {
        Front::Refused(Refusal::Version, MARK.len() as u64)
    } else if bytes.len() < HEAD_SIZE {
        Front::Incomplete
    } else {
        Front::Head
    }
}

fn record(place: u64, bytes: &[u8]) -> Front<'_> {
    let direction = match bytes.first() {
        None => return Front::Incomplete,
        Some(0) => Direction::FromModule,
        Some(1) => Direction::FromBox,
        Some(_) => return Front::Refused(Refusal::Direction, place),
    };
    let Some((&[_, _, _, _, _, high, low], rest)) = bytes.split_first_chunk::<RECORD_HEAD_SIZE>() else {
        return Front::Incomplete;
    };
    let count = u16::from_be_bytes([high, low]);
    rest.get(..count.into()).map_or(Front::Incomplete, |payload| Front::Record { direction, payload })
}

pub fn push_head(capture: &mut Vec<u8>) {
    capture.extend_from_slice(MARK);
    capture.extend_from_slice(VERSION);
}

/// The payload has at most `MAX_COUNT` bytes.
pub fn push_record(capture: &mut Vec<u8>, direction: Direction, milliseconds: u32, payload: &[u8]) {
    let count = u16::try_from(payload.len()).expect("the count has 2 bytes");
    capture.push(direction as u8);
    capture.extend_from_slice(&milliseconds.to_be_bytes());
    capture.extend_from_slice(&count.to_be_bytes());
    capture.extend_from_slice(payload);
}

#[cfg(test)]
mod tests {
    use super::*;

    #[test]
    fn heads() {
        assert_eq!(front(0, b"LFT\0\x01"), Front::Head);
        assert_eq!(front(0, b"LFT\0\x01\x02"), Front::Head);
        for lacking in [&b""[..], b"L", b"LF", b"LFT", b"LFT\0"] {
            assert_eq!(front(0, lacking), Front::Incomplete);
        }
        for wrong in [&b"X"[..], b"LX", b"LFX", b"LFX\0\x01", b"lft\0\x01"] {
            assert_eq!(front(0, wrong), Front::Refused(Refusal::Mark, 0));
        }
        for wrong in [&b"LFT\x01"[..], b"LFT\0\0", b"LFT\0\x02", b"LFT\x01\0"] {
            assert_eq!(front(0, wrong), Front::Refused(Refusal::Version, 3));
        }
    }

    #[test]
    fn records() {
        let whole = [1, 9, 9, 9, 9, 0, 2, 7, 8, 5];
        let record = Front::Record { direction: Direction::FromBox, payload: &[7, 8] };
        assert_eq!(front(5, &whole), record);
        assert_eq!(front(5, &whole[..9]), record);
        for size in 0..9 {
            assert_eq!(front(5, &whole[..size]), Front::Incomplete);
        }
        assert_eq!(front(5, &[0, 0, 0, 0, 0, 1, 0, 7]), Front::Incomplete);
        assert_eq!(front(12, &[2]), Front::Refused(Refusal::Direction, 12));
    }

    #[test]
    fn ends() {
        assert_eq!(refused_at_end(0, b"LF"), Some((Refusal::Mark, 0)));
        assert_eq!(refused_at_end(0, b"LFT"), Some((Refusal::Version, 3)));
        assert_eq!(refused_at_end(5, b""), None);
        assert_eq!(refused_at_end(5, b"\0"), Some((Refusal::Ended, 5)));
    }
}
