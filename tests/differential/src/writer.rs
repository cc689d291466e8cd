//! The writer (PROTOCOL 2 and 6): header, then the stuffed body with its checksum.

use crate::reader::LIMIT;

pub const MAX_PAYLOAD: usize = LIMIT - 5;
const HEADER: [u8; 2] = [0xFF, 0xFF];
const STUFFING: u8 = 0x55;

#[derive(Clone, Copy, PartialEq, Eq, Debug)]
pub enum Refusal {
    Payload,
    /// The frame has this many bytes.
    Room {
        needed: usize,
    },
}

impl Refusal {
    /// The number of the answer and its value.
    pub fn row(self) -> [u64; 2] {
        match self {
            Refusal::Payload => [21, 0],
            Refusal::Room { needed } => [22, needed as u64],
        }
    }
}

/// Writes a frame to the front of the output and returns how many bytes it has.
pub fn write(command: u8, number: u8, flags: u16, payload: &[u8], out: &mut [u8]) -> Result<usize, Refusal> {
    if payload.len() > MAX_PAYLOAD {
        return Err(Refusal::Payload);
    }
    let wire = wire_form(command, number, flags, payload);
    let front = out.get_mut(..wire.len()).ok_or(Refusal::Room { needed: wire.len() })?;
    front.copy_from_slice(&wire);
    Ok(wire.len())
}

/// The wire form of a payload that fits.
pub fn wire_form(command: u8, number: u8, flags: u16, payload: &[u8]) -> Vec<u8> {
    framed(&sealed(body(command, number, flags, payload)))
}

/// A body without its checksum; the length field wraps where the payload does not fit.
pub fn body(command: u8, number: u8, flags: u16, payload: &[u8]) -> Vec<u8> {
    let length = (payload.len() + 5) as u16;
    let mut body = Vec::with_capacity(payload.len() + 7);
    body.extend_from_slice(&length.to_be_bytes());
    body.extend_from_slice(&[command, number]);
    body.extend_from_slice(&flags.to_be_bytes());
    body.extend_from_slice(payload);
    body
}

/// A body with its checksum.
pub fn sealed(mut body: Vec<u8>) -> Vec<u8> {
    let sum = body.iter().fold(0u8, |sum, &byte| sum.wrapping_add(byte));
    body.push(sum);
    body
}

/// A header, then any body, stuffed.
pub fn framed(body: &[u8]) -> Vec<u8> {
    let mut wire = Vec::with_capacity(2 * body.len() + 2);
    wire.extend_from_slice(&HEADER);
    for &byte in body {
        wire.push(byte);
        if byte == 0xFF {
            wire.push(STUFFING);
        }
    }
    wire
}

#[cfg(test)]
mod tests {
    use super::*;

    #[test]
    fn sums_and_stuffing() {
        assert_eq!(wire_form(7, 1, 0, &[]), [0xFF, 0xFF, 0, 5, 7, 1, 0, 0, 0x0D]);
        assert_eq!(wire_form(7, 0xF3, 0, &[]), [0xFF, 0xFF, 0, 5, 7, 0xF3, 0, 0, 0xFF, 0x55]);
        let report = [0xFF, 0xFF, 0, 14, 5, 2, 0, 0, 4, 5, 0, 3, 0, 0, 0, 0xFF, 0x55, 0, 0x20];
        assert_eq!(wire_form(5, 2, 0, &[4, 5, 0, 3, 0, 0, 0, 0xFF, 0]), report);
    }

    #[test]
    fn payload_and_room() {
        let mut out = [0xAA; 2_054];
        assert_eq!(write(7, 1, 0, &[0; 1_019], &mut out), Ok(1_028));
        assert_eq!(write(7, 1, 0, &[0; 1_020], &mut out), Err(Refusal::Payload));
        assert_eq!(write(7, 1, 0, &[0; 1_020], &mut []), Err(Refusal::Payload));
        let mut small = [0xAA; 8];
        assert_eq!(write(7, 1, 0, &[], &mut small), Err(Refusal::Room { needed: 9 }));
        assert_eq!(small, [0xAA; 8]);
        assert_eq!(write(7, 1, 0, &[], &mut []), Err(Refusal::Room { needed: 9 }));
        assert_eq!(write(0x90, 1, 0, &[0xFF; 5], &mut [0xAA; 18]), Err(Refusal::Room { needed: 19 }));
        assert_eq!(write(0x90, 1, 0, &[0xFF; 5], &mut [0xAA; 19]), Ok(19));
        assert_eq!([Refusal::Payload, Refusal::Room { needed: 19 }].map(Refusal::row), [[21, 0], [22, 19]]);
    }
}
