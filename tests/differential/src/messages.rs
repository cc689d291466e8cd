//! Messages (PROTOCOL 7): what a command and its payload mean, their values, their parts, their payload written again.

use crate::counter::{Control, Status, CONTROL_SIZE, STATUS_SIZE};

#[derive(Clone, Copy, PartialEq, Eq, Debug)]
pub enum Refusal {
    Command = 31,
    Size = 32,
    Field = 33,
}

/// Commands whose payload is empty.
const EMPTY: [u8; 24] = [
    0x01, 0x06, 0x07, 0x08, 0x0A, 0x0B, 0x0C, 0x0E, 0x0F, 0x10, 0x13, 0x14, 0x15, 0x16, 0x17, 0x1A, 0x1C, 0x1E, 0x1F,
    0x20, 0x27, 0x28, 0x29, 0x2A,
];

/// First payload bytes of 03, 04 and 05.
const CONTROL: u8 = 1;
const QUERY: u8 = 2;
const STATUS: u8 = 3;
const REPORT: u8 = 4;

/// Device information: four texts of 8 bytes and the product key, then the timeout.
const TEXTS_SIZE: usize = 64;

pub enum Message<'a> {
    Empty { command: u8 },
    Information(Information<'a>),
    Control(Control),
    Query,
    Status(Status),
    Report(Status),
    Onboarding { way: u8 },
    Network { bits: u16 },
    Reject { command: u8, code: u8 },
    Time(Time),
    Announcement { size: u32, check_code: &'a [u8] },
    Ready { check_code: &'a [u8], piece_size: u16 },
    Piece { index: u16, total: u16, data: &'a [u8] },
}

pub struct Information<'a> {
    texts: &'a [u8; TEXTS_SIZE],
    timeout: u16,
    attributes: Option<[u8; 8]>,
    secret: Option<&'a [u8]>,
}

pub struct Time {
    year: u16,
    month_to_second: [u8; 5],
    unix: Option<u32>,
}

pub fn read(command: u8, payload: &[u8]) -> Result<Message<'_>, Refusal> {
    match command {
        _ if EMPTY.contains(&command) => only(payload.is_empty(), Message::Empty { command }),
        0x02 => read_information(payload),
        0x03 => read_request(payload),
        0x04 if payload.is_empty() => Ok(Message::Empty { command }),
        0x04 => read_status(STATUS, payload).map(Message::Status),
        0x05 => read_status(REPORT, payload).map(Message::Report),
        0x09 => Ok(Message::Onboarding { way: read_choice(2, payload)? }),
        0x0D => match *payload {
            [high, low] => Ok(Message::Network { bits: number(&[high, low]) as u16 }),
            _ => Err(Refusal::Size),
        },
        0x11 | 0x12 => Ok(Message::Reject { command, code: read_choice(4, payload)? }),
        0x18 => read_time(payload),
        0x19 => read_announcement(payload),
        0x1B => read_ready(payload),
        0x1D => read_piece(payload),
        _ => Err(Refusal::Command),
    }
}

fn only(size_fits: bool, message: Message<'_>) -> Result<Message<'_>, Refusal> {
    if size_fits {
        Ok(message)
    } else {
        Err(Refusal::Size)
    }
}

/// One byte from 1 to `most`.
fn read_choice(most: u8, payload: &[u8]) -> Result<u8, Refusal> {
    match *payload {
        [choice] if (1..=most).contains(&choice) => Ok(choice),
        [_] => Err(Refusal::Field),
        _ => Err(Refusal::Size),
    }
}

fn read_information(payload: &[u8]) -> Result<Message<'_>, Refusal> {
    if ![66, 74, 106].contains(&payload.len()) {
        return Err(Refusal::Size);
    }
    let (texts, rest) = payload.split_first_chunk().ok_or(Refusal::Size)?;
    let (timeout, rest) = rest.split_first_chunk().ok_or(Refusal::Size)?;
    let timeout = u16::from_be_bytes(*timeout);
    let (attributes, secret) = match rest.split_first_chunk() {
        None => (None, None),
        Some((attributes, secret)) => (Some(*attributes), (!secret.is_empty()).then_some(secret)),
    };
    Ok(Message::Information(Information { texts, timeout, attributes, secret }))
}

fn read_request(payload: &[u8]) -> Result<Message<'_>, Refusal> {
    match payload {
        [] => Err(Refusal::Size),
        [CONTROL, rest @ ..] => {
            let control: [u8; CONTROL_SIZE] = rest.try_into().map_err(|_| Refusal::Size)?;
            Control::read(control).map(Message::Control)
        }
        [QUERY, rest @ ..] => only(rest.is_empty(), Message::Query),
        _ => Err(Refusal::Field),
    }
}

/// The first byte, then a status.
fn read_status(first: u8, payload: &[u8]) -> Result<Status, Refusal> {
    let (&begin, rest) = payload.split_first().ok_or(Refusal::Size)?;
    if begin != first {
        return Err(Refusal::Field);
    }
    let status: [u8; STATUS_SIZE] = rest.try_into().map_err(|_| Refusal::Size)?;
    Status::read(status)
}

fn read_time(payload: &[u8]) -> Result<Message<'_>, Refusal> {
    let (year, rest) = payload.split_first_chunk().ok_or(Refusal::Size)?;
    let (&month_to_second, rest) = rest.split_first_chunk().ok_or(Refusal::Size)?;
    let unix = match rest.len() {
        0 => None,
        4 => Some(number(rest) as u32),
        _ => return Err(Refusal::Size),
    };
    Ok(Message::Time(Time { year: u16::from_be_bytes(*year), month_to_second, unix }))
}

fn read_announcement(payload: &[u8]) -> Result<Message<'_>, Refusal> {
    let (size, rest) = payload.split_first_chunk().ok_or(Refusal::Size)?;
    let (count, check_code) = rest.split_first_chunk().ok_or(Refusal::Size)?;
    let fits = check_code.len() == usize::from(u16::from_be_bytes(*count));
    only(fits, Message::Announcement { size: u32::from_be_bytes(*size), check_code })
}

fn read_ready(payload: &[u8]) -> Result<Message<'_>, Refusal> {
    let (count, rest) = payload.split_first_chunk().ok_or(Refusal::Size)?;
    let (check_code, piece_size) = rest.split_last_chunk().ok_or(Refusal::Size)?;
    let fits = check_code.len() == usize::from(u16::from_be_bytes(*count));
    only(fits, Message::Ready { check_code, piece_size: u16::from_be_bytes(*piece_size) })
}

fn read_piece(payload: &[u8]) -> Result<Message<'_>, Refusal> {
    let (index, rest) = payload.split_first_chunk().ok_or(Refusal::Size)?;
    let (total, data) = rest.split_first_chunk().ok_or(Refusal::Size)?;
    Ok(Message::Piece { index: u16::from_be_bytes(*index), total: u16::from_be_bytes(*total), data })
}

/// Big-endian.
fn number(bytes: &[u8]) -> u64 {
    bytes.iter().fold(0, |number, &byte| number << 8 | u64::from(byte))
}

impl<'a> Message<'a> {
    pub fn command(&self) -> u8 {
        match *self {
            Message::Empty { command } | Message::Reject { command, .. } => command,
            Message::Information(_) => 0x02,
            Message::Control(_) | Message::Query => 0x03,
            Message::Status(_) => 0x04,
            Message::Report(_) => 0x05,
            Message::Onboarding { .. } => 0x09,
            Message::Network { .. } => 0x0D,
            Message::Time(_) => 0x18,
            Message::Announcement { .. } => 0x19,
            Message::Ready { .. } => 0x1B,
            Message::Piece { .. } => 0x1D,
        }
    }

    /// The values after the command, without the parts.
    pub fn values(&self) -> Vec<u64> {
        match self {
            Message::Empty { .. } => vec![],
            Message::Information(information) => information.values(),
            Message::Control(control) => after_first(CONTROL, control.values()),
            Message::Query => vec![QUERY.into()],
            Message::Status(status) => after_first(STATUS, status.values()),
            Message::Report(status) => after_first(REPORT, status.values()),
            Message::Onboarding { way } => vec![(*way).into()],
            Message::Network { bits } => network_values(*bits),
            Message::Reject { code, .. } => vec![(*code).into()],
            Message::Time(time) => time.values(),
            Message::Announcement { size, .. } => vec![(*size).into()],
            Message::Ready { piece_size, .. } => vec![(*piece_size).into()],
            Message::Piece { index, total, .. } => vec![(*index).into(), (*total).into()],
        }
    }

    /// The parts of the payload, each under its number; some may be empty.
    pub fn parts(&self) -> Vec<(u64, &'a [u8])> {
        match self {
            Message::Information(information) => information.parts(),
            Message::Announcement { check_code, .. } | Message::Ready { check_code, .. } => vec![(6, check_code)],
            Message::Piece { data, .. } => vec![(7, data)],
            _ => vec![],
        }
    }

    /// The payload written from the values: what reading ignores is 0 here.
    pub fn payload(&self) -> Vec<u8> {
        match self {
            Message::Empty { .. } => vec![],
            Message::Information(information) => information.written(),
            Message::Control(control) => [&[CONTROL][..], &control.written()].concat(),
            Message::Query => vec![QUERY],
            Message::Status(status) => [&[STATUS][..], &status.written()].concat(),
            Message::Report(status) => [&[REPORT][..], &status.written()].concat(),
            Message::Onboarding { way: byte } | Message::Reject { code: byte, .. } => vec![*byte],
            Message::Network { bits } => (bits & NETWORK_BITS).to_be_bytes().to_vec(),
            Message::Time(time) => time.written(),
            Message::Announcement { size, check_code } => {
                let count = (check_code.len() as u16).to_be_bytes();
                [&size.to_be_bytes()[..], &count, check_code].concat()
            }
            Message::Ready { check_code, piece_size } => {
                let count = (check_code.len() as u16).to_be_bytes();
                [&count[..], check_code, &piece_size.to_be_bytes()].concat()
            }
            Message::Piece { index, total, data } => [&index.to_be_bytes()[..], &total.to_be_bytes(), data].concat(),
        }
    }
}

fn after_first(first: u8, values: Vec<u64>) -> Vec<u64> {
    [vec![first.into()], values].concat()
}

/// Bits 0 to 5 and 8 to 12; the others are reserved.
const NETWORK_BITS: u16 = 0b0001_1111_0011_1111;

fn network_values(bits: u16) -> Vec<u64> {
    let bit = |place: u16| u64::from(bits >> place & 1);
    let strength = u64::from(bits >> 8 & 7);
    (0..6).map(bit).chain([strength, bit(11), bit(12)]).collect()
}

impl<'a> Information<'a> {
    fn size(&self) -> usize {
        self.written().len()
    }

    fn values(&self) -> Vec<u64> {
        let attributes = self.attributes.map(u64::from_be_bytes);
        [self.size() as u64, self.timeout.into()].into_iter().chain(attributes).collect()
    }

    fn parts(&self) -> Vec<(u64, &'a [u8])> {
        let (versions, product_key) = self.texts.split_at(32);
        let texts = versions.chunks(8).chain([product_key]);
        texts.chain(self.secret).zip(0..).map(|(part, number)| (number, part)).collect()
    }

    fn written(&self) -> Vec<u8> {
        let attributes = self.attributes.unwrap_or_default();
        let attributes = if self.attributes.is_some() { &attributes[..] } else { &[] };
        [self.texts, &self.timeout.to_be_bytes()[..], attributes, self.secret.unwrap_or(&[])].concat()
    }
}

impl Time {
    fn values(&self) -> Vec<u64> {
        let fields = self.month_to_second.map(u64::from);
        [self.year.into()].into_iter().chain(fields).chain(self.unix.map(u64::from)).collect()
    }

    fn written(&self) -> Vec<u8> {
        let unix = self.unix.map(|unix| unix.to_be_bytes().to_vec()).unwrap_or_default();
        [&self.year.to_be_bytes()[..], &self.month_to_second, &unix].concat()
    }
}

#[cfg(test)]
mod tests {
    use super::*;

    fn refusal(command: u8, payload: &[u8]) -> Option<Refusal> {
        read(command, payload).err()
    }

    #[test]
    fn sizes_come_before_fields() {
        assert_eq!(refusal(0x00, &[]), Some(Refusal::Command));
        assert_eq!(refusal(0x21, &[0]), Some(Refusal::Command));
        assert_eq!(refusal(0x07, &[0]), Some(Refusal::Size));
        assert_eq!(refusal(0x03, &[]), Some(Refusal::Size));
        assert_eq!(refusal(0x03, &[1, 0xFF]), Some(Refusal::Size));
        assert_eq!(refusal(0x03, &[2, 0]), Some(Refusal::Size));
        assert_eq!(refusal(0x03, &[9, 0]), Some(Refusal::Field));
        assert_eq!(refusal(0x09, &[3, 0]), Some(Refusal::Size));
        assert_eq!(refusal(0x09, &[3]), Some(Refusal::Field));
        assert_eq!(refusal(0x19, &[0, 0, 0, 1, 0, 1]), Some(Refusal::Size));
        assert_eq!(refusal(0x1B, &[0, 1, 0, 0]), Some(Refusal::Size));
        assert_eq!(refusal(0x1D, &[0, 1, 0]), Some(Refusal::Size));
    }

    #[test]
    fn mode_three_counts_only_with_its_flag() {
        assert_eq!(refusal(0x03, &[1, 2, 6, 0, 0]), Some(Refusal::Field));
        let ignored = read(0x03, &[1, 5, 7, 2, 1]).ok();
        assert_eq!(ignored.map(|message| message.payload()), Some(vec![1, 5, 1, 2, 1]));
        assert_eq!(refusal(0x05, &[4, 12, 0, 0, 0, 0, 0, 0, 0]), Some(Refusal::Field));
        assert_eq!(refusal(0x05, &[4, 8, 0, 0, 0, 0, 0, 0, 8]), Some(Refusal::Field));
        assert_eq!(refusal(0x05, &[4, 8, 0, 0, 0, 0, 0, 0, 7]), None);
    }

    #[test]
    fn parts_lie_in_the_payload() {
        let payload = [0, 0, 4, 0, 0, 2, b'a', b'b'];
        let parts = read(0x19, &payload).map(|message| message.parts());
        assert_eq!(parts, Ok(vec![(6, &payload[6..])]));
    }
}
