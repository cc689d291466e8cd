//! What the box replies to what it received (PROTOCOL 8), always with flags 0 and the number received.

use crate::messages::{self, Message, Refusal};
use crate::writer::wire_form;

/// The box's own rejection, and its error codes.
const REJECTION: u8 = 0x12;
const WRONG_SUM: u8 = 1;
const UNKNOWN_COMMAND: u8 = 2;
const OTHER_ERROR: u8 = 3;

/// The number of a wrong sum, and of a command that only the box sends, which no answer refuses.
const SUM_ROW: u8 = 15;
const NO_ROW: u8 = 0;

/// Commands that only the box sends: to receive one is an error.
const FROM_THE_BOX: [u8; 18] =
    [0x02, 0x04, 0x05, 0x08, 0x09, 0x0B, 0x0E, 0x10, 0x12, 0x13, 0x15, 0x17, 0x1A, 0x1B, 0x1E, 0x20, 0x27, 0x29];

pub enum Reply {
    Nothing,
    /// The caller has to send this command under the number received.
    Wanted {
        command: u8,
        number: u8,
    },
    Acknowledged {
        wire: Vec<u8>,
    },
    /// The cause is the number of the answer that refuses the frame.
    Rejected {
        code: u8,
        cause: u8,
        wire: Vec<u8>,
    },
}

impl Reply {
    /// The number of the answer and its values, where the reply fits the output.
    pub fn row(&self) -> Vec<u64> {
        match self {
            Reply::Nothing => vec![0],
            Reply::Wanted { command, number } => vec![0, 0, (*command).into(), (*number).into()],
            Reply::Acknowledged { wire } => vec![0, wire.len() as u64],
            Reply::Rejected { code, cause, wire } => {
                vec![0, wire.len() as u64, REJECTION.into(), (*code).into(), (*cause).into()]
            }
        }
    }

    /// What is written, if anything is.
    pub fn wire(&self) -> Option<&[u8]> {
        match self {
            Reply::Nothing | Reply::Wanted { .. } => None,
            Reply::Acknowledged { wire } | Reply::Rejected { wire, .. } => Some(wire),
        }
    }
}

/// The reply to a frame whose checksum holds.
pub fn to_frame(command: u8, number: u8, payload: &[u8]) -> Reply {
    if FROM_THE_BOX.contains(&command) {
        return rejected(number, UNKNOWN_COMMAND, NO_ROW);
    }
    // A transfer decides about these, faulty ones too.
    if matches!(command, 0x19 | 0x1D | 0x1F) {
        return Reply::Wanted { command: command + 1, number };
    }
    match messages::read(command, payload) {
        Err(Refusal::Command) => rejected(number, UNKNOWN_COMMAND, Refusal::Command as u8),
        Err(refusal) => rejected(number, OTHER_ERROR, refusal as u8),
        Ok(Message::Query) => Reply::Wanted { command: 0x04, number },
        Ok(Message::Empty { command: 0x01 }) => Reply::Wanted { command: 0x02, number },
        Ok(Message::Control(_) | Message::Network { .. } | Message::Empty { command: 0x07 | 0x0F }) => {
            Reply::Acknowledged { wire: acknowledgement(command, number) }
        }
        Ok(_) => Reply::Nothing,
    }
}

/// The reply to a frame whose checksum is wrong.
pub fn to_wrong_sum(number: u8) -> Reply {
    rejected(number, WRONG_SUM, SUM_ROW)
}

/// The next command, without a payload.
pub fn acknowledgement(command: u8, number: u8) -> Vec<u8> {
    wire_form(command + 1, number, 0, &[])
}

/// The rejection of what is neither a wrong sum nor an unknown command.
pub fn other_error(number: u8) -> Vec<u8> {
    rejection(number, OTHER_ERROR)
}

fn rejected(number: u8, code: u8, cause: u8) -> Reply {
    Reply::Rejected { code, cause, wire: rejection(number, code) }
}

fn rejection(number: u8, code: u8) -> Vec<u8> {
    wire_form(REJECTION, number, 0, &[code])
}

#[cfg(test)]
mod tests {
    use super::*;

    /// Handed to the caller, whatever the payload is.
    #[test]
    fn transfers_are_handed_over() {
        for command in [0x19, 0x1D, 0x1F] {
            for payload in [&[][..], &[0], &[0, 1, 0, 1], &[0, 0, 0, 1, 0, 0], &[0; 7]] {
                let reply = to_frame(command, 5, payload);
                assert_eq!(reply.row(), [0, 0, u64::from(command) + 1, 5]);
                assert_eq!(reply.wire(), None);
            }
        }
    }

    #[test]
    fn rows() {
        assert_eq!(to_frame(0x06, 5, &[]).row(), [0]);
        assert_eq!(to_frame(0x01, 5, &[]).row(), [0, 0, 2, 5]);
        assert_eq!(to_frame(0x03, 5, &[2]).row(), [0, 0, 4, 5]);
        assert_eq!(to_frame(0x07, 5, &[]).row(), [0, 9]);
        assert_eq!(to_frame(0x07, 0xFF, &[]).row(), [0, 10]);
        assert_eq!(to_frame(0x07, 5, &[0]).row(), [0, 10, 18, 3, 32]);
        assert_eq!(to_frame(0x1A, 5, &[0]).row(), [0, 10, 18, 2, 0]);
        assert_eq!(to_frame(0x99, 5, &[]).row(), [0, 10, 18, 2, 31]);
        assert_eq!(to_wrong_sum(5).row(), [0, 10, 18, 1, 15]);
    }
}
