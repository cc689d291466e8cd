//! Bytes of a stream: each frame read, written again and replied to.

use crate::answers::{self, Reply};
use crate::driver::UNTOUCHED;
use crate::messages::{self, Message};
use crate::reader::{Answer, Reader, Verdict};
use crate::text;
use crate::writer::{wire_form, Refusal};

/// The lines about the next bytes of a stream.
pub fn lines(reader: &mut Reader, mut stream: &[u8], out: &mut Vec<u8>) {
    while !stream.is_empty() {
        let Answer::Decided { verdict, count, .. } = reader.feed(stream) else { break };
        stream = &stream[count..];
        match verdict {
            Verdict::Frame => frame_lines(reader.body(), out),
            Verdict::Sum { .. } => sum_lines(reader.body(), out),
            // PROTOCOL 8.10: no other answer has a reply.
            Verdict::Short | Verdict::Long | Verdict::Stuff { .. } | Verdict::StuffLate { .. } | Verdict::Cut => {}
        }
    }
}

fn frame_lines(body: &[u8], out: &mut Vec<u8>) {
    let (command, number) = (body[2], body[3]);
    let flags = u16::from_be_bytes([body[4], body[5]]);
    let payload = &body[6..body.len() - 1];
    line(out, "frame", &[command.into(), number.into(), flags.into(), payload.len() as u64], None);
    match messages::read(command, payload) {
        Err(refusal) => line(out, "read", &[refusal as u64], None),
        Ok(message) => message_lines(&message, number, flags, out),
    }
    answer_line(answers::to_frame(command, number, payload), out);
}

fn message_lines(message: &Message, number: u8, flags: u16, out: &mut Vec<u8>) {
    let values = [vec![0, message.command().into()], message.values()].concat();
    line(out, "read", &values, None);
    for (place, part) in message.parts() {
        if !part.is_empty() {
            line(out, "part", &[place], Some(part));
        }
    }
    let wire = wire_form(message.command(), number, flags, &message.payload());
    line(out, "write", &[0, wire.len() as u64], Some(&wire));
}

fn sum_lines(body: &[u8], out: &mut Vec<u8>) {
    let number = body[3];
    line(out, "sum", &[number.into()], None);
    answer_line(answers::to_wrong_sum(number), out);
}

/// A reply that fits its output.
fn answer_line(reply: Reply, out: &mut Vec<u8>) {
    line(out, "answer", &reply.row(), reply.wire());
}

/// A reply to an output of this size; where it does not fit, the front of the buffer is shown.
pub fn answer_in_room(reply: Reply, room: usize, out: &mut Vec<u8>) {
    match reply.wire() {
        Some(wire) if wire.len() > room => {
            line(out, "answer", &Refusal::Room { needed: wire.len() }.row(), Some(&[UNTOUCHED; 3]));
        }
        _ => answer_line(reply, out),
    }
}

fn line(out: &mut Vec<u8>, word: &str, numbers: &[u64], bytes: Option<&[u8]>) {
    out.extend_from_slice(word.as_bytes());
    text::numbers(out, numbers);
    if let Some(bytes) = bytes {
        out.extend_from_slice(b" :");
        text::spaced_bytes(out, bytes);
    }
    out.push(b'\n');
}
