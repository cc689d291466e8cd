//! Scripts in which a whole table is sent.

use crate::device_scripts::{Wire, MAX_BYTES};
use crate::followed::{Script, Terms, ONE_FRAME};
use crate::module::{any_bytes, Module};
use crate::random::Rng;
use crate::transfer::{self, Frame};
use crate::writer::wire_form;

/// How many scripts `every_small` has.
pub const SMALL_SETS: u64 = 2;

/// Every table of up to 24 bytes in pieces of up to 8, sent whole: by calls, and on the wire.
pub fn every_small(rng: &mut Rng, index: u64) -> Vec<u8> {
    let mut script = Script::new(rng);
    for size in 1..=24 {
        for piece in 1..=8 {
            let module = Module::new(any_bytes(size, rng), piece, rng);
            send_whole(&mut script, &module, index == 1, rng);
            script.progress();
            script.show(0, size as u16 + 2);
        }
    }
    script.records
}

/// How many scripts `most_pieces` has.
pub const MOST_SETS: u64 = 2;

/// A table of 65,535 pieces: by calls, and on the wire.
pub fn most_pieces(rng: &mut Rng, index: u64) -> Vec<u8> {
    let mut script = Script::new(rng);
    let (size, piece) = if index == 0 { (131_069, 2) } else { (65_535, 1) };
    let module = Module::new(rng.bytes(size), piece, rng);
    send_whole(&mut script, &module, index == 1, rng);
    show_table(&mut script);
    script.records
}

/// How many scripts `whole_table` has.
pub const TABLE_SETS: u64 = 4;

/// A table of 100,000 bytes in pieces of 128, on the wire: any bytes, all FF, all kinds of trouble, and again with a
/// record for each byte of some frames.
pub fn whole_table(rng: &mut Rng, index: u64) -> Vec<u8> {
    let mut script = Script::new(rng);
    let table = if index == 1 { vec![0xFF; 100_000] } else { rng.bytes(100_000) };
    let module = Module::new(table, 128, rng);
    match index {
        0 | 1 => send_whole(&mut script, &module, true, rng),
        _ => send_until_stored(&mut script, &module, index == 3, rng),
    }
    show_table(&mut script);
    script.records
}

fn show_table(script: &mut Script) {
    script.progress();
    for from in [0, 50_000, 100_000] {
        script.show(from, 50_000);
    }
}

/// The announcement, the answer to our 1B, and each piece once.
fn send_whole(script: &mut Script, module: &Module, on_the_wire: bool, rng: &mut Rng) {
    let terms = Terms { piece: module.piece, buffer: module.table.len() as u32, room: 120 };
    let announcement = module.announcement();
    let frame = Frame { command: transfer::ANNOUNCEMENT, number: rng.byte(), flags: 0, payload: &announcement };
    deliver(script, frame, on_the_wire, terms);
    let (command, number) = script.fitting();
    deliver(script, Frame { command, number, flags: 0, payload: &[] }, true, Terms { room: ONE_FRAME, ..terms });
    let mut bytes = Vec::new();
    for place in 1..=module.total() {
        let (number, payload) = (place as u8, module.piece(place));
        if on_the_wire {
            bytes.extend(wire_form(transfer::PIECE, number, 0, &payload));
        } else {
            let frame = Frame { command: transfer::PIECE, number, flags: 0, payload: &payload };
            script.call(frame, Terms { room: ONE_FRAME, ..terms });
        }
    }
    for part in bytes.chunks(MAX_BYTES) {
        script.device(part, Terms { room: ONE_FRAME, ..terms });
    }
}

fn deliver(script: &mut Script, frame: Frame, on_the_wire: bool, terms: Terms) {
    if on_the_wire {
        script.device(&wire_form(frame.command, frame.number, frame.flags, frame.payload), terms);
    } else {
        script.call(frame, terms);
    }
}

/// Sends what the box has not stored yet, until it has stored all; much of it arrives with trouble.
fn send_until_stored(script: &mut Script, module: &Module, in_bytes: bool, rng: &mut Rng) {
    let mut terms = Terms { piece: module.piece, buffer: module.table.len() as u32 + 7, room: 120 };
    let mut wire = Wire::default();
    while script.driver.transfer.open.is_none() {
        // A 1B whose 19 got lost still waits.
        script.answer(rng);
        wire.send(wire_form(transfer::ANNOUNCEMENT, rng.byte(), 0, &module.announcement()), rng);
        wire.arrive(script, terms, rng);
    }
    terms.room = ONE_FRAME;
    while script.stored() < module.total() {
        let place = script.stored() + u16::from(!rng.once_in(8));
        wire.send(wire_form(transfer::PIECE, rng.byte(), 0, &module.piece(place)), rng);
        if in_bytes && rng.once_in(20) {
            for byte in std::mem::take(&mut wire.bytes) {
                script.device(&[byte], terms);
            }
        }
        if rng.once_in(10) {
            script.any_link_call(rng);
            script.advance(rng);
        }
        wire.arrive(script, terms, rng);
    }
}

#[cfg(test)]
mod tests {
    use super::*;
    use crate::driver::{self, UNTOUCHED};
    use crate::text;
    use crate::transfers::TABLE_SIZE;

    fn printed(script: &[u8]) -> String {
        let mut text = Vec::new();
        driver::play(&mut &script[..], &mut text).expect("memory can be read and written");
        String::from_utf8(text).expect("the driver prints ASCII")
    }

    /// What the driver's table holds in the end.
    fn shown_table(text: &str) -> Vec<u8> {
        let parts = text.lines().filter_map(|line| line.strip_prefix("table :"));
        parts.flat_map(|part| text::from_hex(part).expect("hex")).collect()
    }

    #[test]
    fn whole_tables_arrive() {
        for index in 0..TABLE_SETS {
            let mut rng = Rng::new(index);
            let text = printed(&whole_table(&mut rng, index));
            assert_eq!(text.lines().filter(|&line| line == "progress 0 100000 100000").count(), 1);
            // The same draws again.
            let mut rng = Rng::new(index);
            Script::new(&mut rng);
            let mut table = if index == 1 { vec![0xFF; 100_000] } else { rng.bytes(100_000) };
            table.resize(TABLE_SIZE, UNTOUCHED);
            assert!(shown_table(&text) == table, "{index}");
        }
    }

    #[test]
    fn most_pieces_arrive() {
        for (index, size) in [(0, 131_069), (1, 65_535)] {
            let text = printed(&most_pieces(&mut Rng::new(index), index));
            assert!(text.lines().any(|line| line == format!("progress 0 {size} {size}")));
        }
    }

    #[test]
    fn small_tables_arrive() {
        for index in 0..SMALL_SETS {
            let text = printed(&every_small(&mut Rng::new(index), index));
            let sizes: Vec<String> = (1..=24).flat_map(|size| vec![format!("progress 0 {size} {size}"); 8]).collect();
            let progress: Vec<&str> = text.lines().filter(|line| line.starts_with("progress")).collect();
            assert_eq!(progress, sizes);
        }
    }
}
