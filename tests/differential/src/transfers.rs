//! The records of a transfer, and of the whole box, of the program `test_driver`.

use crate::device::{self, Held};
use crate::driver::{number, Driver, MAX_ROOM, UNTOUCHED};
use crate::links;
use crate::reader::Answer;
use crate::text;
use crate::transfer::{self, Frame, Lent, Open, Progress, Transfer};

pub const BEGIN: u8 = 64;
pub const STORE: u8 = 65;
pub const STOP: u8 = 66;
pub const CANCEL: u8 = 67;
pub const FRESH: u8 = 68;
pub const SET: u8 = 69;
pub const PROGRESS: u8 = 70;
pub const SHOW: u8 = 71;
pub const FILL: u8 = 72;
pub const DEVICE: u8 = 73;

/// The buffer that the program lends, or the front of it.
pub const TABLE_SIZE: usize = 131_072;

pub fn play_record(driver: &mut Driver, operation: u8, data: &[u8], out: &mut Vec<u8>) {
    match operation {
        BEGIN => begin(driver, data, out),
        STORE => store(driver, data, out),
        STOP => stop(driver, data, out),
        CANCEL => cancel(driver, data, out),
        FRESH => set(driver, "fresh", Transfer::new(), out),
        SET => {
            let (size, piece) = (number(data, 0, 4) as u32, number(data, 4, 2) as u16);
            let open = Open { size, piece, stored: number(data, 6, 2) as u16 };
            set(driver, "set", Transfer { open: Some(open) }, out);
        }
        PROGRESS => answer(out, "progress", &progress(&driver.transfer)),
        SHOW => show(driver, data, out),
        FILL => {
            driver.table.fill(number(data, 0, 1) as u8);
            out.extend_from_slice(b"fill");
        }
        _ => return device(driver, data, out),
    }
    out.push(b'\n');
}

fn begin(driver: &mut Driver, data: &[u8], out: &mut Vec<u8>) {
    let (clock, piece) = (number(data, 1, 4) as u32, number(data, 5, 2) as u16);
    let frame = frame(transfer::ANNOUNCEMENT, 0, data, 13);
    let mut room = output(data, 11);
    let lent = Lent { buffer: &mut driver.table[..buffer_size(data, 7)], out: &mut room };
    let row = driver.transfer.begin(&mut driver.link, clock, piece, frame, lent).row();
    answer(out, "begin", &row);
    bytes(out, &room);
    state(out, &driver.transfer);
    links::state(out, &driver.link);
}

fn store(driver: &mut Driver, data: &[u8], out: &mut Vec<u8>) {
    let frame = frame(transfer::PIECE, number(data, 1, 2) as u16, data, 9);
    let mut room = output(data, 7);
    let lent = Lent { buffer: &mut driver.table[..buffer_size(data, 3)], out: &mut room };
    let row = driver.transfer.store(frame, lent).row();
    answer(out, "store", &row);
    bytes(out, &room);
    state(out, &driver.transfer);
}

fn stop(driver: &mut Driver, data: &[u8], out: &mut Vec<u8>) {
    let mut room = output(data, 1);
    let row = driver.transfer.stop(frame(transfer::STOP, 0, data, 3), &mut room).row();
    answer(out, "stop", &row);
    bytes(out, &room);
    state(out, &driver.transfer);
}

fn cancel(driver: &mut Driver, data: &[u8], out: &mut Vec<u8>) {
    let mut room = output(data, 4);
    let row = driver.transfer.cancel(&mut driver.link, number(data, 0, 4) as u32, &mut room).row();
    answer(out, "cancel", &row);
    bytes(out, &room);
    state(out, &driver.transfer);
    links::state(out, &driver.link);
}

fn set(driver: &mut Driver, word: &str, new: Transfer, out: &mut Vec<u8>) {
    driver.transfer = new;
    answer(out, word, &[]);
    state(out, &driver.transfer);
}

fn progress(transfer: &Transfer) -> Vec<u64> {
    match transfer.progress() {
        Progress::Absent => vec![0],
        Progress::Open { stored, size } => vec![0, stored, size],
        Progress::State => vec![17, 0],
    }
}

/// What is asked for beyond the table's end is cut there.
fn show(driver: &Driver, data: &[u8], out: &mut Vec<u8>) {
    let start = (number(data, 0, 4) as usize).min(TABLE_SIZE);
    let end = (start + number(data, 4, 2) as usize).min(TABLE_SIZE);
    answer(out, "table", &[]);
    bytes(out, &driver.table[start..end]);
}

/// A line for each answer of the reader, the first one also where no bytes are offered.
fn device(driver: &mut Driver, data: &[u8], out: &mut Vec<u8>) {
    let (clock, piece) = (number(data, 0, 4) as u32, number(data, 4, 2) as u16);
    let mut left = data.get(12..).unwrap_or(&[]);
    loop {
        let said = driver.reader.feed(left);
        let mut room = output(data, 10);
        let lent = Lent { buffer: &mut driver.table[..buffer_size(data, 6)], out: &mut room };
        let held = Held { transfer: &mut driver.transfer, link: &mut driver.link };
        let handled = device::handle(said, &driver.reader, held, clock, piece, lent);
        answer(out, "device", &handled.row);
        out.extend_from_slice(b" :");
        if let Some((command, number)) = handled.ended {
            text::numbers(out, &[command.into(), number.into()]);
        }
        bytes(out, &room);
        state(out, &driver.transfer);
        links::state(out, &driver.link);
        out.push(b'\n');
        left = match said {
            Answer::More { count } | Answer::Decided { count, .. } => &left[count..],
            Answer::State | Answer::Used => return,
        };
        if left.is_empty() {
            return;
        }
    }
}

/// The frame whose number comes first in the data, and whose payload comes last.
fn frame(command: u8, flags: u16, data: &[u8], payload: usize) -> Frame<'_> {
    Frame { command, number: number(data, 0, 1) as u8, flags, payload: data.get(payload..).unwrap_or(&[]) }
}

fn buffer_size(data: &[u8], place: usize) -> usize {
    (number(data, place, 4) as usize).min(TABLE_SIZE)
}

fn output(data: &[u8], place: usize) -> Vec<u8> {
    vec![UNTOUCHED; (number(data, place, 2) as usize).min(MAX_ROOM)]
}

fn answer(out: &mut Vec<u8>, word: &str, row: &[u64]) {
    out.extend_from_slice(word.as_bytes());
    text::numbers(out, row);
}

fn bytes(out: &mut Vec<u8>, bytes: &[u8]) {
    out.extend_from_slice(b" :");
    text::spaced_bytes(out, bytes);
}

fn state(out: &mut Vec<u8>, transfer: &Transfer) {
    out.extend_from_slice(b" :");
    if let Some(Open { size, piece, stored }) = transfer.open {
        text::numbers(out, &[size.into(), piece.into(), stored.into()]);
    }
}
