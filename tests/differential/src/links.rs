//! The link's records of the program `test_driver`.

use crate::driver::number;
use crate::link::{self, Link, Refusal, Tick, Waiting};
use crate::text;

/// The data is four bytes and the clock.
pub const DATA_SIZE: usize = 8;

pub fn play_record(link: &mut Link, operation: u8, data: &[u8], out: &mut Vec<u8>) {
    let [a, b, c, d] = [0, 1, 2, 3].map(|place| number(data, place, 1) as u8);
    let clock = number(data, 4, 4) as u32;
    match operation {
        0 => answer(out, "offer", link.offer(a, clock).map(|number| vec![number.into()])),
        1 | 6 => answer(out, "tick", link.tick(clock).map(tick_values)),
        2 => answer(out, "answer", link.arrive(a, b).map(|(command, number)| vec![command.into(), number.into()])),
        3 => {
            *link = Link { next: a, waiting: None };
            out.extend_from_slice(b"set");
        }
        4 => {
            *link = Link { next: a, waiting: Some(Waiting { command: b, number: c, sent: clock, repeats: d }) };
            out.extend_from_slice(b"set");
        }
        5 => {
            let since = u32::from_be_bytes([a, b, c, d]);
            out.extend_from_slice(b"elapsed");
            text::numbers(out, &[link::elapsed(clock, since).into(), link::is_due(clock, since).into()]);
        }
        _ => {
            *link = Link::new();
            out.extend_from_slice(b"fresh");
        }
    }
    state(out, link);
    out.push(b'\n');
}

fn tick_values(tick: Tick) -> Vec<u64> {
    match tick {
        Tick::Nothing => vec![],
        Tick::Again { command, number } => vec![1, command.into(), number.into()],
        Tick::GivenUp { command, number } => vec![2, command.into(), number.into()],
    }
}

fn answer(out: &mut Vec<u8>, word: &str, result: Result<Vec<u64>, Refusal>) {
    out.extend_from_slice(word.as_bytes());
    match result {
        Ok(values) => {
            text::numbers(out, &[0]);
            text::numbers(out, &values);
        }
        // STATE has a count, which is 0.
        Err(Refusal::State) => text::numbers(out, &[Refusal::State as u64, 0]),
        Err(refusal) => text::numbers(out, &[refusal as u64]),
    }
}

pub fn state(out: &mut Vec<u8>, link: &Link) {
    out.extend_from_slice(b" :");
    text::numbers(out, &[link.next.into()]);
    if let Some(Waiting { command, number, sent, repeats }) = link.waiting {
        text::numbers(out, &[command.into(), number.into(), sent.into(), repeats.into()]);
    }
}
