//! A capture in pieces: in reads that the program cannot tell from one, and live.

use crate::process::Step;
use crate::random::Rng;
use crate::replay::{Replay, TITLE};

/// A capture of up to so many bytes is cut in every way.
const EVERY_CUT: usize = 12;

/// The cuts of a capture into reads: all of them if it is that short; else each one into up to three reads, and byte by
/// byte.
pub fn of(capture: &[u8]) -> impl Iterator<Item = Vec<&[u8]>> {
    masks(capture.len()).into_iter().map(|mask| pieces(capture, mask))
}

/// Bit i of a mask cuts after byte i.
fn masks(size: usize) -> Vec<u64> {
    let places = size.saturating_sub(1);
    if size <= EVERY_CUT {
        return (0..1 << places).collect();
    }
    let mut masks = vec![0, (1 << places) - 1];
    for first in 0..places {
        masks.extend((first..places).map(|second| 1 << first | 1 << second));
    }
    masks
}

fn pieces(capture: &[u8], mask: u64) -> Vec<&[u8]> {
    let mut pieces = Vec::new();
    let mut start = 0;
    for end in 1..=capture.len() {
        if end == capture.len() || mask >> (end - 1) & 1 == 1 {
            pieces.push(&capture[start..end]);
            start = end;
        }
    }
    pieces
}

/// The capture in pieces of random sizes, each with the size of the text so far; and whether it is refused before its
/// end. Then the text is whole, and no piece comes after it.
pub fn live(capture: &[u8]) -> (Vec<Step>, bool) {
    let mut rng = Rng::new(capture.len() as u64);
    let most = rng.pick(&[1, 9, 100, 5_000]).max(capture.len() / 300);
    let (mut replay, mut text) = (Replay::new(), TITLE.to_vec());
    let mut steps = vec![Step { piece: Vec::new(), text_size: text.len() }];
    let mut left = capture;
    while !left.is_empty() && !replay.is_refused() {
        let (piece, rest) = left.split_at(rng.between(1, most).min(left.len()));
        left = rest;
        replay.feed(piece, &mut text);
        if replay.is_refused() {
            replay.finish(&mut text);
        }
        steps.push(Step { piece: piece.into(), text_size: text.len() });
    }
    (steps, replay.is_refused())
}

#[cfg(test)]
mod tests {
    use super::*;

    #[test]
    fn every_cut_once() {
        let cuts: Vec<Vec<&[u8]>> = of(b"abc").collect();
        assert_eq!(cuts, [vec![&b"abc"[..]], vec![b"a", b"bc"], vec![b"ab", b"c"], vec![b"a", b"b", b"c"]]);
        let mut masks = masks(20);
        assert_eq!(masks.len(), 2 + 19 + 19 * 18 / 2);
        masks.sort();
        masks.dedup();
        assert_eq!(masks.len(), 2 + 19 + 19 * 18 / 2);
        assert_eq!(of(b"").collect::<Vec<_>>(), [Vec::<&[u8]>::new()]);
    }
}
