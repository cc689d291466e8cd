//! Streams written down by hand.

use crate::driver::{push_record, FEED, FINISH, STREAM};
use crate::scripts;
use crate::text;

const FILES: [(&str, &str); 3] = [
    ("examples.hex", include_str!("../vectors/examples.hex")),
    ("tables.hex", include_str!("../vectors/tables.hex")),
    ("transfers.hex", include_str!("../vectors/transfers.hex")),
];

/// The listing's own example, with the exact text that is to be printed for it.
pub const LISTED: [u8; 25] = [
    0xFF, 0xFF, 0xFF, 0x00, 0x05, 0x07, 0x01, 0x00, 0x00, 0x0D, 0xFF, 0xFF, 0x00, 0x05, 0x07, 0xFF, 0xFF, 0x00, 0x05,
    0x07, 0xF3, 0x00, 0x00, 0xFF, 0x55,
];
pub const LISTING: &str = "\
kind start end cmd sn flags payload
frame 1 10 7 1 0 0
cut 10 17 - - - -
frame 15 25 7 243 0 0
clean 25
";

/// A capture with both directions, a frame over two records with the other direction and an empty record between its
/// parts, and noise; with the exact text that is to be printed for it.
const REPLAYED: &str = "
    4C 46 54 00 01
    00 00 00 00 00 00 04 FF FF 00 05
    01 00 00 00 07 00 0A 55 FF FF 00 05 08 01 00 00 0E
    00 00 00 01 00 00 00
    00 FF FF FF FF 00 06 07 01 00 00 0D FF";
pub const REPLAY: &str = "\
dir kind start end cmd sn flags payload
1 frame 1 10 8 1 0 0
0 frame 0 9 7 1 0 0
0 clean 10
1 clean 10
";

pub fn replayed() -> Vec<u8> {
    text::from_hex(REPLAYED).expect("hex")
}

/// The broken frames of PROTOCOL 11.4, one with a break at its checksum after a stuffed payload, and a heartbeat. Their
/// listing comes next, then what `test_driver` prints for `broken_script`.
const BROKEN: [&str; 7] = [
    "FF FF 00 05 07 01 00 FF 00",
    "FF FF 00 05 07 01 00 00 FF 00",
    "FF FF 00 05 07 FF 55 00 FF 01",
    "FF FF 00 05 07 FF 00",
    "FF FF 00 05 07 01 00 00 0E",
    "FF FF 00 06 07 01 00 00 FF 55 FF 54",
    "FF FF 00 05 07 01 00 00 0D",
];
pub const BROKEN_LISTING: &str = "\
kind start end cmd sn flags payload
stuff 0 9 - - - -
stufflate 9 19 - - - -
stuff 19 29 - - - -
stuff 29 36 - - - -
sum 36 45 - - - -
stufflate 45 57 - - - -
frame 57 66 7 1 0 0
clean 66
";
pub const BROKEN_CALLS: &str = "\
feed 13 9 0 9 0
feed 19 10 9 19 0
feed 13 10 19 29 1
feed 13 7 29 36 0
feed 15 9 36 45 14 13 : 00 05 07 01 00 00 0e
feed 19 12 45 57 84
feed 1 9 57 66 : 00 05 07 01 00 00 0d
end 2 66
sum 1
answer 0 10 18 1 15 : ff ff 00 06 12 01 00 00 01 1a
frame 7 1 0 0
read 0 7
write 0 9 : ff ff 00 05 07 01 00 00 0d
answer 0 9 : ff ff 00 05 08 01 00 00 0e
";

pub fn broken() -> Vec<u8> {
    text::from_hex(&BROKEN.concat()).expect("hex")
}

/// Feeds each broken frame, then plays all of them as a stream: only the wrong sum and the heartbeat get a reply.
pub fn broken_script() -> Vec<u8> {
    let mut script = Vec::new();
    for frame in BROKEN {
        push_record(&mut script, FEED, &text::from_hex(frame).expect("hex"));
    }
    push_record(&mut script, FINISH, &[]);
    push_record(&mut script, STREAM, &broken());
    script
}

/// A capture with a break of each kind; the late one is over two records.
const BROKEN_CAPTURE: &str = "
    4C 46 54 00 01
    00 00 00 00 00 00 09 FF FF 00 05 07 01 00 00 FF
    01 00 00 00 07 00 09 FF FF 00 05 07 01 00 FF 00
    00 00 00 01 00 00 01 00";
pub const BROKEN_REPLAY: &str = "\
dir kind start end cmd sn flags payload
1 stuff 0 9 - - - -
0 stufflate 0 10 - - - -
0 clean 10
1 clean 9
";

pub fn broken_capture() -> Vec<u8> {
    text::from_hex(BROKEN_CAPTURE).expect("hex")
}

/// Scripts of calls with the lines that `test_driver` is to print for them; the file says how they are written.
const CALLS: &str = include_str!("../vectors/transfers.calls");

/// What a script of the file is about, its records, and its text.
#[derive(Default)]
pub struct Calls {
    pub title: String,
    pub script: Vec<u8>,
    pub text: String,
}

pub fn calls() -> Vec<Calls> {
    let mut all = Vec::new();
    for line in CALLS.lines().filter(|line| !line.is_empty() && !line.starts_with('#')) {
        if let Some(title) = line.strip_prefix("== ") {
            all.push(Calls { title: title.into(), ..Calls::default() });
            continue;
        }
        let calls = all.last_mut().expect("a script begins with its title");
        if line.starts_with(|first: char| first.is_ascii_digit()) {
            let (operation, data) = record_of(line).unwrap_or_else(|| panic!("not a record: {line}"));
            push_record(&mut calls.script, operation, &data);
        } else {
            calls.text += line;
            calls.text.push('\n');
        }
    }
    all
}

fn record_of(line: &str) -> Option<(u8, Vec<u8>)> {
    let (operation, words) = line.split_once(' ').unwrap_or((line, ""));
    let mut hex = String::new();
    for word in words.split_whitespace() {
        match word.split_once('*') {
            Some((byte, times)) => hex += &byte.repeat(times.parse().ok()?),
            None => hex += word,
        }
    }
    Some((operation.parse().ok()?, text::from_hex(&hex)?))
}

/// All vectors, in the order of the files.
pub fn all() -> Vec<Vec<u8>> {
    FILES.iter().flat_map(|(name, file)| vectors_of(name, file)).collect()
}

fn vectors_of(name: &str, file: &str) -> Vec<Vec<u8>> {
    let streams = file.lines().map(|line| {
        let hex = line.split('#').next().unwrap_or("");
        text::from_hex(hex).unwrap_or_else(|| panic!("{name}: not hex: {line}"))
    });
    streams.filter(|stream| !stream.is_empty()).collect()
}

/// Those that can be cut in every way.
pub fn short() -> Vec<Vec<u8>> {
    all().into_iter().filter(|stream| scripts::is_short(stream)).collect()
}

#[cfg(test)]
mod tests {
    use super::*;
    use crate::reader::{Answer, Reader, Verdict};

    #[test]
    fn files_are_hex_and_hold_the_listed_stream() {
        assert!(all().contains(&LISTED.to_vec()));
    }

    #[test]
    fn files_hold_good_transfers() {
        let transfers: Vec<Vec<u8>> = vectors_of("transfers.hex", FILES[2].1);
        for mut stream in transfers.iter().map(|stream| &stream[..]) {
            let mut reader = Reader::new();
            while !stream.is_empty() {
                let Answer::Decided { verdict: Verdict::Frame, count, .. } = reader.feed(stream) else {
                    panic!("not a frame: {}", text::hex(stream));
                };
                stream = &stream[count..];
            }
        }
    }

    #[test]
    fn calls_have_records_and_lines() {
        let all = calls();
        assert_eq!(all.len(), CALLS.lines().filter(|line| line.starts_with("==")).count());
        for calls in all {
            assert!(!calls.script.is_empty() && calls.text.ends_with('\n'), "{}", calls.title);
        }
        assert_eq!(record_of("65 05 00*3 01"), Some((65, vec![5, 0, 0, 0, 1])));
        assert_eq!(record_of("70"), Some((70, vec![])));
        assert_eq!(record_of("70 0"), None);
    }

    #[test]
    fn files_hold_each_broken_frame() {
        for frame in BROKEN {
            assert!(all().contains(&text::from_hex(frame).expect("hex")), "{frame}");
        }
    }
}
