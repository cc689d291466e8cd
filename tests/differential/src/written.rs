//! Checks what the C export of the writer did, line by line.

use crate::driver::UNTOUCHED;
use crate::text;
use crate::writer::{self, Refusal};
use std::io::BufRead;

/// PAYLOAD of the C export is this and its number, 21.
const REFUSED: u64 = 65_536;
/// ROOM of the C export is this and the length of the frame.
const NO_ROOM: u64 = 131_072;

/// Returns how many lines agree, or what is wrong first.
pub fn check(input: impl BufRead) -> Result<u64, String> {
    let mut lines = 0;
    for line in input.lines() {
        let line = line.map_err(|error| format!("cannot read: {error}"))?;
        check_line(&line).map_err(|fault| format!("line {}: {line}\n{fault}", lines + 1))?;
        lines += 1;
    }
    if lines == 0 {
        return Err("no lines".into());
    }
    Ok(lines)
}

fn check_line(line: &str) -> Result<(), String> {
    let fields: Vec<&str> = line.split_whitespace().collect();
    let &[command, number, flags, room, payload, result, output] = &fields[..] else {
        return Err("not seven fields".into());
    };
    let mut out = vec![UNTOUCHED; decimal(room, 1 << 20)? as usize];
    let (command, number, flags) = (decimal(command, 255)?, decimal(number, 255)?, decimal(flags, 65_535)?);
    let answer = match writer::write(command as u8, number as u8, flags as u16, &bytes(payload)?, &mut out) {
        Ok(count) => count as u64,
        Err(Refusal::Payload) => REFUSED + 21,
        Err(Refusal::Room { needed }) => NO_ROOM + needed as u64,
    };
    if decimal(result, u64::MAX)? != answer || bytes(output)? != out {
        return Err(format!("should be: {answer} {}", hex_or_dash(&out)));
    }
    Ok(())
}

fn decimal(field: &str, most: u64) -> Result<u64, String> {
    let number = field.parse().ok().filter(|&number| number <= most);
    number.ok_or_else(|| format!("not a number up to {most}: {field}"))
}

fn bytes(field: &str) -> Result<Vec<u8>, String> {
    if field == "-" {
        return Ok(vec![]);
    }
    text::from_hex(field).ok_or_else(|| format!("not hex digits: {field}"))
}

fn hex_or_dash(bytes: &[u8]) -> String {
    if bytes.is_empty() {
        "-".into()
    } else {
        text::hex(bytes)
    }
}

#[cfg(test)]
mod tests {
    use super::*;

    #[test]
    fn counts_and_refusals() {
        let long = format!("7 1 0 0 {} 65557 -", "FF".repeat(1_020));
        let five_ff = "144 1 0 2 ffffffffff 131091 aaaa";
        for right in ["7 1 0 9 - 9 ffff0005070100000d", "7 1 0 0 - 131081 -", five_ff, &long] {
            assert_eq!(check(right.as_bytes()), Ok(1), "{right}");
        }
        for wrong in ["7 1 0 0 - 65558 -", "7 1 0 0 - 131072 -", "7 1 0 0 - 131082 -", "7 1 0 1 - 131081 ff"] {
            assert!(check(wrong.as_bytes()).is_err(), "{wrong}");
        }
    }
}
