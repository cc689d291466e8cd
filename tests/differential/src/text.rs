//! Numbers and bytes as text, appended to a buffer.

const DIGITS: &[u8; 16] = b"0123456789abcdef";
/// The greatest number of 64 bits has so many digits.
const MAX_DIGITS: usize = 20;

/// Decimal without leading zeros; by hand, two digits at a time, because a listing is mostly made of these.
pub fn decimal(out: &mut Vec<u8>, mut number: u64) {
    let mut digits = [b'0'; MAX_DIGITS];
    let mut first = MAX_DIGITS;
    while number >= 10 {
        let pair = (number % 100) as u8;
        number /= 100;
        first -= 2;
        digits[first] += pair / 10;
        digits[first + 1] += pair % 10;
    }
    if number > 0 || first == MAX_DIGITS {
        first -= 1;
        digits[first] += number as u8;
    }
    out.extend_from_slice(&digits[first..]);
}

/// A space and a number, for each number.
pub fn numbers(out: &mut Vec<u8>, numbers: &[u64]) {
    for &number in numbers {
        out.push(b' ');
        decimal(out, number);
    }
}

/// Each byte as a space and two hex digits.
pub fn spaced_bytes(out: &mut Vec<u8>, bytes: &[u8]) {
    for &byte in bytes {
        out.extend_from_slice(&[b' ', high_digit(byte), low_digit(byte)]);
    }
}

/// Hex digits without spaces.
pub fn hex(bytes: &[u8]) -> String {
    bytes.iter().flat_map(|&byte| [high_digit(byte), low_digit(byte)]).map(char::from).collect()
}

/// The bytes that hex digits stand for; white space between the bytes is allowed. None if the text is something else.
pub fn from_hex(text: &str) -> Option<Vec<u8>> {
    let digits: Option<Vec<u8>> =
        text.chars().filter(|c| !c.is_whitespace()).map(|c| c.to_digit(16).map(|d| d as u8)).collect();
    let digits = digits?;
    (digits.len() % 2 == 0).then(|| digits.chunks(2).map(|pair| pair[0] << 4 | pair[1]).collect())
}

fn high_digit(byte: u8) -> u8 {
    DIGITS[(byte >> 4) as usize]
}

fn low_digit(byte: u8) -> u8 {
    DIGITS[(byte & 15) as usize]
}
