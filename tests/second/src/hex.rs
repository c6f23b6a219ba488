//! Hexadecimal digits: both letter cases are read, upper case is written.

/// The octets of the digits; nothing for an odd count or a character that isn't a digit.
pub fn read(digits: &[u8]) -> Option<Vec<u8>> {
    let pairs = digits.chunks_exact(2);
    if !pairs.remainder().is_empty() {
        return None;
    }
    pairs
        .map(|pair| match pair {
            [upper, lower] => Some(value(*upper)? << 4 | value(*lower)?),
            _ => None,
        })
        .collect()
}

/// Adds the digits of the octets to the text.
pub fn write(octets: &[u8], text: &mut Vec<u8>) {
    const DIGITS: &[u8; 16] = b"0123456789ABCDEF";
    text.reserve(octets.len() * 2);
    for octet in octets {
        text.push(DIGITS[usize::from(octet >> 4)]);
        text.push(DIGITS[usize::from(octet & 0x0F)]);
    }
}

fn value(digit: u8) -> Option<u8> {
    match digit {
        b'0'..=b'9' => Some(digit - b'0'),
        b'A'..=b'F' => Some(digit - b'A' + 10),
        b'a'..=b'f' => Some(digit - b'a' + 10),
        _ => None,
    }
}
