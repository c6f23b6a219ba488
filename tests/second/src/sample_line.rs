//! Lines of hexadecimal digits for the generators, and lines that the line program answers with 0200.

use crate::hex;
use crate::random::Random;
use crate::sample_unit::mix_case;

/// Why a line is bad.
#[derive(Clone, Copy, Debug, PartialEq, Eq)]
pub enum Bad {
    TooLong,
    Character,
    OddDigits,
}

/// Every way in which a line is bad.
pub const BAD: [Bad; 3] = [Bad::TooLong, Bad::Character, Bad::OddDigits];

/// The digits of the octets in either case.
pub fn digits(random: &mut Random, octets: &[u8]) -> Vec<u8> {
    let mut digits = Vec::new();
    hex::write(octets, &mut digits);
    mix_case(random, &mut digits);
    digits
}

/// Makes a line of digits bad in that way; it has at least two.
pub fn spoil(random: &mut Random, line: &mut Vec<u8>, bad: Bad) {
    match bad {
        Bad::TooLong => {
            let length = random.pick(&[4_097, 4_097, 4_098, 5_000, 70_000]);
            line.resize(length, random.pick(b"00F\r"));
        }
        Bad::Character => {
            let place = random.below(line.len() as u64 + 1) as usize;
            let place = random.pick(&[0, place, line.len()]);
            line.insert(place, random.pick(b"\r\r\0 \tgGxX/:@`\x7F\x80\xFF"));
            if random.once_in(2) {
                line.push(random.pick(b"0\r"));
            }
        }
        Bad::OddDigits => drop(line.pop()),
    }
}
