//! The CRC: 01's values, the published vectors of 004, the OMEGA manual's packet, starts, parts, long inputs whose
//! value follows from these, table against bits.

mod common;

use common::hex;
use second::crc::{bit_by_bit, crc, START};
use second::random::Random;

/// 004, appendix 4, section A4.4.
const PUBLISHED: [(&str, u16); 4] =
    [("00 00", 0x1D0F), ("00 00 00", 0xCC9C), ("AB CD EF 01", 0x04A2), ("14 56 F8 9A 00 01", 0x7FD5)];

/// The parts taken in turn.
fn over_parts(parts: &[&[u8]]) -> u16 {
    parts.iter().fold(START, |value, part| crc(value, part))
}

/// The parts between the places, which are in order.
fn cut<'a>(whole: &'a [u8], places: &[usize]) -> Vec<&'a [u8]> {
    let begins = [&[0], places].concat();
    let ends = [places, &[whole.len()]].concat();
    begins.iter().zip(ends).map(|(begin, end)| &whole[*begin..end]).collect()
}

#[test]
fn p1_the_three_values() {
    assert_eq!(crc(START, &[]), 0xFFFF);
    assert_eq!(crc(START, &hex("00")), 0xE1F0);
    assert_eq!(crc(START, &hex("00 00")), 0x1D0F);
}

#[test]
fn p2_the_first_line() {
    assert_eq!(crc(START, &hex("185CC000000519110100")), 0x0167);
}

#[test]
fn the_four_published_vectors() {
    for (octets, value) in PUBLISHED {
        assert_eq!(crc(START, &hex(octets)), value, "{octets}");
    }
}

#[test]
fn the_published_vectors_bit_by_bit() {
    for (octets, value) in PUBLISHED {
        assert_eq!(bit_by_bit(START, &hex(octets)), value, "{octets}");
    }
}

/// The connection test of the OMEGA manual (000), PID 81, count 1, no ack. The manual leaves the CRC open
/// as xx xx; D7D8 is what Python's binascii.crc_hqx(packet, 0xFFFF) gives.
#[test]
fn the_omega_connection_test() {
    assert_eq!(crc(START, &hex("1D 1C C0 01 00 05 10 11 01 00")), 0xD7D8);
}

#[test]
fn a_message_with_its_crc_has_crc_zero() {
    assert_eq!(crc(START, &hex("AB CD EF 01 04 A2")), 0);
    assert_eq!(crc(START, &hex("14 56 F8 9A 00 01 7F D5")), 0);
}

#[test]
fn the_start_is_all_ones() {
    assert_eq!(START, 0xFFFF);
}

#[test]
fn no_octets_hand_back_the_start() {
    for start in 0..=0xFFFF {
        assert_eq!(crc(start, &[]), start);
        assert_eq!(bit_by_bit(start, &[]), start);
    }
}

/// P1 and the published vectors: each value goes on to the next by one more octet 00.
#[test]
fn each_value_of_zeros_goes_on_to_the_next() {
    assert_eq!(crc(0xFFFF, &hex("00")), 0xE1F0);
    assert_eq!(crc(0xE1F0, &hex("00")), 0x1D0F);
    assert_eq!(crc(0x1D0F, &hex("00")), 0xCC9C);
    assert_eq!(crc(0xFFFF, &hex("00 00 00")), 0xCC9C);
    assert_eq!(crc(0xE1F0, &hex("00 00")), 0xCC9C);
}

/// From zero the octets' own polynomial is left: the lowest bit gives x^16, which is x^12 + x^5 + 1.
#[test]
fn from_zero_and_from_one_bit() {
    assert_eq!(crc(0, &hex("00")), 0);
    assert_eq!(crc(0, &[0; 1_000]), 0);
    assert_eq!(crc(0, &hex("01")), 0x1021);
    // The upper octet of the start meets the next octet, the lower one the octet after that.
    assert_eq!(crc(0x0100, &hex("00")), 0x1021);
    assert_eq!(crc(0x0001, &hex("00")), 0x0100);
    assert_eq!(crc(0x0001, &hex("00 00")), 0x1021);
    assert_eq!(crc(0x0101, &hex("01")), 0x0100);
    assert_eq!(crc(0x0101, &hex("01 01")), 0);
}

/// A start that the message begins with leaves nothing of both, so going on is as from zero.
#[test]
fn a_start_met_by_its_own_octets_is_zero() {
    for start in 0..=0xFFFF_u16 {
        assert_eq!(crc(start, &start.to_be_bytes()), 0);
    }
}

/// From zero the lowest bit gives x^16, which is x^12 + x^5 + 1, and each next bit x times the one before; 1231 is x^20,
/// the first in which x^16 is replaced again. An octet gives the sum of its bits.
#[test]
fn single_octets_from_zero() {
    let bits = [0x1021, 0x2042, 0x4084, 0x8108, 0x1231, 0x2462, 0x48C4, 0x9188];
    for octet in 0..=255_u8 {
        let held = bits.iter().enumerate().filter(|(place, _)| octet >> place & 1 == 1);
        assert_eq!(crc(0, &[octet]), held.fold(0, |sum, (_, bit)| sum ^ bit), "{octet:02X}");
    }
    assert_eq!(crc(0, &[0xFF]), 0x1EF0);
}

/// A zero octet multiplies by x^8, and the polynomial divides x^32767 + 1: so many zero octets leave every value as it
/// was. Behind them 01's values and the published ones come again.
#[test]
fn zeros_come_round() {
    let times_x = |value: u16| (value << 1) ^ if value >> 15 == 1 { 0x1021 } else { 0 };
    assert_eq!((0..32_767).fold(1, |value, _| times_x(value)), 1);
    for start in [0, 1, 0x0100, 0x1234, 0x8000, 0xABCD, 0xFFFF] {
        assert_eq!(crc(start, &[0; 32_767]), start, "{start:04X}");
        assert_eq!(crc(start, &[0; 65_534]), start, "{start:04X}");
    }
    assert_eq!(crc(START, &[0; 32_768]), 0xE1F0);
    assert_eq!(crc(START, &[0; 65_535]), 0xE1F0);
    assert_eq!(crc(START, &[0; 65_536]), 0x1D0F);
    for (octets, value) in PUBLISHED {
        for zeros in [32_767, 65_534] {
            assert_eq!(crc(START, &[vec![0; zeros], hex(octets)].concat()), value, "{octets} behind {zeros}");
        }
    }
}

/// A message with its CRC leaves zero, zeros leave that, and then one bit gives x^16, and x^24 where one more octet
/// comes behind it.
#[test]
fn a_published_message_before_any_number_of_zeros() {
    for zeros in (0..2_100).chain([4_090, 4_091, 32_767, 65_530]) {
        let octets = [hex("AB CD EF 01 04 A2"), vec![0; zeros], hex("01 00")].concat();
        let last = octets.len() - 1;
        assert_eq!(crc(START, &octets[..last - 1]), 0, "{zeros}");
        assert_eq!(crc(START, &octets[..last]), 0x1021, "{zeros}");
        assert_eq!(crc(START, &octets), 0x3331, "{zeros}");
    }
}

/// The values are what Python's binascii.crc_hqx(octets, start) gives. 1D0F is the CRC of 00 00.
#[test]
fn other_starts() {
    let octets = b"123456789";
    for (start, value) in [
        (0xFFFF, 0x29B1),
        (0x0000, 0x31C3),
        (0x1D0F, 0xE5CC),
        (0x0001, 0x7610),
        (0x8000, 0x8E71),
        (0x1234, 0xEDEB),
        (0x3412, 0xEB3C),
        (0xABCD, 0x7003),
    ] {
        assert_eq!(crc(start, octets), value, "{start:04X}");
        assert_eq!(bit_by_bit(start, octets), value, "{start:04X}");
    }
    assert_eq!(crc(START, b"\0\x00123456789"), 0xE5CC);
}

#[test]
fn the_published_vectors_cut_at_each_place() {
    for (octets, value) in PUBLISHED {
        let whole = hex(octets);
        for first in 0..=whole.len() {
            assert_eq!(over_parts(&cut(&whole, &[first])), value, "{octets} cut at {first}");
            for second in first..=whole.len() {
                assert_eq!(over_parts(&cut(&whole, &[first, second])), value, "{octets} cut at {first} and {second}");
            }
        }
    }
}

/// Cut or not at each of the places of P2's packet, its two ends among them.
#[test]
fn every_division_of_a_short_message() {
    let whole = hex("185CC000000519110100");
    for set in 0..1_u32 << (whole.len() + 1) {
        let places: Vec<usize> = (0..=whole.len()).filter(|place| set >> place & 1 == 1).collect();
        assert_eq!(over_parts(&cut(&whole, &places)), 0x0167, "{places:?}");
        // Twice at each place: an empty part between any two.
        let twice: Vec<usize> = places.iter().flat_map(|place| [*place, *place]).collect();
        assert_eq!(over_parts(&cut(&whole, &twice)), 0x0167, "{twice:?}");
    }
}

#[test]
fn empty_parts_alone() {
    for count in 0..10 {
        assert_eq!(over_parts(&vec![&[][..]; count]), 0xFFFF);
    }
}

#[test]
fn random_divisions_of_random_octets() {
    let mut random = Random::new(2);
    for number in 0..600 {
        let length = if number % 100 == 0 { 65_536 } else { random.below(400) as usize };
        let whole = random.octets(length);
        let mut places: Vec<usize> = (0..random.below(20)).map(|_| random.between(0, length as u64) as usize).collect();
        places.sort_unstable();
        assert_eq!(over_parts(&cut(&whole, &places)), crc(START, &whole), "{length} octets at {places:?}");
        assert_eq!(over_parts(&cut(&whole, &places)), bit_by_bit(START, &whole), "{length} octets at {places:?}");
    }
}

/// As a harness holds an image: in parts of 4 KiB, the last one full or short.
#[test]
fn images_in_parts_of_4096() {
    let mut random = Random::new(3);
    for length in [65_536, 65_535, 61_441, 10_000, 4_097, 4_096, 4_095, 1, 0] {
        let image = random.octets(length);
        let parts: Vec<&[u8]> = image.chunks(4_096).collect();
        assert_eq!(over_parts(&parts), bit_by_bit(START, &image), "{length}");
    }
}

/// From any start, and not from all ones alone.
#[test]
fn two_parts_from_any_start() {
    let mut random = Random::new(4);
    for _ in 0..2_000 {
        let start = random.any() as u16;
        let length = random.below(60) as usize;
        let whole = random.octets(length);
        let (before, behind) = whole.split_at(random.between(0, length as u64) as usize);
        assert_eq!(crc(crc(start, before), behind), crc(start, &whole), "{start:04X} {before:02X?} {behind:02X?}");
    }
}

#[test]
fn table_and_bits_agree() {
    for upper in 0..=255 {
        for lower in 0..=255 {
            assert_eq!(crc(START, &[upper, lower]), bit_by_bit(START, &[upper, lower]));
        }
    }
    let mut random = Random::new(1);
    for length in 0..600 {
        let octets = random.octets(length);
        assert_eq!(crc(START, &octets), bit_by_bit(START, &octets), "{octets:02X?}");
        let start = random.any() as u16;
        assert_eq!(crc(start, &octets), bit_by_bit(start, &octets), "{start:04X} {octets:02X?}");
    }
}

#[test]
fn table_and_bits_agree_from_every_start() {
    let mut random = Random::new(5);
    for start in 0..=0xFFFF {
        let octets = random.octets(3);
        assert_eq!(crc(start, &octets), bit_by_bit(start, &octets), "{start:04X} {octets:02X?}");
    }
}
