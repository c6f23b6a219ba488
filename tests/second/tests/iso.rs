//! The ISO checksum: the published vectors, values worked out by hand, and the two ways to get it beside each other.

mod common;

use common::hex;
use second::iso::{checksum, sums, weighted};
use second::random::Random;

fn both_ways(octets: &[u8]) -> u16 {
    let value = checksum(octets);
    assert_eq!(value, weighted(octets), "{octets:02X?}");
    value
}

/// ECSS-E-70-41A's annex.
#[test]
fn the_published_vectors() {
    for (octets, value) in [("0000", 0xFFFF), ("000000", 0xFFFF), ("ABCDEF01", 0x9CF8), ("1456F89A0001", 0x24DC)] {
        assert_eq!(checksum(&hex(octets)), value, "{octets}");
        assert_eq!(weighted(&hex(octets)), value, "{octets}");
    }
}

/// By hand: 24 + 92 + 192 + 5 + 9 + 17 + 1 is 340, 85 modulo 255; with the weights 10 to 1 it is 240 + 828 + 1536 + 25 +
/// 36 + 51 + 2, 2718, 168 modulo 255; -(85 + 168) is 2.
#[test]
fn the_connection_test_with_flag_0() {
    let body = hex("185CC000000509110100");
    assert_eq!(sums(&body), (85, 168));
    assert_eq!(both_ways(&body), 0x02A8);
}

/// Both sums are the octet itself: CK1 is -2 times it, CK2 is it. 00 and FF are both 0 modulo 255.
#[test]
fn every_octet_alone() {
    for octet in 0..=255_u16 {
        let first = match octet * 2 % 255 {
            0 => 0xFF,
            twice => 255 - twice,
        };
        let second = if octet == 0 { 0xFF } else { octet };
        assert_eq!(both_ways(&[octet as u8]), first * 256 + second, "{octet:02X}");
    }
    assert_eq!(both_ways(&[1]), 0xFD01);
    assert_eq!(both_ways(&[0x7F]), 0x017F);
    assert_eq!(both_ways(&[0x80]), 0xFE80);
}

/// Before so many octets 00 or FF, 01 counts once in C0 and once more for each of them in C1.
#[test]
fn an_octet_before_others() {
    for behind in 0..600_u32 {
        let (first, second) = ((255 - (behind + 2) % 255) as u16, (behind % 255 + 1) as u16);
        for filler in [0x00, 0xFF] {
            let mut octets = vec![1];
            octets.resize(behind as usize + 1, filler);
            assert_eq!(both_ways(&octets), first * 256 + second, "{behind} of {filler:02X}");
        }
    }
}

#[test]
fn nothing_but_00_and_nothing_but_ff() {
    for length in (0..600).chain([65_535, 65_536, 70_000]) {
        assert_eq!(both_ways(&vec![0x00; length]), 0xFFFF, "{length}");
        assert_eq!(both_ways(&vec![0xFF; length]), 0xFFFF, "{length}");
    }
}

#[test]
fn ff_in_each_octet_and_in_both() {
    // The weighted sum is 3166, 106 modulo 255, and the plain one 404, 149: 0 together.
    assert_eq!(both_ways(&hex("185CC040000509110100")), 0xFF6A);
    // 4335 is 17 times 255; 571 is 61 modulo 255, and -61 is 194.
    assert_eq!(both_ways(&hex("185CC0E7000509110100")), 0xC2FF);
    // 510 and 3825 are 2 and 15 times 255.
    assert_eq!(both_ways(&hex("185CC19B00050911010E")), 0xFFFF);
    // 765 and 6885 are 3 and 27 times 255.
    assert_eq!(both_ways(&hex("185CC000000F090602000101000010000001E0B6")), 0xFFFF);
}

/// What the checksum is for. 00 in the place of FF leaves both sums 0 too: they alone do not tell the one from the other.
#[test]
fn over_the_octets_with_their_checksum_both_sums_are_0() {
    let mut random = Random::new(5);
    let mut sent_for_0 = 0;
    for length in 0..1_000 {
        let mut octets = random.octets(length);
        let value = both_ways(&octets).to_be_bytes();
        octets.extend_from_slice(&value);
        assert_eq!(sums(&octets), (0, 0), "{length}");
        for place in [length, length + 1] {
            let mut changed = octets.clone();
            changed[place] = random.octet();
            let same = octets[place] == changed[place] || octets[place] == 0xFF && changed[place] == 0;
            assert_eq!(sums(&changed) == (0, 0), same, "{length}");
            if octets[place] == 0xFF {
                changed[place] = 0;
                assert_eq!(sums(&changed), (0, 0), "{length}");
                sent_for_0 += 1;
            }
        }
        assert!(!value.contains(&0), "{length}");
    }
    assert!(sent_for_0 > 2, "{sent_for_0}");
}

/// Lengths at which sums of the wrong width would run over.
#[test]
fn both_ways_agree_at_every_length() {
    let mut random = Random::new(6);
    for length in (0..520).chain([1_000, 4_096, 65_535, 65_536, 70_000]) {
        both_ways(&random.octets(length));
        both_ways(&vec![0xFE; length]);
        both_ways(&vec![0x80; length]);
    }
}

/// It goes by places: two octets exchanged give another value, unless they are the same modulo 255.
#[test]
fn octets_exchanged() {
    assert_eq!(both_ways(&hex("0102")), 0xF804);
    assert_eq!(both_ways(&hex("0201")), 0xF705);
    assert_eq!(both_ways(&hex("00FF01")), both_ways(&hex("FF0001")));
}
