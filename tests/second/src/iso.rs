//! The error control of TC packets whose checksum flag is 0: the ISO checksum of ECSS-E-70-41A's annex, two sums modulo
//! 255. Over the octets with the two that it gives behind them both sums are 0.

const MODULUS: u16 = 255;
/// What both sums start at.
const START: u16 = 0xFF;
/// What is sent for a 0.
const ALL_ONES: u8 = 0xFF;

/// Both sums over the octets: C0 adds each octet, C1 adds each C0.
pub fn sums(octets: &[u8]) -> (u16, u16) {
    let (mut c0, mut c1) = (START, START);
    for octet in octets {
        c0 = (c0 + u16::from(*octet)) % MODULUS;
        c1 = (c1 + c0) % MODULUS;
    }
    (c0 % MODULUS, c1 % MODULUS)
}

/// The checksum of the octets: CK1 in the upper octet, CK2 in the lower one.
pub fn checksum(octets: &[u8]) -> u16 {
    let (c0, c1) = sums(octets);
    let ck1 = (2 * MODULUS - c0 - c1) % MODULUS;
    let ck2 = c1;
    u16::from_be_bytes([sent(ck1), sent(ck2)])
}

/// The same value by whole numbers: the sum of the octets, and that of each as often as there are octets from it on.
/// The modulus is taken once, at the end. The tests hold the sums against it.
pub fn weighted(octets: &[u8]) -> u16 {
    let modulus = u64::from(MODULUS);
    let plain: u64 = octets.iter().map(|octet| u64::from(*octet)).sum();
    let by_place: u64 = (1..).zip(octets.iter().rev()).map(|(weight, octet)| weight * u64::from(*octet)).sum();
    // Of what makes the sum a multiple of 255, 1 to 255 is sent.
    let first = modulus - (plain + by_place) % modulus;
    let second = if by_place == 0 { modulus } else { (by_place - 1) % modulus + 1 };
    (first * 256 + second) as u16
}

/// A 0 is sent as FF.
fn sent(value: u16) -> u8 {
    match value {
        0 => ALL_ONES,
        _ => value as u8,
    }
}
