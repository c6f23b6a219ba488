//! The error control of TC packets whose checksum flag is 1, and the value of every check report: the 16-bit CRC,
//! polynomial x^16 + x^12 + x^5 + 1, start all ones, most significant bit first. It takes its
//! start and hands back a value to go on from: parts taken in turn give the CRC of the whole.

/// x^12 + x^5 + 1; x^16 is the bit that is shifted out.
const POLYNOMIAL: u16 = 0x1021;
/// All ones: the start of document 01, for a packet, a block or any whole.
pub const START: u16 = 0xFFFF;

/// For each octet, what eight shifts make of it in the upper half of the register.
const TABLE: [u16; 256] = table();

/// The CRC that goes on from a value. From `START` it is the CRC of the octets; from the CRC of what stands before
/// them, that of the whole. A start is any 16 bits.
pub fn crc(start: u16, octets: &[u8]) -> u16 {
    let mut register = start;
    for octet in octets {
        let [upper, lower] = register.to_be_bytes();
        register = u16::from_be_bytes([lower, 0]) ^ TABLE[usize::from(upper ^ octet)];
    }
    register
}

/// The same value one bit at a time, as 004 appendix A4.2 has it. The tests hold the table against it.
pub fn bit_by_bit(start: u16, octets: &[u8]) -> u16 {
    let mut register = start;
    for octet in octets {
        for place in (0..8).rev() {
            let bit_in = (octet >> place) & 1 == 1;
            let bit_out = register & 0x8000 != 0;
            register <<= 1;
            if bit_in != bit_out {
                register ^= POLYNOMIAL;
            }
        }
    }
    register
}

const fn table() -> [u16; 256] {
    let mut table = [0; 256];
    let mut octet = 0;
    while octet < 256 {
        let mut register = (octet as u16) << 8;
        let mut shift = 0;
        while shift < 8 {
            let bit_out = register & 0x8000 != 0;
            register <<= 1;
            if bit_out {
                register ^= POLYNOMIAL;
            }
            shift += 1;
        }
        table[octet] = register;
        octet += 1;
    }
    table
}
