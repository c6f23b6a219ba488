//! The CRC of 64 KiB a thousand times, each time over octets that the one before has changed:
//! what a benchmark times. It prints the last value.

use second::crc::{crc, START};

fn main() {
    let mut octets = [0; 65_536];
    for _ in 0..1_000 {
        let [upper, lower] = crc(START, &octets).to_be_bytes();
        octets[0] = upper;
        octets[1] = lower;
    }
    println!("{:04x}", crc(START, &octets));
}
