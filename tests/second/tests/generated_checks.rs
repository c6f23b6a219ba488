//! The packets of `checkgen` for the unit of tests/full.unit: what each of them is, and the record that `pack` gives,
//! worked out here line by line. Where PACK_COMMAND names another program, one word a line, it is held to the same.

mod common;

use std::path::{Path, PathBuf};
use std::process::{Command, Output};

use common::hex;
use common::packing::{line, run};
use second::crc::{bit_by_bit, START};

/// The store has 32,768 words: 287 loads of 114 words, and one of the 50 that are left.
const LOADS: usize = 288;

fn unit() -> PathBuf {
    Path::new(env!("CARGO_MANIFEST_DIR")).join("../full.unit")
}

fn checkgen(arguments: &[&str]) -> Output {
    Command::new(env!("CARGO_BIN_EXE_checkgen")).args(arguments).output().expect("the program starts")
}

/// The packets of a seed, which stand in upper case, each with its newline.
fn packets(seed: &str, checks: usize) -> Vec<Vec<u8>> {
    let made = checkgen(&[seed, &checks.to_string()]);
    assert!(made.status.success());
    let text = String::from_utf8(made.stdout).expect("digits");
    let packets: Vec<Vec<u8>> = text.lines().map(hex).collect();
    assert_eq!(packets.iter().map(|packet| line(packet)).collect::<String>(), text);
    assert_eq!(packets.len(), LOADS + checks);
    packets
}

/// The data of the packet of that number, from 0, which is one of service 6 for PID 5 without acks.
fn data(packet: &[u8], number: usize, subtype: u8) -> &[u8] {
    let (body, error_control) = packet.split_last_chunk::<2>().expect("its error control");
    assert_eq!(*error_control, bit_by_bit(START, body).to_be_bytes(), "packet {number}");
    let count = number % 16_384;
    let header = format!("185C {:04X} {:04X} 10 06 {subtype:02X} 00", 0xC000 + count, packet.len() - 7);
    assert_eq!(body[..10], hex(&header), "packet {number}");
    &body[10..]
}

/// The store behind the loads, each of which goes on where the one before ended.
fn loaded(loads: &[Vec<u8>]) -> Vec<u8> {
    let mut store = Vec::new();
    for (number, load) in loads.iter().enumerate() {
        let words = if number < 287 { 114 } else { 50 };
        let (block, octets) = data(load, number, 2).split_at(8);
        assert_eq!(block, hex(&format!("01 01 {:08X} {words:04X}", number * 114)));
        assert_eq!(octets.len(), words * 2);
        store.extend_from_slice(octets);
    }
    assert_eq!(store.len(), 65_536);
    store
}

/// Memory 1, one block from address 0 on, 32,768 words.
fn is_check_of_all(packet: &[u8], number: usize) {
    assert_eq!(data(packet, number, 9), hex("01 01 00000000 8000"), "packet {number}");
}

#[test]
fn the_record_of_the_loads_and_the_checks() {
    for (seed, checks) in [("1", 6), ("0xFFFFFFFF", 1), ("2", 0)] {
        let packets = packets(seed, checks);
        let store = loaded(&packets[..LOADS]);
        let mut record: String = packets[..LOADS].iter().map(|load| line(load) + "\n").collect();
        for (number, check) in packets[LOADS..].iter().enumerate() {
            is_check_of_all(check, LOADS + number);
            let value = bit_by_bit(START, &store);
            let report = format!("0859{:04X}001300000000000000060A000101000000008000{value:04X}\n", 0xC000 + number);
            record.push_str(&format!("{}{report}\n", line(check)));
        }
        let text: String = packets.iter().map(|packet| line(packet)).collect();
        run(&[unit().as_os_str()], text.as_bytes()).is_record(&record);
    }
}

#[test]
fn every_octet_is_among_those_loaded() {
    let store = loaded(&packets("3", 0));
    for octet in 0..=255 {
        let times = store.iter().filter(|there| **there == octet).count();
        assert!((128..512).contains(&times), "{octet:02X} stands there {times} times");
    }
}

#[test]
fn the_count_16383_is_followed_by_0() {
    for (number, check) in packets("4", 16_200).iter().enumerate().skip(LOADS) {
        is_check_of_all(check, number);
    }
}

#[test]
fn a_seed_gives_the_same_packets() {
    let decimal = checkgen(&["77", "3"]).stdout;
    assert!(decimal == checkgen(&["0x4d", "3"]).stdout);
    assert!(decimal != checkgen(&["78", "3"]).stdout);
}

#[test]
fn wrong_arguments() {
    for arguments in [&[][..], &["1"], &["1", "x"], &["x", "1"], &["1", "2", "3"], &["1", "-1"]] {
        let made = checkgen(arguments);
        assert_eq!(made.status.code(), Some(2), "{arguments:?}");
        assert!(made.stdout.is_empty() && !made.stderr.is_empty(), "{arguments:?}");
    }
}
