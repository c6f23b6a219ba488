//! The program `explain`: every check with its detail and its octets, under the line program's profile and under those of
//! unit files, the order of the checks, bad lines, its arguments and its streams. Where EXPLAIN_COMMAND names another
//! program, one word a line, it is held to the same. Offsets are counted by hand from the layouts of document 01: octets
//! 0 and 1 packet ID, 2 and 3 sequence control, 4 and 5 length field, 6 PUS version, checksum flag and ack, 7 type,
//! 8 subtype, 9 pad, 10 on the application data, the last two error control. Data of service 6 has the memory ID at 10, N
//! at 11 and the first block at 12.

mod common;

use std::ffi::OsStr;
use std::fs::{self, OpenOptions};
use std::io::{BufRead, BufReader, Write};
use std::path::Path;
use std::process::{self, Command, Stdio};
use std::sync::mpsc;
use std::thread;
use std::time::Duration;

use common::explaining::{command, explain, explain_for, run, start, Rows};
use common::packing::{end_of, TestFile, EXAMPLE, GOOD};
use common::{hex, sealed, sealed_by_iso};

/// The example's second packet, whose error control is wrong: 0167, which is 359, is right.
const WRONG: &str = "185CC0000005191101000168";
const WRONG_ANSWER: &str = "2 359 10 11";

/// Units that are not sound and bad, with what is said of them.
const UNSOUND: &str = "pid 128\nstore 0\n";
const UNSOUND_WORDS: &str = "the PID is above 127";
const BAD_UNIT: &str = "pid 5\nstore\n";
const BAD_UNIT_WORDS: &str = "a store is \"store N\"";

/// A unit without a profile of the line program's: another PID, three areas, one of which ends at 2^32.
const THREE: &str = "pid 18
services load dump check connection
store 1024
area 1 start 0x1000 words 8 at 0 load dump check
area 7 start 0 words 200 at 16 load dump check
area 255 start 0xFFFFFFF0 words 16 at 416 load dump check
";

/// The octets as digits.
fn digits_of(octets: &[u8]) -> String {
    octets.iter().map(|octet| format!("{octet:02X}")).collect()
}

/// The packet of these octets with the right error control behind them, by the method of their checksum flag.
fn whole(octets: &str) -> String {
    let flag = hex(octets)[6] & 0x10;
    digits_of(&if flag == 0 { sealed_by_iso(octets) } else { sealed(octets) })
}

/// The same with a wrong error control: its last bit is inverted.
fn spoiled(octets: &str) -> String {
    let mut octets = hex(&whole(octets));
    if let Some(last) = octets.last_mut() {
        *last ^= 1;
    }
    digits_of(&octets)
}

/// The octets of a packet without its error control: packet ID, octet 6, type and subtype, data; count 0.
fn body(packet_id: &str, sixth: &str, service: u8, subtype: u8, data: &str) -> String {
    let length_field = hex(data).len() + 5;
    format!("{packet_id} C000 {length_field:04X} {sixth} {service:02X} {subtype:02X} 00 {data}")
}

/// The right packets of PID 5 with that type, subtype and data: flag 1 and flag 0.
fn both(service: u8, subtype: u8, data: &str) -> [String; 2] {
    ["10", "00"].map(|sixth| whole(&body("185C", sixth, service, subtype, data)))
}

/// The right packet of PID 5, with flag 1.
fn tc(service: u8, subtype: u8, data: &str) -> String {
    whole(&body("185C", "10", service, subtype, data))
}

/// The right packet of PID 18 (12 hexadecimal), with flag 1.
fn tc_18(service: u8, subtype: u8, data: &str) -> String {
    whole(&body("192C", "10", service, subtype, data))
}

/// Text so many times over.
fn times(text: &str, count: usize) -> String {
    text.repeat(count)
}

/// So many digits.
fn digits(count: usize) -> String {
    times("0", count)
}

// ---- one line for each line

#[test]
fn the_example_of_document_01() {
    explain(format!("{GOOD}\n{WRONG}\n")).is("0000\n2 359 10 11\n", "", 0);
    explain(format!("{GOOD}\n{WRONG}")).is("0000\n2 359 10 11\n", "", 0);
    explain_for(EXAMPLE, format!("{WRONG}\n{GOOD}")).is("2 359 10 11\n0000\n", "", 0);
}

#[test]
fn accepted_packets() {
    let mut rows = Rows::new();
    for (service, subtype, data) in [
        (17, 1, ""),
        (6, 2, "01 01 00001000 0001 ABCD"),
        (6, 2, "01 02 0000103F 0001 ABCD 00001000 0002 1234 5678"),
        (6, 5, "01 01 00001000 0040"),
        (6, 5, "01 02 0000103E 0002 00001000 0001"),
        (6, 9, "01 01 00001000 0040"),
        (6, 9, "01 03 0000103F 0001 00001000 0001 00001000 0040"),
    ] {
        for packet in both(service, subtype, data) {
            rows.add(packet, "0000");
        }
    }
    // A load of all 64 words, and one of eight blocks.
    rows.add(tc(6, 2, &format!("01 01 00001000 0040 {}", times("ABCD", 64))), "0000");
    rows.add(tc(6, 2, &format!("01 08 {}", times("0000103F 0001 ABCD", 8))), "0000");
    rows.add(tc(6, 5, &format!("01 08 {}", times("0000103F 0001", 8))), "0000");
    // Any count, ack and pad.
    for octets in ["185C FFFF 0005 1F 11 01 FF", "185C C001 0005 0F 11 01 01", "185C D234 0005 16 11 01 80"] {
        rows.add(whole(octets), "0000");
    }
    rows.hold();
    rows.hold_for(EXAMPLE);
}

// ---- 42

#[test]
fn fewer_than_6_octets() {
    // An empty line is a packet of no octets.
    let mut rows = Rows::new();
    for line in ["", "18", "185C", "185CC0", "185CC000", "185CC00000", "00", "FF", "FFFFFFFFFF"] {
        rows.add(line, "42 0 0 0");
    }
    rows.hold();
    rows.hold_for(THREE);
    explain("\n").is("42 0 0 0\n", "", 0);
    explain("\n\n\n").is("42 0 0 0\n42 0 0 0\n42 0 0 0\n", "", 0);
}

// ---- 1

#[test]
fn a_received_count_below_12() {
    let mut rows = Rows::new();
    // 6 octets: no length field goes with them. FFFF plus 7 is 6 in 16 bits.
    for line in ["185CC0000005", "185CC0000000", "185CC000FFFF", "000000000000", "FFFFFFFFFFFF"] {
        rows.add(line, "1 6 4 5");
    }
    // 7 to 11 octets whose length field is right, and wrong.
    rows.add("185CC000000010", "1 7 4 5");
    rows.add("185CC000000510", "1 7 4 5");
    rows.add("185CC00000011011", "1 8 4 5");
    rows.add("185CC0000002101101", "1 9 4 5");
    rows.add("185CC000000310110100", "1 10 4 5");
    rows.add("185CC00000041011010012", "1 11 4 5");
    rows.add("185CC00000051011010012", "1 11 4 5");
    // Nine octets and the CRC behind them.
    rows.add(whole("185C C000 0004 10 11 01"), "1 11 4 5");
    rows.hold();
    rows.hold_for(EXAMPLE);
}

#[test]
fn a_length_field_that_is_not_the_count() {
    let mut rows = Rows::new();
    // 12 octets have the length field 5.
    for field in ["0000", "0004", "0006", "000C", "0105", "0500", "8005", "FFFF", "FFFE"] {
        for sixth in ["10", "00"] {
            rows.add(whole(&format!("185C C000 {field} {sixth} 11 01 00")), "1 12 4 5");
        }
    }
    // An octet too many, or one too few.
    rows.add(format!("{GOOD}00"), "1 13 4 5");
    rows.add(&GOOD[..22], "1 11 4 5");
    rows.add(format!("{GOOD}{GOOD}"), "1 24 4 5");
    // 20 octets have 13: a dump of one block.
    rows.add(whole("185C C000 000C 10 06 05 00 01 01 00001000 0001"), "1 20 4 5");
    rows.add(whole("185C C000 000D 10 06 05 00 01 01 00001000 0001"), "0000");
    rows.add(whole("185C C000 000E 10 06 05 00 01 01 00001000 0001"), "1 20 4 5");
    rows.hold();
}

#[test]
fn the_shortest_and_the_longest() {
    let mut rows = Rows::new();
    // 248 octets are data of 236: a load of 114 words, 00F1 in the length field. It passes check 1 and is outside.
    let words = |count: usize| format!("01 01 00001000 {count:04X} {}", times("ABCD", count));
    for packet in both(6, 2, &words(114)) {
        rows.add(packet, "19 1 12 17");
    }
    rows.add(whole(&format!("185C C000 00F0 10 06 02 00 {}", words(114))), "1 248 4 5");
    rows.add(whole(&format!("185C C000 00F2 10 06 02 00 {}", words(114))), "1 248 4 5");
    // 249 octets, the field right and wrong; 250 are a load of 115 words.
    let odd = format!("{}00", words(114));
    for packet in both(6, 2, &odd) {
        rows.add(packet, "1 249 4 5");
    }
    rows.add(whole(&format!("185C C000 00F1 10 06 02 00 {odd}")), "1 249 4 5");
    for packet in both(6, 2, &words(115)) {
        rows.add(packet, "1 250 4 5");
    }
    // 255, 256 and 257 octets, and 300.
    for total in [255, 256, 257, 300] {
        let data = times("00", total - 12);
        for packet in both(17, 1, &data) {
            rows.add(packet, format!("1 {total} 4 5"));
        }
    }
    rows.hold();
    rows.hold_for(EXAMPLE);
}

#[test]
fn a_packet_of_2048_octets() {
    // 4,096 digits, the longest line: all zero, with a length field that is right, and one octet less.
    let long = format!("185CC00007F910110100{}", digits(4_076));
    assert_eq!(long.len(), 4_096);
    let mut rows = Rows::new();
    rows.add(digits(4_096), "1 2048 4 5");
    rows.add(long.clone(), "1 2048 4 5");
    rows.add(&long[..4_094], "1 2047 4 5");
    rows.add(times("fF", 2_048), "1 2048 4 5");
    rows.add(times("11", 1_000), "1 1000 4 5");
    rows.hold();
    explain(&long).is("1 2048 4 5\n", "", 0);
}

// ---- 2

#[test]
fn error_control_that_is_wrong() {
    let mut rows = Rows::new();
    // Flag 1: 0167 is 359. The other method's value, either octet wrong, both exchanged, zeros.
    for last in ["0168", "0166", "0067", "8167", "6701", "0000", "FFFF", "B1E8", "02A8"] {
        rows.add(format!("185CC00000051911 0100 {last}").replace(' ', ""), "2 359 10 11");
    }
    // Flag 0: 02A8 is 680. 1AC0 is the CRC of the same octets.
    for last in ["02A9", "03A8", "A802", "0000", "FFFF", "1AC0", "0167"] {
        rows.add(format!("185CC00000050911 0100 {last}").replace(' ', ""), "2 680 10 11");
    }
    // FFFF is right by the ISO checksum, and 00 for FF is wrong.
    for last in ["00FF", "FF00", "0000", "FFFE"] {
        rows.add(format!("185CC19B00050911010E{last}"), "2 65535 10 11");
    }
    rows.add("185CC19B00050911010EFFFF", "0000");
    rows.hold();
    rows.hold_for(EXAMPLE);
}

#[test]
fn error_control_of_longer_packets() {
    let mut rows = Rows::new();
    let right = |octets: &str| {
        let packet = hex(&whole(octets));
        let [.., upper, lower] = packet.as_slice() else { panic!("a packet") };
        u16::from_be_bytes([*upper, *lower])
    };
    for sixth in ["10", "00", "1F", "09"] {
        // 13, 20, 22 and 248 octets: the last two.
        for (subtype, data, octets) in [
            (5, "01".into(), "11 12"),
            (5, "01 01 00001000 0001".into(), "18 19"),
            (2, "01 01 00001000 0001 ABCD".into(), "20 21"),
            (2, format!("01 01 00001000 0072 {}", times("ABCD", 114)), "246 247"),
            (9, times("FF", 235), "245 246"),
        ] {
            let octets_before = body("185C", sixth, 6, subtype, &data);
            let answer = format!("2 {} {octets}", right(&octets_before));
            rows.add(spoiled(&octets_before), answer);
        }
    }
    rows.hold();
}

#[test]
fn error_control_that_should_be_0() {
    // Octets with their CRC behind them have the CRC 0: its detail is 0. A load of two words, of which the second is the
    // CRC of all that stands before it; 24 octets.
    let before = sealed("185C C000 0011 10 06 02 00 01 01 00001000 0002 ABCD");
    let octets = digits_of(&before);
    let mut rows = Rows::new();
    rows.add(format!("{octets}0000"), "0000");
    rows.add(format!("{octets}0001"), "2 0 22 23");
    rows.add(format!("{octets}FFFF"), "2 0 22 23");
    rows.add(format!("{octets}8000"), "2 0 22 23");
    rows.hold();
}

// ---- 16

#[test]
fn header_bits_that_are_wrong() {
    let mut rows = Rows::new();
    for sixth in ["10", "00"] {
        // Version: each of its three bits alone, and all; octet 0 is 18 where it is right.
        for id in ["385C", "585C", "985C", "F85C"] {
            rows.add(whole(&body(id, sixth, 17, 1, "")), "16 1 0 0");
        }
        // Type bit, header flag.
        rows.add(whole(&body("085C", sixth, 17, 1, "")), "16 2 0 0");
        rows.add(whole(&body("105C", sixth, 17, 1, "")), "16 3 0 0");
        // Sequence flags: one of the two, or both.
        for control in ["0000", "4000", "8000", "3FFF", "7FFF", "BFFF"] {
            rows.add(whole(&format!("185C {control} 0005 {sixth} 11 01 00")), "16 4 2 2");
        }
    }
    // PUS version: each of its three bits alone, and all, with either flag and any ack.
    for sixth in ["30", "50", "90", "F0", "FF", "20", "40", "80", "E0", "EF", "2F"] {
        rows.add(whole(&format!("185C C000 0005 {sixth} 11 01 00")), "16 5 6 6");
        rows.add(whole(&body("185C", sixth, 6, 5, "01 01 00001000 0001")), "16 5 6 6");
    }
    rows.hold();
    rows.hold_for(EXAMPLE);
}

#[test]
fn the_first_of_several_header_faults() {
    let mut rows = Rows::new();
    for (id, control, sixths, answer) in [
        ("205C", "0000", ["30", "20"], "16 1 0 0"),
        ("E05C", "C000", ["10", "00"], "16 1 0 0"),
        ("285C", "C000", ["10", "00"], "16 1 0 0"),
        ("305C", "C000", ["10", "00"], "16 1 0 0"),
        ("385C", "8000", ["10", "00"], "16 1 0 0"),
        ("385C", "C000", ["90", "80"], "16 1 0 0"),
        ("005C", "C000", ["10", "00"], "16 2 0 0"),
        ("085C", "0000", ["F0", "E0"], "16 2 0 0"),
        ("105C", "4000", ["10", "00"], "16 3 0 0"),
        ("105C", "C000", ["30", "20"], "16 3 0 0"),
        ("185C", "0000", ["30", "20"], "16 4 2 2"),
        ("185C", "8000", ["F0", "E0"], "16 4 2 2"),
    ] {
        for sixth in sixths {
            rows.add(whole(&format!("{id} {control} 0005 {sixth} 11 01 00")), answer);
        }
    }
    rows.hold();
}

// ---- 0, 3 and 4

#[test]
fn an_apid_that_is_not_the_units() {
    let mut rows = Rows::new();
    // APID 05C is PID 5 and category 12.
    for (id, answer) in [
        ("184C", "0 76 0 1"),
        ("186C", "0 108 0 1"),
        ("185B", "0 91 0 1"),
        ("185D", "0 93 0 1"),
        ("1850", "0 80 0 1"),
        ("1800", "0 0 0 1"),
        ("180C", "0 12 0 1"),
        ("1C5C", "0 1116 0 1"),
        ("1FFF", "0 2047 0 1"),
        ("1FFC", "0 2044 0 1"),
    ] {
        for sixth in ["10", "00"] {
            rows.add(whole(&body(id, sixth, 17, 1, "")), answer);
            rows.add(whole(&body(id, sixth, 6, 5, "01 01 00001000 0001")), answer);
        }
    }
    rows.hold();
    rows.hold_for(EXAMPLE);
}

#[test]
fn a_type_that_is_not_known() {
    let mut rows = Rows::new();
    for (service, answer) in [
        (0, "3 0 7 7"),
        (1, "3 1 7 7"),
        (5, "3 5 7 7"),
        (7, "3 7 7 7"),
        (16, "3 16 7 7"),
        (18, "3 18 7 7"),
        (134, "3 134 7 7"),
        (255, "3 255 7 7"),
    ] {
        for subtype in [1, 2] {
            for packet in both(service, subtype, "01 01 00001000 0001 ABCD") {
                rows.add(packet, answer);
            }
            for packet in both(service, subtype, "") {
                rows.add(packet, answer);
            }
        }
    }
    rows.hold();
    rows.hold_for(EXAMPLE);
}

#[test]
fn a_subtype_that_is_not_known() {
    let mut rows = Rows::new();
    // 6 times 256 is 1536, 17 times 256 is 4352.
    for (service, subtype, answer) in [
        (6, 0, "4 1536 7 8"),
        (6, 1, "4 1537 7 8"),
        (6, 3, "4 1539 7 8"),
        (6, 4, "4 1540 7 8"),
        (6, 6, "4 1542 7 8"),
        (6, 8, "4 1544 7 8"),
        (6, 10, "4 1546 7 8"),
        (6, 255, "4 1791 7 8"),
        (17, 0, "4 4352 7 8"),
        (17, 2, "4 4354 7 8"),
        (17, 5, "4 4357 7 8"),
        (17, 9, "4 4361 7 8"),
        (17, 255, "4 4607 7 8"),
    ] {
        for packet in both(service, subtype, "").into_iter().chain(both(service, subtype, "01 01 00001000 0001")) {
            rows.add(packet, answer);
        }
    }
    rows.hold();
    rows.hold_for(EXAMPLE);
}

// ---- 5

#[test]
fn no_data_and_too_little() {
    let mut rows = Rows::new();
    for subtype in [2, 5, 9] {
        // No octet of data: the first offset is 10, and the octet before the error control is 9.
        for packet in both(6, subtype, "") {
            rows.add(packet, "5 0 10 9");
        }
        for packet in both(6, subtype, "01") {
            rows.add(packet, "5 0 10 10");
        }
        // N is 0 or above 8, with nothing behind it and with blocks.
        for n in ["00", "09", "0A", "80", "FF"] {
            rows.add(tc(6, subtype, &format!("01 {n}")), "5 0 10 11");
        }
        rows.add(tc(6, subtype, "01 00 00001000 0001"), "5 0 10 17");
        rows.add(tc(6, subtype, "FF 09 00001000 0001 ABCD"), "5 0 10 19");
        // N is 1 or more, and no block is there.
        for n in ["01", "02", "08"] {
            for packet in both(6, subtype, &format!("01 {n}")) {
                rows.add(packet, "5 1 10 11");
            }
        }
    }
    // Nine good blocks have 54 octets.
    rows.add(tc(6, 5, &format!("01 09 {}", times("00001000 0001", 9))), "5 0 10 65");
    rows.add(tc(6, 9, &format!("01 09 {}", times("00001000 0001", 9))), "5 0 10 65");
    rows.add(tc(6, 2, &format!("01 09 {}", times("00001000 0001 ABCD", 9))), "5 0 10 83");
    rows.hold();
    rows.hold_for(EXAMPLE);
}

#[test]
fn data_of_a_connection_test() {
    let mut rows = Rows::new();
    for (count, answer) in [
        (1, "5 0 10 10"),
        (2, "5 0 10 11"),
        (3, "5 0 10 12"),
        (90, "5 0 10 99"),
        (91, "5 0 10 100"),
        (235, "5 0 10 244"),
        (236, "5 0 10 245"),
    ] {
        for packet in both(17, 1, &times("01", count)) {
            rows.add(packet, answer);
        }
    }
    rows.hold();
    rows.hold_for(EXAMPLE);
}

#[test]
fn a_first_block_that_is_cut_off_or_has_a_bad_length() {
    let mut rows = Rows::new();
    for subtype in [2, 5, 9] {
        // Cut off in its start or its length: 1 to 5 octets of it behind octets 10 and 11.
        for (part, answer) in [
            ("00", "5 1 10 12"),
            ("0000", "5 1 10 13"),
            ("000010", "5 1 10 14"),
            ("00001000", "5 1 10 15"),
            ("0000100000", "5 1 10 16"),
        ] {
            for packet in both(6, subtype, &format!("01 01 {part}")) {
                rows.add(packet, answer);
            }
        }
        for packet in both(6, subtype, "01 01 00001000 0000") {
            rows.add(packet, "5 1 10 17");
        }
        rows.add(tc(6, subtype, "01 01 00001000 0000 ABCD"), "5 1 10 19");
    }
    // A dump has at most 240 words, which are outside of 64; a check may have any number.
    rows.add(tc(6, 5, "01 01 00001000 00F0"), "19 1 12 17");
    for length in ["00F1", "00FF", "0100", "01F0", "FFFF"] {
        rows.add(tc(6, 5, &format!("01 01 00001000 {length}")), "5 1 10 17");
        rows.add(tc(6, 9, &format!("01 01 00001000 {length}")), "19 1 12 17");
    }
    // The words of a load are cut off: all of them, a half, all but one octet.
    rows.add(tc(6, 2, "01 01 00001000 0001"), "5 1 10 17");
    rows.add(tc(6, 2, "01 01 00001000 0001 AB"), "5 1 10 18");
    rows.add(tc(6, 2, "01 01 00001000 0001 ABCD"), "0000");
    rows.add(tc(6, 2, "01 01 00001000 0002 ABCD"), "5 1 10 19");
    rows.add(tc(6, 2, "01 01 00001000 0002 ABCD12"), "5 1 10 20");
    rows.add(tc(6, 2, &format!("01 01 00001000 0073 {}", times("ABCD", 114))), "5 1 10 245");
    rows.add(tc(6, 2, "01 01 00001000 8001 ABCD"), "5 1 10 19");
    rows.hold();
    rows.hold_for(EXAMPLE);
}

#[test]
fn octets_left_over() {
    let mut rows = Rows::new();
    for subtype in [5, 9] {
        rows.add(tc(6, subtype, "01 01 00001000 0001 00"), "5 0 10 18");
        rows.add(tc(6, subtype, "01 01 00001000 0001 0000"), "5 0 10 19");
        rows.add(tc(6, subtype, "01 01 00001000 0001 00001000 0001"), "5 0 10 23");
        rows.add(tc(6, subtype, "01 02 00001000 0001 00001000 0001 FF"), "5 0 10 24");
    }
    rows.add(tc(6, 2, "01 01 00001000 0001 ABCD 00"), "5 0 10 20");
    rows.add(tc(6, 2, "01 01 00001000 0001 ABCD 0000"), "5 0 10 21");
    rows.add(tc(6, 2, "01 01 00001000 0001 ABCD 00001000 0001 ABCD"), "5 0 10 27");
    rows.add(tc(6, 2, "01 02 00001000 0001 ABCD 00001000 0002 ABCD1234 EF"), "5 0 10 30");
    rows.hold();
}

/// Which block is bad, of eight: its number is the detail, and the octets are those of all the data.
#[test]
fn a_later_block_that_is_cut_off_or_has_a_bad_length() {
    let mut rows = Rows::new();
    for number in 1..=8 {
        for subtype in [5, 9] {
            // 2 and 48 octets of data: 10 to 59.
            let blocks: String =
                (1..=8).map(|block| if block == number { "00001000 0000" } else { "00001000 0001" }).collect();
            rows.add(tc(6, subtype, &format!("01 08 {blocks}")), format!("5 {number} 10 59"));
            // Cut off in its start: as many octets as the blocks before it have, and three.
            let blocks = times("00001000 0001", number - 1) + "000010";
            let last = 11 + (number - 1) * 6 + 3;
            rows.add(tc(6, subtype, &format!("01 08 {blocks}")), format!("5 {number} 10 {last}"));
        }
        let blocks: String =
            (1..=8).map(|block| if block == number { "00001000 00F1" } else { "00001000 00F0" }).collect();
        rows.add(tc(6, 5, &format!("01 08 {blocks}")), format!("5 {number} 10 59"));
        // Of a load: a block of no words between blocks of one, 2 + 7 * 8 + 6 octets; then one whose word is cut off.
        let blocks: String =
            (1..=8).map(|block| if block == number { "00001000 0000" } else { "00001000 0001 ABCD" }).collect();
        rows.add(tc(6, 2, &format!("01 08 {blocks}")), format!("5 {number} 10 73"));
        let blocks = times("00001000 0001 ABCD", number - 1) + "00001000 0001 AB";
        let last = 11 + (number - 1) * 8 + 7;
        rows.add(tc(6, 2, &format!("01 08 {blocks}")), format!("5 {number} 10 {last}"));
    }
    rows.hold();
    rows.hold_for(EXAMPLE);
}

#[test]
fn the_first_bad_block_of_several() {
    let mut rows = Rows::new();
    // The second and the third have no words.
    rows.add(tc(6, 9, "01 03 00001000 0001 00001000 0000 00001000 0000"), "5 2 10 29");
    // The third has no words, and octets are left over.
    rows.add(tc(6, 9, "01 03 00001000 0001 00001000 0001 00001000 0000 FF"), "5 3 10 30");
    // The first has no words, and the second is cut off.
    rows.add(tc(6, 5, "01 02 00001000 0000 0000"), "5 1 10 19");
    // The second of a load takes all that is left, and more.
    rows.add(tc(6, 2, "01 03 00001000 0001 ABCD 00001000 0009 00001000 0001 ABCD"), "5 2 10 33");
    rows.add(tc(6, 2, &format!("01 02 00001000 0072 {}", times("ABCD", 114))), "5 2 10 245");
    rows.hold();
}

// ---- 17 and 19

#[test]
fn a_memory_that_is_not_there() {
    let mut rows = Rows::new();
    for (memory, answer) in [
        ("00", "17 0 10 10"),
        ("02", "17 2 10 10"),
        ("11", "17 17 10 10"),
        ("81", "17 129 10 10"),
        ("FF", "17 255 10 10"),
    ] {
        for (subtype, words) in [(2, "ABCD"), (5, ""), (9, "")] {
            for packet in both(6, subtype, &format!("{memory} 01 00001000 0001 {words}")) {
                rows.add(packet, answer);
            }
            rows.add(tc(6, subtype, &format!("{memory} 02 00001000 0001 {words} 00000000 0001 {words}")), answer);
        }
    }
    rows.hold();
    rows.hold_for(EXAMPLE);
}

#[test]
fn a_block_outside_in_each_way() {
    let mut rows = Rows::new();
    // The area is 1000 to 103F.
    for (block, words, answer) in [
        ("0000103F 0001", 1, "0000"),
        ("0000103F 0002", 2, "19 1 12 17"),
        ("00001040 0001", 1, "19 1 12 17"),
        ("00000FFF 0001", 1, "19 1 12 17"),
        ("00000FFF 0002", 2, "19 1 12 17"),
        ("FFFFFFFF 0001", 1, "19 1 12 17"),
        ("FFFFFFFF 0002", 2, "19 1 12 17"),
        ("00001000 0040", 64, "0000"),
        ("00001000 0041", 65, "19 1 12 17"),
        ("00000000 0001", 1, "19 1 12 17"),
        ("00011000 0001", 1, "19 1 12 17"),
        ("80001000 0001", 1, "19 1 12 17"),
    ] {
        for (subtype, words) in [(2, times("ABCD", words)), (5, String::new()), (9, String::new())] {
            for packet in both(6, subtype, &format!("01 01 {block} {words}")) {
                rows.add(packet, answer);
            }
        }
    }
    rows.hold();
    rows.hold_for(EXAMPLE);
}

/// Six octets a block, whatever its length is.
#[test]
fn the_blocks_of_dumps_and_checks() {
    let places = ["12 17", "18 23", "24 29", "30 35", "36 41", "42 47", "48 53", "54 59"];
    let mut rows = Rows::new();
    for (number, place) in (1..).zip(places) {
        for subtype in [5, 9] {
            for inside in ["00001000 0001", "00001000 0040"] {
                let blocks: String =
                    (1..=8).map(|block| if block == number { "00001040 0001" } else { inside }).collect();
                for packet in both(6, subtype, &format!("01 08 {blocks}")) {
                    rows.add(packet, format!("19 {number} {place}"));
                }
                // It is the last of as many blocks.
                let blocks = times(inside, number - 1) + "0000103F 0002";
                rows.add(tc(6, subtype, &format!("01 {number:02X} {blocks}")), format!("19 {number} {place}"));
            }
            // All from it on are outside.
            let blocks = times("00001000 0001", number - 1) + &times("00000FFF 0001", 9 - number);
            rows.add(tc(6, subtype, &format!("01 08 {blocks}")), format!("19 {number} {place}"));
        }
    }
    // P10: one-word blocks at 1000, 1050 and 1090.
    rows.add(tc(6, 9, "01 03 00001000 0001 00001050 0001 00001090 0001"), "19 2 18 23");
    rows.hold();
    rows.hold_for(EXAMPLE);
}

/// Behind each block of a load stand its words, two octets each.
#[test]
fn the_blocks_of_loads() {
    let mut rows = Rows::new();
    // The second block behind a first of 1, 2, 3 and 64 words.
    for (words, place) in [(1, "20 25"), (2, "22 27"), (3, "24 29"), (41, "100 105"), (64, "146 151")] {
        let first = format!("00001000 {words:04X} {}", times("ABCD", words));
        for packet in both(6, 2, &format!("01 02 {first} 00001040 0001 1234")) {
            rows.add(packet, format!("19 2 {place}"));
        }
        rows.add(tc(6, 2, &format!("01 03 {first} 00000FFF 0001 1234 00001000 0001 1234")), format!("19 2 {place}"));
    }
    // The third behind 3 and 5 words: 12, 24 and 40.
    let two = "00001000 0003 111122223333 00001010 0005 11112222333344445555";
    rows.add(tc(6, 2, &format!("01 03 {two} 00001040 0001 ABCD")), "19 3 40 45");
    // 64 and 30 words: 12, 146 and 212.
    let two = format!("00001000 0040 {} 00001020 001E {}", times("FFFF", 64), times("0000", 30));
    rows.add(tc(6, 2, &format!("01 03 {two} 0000103F 0002 ABCDABCD")), "19 3 212 217");
    // The longest packet: 64 words, then 47 that end outside.
    let first = format!("00001000 0040 {}", times("0001", 64));
    rows.add(tc(6, 2, &format!("01 02 {first} 00001012 002F {}", times("0001", 47))), "19 2 146 151");
    rows.add(tc(6, 2, &format!("01 02 {first} 00001011 002F {}", times("0001", 47))), "0000");
    rows.hold();
    rows.hold_for(EXAMPLE);
}

/// Blocks of 1 to 7 words stand at 12, 20, 30, 42, 56, 72 and 90, and one behind them at 110.
#[test]
fn each_block_of_a_load_of_eight() {
    let places = ["12 17", "20 25", "30 35", "42 47", "56 61", "72 77", "90 95", "110 115"];
    let mut rows = Rows::new();
    for (number, place) in (1..).zip(places) {
        let blocks: String = (1..=8)
            .map(|block| {
                let start = if block == number { "00002000" } else { "00001000" };
                format!("{start} {block:04X} {}", times("ABCD", block))
            })
            .collect();
        for packet in both(6, 2, &format!("01 08 {blocks}")) {
            rows.add(packet, format!("19 {number} {place}"));
        }
    }
    // The other way round: 8 to 1 words stand at 12, 34, 54, 72, 88, 102, 114 and 124.
    let places = ["12 17", "34 39", "54 59", "72 77", "88 93", "102 107", "114 119", "124 129"];
    for (number, place) in (1..).zip(places) {
        let blocks: String = (1..=8)
            .map(|block| {
                let start = if block >= number { "00000FFF" } else { "00001000" };
                let words = 9 - block;
                format!("{start} {words:04X} {}", times("0001", words))
            })
            .collect();
        rows.add(tc(6, 2, &format!("01 08 {blocks}")), format!("19 {number} {place}"));
    }
    rows.hold();
    rows.hold_for(EXAMPLE);
}

/// The octets of a block are those at its place, and not others that spell the same.
#[test]
fn two_places_that_spell_the_same() {
    let mut rows = Rows::new();
    // The words of the first block are 00001040 0001, and so are start and length of the second.
    rows.add(tc(6, 2, "01 02 00001000 0003 000010400001 00001040 0001 ABCD"), "19 2 24 29");
    // The first block is inside and spells the same words as it has.
    rows.add(tc(6, 2, "01 02 00001000 0003 000010000003 00001040 0001 ABCD"), "19 2 24 29");
    // Several blocks spell the same: the first of them.
    rows.add(tc(6, 5, "01 03 00001040 0001 00001040 0001 00001040 0001"), "19 1 12 17");
    rows.add(tc(6, 9, "01 03 00001000 0001 00001040 0001 00001040 0001"), "19 2 18 23");
    rows.add(tc(6, 2, "01 03 00001000 0001 ABCD 00001040 0001 ABCD 00001040 0001 ABCD"), "19 2 20 25");
    // The first block's words go on as the second block does, an octet early: 00 00001040 0001 02.
    rows.add(tc(6, 2, "01 02 00001000 0004 0000001040000102 00001040 0001 ABCD"), "19 2 26 31");
    rows.hold();
}

// ---- the order of the checks

#[test]
fn of_two_faults_the_earlier_check_is_told() {
    let mut rows = Rows::new();
    // 42 and anything.
    rows.add("FFFFFFFFFF", "42 0 0 0");
    // 1, with wrong error control, header, APID, type, subtype, data, memory and block.
    for octets in [
        "185C C000 0006 10 11 01 00",
        "F85C 0000 0006 F0 11 01 00",
        "184C C000 0006 10 11 01 00",
        "185C C000 0006 10 07 01 00",
        "185C C000 0006 10 11 02 00",
        "185C C000 0006 10 06 05 00",
    ] {
        rows.add(whole(octets), "1 12 4 5");
        rows.add(spoiled(octets), "1 12 4 5");
    }
    rows.add(whole("185C C000 000E 10 06 05 00 02 01 00001040 0001"), "1 20 4 5");
    rows.add(whole("185C C000 000C 10 06 05 00 01 01 00001040 0001"), "1 20 4 5");
    // 2, with each later one; by either method.
    for sixth in ["10", "00"] {
        for (octets, last) in [
            (format!("385C C000 0005 {sixth} 11 01 00"), "10 11"),
            (format!("185C 0000 0005 {sixth} 11 01 00"), "10 11"),
            (format!("184C C000 0005 {sixth} 11 01 00"), "10 11"),
            (format!("185C C000 0005 {sixth} 07 01 00"), "10 11"),
            (format!("185C C000 0005 {sixth} 11 02 00"), "10 11"),
            (format!("185C C000 0005 {sixth} 06 05 00"), "10 11"),
            (format!("185C C000 000D {sixth} 06 05 00 02 01 00001000 0001"), "18 19"),
            (format!("185C C000 000D {sixth} 06 05 00 01 01 00001040 0001"), "18 19"),
        ] {
            let right = hex(&whole(&octets));
            let [.., upper, lower] = right.as_slice() else { panic!("a packet") };
            let value = u16::from_be_bytes([*upper, *lower]);
            rows.add(spoiled(&octets), format!("2 {value} {last}"));
        }
    }
    // 16, with each later one.
    for octets in [
        "384C C000 0005 10 11 01 00",
        "385C C000 0005 10 07 01 00",
        "385C C000 0005 10 11 02 00",
        "385C C000 0005 00 06 05 00",
        "385C C000 000D 10 06 05 00 02 01 00001000 0001",
        "385C C000 000D 00 06 05 00 01 01 00001040 0001",
    ] {
        rows.add(whole(octets), "16 1 0 0");
    }
    rows.add(whole("184C 8000 0005 10 07 01 00"), "16 4 2 2");
    rows.add(whole("184C C000 0005 30 07 01 00"), "16 5 6 6");
    // 0, with each later one.
    for octets in [
        "184C C000 0005 10 07 01 00",
        "184C C000 0005 10 11 02 00",
        "184C C000 0005 10 06 05 00",
        "184C C000 000D 10 06 05 00 02 01 00001000 0001",
        "184C C000 000D 00 06 05 00 01 01 00001040 0001",
    ] {
        rows.add(whole(octets), "0 76 0 1");
    }
    // 3, with data of another service, and 4.
    rows.add(tc(7, 1, "01 00"), "3 7 7 7");
    rows.add(tc(6, 3, ""), "4 1539 7 8");
    rows.add(tc(6, 3, "02 01 00001040 0001"), "4 1539 7 8");
    rows.add(tc(17, 2, "01"), "4 4354 7 8");
    // 5, with another memory and a block outside.
    rows.add(tc(6, 5, "02 00"), "5 0 10 11");
    rows.add(tc(6, 5, "02 01 00001000 0000"), "5 1 10 17");
    rows.add(tc(6, 2, "02 01 00001040 0001 AB"), "5 1 10 18");
    rows.add(tc(6, 9, "01 02 00001040 0001 00001000 0000"), "5 2 10 23");
    rows.add(tc(6, 9, "01 01 00001040 0001 FF"), "5 0 10 18");
    // 17, with a block that would be outside.
    rows.add(tc(6, 9, "02 01 00001040 0001"), "17 2 10 10");
    rows.hold();
    rows.hold_for(EXAMPLE);
}

// ---- nothing goes from line to line

#[test]
fn what_came_before_does_not_matter() {
    let load = tc(6, 2, &format!("01 01 00001000 0040 {}", times("ABCD", 64)));
    let dump = tc(6, 5, "01 01 00001000 0040");
    let outside = tc(6, 2, "01 02 00001000 0001 ABCD 00001040 0001 ABCD");
    let mut rows = Rows::new();
    for _ in 0..3 {
        rows.add(dump.clone(), "0000")
            .add(outside.clone(), "19 2 20 25")
            .add(load.clone(), "0000")
            .add("", "42 0 0 0")
            .add("zz", "0200")
            .add(WRONG, WRONG_ANSWER)
            .add(GOOD, "0000");
    }
    rows.hold();
    rows.hold_for(EXAMPLE);
    // More packets than a count has values, all with one sequence control.
    let mut rows = Rows::new();
    for _ in 0..17_000 {
        rows.add(GOOD, "0000").add(WRONG, WRONG_ANSWER);
    }
    rows.hold();
}

// ---- lines

#[test]
fn bad_lines() {
    let mut rows = Rows::new();
    for line in [
        format!("{GOOD}\r"),
        "\r".into(),
        format!("\r{GOOD}"),
        format!("{GOOD}\0"),
        format!("\0{GOOD}"),
        format!(" {GOOD}"),
        format!("{GOOD} "),
        format!("{GOOD}\t"),
        format!("{GOOD} # a comment"),
        "185C C000".into(),
        "0x185C".into(),
        "G0".into(),
        "0g".into(),
        "/0".into(),
        "0:".into(),
        "@0".into(),
        "0`".into(),
        "\x7F0".into(),
        "é0".into(),
        "18x".into(),
        "zz".into(),
        // Odd digits.
        "1".into(),
        "185".into(),
        GOOD[..23].into(),
        format!("{GOOD}0"),
        digits(4_095),
        "020".into(),
    ] {
        rows.add(line, "0200");
        rows.add(WRONG, WRONG_ANSWER);
    }
    rows.hold();
    rows.hold_for(EXAMPLE);
    for line in [&b"00\xFF"[..], b"\x80\x80", b"0\xB1", b"\xC0\x8A"] {
        explain(line).is("0200\n", "", 0);
        explain([line, b"\n", GOOD.as_bytes()].concat()).is("0200\n0000\n", "", 0);
    }
}

#[test]
fn lines_that_are_too_long() {
    let mut rows = Rows::new();
    rows.add(digits(4_096), "1 2048 4 5");
    for count in [4_097, 4_098, 8_192, 65_536, 65_537, 300_001] {
        rows.add(digits(count), "0200");
        rows.add(GOOD, "0000");
    }
    // The carriage return is the 4,097th character, and the 4,096th.
    rows.add(digits(4_096) + "\r", "0200");
    rows.add(digits(4_095) + "\r", "0200");
    rows.add(times("\r", 5_000), "0200");
    // Its first 24 characters are a packet.
    rows.add(format!("{GOOD}{}", digits(4_096)), "0200");
    rows.add("", "42 0 0 0");
    rows.hold();
    rows.hold_for(EXAMPLE);
    for count in [4_097, 70_000] {
        explain(digits(count)).is("0200\n", "", 0);
        explain(format!("{GOOD}\n{}", digits(count))).is("0000\n0200\n", "", 0);
    }
}

#[test]
fn both_letter_cases() {
    let mut rows = Rows::new();
    let outside = tc(6, 2, "01 02 00001000 0002 ABCDEFEF 0000FFFF 0001 ABCD");
    for line in [outside.clone(), outside.to_lowercase(), outside.replace('C', "c"), outside.replace('F', "f")] {
        rows.add(line, "19 2 22 27");
    }
    for line in [GOOD.to_lowercase(), "185Cc0000005191101000167".into(), "185cC0000005191101000167".into()] {
        rows.add(line, "0000");
    }
    rows.add("185cc19b00050911010effff", "0000");
    rows.add("185Cc19B00050911010E00fF", "2 65535 10 11");
    rows.hold();
    rows.hold_for(EXAMPLE);
}

#[test]
fn a_last_line_without_its_newline() {
    for (text, answers) in [
        ("", ""),
        ("\n", "42 0 0 0\n"),
        ("18", "42 0 0 0\n"),
        ("1", "0200\n"),
        ("\n18", "42 0 0 0\n42 0 0 0\n"),
        ("18\n", "42 0 0 0\n"),
        ("18\n\n", "42 0 0 0\n42 0 0 0\n"),
        ("\r", "0200\n"),
        ("\n\r\n", "42 0 0 0\n0200\n"),
    ] {
        explain(text).is(answers, "", 0);
        explain_for(EXAMPLE, text).is(answers, "", 0);
    }
    explain(format!("{WRONG}\n{GOOD}")).answers(&[WRONG_ANSWER, "0000"]);
    explain(format!("{GOOD}\n{WRONG}")).answers(&["0000", WRONG_ANSWER]);
}

// ---- units

#[test]
fn the_pid_of_the_unit() {
    let unit = |pid: u8| EXAMPLE.replace("pid 5", &format!("pid {pid}"));
    let test = |id: &str| whole(&body(id, "10", 17, 1, ""));
    // PID 5 with category 12 is 05C, which is 92.
    let mut rows = Rows::new();
    rows.add(GOOD, "0 92 0 1").add(test("186C"), "0000").add(test("1860"), "0 96 0 1");
    rows.add(tc(6, 5, "01 01 00001040 0001"), "0 92 0 1").add(WRONG, WRONG_ANSWER);
    rows.hold_for(unit(6));
    let mut rows = Rows::new();
    rows.add(test("180C"), "0000").add(test("1800"), "0 0 0 1").add(test("1FFC"), "0 2044 0 1").add(GOOD, "0 92 0 1");
    rows.hold_for(unit(0));
    let mut rows = Rows::new();
    rows.add(test("1FFC"), "0000").add(test("180C"), "0 12 0 1").add(test("1FFF"), "0 2047 0 1");
    rows.add(test("1BFC"), "0 1020 0 1").add(GOOD, "0 92 0 1");
    rows.hold_for(unit(127));
}

#[test]
fn services_that_are_off() {
    let load = tc(6, 2, "01 01 00001000 0001 ABCD");
    let dump = tc(6, 5, "01 01 00001000 0001");
    let check = tc(6, 9, "01 01 00001000 0001");
    let test = tc(17, 1, "");
    let (other, other_test) = (tc(6, 3, ""), tc(17, 2, ""));
    let with = |services: &str, answers: [&str; 6]| {
        let unit = EXAMPLE.replace("services load dump check connection", services);
        let packets: String =
            [&load, &dump, &check, &test, &other, &other_test].map(|line| format!("{line}\n")).concat();
        explain_for(unit, packets).answers(&answers);
    };
    let (no_load, no_dump, no_check) = ("4 1538 7 8", "4 1541 7 8", "4 1545 7 8");
    let (no_other, no_other_test) = ("4 1539 7 8", "4 4354 7 8");
    let (no_memory, no_connection) = ("3 6 7 7", "3 17 7 7");
    with("services load dump check connection", ["0000", "0000", "0000", "0000", no_other, no_other_test]);
    with("services dump check connection", [no_load, "0000", "0000", "0000", no_other, no_other_test]);
    with("services load check connection", ["0000", no_dump, "0000", "0000", no_other, no_other_test]);
    with("services load dump connection", ["0000", "0000", no_check, "0000", no_other, no_other_test]);
    with("services load dump check", ["0000", "0000", "0000", no_connection, no_other, no_connection]);
    with("services load", ["0000", no_dump, no_check, no_connection, no_other, no_connection]);
    with("services dump", [no_load, "0000", no_check, no_connection, no_other, no_connection]);
    with("services check", [no_load, no_dump, "0000", no_connection, no_other, no_connection]);
    with("services connection", [no_memory, no_memory, no_memory, "0000", no_memory, no_other_test]);
    with("", [no_memory, no_memory, no_memory, no_connection, no_memory, no_connection]);
}

#[test]
fn a_right_that_the_area_lacks() {
    let unit = "pid 5
services load dump check connection
store 64
area 1 start 0 words 4 at 0 dump check
area 2 start 0 words 4 at 8 load check
area 130 start 0 words 4 at 16 load dump
area 4 start 0 words 4 at 24
area 5 start 0 words 4 at 32 load dump check
";
    let mut rows = Rows::new();
    for (memory, load, dump, check) in [
        ("01", "18 1 10 10", "0000", "0000"),
        ("02", "0000", "18 2 10 10", "0000"),
        ("82", "0000", "0000", "18 130 10 10"),
        ("04", "18 4 10 10", "18 4 10 10", "18 4 10 10"),
        ("05", "0000", "0000", "0000"),
        ("03", "17 3 10 10", "17 3 10 10", "17 3 10 10"),
    ] {
        for (subtype, words, answer) in [(2, "ABCD", load), (5, "", dump), (9, "", check)] {
            for packet in both(6, subtype, &format!("{memory} 01 00000003 0001 {words}")) {
                rows.add(packet, answer);
            }
            // 18 comes before 19, and 5 before 18.
            let outside = tc(6, subtype, &format!("{memory} 01 00000004 0001 {words}"));
            rows.add(outside, if answer == "0000" { "19 1 12 17" } else { answer });
            rows.add(tc(6, subtype, &format!("{memory} 01 00000003 0000")), "5 1 10 17");
            rows.add(tc(6, subtype, &format!("{memory} 00")), "5 0 10 11");
        }
    }
    rows.hold_for(unit);
}

#[test]
fn a_service_that_is_off_comes_before_data_memory_right_and_block() {
    let unit = "pid 5\nservices check\nstore 8\narea 1 start 0 words 4 at 0\n";
    let mut rows = Rows::new();
    for data in ["", "02 01 00000000 0001", "01 01 00000000 0001", "01 01 00000004 0001"] {
        rows.add(tc(6, 2, data), "4 1538 7 8");
        rows.add(tc(6, 5, data), "4 1541 7 8");
        rows.add(tc(17, 1, data), "3 17 7 7");
    }
    rows.add(tc(6, 9, "01 01 00000004 0001"), "18 1 10 10");
    rows.add(tc(6, 9, "02 01 00000004 0001"), "17 2 10 10");
    rows.add(tc(6, 9, ""), "5 0 10 9");
    rows.hold_for(unit);
    let mut rows = Rows::new();
    for data in ["", "02 01 00000000 0001", "01 01 00000000 0001", "01 01 00000004 0001"] {
        rows.add(tc(6, 9, data), "3 6 7 7");
        rows.add(tc(6, 77, data), "3 6 7 7");
    }
    rows.hold_for(unit.replace("services check", "services connection"));
}

#[test]
fn blocks_outside_of_each_of_several_areas() {
    let mut rows = Rows::new();
    // Memory 1 is 1000 to 1007, 7 is 0 to 199, 255 is FFFFFFF0 to FFFFFFFF.
    for (block, words, in_1, in_7, in_255) in [
        ("00001007 0001", 1, "0000", "19 1 12 17", "19 1 12 17"),
        ("00001007 0002", 2, "19 1 12 17", "19 1 12 17", "19 1 12 17"),
        ("00000FFF 0001", 1, "19 1 12 17", "19 1 12 17", "19 1 12 17"),
        ("00000000 0001", 1, "19 1 12 17", "0000", "19 1 12 17"),
        ("000000C7 0001", 1, "19 1 12 17", "0000", "19 1 12 17"),
        ("000000C7 0002", 2, "19 1 12 17", "19 1 12 17", "19 1 12 17"),
        ("FFFFFFFF 0001", 1, "19 1 12 17", "19 1 12 17", "0000"),
        ("FFFFFFFF 0002", 2, "19 1 12 17", "19 1 12 17", "19 1 12 17"),
        ("FFFFFFF0 0010", 16, "19 1 12 17", "19 1 12 17", "0000"),
        ("FFFFFFEF 0001", 1, "19 1 12 17", "19 1 12 17", "19 1 12 17"),
        ("FFFFFFEF 0011", 17, "19 1 12 17", "19 1 12 17", "19 1 12 17"),
    ] {
        for (memory, answer) in [("01", in_1), ("07", in_7), ("FF", in_255)] {
            rows.add(tc_18(6, 2, &format!("{memory} 01 {block} {}", times("ABCD", words))), answer);
            rows.add(tc_18(6, 5, &format!("{memory} 01 {block}")), answer);
            rows.add(tc_18(6, 9, &format!("{memory} 01 {block}")), answer);
        }
        rows.add(tc_18(6, 9, &format!("02 01 {block}")), "17 2 10 10");
        rows.add(tc(6, 9, &format!("01 01 {block}")), "0 92 0 1");
    }
    rows.hold_for(THREE);
}

#[test]
fn loads_of_blocks_of_different_lengths_in_a_second_area() {
    let mut rows = Rows::new();
    let words = |count| times("ABCD", count);
    // Blocks of 20, 3 and 40 words stand at 12, 58 and 70, and one behind them at 156.
    let three = format!("00000000 0014 {} 000000C5 0003 {} 00000064 0028 {}", words(20), words(3), words(40));
    rows.add(tc_18(6, 2, &format!("07 04 {three} 000000C8 0001 1234")), "19 4 156 161");
    rows.add(tc_18(6, 2, &format!("07 05 {three} 000000C7 0001 1234 00001000 0001 1234")), "19 5 164 169");
    rows.add(tc_18(6, 2, &format!("07 03 {three}")), "0000");
    // The same blocks are outside of the first area.
    rows.add(tc_18(6, 2, &format!("01 03 {three}")), "19 1 12 17");
    // The second or the third is outside.
    let three = format!("00000000 0014 {} 000000C6 0003 {} 00000064 0028 {}", words(20), words(3), words(40));
    rows.add(tc_18(6, 2, &format!("07 03 {three}")), "19 2 58 63");
    let three = format!("00000000 0014 {} 000000C5 0003 {} 000000A1 0028 {}", words(20), words(3), words(40));
    rows.add(tc_18(6, 2, &format!("07 03 {three}")), "19 3 70 75");
    // Behind 100 and 110 words, and at the end of the longest packet.
    rows.add(tc_18(6, 2, &format!("07 02 00000000 0064 {} 000000C8 0001 1234", words(100))), "19 2 218 223");
    let last = tc_18(6, 2, &format!("07 02 00000000 006E {} 000000C8 0001 1234", words(110)));
    assert_eq!(last.len(), 496);
    rows.add(last, "19 2 238 243");
    // A dump and a check of the same blocks have six octets for each.
    for subtype in [5, 9] {
        let blocks = "00000000 0014 000000C5 0003 00000064 0028";
        rows.add(tc_18(6, subtype, &format!("07 04 {blocks} 000000C8 0001")), "19 4 30 35");
        rows.add(tc_18(6, subtype, "07 02 00000000 006E 000000C8 0001"), "19 2 18 23");
    }
    // The words of the first block spell start and length of the second.
    rows.add(tc_18(6, 2, "07 02 00000000 0003 000000C80001 000000C8 0001 1234"), "19 2 24 29");
    rows.hold_for(THREE);
}

#[test]
fn a_length_above_255_is_no_shorter_one() {
    // 100 hexadecimal in the upper octet of a length: 256 words of a check, of which an area of 300 has room for one block.
    let unit = "pid 5\nservices load dump check\nstore 1000\narea 1 start 0 words 300 at 0 load dump check\n";
    let mut rows = Rows::new();
    rows.add(tc(6, 9, "01 02 00000000 0100 0000002C 0100"), "0000");
    rows.add(tc(6, 9, "01 02 00000000 0100 0000002D 0100"), "19 2 18 23");
    rows.add(tc(6, 9, "01 01 00000000 012D"), "19 1 12 17");
    rows.add(tc(6, 5, "01 03 00000000 00F0 00000000 00F0 0000003D 00F0"), "19 3 24 29");
    rows.hold_for(unit);
}

#[test]
fn units_without_areas_and_with_eight() {
    let mut rows = Rows::new();
    rows.add(tc(6, 5, "00 01 00000000 0001"), "17 0 10 10");
    rows.add(tc(6, 2, "01 01 00000000 0001 ABCD"), "17 1 10 10");
    rows.add(tc(17, 1, ""), "0000");
    rows.hold_for("pid 5\nservices load dump check connection\nstore 0\n");
    let areas: String = (0..8)
        .map(|place| format!("area {} start {} words 2 at {} dump\n", place * 3, place * 16, place * 4))
        .collect();
    let unit = format!("pid 5\nservices load dump\nstore 32\nput 0 ABCD\n{areas}put 30 FFFF\n");
    let mut rows = Rows::new();
    for place in 0..8 {
        let (memory, start) = (place * 3, place * 16);
        rows.add(tc(6, 5, &format!("{memory:02X} 01 {start:08X} 0002")), "0000");
        rows.add(tc(6, 5, &format!("{memory:02X} 02 {start:08X} 0002 {:08X} 0001", start + 2)), "19 2 18 23");
        rows.add(tc(6, 2, &format!("{memory:02X} 01 {start:08X} 0001 ABCD")), format!("18 {memory} 10 10"));
        rows.add(tc(6, 5, &format!("{:02X} 01 {start:08X} 0001", memory + 1)), format!("17 {} 10 10", memory + 1));
    }
    rows.hold_for(unit);
}

#[test]
fn the_unit_of_the_line_program_and_none_answer_the_same() {
    let mut text = String::new();
    for service in [6, 17, 7] {
        for subtype in [1, 2, 5, 9] {
            for data in ["", "01", "01 01 00001000 0001", "02 01 00001000 0001", "01 01 00001000 0001 ABCD", "01 00"] {
                for packet in both(service, subtype, data) {
                    text += &format!("{packet}\n{}\n", packet.to_lowercase());
                }
            }
        }
    }
    let without = explain(&text);
    let with = explain_for(EXAMPLE, &text);
    assert_eq!(String::from_utf8_lossy(&without.out), String::from_utf8_lossy(&with.out));
    assert_eq!((without.status, with.status), (Some(0), Some(0)));
    assert_eq!(without.out.iter().filter(|octet| **octet == b'\n').count(), 288);
}

// ---- a unit that is not sound, and a bad one

#[test]
fn a_unit_that_is_not_sound() {
    for (unit, words) in [
        ("pid 5\nstore 3\n", "the store has an odd number of octets"),
        ("pid 128\nstore 0\n", "the PID is above 127"),
        ("pid 5\nstore 8\narea 1 start 0 words 0 at 0\n", "area 1 has no words"),
        ("pid 5\nstore 8\narea 1 start 0xFFFFFFFF words 2 at 0\n", "area 1 ends above address FFFFFFFF"),
        ("pid 5\nstore 8\narea 1 start 0 words 1 at 0\narea 2 start 0 words 4 at 2\n", "area 2 ends past the store"),
        (
            "pid 5\nstore 8\narea 3 start 0 words 1 at 0\narea 1 start 0 words 1 at 2\narea 3 start 8 words 1 at 4\n",
            "areas 1 and 3 have the same memory ID",
        ),
        ("pid 5\nstore 8\narea 1 start 0 words 2 at 0\narea 2 start 0 words 1 at 2\n", "areas 1 and 2 share octet 2"),
    ] {
        for packets in ["", "\n", GOOD, "zz\n", &digits(5_000), &format!("{GOOD}\n{WRONG}\n")] {
            explain_for(unit, packets).is("refused 41\n", &format!("{words}\n"), 2);
        }
    }
}

#[test]
fn a_bad_unit_file() {
    for (unit, line, words) in [
        (BAD_UNIT, 2, BAD_UNIT_WORDS),
        ("", 1, "a unit has \"pid N\", and no line has it"),
        ("pid 5\n", 2, "a unit has \"store N\", and no line has it"),
        ("pid 256\nstore 0\n", 1, "a process ID is at most 255"),
        ("# a comment\n\nPid 5\n", 3, "a line begins with pid, services, store, put or area"),
        ("pid 128\nstore 2\nput 1 0000\n", 3, "octets are put inside the store"),
    ] {
        for packets in ["", "\n", GOOD, "zz\n", &format!("{GOOD}\n{WRONG}\n")] {
            explain_for(unit, packets).is_bad_unit(line, words);
        }
    }
}

#[test]
fn a_verdict_on_the_unit_waits_for_no_packet() {
    let unit = TestFile::new(UNSOUND);
    start(&["--unit".as_ref(), unit.as_ref()]).wait().is_unsound(UNSOUND_WORDS);
    let unit = TestFile::new(BAD_UNIT);
    start(&["--unit".as_ref(), unit.as_ref(), "-".as_ref()]).wait().is_bad_unit(2, BAD_UNIT_WORDS);
}

// ---- arguments

#[test]
fn the_files_are_named_or_standard_input() {
    let unit = TestFile::new(THREE);
    let packets = TestFile::new(format!("{GOOD}\n\n{WRONG}"));
    let (unit, packets): (&OsStr, &OsStr) = (unit.as_ref(), packets.as_ref());
    let (option, standard): (&OsStr, &OsStr) = ("--unit".as_ref(), "-".as_ref());
    let text = format!("{GOOD}\n{WRONG}\n");
    // Without a unit.
    run(&[], text.as_bytes()).answers(&["0000", WRONG_ANSWER]);
    run(&[standard], text.as_bytes()).answers(&["0000", WRONG_ANSWER]);
    run(&[packets], b"").answers(&["0000", "42 0 0 0", WRONG_ANSWER]);
    run(&[packets], b"zz\n").answers(&["0000", "42 0 0 0", WRONG_ANSWER]);
    run(&["/dev/null".as_ref()], b"zz\n").answers::<&str>(&[]);
    // With one, whose PID is 18.
    run(&[option, unit], text.as_bytes()).answers(&["0 92 0 1", WRONG_ANSWER]);
    run(&[option, unit, standard], text.as_bytes()).answers(&["0 92 0 1", WRONG_ANSWER]);
    run(&[option, unit, packets], b"").answers(&["0 92 0 1", "42 0 0 0", WRONG_ANSWER]);
    run(&[option, unit, packets], b"zz\n").answers(&["0 92 0 1", "42 0 0 0", WRONG_ANSWER]);
    run(&[option, unit, "/dev/null".as_ref()], b"").answers::<&str>(&[]);
    // The unit is standard input.
    run(&[option, standard, packets], THREE.as_bytes()).answers(&["0 92 0 1", "42 0 0 0", WRONG_ANSWER]);
    run(&[option, standard, packets], EXAMPLE.as_bytes()).answers(&["0000", "42 0 0 0", WRONG_ANSWER]);
    run(&[option, standard, packets], b"").is_bad_unit(1, "a unit has \"pid N\", and no line has it");
    run(&[option, standard, packets], UNSOUND.as_bytes()).is_unsound(UNSOUND_WORDS);
}

#[test]
fn standard_input_for_both_files() {
    let option: &OsStr = "--unit".as_ref();
    run(&[option, "-".as_ref()], EXAMPLE.as_bytes()).is_wrong_use();
    run(&[option, "-".as_ref(), "-".as_ref()], EXAMPLE.as_bytes()).is_wrong_use();
    start(&[option, "-".as_ref()]).wait().is_wrong_use();
    start(&[option, "-".as_ref(), "-".as_ref()]).wait().is_wrong_use();
}

#[test]
fn an_argument_too_many_or_too_few() {
    let unit = TestFile::new(EXAMPLE);
    let packets = TestFile::new(GOOD);
    let (unit, packets): (&OsStr, &OsStr) = (unit.as_ref(), packets.as_ref());
    let (option, standard): (&OsStr, &OsStr) = ("--unit".as_ref(), "-".as_ref());
    for arguments in [
        // The option without a name.
        &[option][..],
        // Two files, or three.
        &[packets, packets],
        &[packets, standard],
        &[standard, standard],
        &[packets, "".as_ref()],
        &[packets, packets, packets],
        &[option, unit, packets, packets],
        &[option, unit, packets, standard],
        &[option, unit, standard, standard],
        &[option, unit, packets, "".as_ref()],
        // The option twice.
        &[option, unit, option, unit],
        &[option, unit, option, unit, packets],
        &[option, unit, option],
        &[option, option],
        &[option, option, unit],
        &[option, option, unit, packets],
        // The option behind a file.
        &[packets, option],
        &[packets, option, unit],
        &[standard, option, unit],
        &[option, unit, packets, option],
        &[option, unit, packets, option, unit],
    ] {
        run(arguments, EXAMPLE.as_bytes()).is_wrong_use();
    }
    let said = Command::new(env!("CARGO_BIN_EXE_explain")).args(["a", "b"]).output().expect("explain starts").stderr;
    assert_eq!(String::from_utf8_lossy(&said), "explain: usage: explain [--unit UNIT] [FILE]\n");
}

#[test]
fn an_unknown_option() {
    let unit = TestFile::new(EXAMPLE);
    let packets = TestFile::new(GOOD);
    let (unit, packets, option): (&OsStr, &OsStr, &OsStr) = (unit.as_ref(), packets.as_ref(), "--unit".as_ref());
    for unknown in
        ["-x", "--", "--help", "-h", "-u", "--units", "--uni", "-unit", "--Unit", "-1", "--unit=x", "---unit"]
    {
        let unknown: &OsStr = unknown.as_ref();
        for arguments in [
            &[unknown][..],
            &[unknown, packets],
            &[unknown, unit, packets],
            &[unknown, option, unit, packets],
            &[packets, unknown],
            &[option, unknown],
            &[option, unknown, packets],
            &[option, unit, unknown],
            &[option, unit, unknown, packets],
            &[option, unit, packets, unknown],
        ] {
            run(arguments, GOOD.as_bytes()).is_wrong_use();
        }
    }
    // What begins with `-` is no file, though there is one of that name.
    let path = Path::new(env!("CARGO_TARGET_TMPDIR")).join(format!("explain-{}", process::id()));
    fs::create_dir_all(&path).expect("a folder");
    for name in ["-x", "x"] {
        fs::write(path.join(name), GOOD).expect("a file");
    }
    let at = |name: &str| {
        let done = command().arg(name).current_dir(&path).stdin(Stdio::null()).output().expect("explain starts");
        (String::from_utf8_lossy(&done.stdout).into_owned(), done.status.code(), done.stderr.is_empty())
    };
    assert_eq!(at("-x"), (String::new(), Some(2), false));
    assert_eq!(at("./-x"), ("0000\n".into(), Some(0), true));
    assert_eq!(at("x"), ("0000\n".into(), Some(0), true));
    fs::remove_dir_all(&path).expect("it can be removed");
}

#[test]
fn a_file_that_cannot_be_read() {
    let good = TestFile::new(EXAMPLE);
    let unsound = TestFile::new(UNSOUND);
    let bad = TestFile::new(BAD_UNIT);
    let packets = TestFile::new(GOOD);
    let (option, standard): (&OsStr, &OsStr) = ("--unit".as_ref(), "-".as_ref());
    for missing in ["no such file", "", "/no/such/folder/file", env!("CARGO_TARGET_TMPDIR")] {
        let missing: &OsStr = missing.as_ref();
        run(&[missing], GOOD.as_bytes()).is_wrong_use();
        run(&[option, missing], GOOD.as_bytes()).is_wrong_use();
        run(&[option, missing, standard], GOOD.as_bytes()).is_wrong_use();
        run(&[option, missing, packets.as_ref()], b"").is_wrong_use();
        run(&[option, good.as_ref(), missing], GOOD.as_bytes()).is_wrong_use();
        // It is said before anything else is done.
        run(&[option, unsound.as_ref(), missing], b"").is_wrong_use();
        run(&[option, bad.as_ref(), missing], b"").is_wrong_use();
        run(&[option, standard, missing], BAD_UNIT.as_bytes()).is_wrong_use();
        start(&[option, standard, missing]).wait().is_wrong_use();
        start(&[option, missing]).wait().is_wrong_use();
    }
}

// ---- streams

#[test]
fn packets_in_pieces_through_a_pipe() {
    let unit = TestFile::new(THREE);
    let long = digits(4_096);
    let outside = tc_18(6, 2, "07 02 00000000 0001 ABCD 000000C8 0001 ABCD");
    let packets = format!("{WRONG}\n\n{outside}\n{long}\nzz\n0{long}\n{WRONG}");
    for size in [1, 7, 4_096, 65_536] {
        let mut running = start(&[]);
        running.send(packets.as_bytes().chunks(size));
        // Without a unit 12C, which is 300, is another APID.
        let answers = [WRONG_ANSWER, "42 0 0 0", "0 300 0 1", "1 2048 4 5", "0200", "0200", WRONG_ANSWER];
        running.close_and_wait().answers(&answers);
        let mut running = start(&["--unit".as_ref(), unit.as_ref()]);
        running.send(packets.as_bytes().chunks(size));
        let answers = [WRONG_ANSWER, "42 0 0 0", "19 2 20 25", "1 2048 4 5", "0200", "0200", WRONG_ANSWER];
        running.close_and_wait().answers(&answers);
    }
}

#[test]
fn a_hundred_million_digits_in_a_line() {
    let piece = [b'0'; 1_000_000];
    let mut running = start(&[]);
    running.send([&piece[..]; 100]);
    running.send([format!("\n{GOOD}\n").as_bytes()]);
    running.close_and_wait().answers(&["0200", "0000"]);
}

#[test]
fn one_line_is_answered_before_more_is_read() {
    let unit = TestFile::new(EXAMPLE);
    let (option, unit, standard): (&OsStr, &OsStr, &OsStr) = ("--unit".as_ref(), unit.as_ref(), "-".as_ref());
    for arguments in [&[][..], &[standard], &[option, unit], &[option, unit, standard]] {
        let mut child = command()
            .args(arguments)
            .stdin(Stdio::piped())
            .stdout(Stdio::piped())
            .stderr(Stdio::null())
            .spawn()
            .expect("explain starts");
        let mut input = child.stdin.take().expect("its input");
        let output = child.stdout.take().expect("its output");
        let (sender, lines) = mpsc::channel();
        thread::spawn(move || {
            for line in BufReader::new(output).lines().map_while(Result::ok) {
                if sender.send(line).is_err() {
                    break;
                }
            }
        });
        let first = format!("{GOOD}\n");
        let second = format!("\n{WRONG}\nzz\n");
        let (begin, end) = second.split_at(9);
        for (sent, expected) in
            [(&*first, &["0000"][..]), (begin, &["42 0 0 0"]), (end, &[WRONG_ANSWER, "0200"]), ("00\n", &["42 0 0 0"])]
        {
            input.write_all(sent.as_bytes()).and_then(|()| input.flush()).expect("it reads");
            for line in expected {
                assert_eq!(lines.recv_timeout(Duration::from_secs(20)).as_deref(), Ok(*line));
            }
        }
        drop(input);
        assert_eq!(end_of(&mut child), Some(0));
    }
}

#[test]
fn output_that_nobody_reads_any_more_is_no_failure() {
    let mut child =
        command().stdin(Stdio::piped()).stdout(Stdio::piped()).stderr(Stdio::piped()).spawn().expect("explain starts");
    drop(child.stdout.take());
    let mut input = child.stdin.take().expect("its input");
    thread::spawn(move || while input.write_all(format!("{GOOD}\n").as_bytes()).is_ok() {});
    assert_eq!(end_of(&mut child), Some(0));
    let said = child.wait_with_output().expect("its standard error").stderr;
    assert_eq!(String::from_utf8_lossy(&said), "");
}

#[test]
fn output_that_cannot_be_written_is_said() {
    let packets = TestFile::new(format!("{GOOD}\n"));
    let mut runs = vec![command()];
    let units = [EXAMPLE, UNSOUND, BAD_UNIT].map(TestFile::new);
    for unit in &units {
        let mut command = command();
        command.arg("--unit").arg(unit);
        runs.push(command);
    }
    for mut run in runs {
        let full = OpenOptions::new().write(true).open("/dev/full").expect("a full device");
        let done = run.arg(&packets).stdin(Stdio::null()).stdout(full).output().expect("explain starts");
        assert_eq!(done.status.code(), Some(2));
        assert!(!done.stderr.is_empty(), "it says nothing");
    }
}
