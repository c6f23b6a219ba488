//! The program `pack`: document 01's example as a record, packets of every kind, its arguments and its streams. Where
//! PACK_COMMAND names another program, one word a line, it is held to the same.

mod common;

use std::ffi::OsStr;
use std::fs::{self, OpenOptions};
use std::io::{BufRead, BufReader, Write};
use std::path::Path;
use std::process::Stdio;
use std::sync::mpsc;
use std::thread;
use std::time::Duration;

use common::packing::{
    command, dumped, end_of, line, pack, packet, refused, run, start, TestFile, EXAMPLE, GOOD, GOOD_RECORD,
};

/// A unit that is not sound and a bad one, with what is said of them.
const UNSOUND: &str = "pid 128\nstore 0\n";
const UNSOUND_WORDS: &str = "the PID is above 127";
const BAD_UNIT: &str = "pid 5\nstore\n";
const BAD_UNIT_WORDS: &str = "a store is \"store N\"";

/// The record of the example's second packet, whose error control is wrong, behind the first.
const WRONG: &str = "185CC0000005191101000168";
const WRONG_RECORD: &str = "185CC0000005191101000168
0851C002001100000000000000010200185CC00000020167

";

/// So many digits.
fn digits(count: usize) -> String {
    "0".repeat(count)
}

// ---- the record

#[test]
fn the_example_of_document_01() {
    let record = "185CC0000005191101000167
0851C000000D00000000000000010100185CC000
0859C000000900000000000000110200
0851C001000D00000000000000010700185CC000

185CC0000005191101000168
0851C002001100000000000000010200185CC00000020167

";
    pack(EXAMPLE, "185CC0000005191101000167\n185CC0000005191101000168\n").is_record(record);
    pack(EXAMPLE, "185CC0000005191101000167\n185CC0000005191101000168").is_record(record);
}

/// Flag 0: the ISO checksum, the CRC in its place, FF sent for 0 in both octets, and 00 for one of them.
#[test]
fn the_checksum_flag_selects_the_method() {
    let record = "185CC00000050911010002A8
0851C000000D00000000000000010100185CC000
0859C000000900000000000000110200
0851C001000D00000000000000010700185CC000

185CC0000005091101001AC0
0851C002001100000000000000010200185CC000000202A8

185CC19B00050911010EFFFF
0851C003000D00000000000000010100185CC19B
0859C001000900000000000000110200
0851C004000D00000000000000010700185CC19B

185CC19B00050911010E00FF
0851C005001100000000000000010200185CC19B0002FFFF

";
    let packets =
        "185CC00000050911010002A8\n185CC0000005091101001AC0\n185cc19b00050911010effff\n185CC19B00050911010E00FF";
    pack(EXAMPLE, packets).is_record(record);
}

#[test]
fn lower_case_goes_in_and_upper_case_comes_out() {
    pack(EXAMPLE, "185cc0000005191101000167\n185Cc0000005191101000168\n")
        .is_record(&format!("{GOOD_RECORD}{WRONG_RECORD}"));
    let load = packet(6, 2, "01 01 00001000 0001 abcd");
    let dump = packet(6, 5, "01 01 00001000 0001");
    let record = format!("{load}\n{dump}{}\n", dumped(0, 1, 0x1000, "ABCD"));
    pack(EXAMPLE, format!("{}{}", load.to_lowercase(), dump.to_lowercase())).is_record(&record);
}

#[test]
fn the_counts_and_the_store_go_on_from_packet_to_packet() {
    let dump = packet(6, 5, "01 02 0000103E 0002 00001000 0001");
    let load = packet(6, 2, "01 01 0000103F 0001 BEEF");
    let outside = packet(6, 2, "01 02 0000103E 0001 DEAD 00001040 0001 DEAD");
    let unit = format!("{EXAMPLE}put 124 ABCD 1456\nput 0 0102\n");
    let record = format!(
        "{dump}{}{}\n{load}\n{outside}{}\n{dump}{}{}\n{outside}{}\n",
        dumped(0, 1, 0x103E, "ABCD1456"),
        dumped(1, 1, 0x1000, "0102"),
        refused(0, 19, 2),
        dumped(2, 1, 0x103E, "ABCDBEEF"),
        dumped(3, 1, 0x1000, "0102"),
        refused(1, 19, 2),
    );
    pack(unit, format!("{dump}{load}{outside}{dump}{outside}")).is_record(&record);
}

#[test]
fn a_check_covers_what_was_put() {
    // The CRC of 00 00 is 1D0F, and of ABCDEF01 it is 04A2: document 01 and source document 004, A4.4.
    let check = packet(6, 9, "01 02 00001000 0001 00001001 0002");
    let report = "0859C000001B00000000000000060A0001020000100000011D0F00001001000204A2\n";
    pack(format!("{EXAMPLE}put 2 ABCDEF01\n"), &check).is_record(&format!("{check}{report}\n"));
}

#[test]
fn a_check_covers_all_of_the_largest_store() {
    // 65,534 zero octets leave every CRC as it was, so all 65,536 have that of two, 1D0F (document 01). ABCDEF01 with
    // its CRC, 04A2, leaves zero, and so do the zeros behind it; then 01 as the last octet gives 1021, the polynomial.
    let unit = fs::read(Path::new(env!("CARGO_MANIFEST_DIR")).join("../full.unit")).expect("it is stored");
    let check = packet(6, 9, "01 01 00000000 8000");
    let message = packet(6, 2, "01 01 00000000 0003 ABCDEF0104A2");
    let last = packet(6, 2, "01 01 00007FFF 0001 0001");
    let outside = packet(6, 9, "01 01 00000001 8000");
    let report = |count: u16, value: &str| {
        format!("0859{:04X}001300000000000000060A000101000000008000{value}\n", 0xC000 + count)
    };
    let record = format!(
        "{check}{}\n{message}\n{check}{}\n{last}\n{check}{}\n{outside}{}\n",
        report(0, "1D0F"),
        report(1, "0000"),
        report(2, "1021"),
        refused(0, 19, 1),
    );
    pack(unit, format!("{check}{message}{check}{last}{check}{outside}")).is_record(&record);
}

#[test]
fn a_packet_of_fewer_than_6_octets_has_no_frame() {
    pack(EXAMPLE, format!("00\n{GOOD}\n185CC00000\n")).is_record(&format!("00\n\n{GOOD_RECORD}185CC00000\n\n"));
    // Six octets are refused by 1.
    pack(EXAMPLE, "185CC0000005\n").is_record("185CC0000005\n0851C000001100000000000000010200185CC00000010006\n\n");
}

#[test]
fn no_packet_prints_nothing() {
    for packets in ["", "\n", "\n\n\n"] {
        pack(EXAMPLE, packets).is_record("");
    }
}

#[test]
fn empty_lines_are_passed_over() {
    pack(EXAMPLE, format!("\n\n{GOOD}\n\n\n{WRONG}\n\n")).is_record(&format!("{GOOD_RECORD}{WRONG_RECORD}"));
    pack(EXAMPLE, format!("\n{GOOD}")).is_record(GOOD_RECORD);
}

#[test]
fn twenty_thousand_packets() {
    // The count of category 9 goes from 16,383 to 0.
    let test = packet(17, 1, "");
    let frame = |number: u32| format!("0859{:04X}000900000000000000110200\n", 0xC000 + number % 16_384);
    let record: String = (0..20_000).map(|number| format!("{test}{}\n", frame(number))).collect();
    pack(EXAMPLE, test.repeat(20_000)).is_record(&record);
}

// ---- lines that are no packet

#[test]
fn a_character_that_is_no_digit() {
    for (line, words) in [
        (format!("{GOOD}\r"), "character 25 is 0D"),
        ("\r".into(), "character 1 is 0D"),
        (format!("{GOOD}\0"), "character 25 is 00"),
        (format!("\0{GOOD}"), "character 1 is 00"),
        (format!(" {GOOD}"), "character 1 is 20"),
        (format!("{GOOD} "), "character 25 is 20"),
        (format!("{GOOD}\t"), "character 25 is 09"),
        (format!("{GOOD} # a comment"), "character 25 is 20"),
        ("185C C000".into(), "character 5 is 20"),
        ("0x185C".into(), "character 2 is 78"),
        ("G0".into(), "character 1 is 47"),
        ("0g".into(), "character 2 is 67"),
        ("/0".into(), "character 1 is 2F"),
        ("0:".into(), "character 2 is 3A"),
        ("@0".into(), "character 1 is 40"),
        ("0`".into(), "character 2 is 60"),
        ("\x7F0".into(), "character 1 is 7F"),
        // Its digits are odd in number too.
        ("18x".into(), "character 3 is 78"),
        ("x".into(), "character 1 is 78"),
        ("0zz".into(), "character 2 is 7A"),
        ("é0".into(), "character 1 is C3"),
    ] {
        pack(EXAMPLE, format!("{line}\n")).is_bad_packet("", 1, words);
        pack(EXAMPLE, format!("{GOOD}\n{line}")).is_bad_packet(GOOD_RECORD, 2, words);
    }
    pack(EXAMPLE, b"00\xFF\n").is_bad_packet("", 1, "character 3 is FF");
    pack(EXAMPLE, b"\x80\x80\n").is_bad_packet("", 1, "character 1 is 80");
    pack(EXAMPLE, b"0\xB1").is_bad_packet("", 1, "character 2 is B1");
}

#[test]
fn odd_digits() {
    for line in ["1", "185", "185CC00000051911010001670", "abc"] {
        pack(EXAMPLE, format!("{line}\n")).is_bad_packet("", 1, "odd digits");
        pack(EXAMPLE, format!("\n{line}")).is_bad_packet("", 2, "odd digits");
    }
    pack(EXAMPLE, digits(4_095)).is_bad_packet("", 1, "odd digits");
}

#[test]
fn the_longest_line() {
    // 2,048 octets, 0800, are received: refused with 1, and the report echoes their first four.
    let served = format!("{}\n0851C0000011000000000000000102000000000000010800\n\n", digits(4_096));
    pack(EXAMPLE, digits(4_096) + "\n").is_record(&served);
    pack(EXAMPLE, digits(4_096)).is_record(&served);
    for count in [4_097, 4_098, 8_192, 65_536, 300_001] {
        pack(EXAMPLE, digits(count) + "\n").is_bad_packet("", 1, "too long");
        pack(EXAMPLE, format!("{GOOD}\n\n{}", digits(count))).is_bad_packet(GOOD_RECORD, 3, "too long");
    }
    pack(EXAMPLE, digits(4_095) + "\r\n").is_bad_packet("", 1, "character 4096 is 0D");
    pack(EXAMPLE, digits(4_096) + "\r\n").is_bad_packet("", 1, "too long");
    pack(EXAMPLE, format!("x{}\n", digits(4_096))).is_bad_packet("", 1, "too long");
    pack(EXAMPLE, "\r".repeat(4_097)).is_bad_packet("", 1, "too long");
}

#[test]
fn behind_a_line_that_is_no_packet_comes_nothing() {
    for rest in ["", "\n", &format!("\n{GOOD}\n"), &format!("\nzz\n{GOOD}\n"), &format!("\n\n\n{}", digits(5_000))] {
        let packets = format!("{GOOD}\n{WRONG}\nzz{rest}");
        let record = format!("{GOOD_RECORD}{WRONG_RECORD}");
        pack(EXAMPLE, packets).is_bad_packet(&record, 3, "character 1 is 7A");
    }
}

#[test]
fn empty_lines_are_counted() {
    pack(EXAMPLE, "\nzz\n").is_bad_packet("", 2, "character 1 is 7A");
    pack(EXAMPLE, format!("\n\n{GOOD}\n\n1\n")).is_bad_packet(GOOD_RECORD, 5, "odd digits");
    pack(EXAMPLE, format!("{}1", "\n".repeat(99_999))).is_bad_packet("", 100_000, "odd digits");
}

// ---- the unit first

#[test]
fn a_unit_that_is_not_sound_is_told_whatever_the_packets() {
    for packets in ["", "\n", &format!("{GOOD}\n"), "zz\n", "1", &digits(5_000)] {
        pack(UNSOUND, packets).is_unsound(UNSOUND_WORDS);
        pack(BAD_UNIT, packets).is_bad_unit(2, BAD_UNIT_WORDS);
    }
}

#[test]
fn a_verdict_on_the_unit_waits_for_no_packet() {
    let unit = TestFile::new(UNSOUND);
    start(&[unit.as_ref()]).wait().is_unsound(UNSOUND_WORDS);
    let unit = TestFile::new(BAD_UNIT);
    start(&[unit.as_ref(), "-".as_ref()]).wait().is_bad_unit(2, BAD_UNIT_WORDS);
}

// ---- arguments

#[test]
fn the_files_are_named_or_standard_input() {
    let unit = TestFile::new(EXAMPLE);
    let packets = TestFile::new(format!("{GOOD}\n\n{WRONG}"));
    let record = format!("{GOOD_RECORD}{WRONG_RECORD}");
    let (unit, packets, standard): (&OsStr, &OsStr, &OsStr) = (unit.as_ref(), packets.as_ref(), "-".as_ref());
    let text = format!("{GOOD}\n{WRONG}\n");
    run(&[unit], text.as_bytes()).is_record(&record);
    run(&[unit, standard], text.as_bytes()).is_record(&record);
    run(&[unit, packets], b"").is_record(&record);
    run(&[unit, packets], b"zz\n").is_record(&record);
    run(&[standard, packets], EXAMPLE.as_bytes()).is_record(&record);
    run(&[standard, packets], b"").is_bad_unit(1, "a unit has \"pid N\", and no line has it");
    run(&[standard, packets], UNSOUND.as_bytes()).is_unsound(UNSOUND_WORDS);
    run(&[unit, "/dev/null".as_ref()], b"").is_record("");
}

#[test]
fn an_argument_too_many_or_too_few() {
    let unit = TestFile::new(EXAMPLE);
    let packets = TestFile::new(GOOD);
    run(&[], EXAMPLE.as_bytes()).is_wrong_use();
    run(&[unit.as_ref(), packets.as_ref(), packets.as_ref()], b"").is_wrong_use();
    run(&[unit.as_ref(), "-".as_ref(), "-".as_ref()], b"").is_wrong_use();
    run(&[unit.as_ref(), packets.as_ref(), "".as_ref()], b"").is_wrong_use();
}

#[test]
fn an_unknown_option() {
    let unit = TestFile::new(EXAMPLE);
    let packets = TestFile::new(GOOD);
    for option in ["-x", "--help", "-h", "--unit", "-1", "--packets=x"] {
        run(&[option.as_ref()], b"").is_wrong_use();
        run(&[option.as_ref(), unit.as_ref()], b"").is_wrong_use();
        run(&[option.as_ref(), unit.as_ref(), packets.as_ref()], b"").is_wrong_use();
        run(&[unit.as_ref(), option.as_ref()], b"").is_wrong_use();
    }
}

#[test]
fn standard_input_for_both_files() {
    run(&["-".as_ref()], EXAMPLE.as_bytes()).is_wrong_use();
    run(&["-".as_ref(), "-".as_ref()], EXAMPLE.as_bytes()).is_wrong_use();
}

#[test]
fn a_file_that_is_not_there() {
    let good = TestFile::new(EXAMPLE);
    let unsound = TestFile::new(UNSOUND);
    let bad = TestFile::new(BAD_UNIT);
    let packets = TestFile::new(GOOD);
    for missing in ["no such file", "", "/no/such/folder/file"] {
        let missing: &OsStr = missing.as_ref();
        run(&[missing], GOOD.as_bytes()).is_wrong_use();
        run(&[missing, packets.as_ref()], b"").is_wrong_use();
        run(&[missing, "-".as_ref()], GOOD.as_bytes()).is_wrong_use();
        run(&[good.as_ref(), missing], GOOD.as_bytes()).is_wrong_use();
        // It is said before anything else is done.
        run(&[unsound.as_ref(), missing], b"").is_wrong_use();
        run(&[bad.as_ref(), missing], b"").is_wrong_use();
        run(&["-".as_ref(), missing], BAD_UNIT.as_bytes()).is_wrong_use();
    }
    start(&["-".as_ref(), "no such file".as_ref()]).wait().is_wrong_use();
}

#[test]
fn a_directory_is_no_file() {
    let good = TestFile::new(EXAMPLE);
    let unsound = TestFile::new(UNSOUND);
    let bad = TestFile::new(BAD_UNIT);
    let packets = TestFile::new(GOOD);
    let directory: &OsStr = env!("CARGO_TARGET_TMPDIR").as_ref();
    run(&[directory], GOOD.as_bytes()).is_wrong_use();
    run(&[directory, packets.as_ref()], b"").is_wrong_use();
    run(&[good.as_ref(), directory], b"").is_wrong_use();
    run(&[unsound.as_ref(), directory], b"").is_wrong_use();
    run(&[bad.as_ref(), directory], b"").is_wrong_use();
    run(&["-".as_ref(), directory], EXAMPLE.as_bytes()).is_wrong_use();
    start(&["-".as_ref(), directory]).wait().is_wrong_use();
}

// ---- streams

#[test]
fn packets_in_pieces_through_a_pipe() {
    let unit = TestFile::new(EXAMPLE);
    let long = digits(4_096);
    let packets = format!("{GOOD}\n\n{WRONG}\n{long}\n");
    let record = format!("{GOOD_RECORD}{WRONG_RECORD}{long}\n0851C0030011000000000000000102000000000000010800\n\n");
    for size in [1, 7, 65_536] {
        let mut running = start(&[unit.as_ref()]);
        running.send(packets.as_bytes().chunks(size));
        running.close_and_wait().is_record(&record);
        let mut running = start(&[unit.as_ref()]);
        running.send(format!("{packets}0{long}\n{GOOD}\n").as_bytes().chunks(size));
        running.close_and_wait().is_bad_packet(&record, 5, "too long");
    }
}

#[test]
fn behind_a_line_that_is_no_packet_nothing_is_read() {
    let unit = TestFile::new(EXAMPLE);
    for (end, words) in [
        ("zz\n".to_owned(), "character 1 is 7A"),
        ("1\n".to_owned(), "odd digits"),
        (format!("{}\n", digits(4_097)), "too long"),
    ] {
        let mut running = start(&[unit.as_ref()]);
        running.send([format!("{GOOD}\n{end}").as_bytes()]);
        running.wait().is_bad_packet(GOOD_RECORD, 2, words);
    }
}

#[test]
fn a_hundred_million_digits_in_a_line() {
    let unit = TestFile::new(EXAMPLE);
    let piece = [b'0'; 1_000_000];
    let mut running = start(&[unit.as_ref()]);
    running.send([&piece[..]; 100]);
    running.close_and_wait().is_bad_packet("", 1, "too long");
}

#[test]
fn one_line_is_answered_before_more_is_read() {
    let unit = TestFile::new(EXAMPLE);
    let mut child = command()
        .arg(&unit)
        .stdin(Stdio::piped())
        .stdout(Stdio::piped())
        .stderr(Stdio::null())
        .spawn()
        .expect("pack starts");
    let mut input = child.stdin.take().expect("its input");
    let output = child.stdout.take().expect("its output");
    let (sender, lines) = mpsc::channel();
    thread::spawn(move || {
        for line in BufReader::new(output).lines().map_while(Result::ok) {
            if sender.send(line).is_err() {
                break;
            }
        }
    });
    let first = format!("{GOOD}\n");
    let second = format!("\n{WRONG}\n\n");
    let (begin, end) = second.split_at(9);
    for (sent, expected) in [(&*first, GOOD_RECORD), (begin, ""), (end, WRONG_RECORD), ("00\n", "00\n\n")] {
        input.write_all(sent.as_bytes()).and_then(|()| input.flush()).expect("it reads");
        for line in expected.lines() {
            assert_eq!(lines.recv_timeout(Duration::from_secs(20)).as_deref(), Ok(line));
        }
    }
    drop(input);
    assert_eq!(end_of(&mut child), Some(0));
}

#[test]
fn output_that_nobody_reads_any_more_is_no_failure() {
    let unit = TestFile::new(EXAMPLE);
    let mut child = command()
        .arg(&unit)
        .stdin(Stdio::piped())
        .stdout(Stdio::piped())
        .stderr(Stdio::piped())
        .spawn()
        .expect("pack starts");
    drop(child.stdout.take());
    let mut input = child.stdin.take().expect("its input");
    thread::spawn(move || while input.write_all(format!("{GOOD}\n").as_bytes()).is_ok() {});
    assert_eq!(end_of(&mut child), Some(0));
    let said = child.wait_with_output().expect("its standard error").stderr;
    assert_eq!(String::from_utf8_lossy(&said), "");
}

#[test]
fn output_that_cannot_be_written_is_said() {
    let packets = TestFile::new(format!("{GOOD}\n"));
    for unit in [EXAMPLE, UNSOUND, BAD_UNIT] {
        let unit = TestFile::new(unit);
        let full = OpenOptions::new().write(true).open("/dev/full").expect("a full device");
        let done = command().arg(&unit).arg(&packets).stdin(Stdio::null()).stdout(full).output().expect("pack starts");
        assert_eq!(done.status.code(), Some(2));
        assert!(!done.stderr.is_empty(), "it says nothing");
    }
}

#[test]
fn the_line_of_a_packet_is_what_was_sent() {
    // A record has nothing that was not received: a packet with octets too many is printed whole.
    let long = line(&[common::hex(GOOD), vec![0xAB, 0xCD]].concat());
    let report = "0851C000001100000000000000010200185CC0000001000E\n";
    pack(EXAMPLE, &long).is_record(&format!("{long}{report}\n"));
}
