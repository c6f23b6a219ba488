//! TM frames read: the program `frames` and the letter F of `cases`. Where FRAMES_COMMAND or CASES_COMMAND names another
//! program, one word a line, it is held to the same. Every frame and every answer is written by hand.

mod common;

use std::fs;
use std::io::Write;
use std::path::Path;
use std::process::{Command, Output, Stdio};
use std::thread;
use std::time::{Duration, Instant};

use second::{cases, frames};

/// The connection report of the example of document 01, and its answers.
const GOOD: &str = "0859C000000900000000000000110200";
const GOOD_WORDS: &str = "(17,2) pid 5 count 0 time 000000000000\n";
const GOOD_FIELDS: &str = "0000 0059 0000 000000000000 11 02 \n";

fn run(input: impl AsRef<[u8]>) -> String {
    common::written("FRAMES_COMMAND", frames::run, input.as_ref())
}

fn run_cases(input: impl AsRef<[u8]>) -> String {
    common::written("CASES_COMMAND", cases::run, input.as_ref())
}

/// Expects the answers of each text, a line of its own; the programs run once for all of them.
fn expect(texts: &[String], words: &[String], fields: &[String]) {
    let lines: String = texts.iter().map(|text| text.replace(' ', "") + "\n").collect();
    let letters: String = texts.iter().map(|text| format!("F {}\n", text.replace(' ', ""))).collect();
    for (answers, expected) in [(run(lines), words), (run_cases(letters), fields)] {
        let answers: Vec<_> = answers.split_terminator('\n').collect();
        for ((answer, expected), text) in answers.iter().zip(expected).zip(texts) {
            assert_eq!(answer, expected, "{text}");
        }
        assert_eq!(answers.len(), texts.len());
    }
}

/// Frames that read cleanly: the frame, its line of `frames` and its line of F.
fn reads(rows: &[(&str, &str, &str)]) {
    let column = |pick: fn(&(&str, &str, &str)) -> String| rows.iter().map(pick).collect::<Vec<_>>();
    expect(&column(|row| row.0.into()), &column(|row| row.1.into()), &column(|row| row.2.into()));
}

/// Frames that are refused with that number, and leave no field behind.
fn refuses<T: AsRef<str>>(number: u8, octet: &str, frames: &[T]) {
    let texts: Vec<String> = frames.iter().map(|frame| frame.as_ref().into()).collect();
    let words = vec![format!("refused {number}"); frames.len()];
    let fields = vec![format!("01{octet} 0000 0000 000000000000 00 00 "); frames.len()];
    expect(&texts, &words, &fields);
}

fn refuses_60<T: AsRef<str>>(frames: &[T]) {
    refuses(60, "3C", frames);
}

fn refuses_61<T: AsRef<str>>(frames: &[T]) {
    refuses(61, "3D", frames);
}

fn refuses_62<T: AsRef<str>>(frames: &[T]) {
    refuses(62, "3E", frames);
}

fn refuses_63<T: AsRef<str>>(frames: &[T]) {
    refuses(63, "3F", frames);
}

#[test]
fn each_kind() {
    reads(&[
        (
            "0851 C000 000D 000000000000 00 01 01 00  185C C000",
            "(1,1) pid 5 count 0 time 000000000000 packet 185C control C000",
            "0000 0051 0000 000000000000 01 01 185CC000",
        ),
        (
            "0851 C002 0011 000000000000 00 01 02 00  185C C000 0002 0167",
            "(1,2) pid 5 count 2 time 000000000000 packet 185C control C000 code 2 detail 359",
            "0000 0051 0002 000000000000 01 02 185CC00000020167",
        ),
        (
            "0851 C001 000D 000000000000 00 01 07 00  185C C000",
            "(1,7) pid 5 count 1 time 000000000000 packet 185C control C000",
            "0000 0051 0001 000000000000 01 07 185CC000",
        ),
        (
            "0859 C001 0015 000000000000 00 06 06 00  01 01 0000103E 0002 ABCD1456",
            "(6,6) pid 5 count 1 time 000000000000 memory 1 start 0000103E length 2 words ABCD1456",
            "0000 0059 0001 000000000000 06 06 01010000103E0002ABCD1456",
        ),
        (
            "0859 C000 001B 000000000000 00 06 0A 00  01 02 0000103E 0002 E18B 00001000 0001 1D0F",
            "(6,10) pid 5 count 0 time 000000000000 memory 1 blocks 2 \
             start 0000103E length 2 crc E18B start 00001000 length 1 crc 1D0F",
            "0000 0059 0000 000000000000 06 0A 01020000103E0002E18B0000100000011D0F",
        ),
        (
            "0859 C000 0009 000000000000 00 11 02 00",
            "(17,2) pid 5 count 0 time 000000000000",
            "0000 0059 0000 000000000000 11 02 ",
        ),
    ]);
    assert_eq!(run("0859C000000900000000000001110200\n0859C00000090000000000000011020\n"), "refused 61\nbad line\n");
}

#[test]
fn the_four_frames_of_the_example_of_01() {
    let input = "0851C000000D00000000000000010100185CC000
0859C000000900000000000000110200
0851C001000D00000000000000010700185CC000
0851C002001100000000000000010200185CC00000020167
";
    let expected = "(1,1) pid 5 count 0 time 000000000000 packet 185C control C000
(17,2) pid 5 count 0 time 000000000000
(1,7) pid 5 count 1 time 000000000000 packet 185C control C000
(1,2) pid 5 count 2 time 000000000000 packet 185C control C000 code 2 detail 359
";
    assert_eq!(run(input), expected);
    assert_eq!(run(input.trim_end()), expected);
}

/// The texts between the fences of a page, in order.
fn fenced(page: &str) -> Vec<String> {
    let path = Path::new(env!("CARGO_MANIFEST_DIR")).join("../../docs").join(page);
    let text = fs::read_to_string(path).expect("the page is there");
    text.split("```\n").skip(1).step_by(2).map(String::from).collect()
}

#[test]
fn the_examples_of_the_pages() {
    let [input, expected] = &fenced("FRAMES.md")[..] else {
        panic!("the page has one example");
    };
    assert_eq!(run(input), *expected);
    let fenced = fenced("CASES.md");
    let place = fenced.iter().position(|text| text.starts_with("F ")).expect("the page has an example of F");
    assert_eq!(run_cases(&fenced[place]), fenced[place + 1]);
}

#[test]
fn any_pid_count_and_time() {
    reads(&[
        (
            "0809 C000 0009 FFFFFFFFFFFF 00 11 02 00",
            "(17,2) pid 0 count 0 time FFFFFFFFFFFF",
            "0000 0009 0000 FFFFFFFFFFFF 11 02 ",
        ),
        (
            "0FF9 FFFF 0009 0102030405A0 00 11 02 00",
            "(17,2) pid 127 count 16383 time 0102030405A0",
            "0000 07F9 3FFF 0102030405A0 11 02 ",
        ),
        (
            "0C01 E000 000D 800000000001 00 01 01 00  0000 0000",
            "(1,1) pid 64 count 8192 time 800000000001 packet 0000 control 0000",
            "0000 0401 2000 800000000001 01 01 00000000",
        ),
        (
            "0BF1 D234 000D 0A0B0C0D0E0F 00 01 07 00  1D1C C001",
            "(1,7) pid 63 count 4660 time 0A0B0C0D0E0F packet 1D1C control C001",
            "0000 03F1 1234 0A0B0C0D0E0F 01 07 1D1CC001",
        ),
        (
            "0819 C100 0009 000000000000 00 11 02 00",
            "(17,2) pid 1 count 256 time 000000000000",
            "0000 0019 0100 000000000000 11 02 ",
        ),
    ]);
}

#[test]
fn any_values_that_service_1_carries() {
    reads(&[
        (
            "0851 C000 0011 000000000000 00 01 02 00  FFFF FFFF FFFF FFFF",
            "(1,2) pid 5 count 0 time 000000000000 packet FFFF control FFFF code 65535 detail 65535",
            "0000 0051 0000 000000000000 01 02 FFFFFFFFFFFFFFFF",
        ),
        (
            "0851 C000 0011 000000000000 00 01 02 00  0000 0000 0000 0000",
            "(1,2) pid 5 count 0 time 000000000000 packet 0000 control 0000 code 0 detail 0",
            "0000 0051 0000 000000000000 01 02 0000000000000000",
        ),
        (
            "0851 C000 0011 000000000000 00 01 02 00  0001 0200 0100 000A",
            "(1,2) pid 5 count 0 time 000000000000 packet 0001 control 0200 code 256 detail 10",
            "0000 0051 0000 000000000000 01 02 000102000100000A",
        ),
        (
            "0851 C000 000D 000000000000 00 01 01 00  FFFF 3FFF",
            "(1,1) pid 5 count 0 time 000000000000 packet FFFF control 3FFF",
            "0000 0051 0000 000000000000 01 01 FFFF3FFF",
        ),
        (
            "0851 C000 000D 000000000000 00 01 07 00  0000 000A",
            "(1,7) pid 5 count 0 time 000000000000 packet 0000 control 000A",
            "0000 0051 0000 000000000000 01 07 0000000A",
        ),
    ]);
}

#[test]
fn any_memory_start_word_and_crc() {
    reads(&[
        (
            "0859 C000 0013 000000000000 00 06 06 00  FF 01 FFFFFFFF 0001 FFFF",
            "(6,6) pid 5 count 0 time 000000000000 memory 255 start FFFFFFFF length 1 words FFFF",
            "0000 0059 0000 000000000000 06 06 FF01FFFFFFFF0001FFFF",
        ),
        (
            "0859 C000 0013 000000000000 00 06 06 00  00 01 00000000 0001 0000",
            "(6,6) pid 5 count 0 time 000000000000 memory 0 start 00000000 length 1 words 0000",
            "0000 0059 0000 000000000000 06 06 00010000000000010000",
        ),
        (
            "0859 C000 0013 000000000000 00 06 0A 00  FF 01 FFFFFFFF FFFF FFFF",
            "(6,10) pid 5 count 0 time 000000000000 memory 255 blocks 1 start FFFFFFFF length 65535 crc FFFF",
            "0000 0059 0000 000000000000 06 0A FF01FFFFFFFFFFFFFFFF",
        ),
        (
            "0859 C000 0013 000000000000 00 06 0A 00  00 01 00000000 0100 0000",
            "(6,10) pid 5 count 0 time 000000000000 memory 0 blocks 1 start 00000000 length 256 crc 0000",
            "0000 0059 0000 000000000000 06 0A 00010000000001000000",
        ),
    ]);
}

#[test]
fn dumps_of_1_2_239_and_240_words() {
    let words = |count: usize| "BEEF".repeat(count);
    let [of_2, of_239, of_240] = [words(2), words(239), words(240)];
    let head = "0859 C000";
    reads(&[
        (
            &format!("{head} 0013 000000000000 00 06 06 00  01 01 00001000 0001 BEEF"),
            "(6,6) pid 5 count 0 time 000000000000 memory 1 start 00001000 length 1 words BEEF",
            "0000 0059 0000 000000000000 06 06 0101000010000001BEEF",
        ),
        (
            &format!("{head} 0015 000000000000 00 06 06 00  01 01 00001000 0002 {of_2}"),
            "(6,6) pid 5 count 0 time 000000000000 memory 1 start 00001000 length 2 words BEEFBEEF",
            "0000 0059 0000 000000000000 06 06 0101000010000002BEEFBEEF",
        ),
        // 16 + 8 + 478 octets.
        (
            &format!("{head} 01EF 000000000000 00 06 06 00  01 01 00001000 00EF {of_239}"),
            &format!("(6,6) pid 5 count 0 time 000000000000 memory 1 start 00001000 length 239 words {of_239}"),
            &format!("0000 0059 0000 000000000000 06 06 01010000100000EF{of_239}"),
        ),
        // 16 + 8 + 480 octets.
        (
            &format!("{head} 01F1 000000000000 00 06 06 00  01 01 00001000 00F0 {of_240}"),
            &format!("(6,6) pid 5 count 0 time 000000000000 memory 1 start 00001000 length 240 words {of_240}"),
            &format!("0000 0059 0000 000000000000 06 06 01010000100000F0{of_240}"),
        ),
    ]);
}

#[test]
fn checks_of_1_to_8_blocks() {
    let length_fields = ["0013", "001B", "0023", "002B", "0033", "003B", "0043", "004B"];
    for (n, length_field) in (1..).zip(length_fields) {
        // The blocks differ, so that each has to stand in its own place.
        let block = |number: usize| format!("0000100{number} 000{number} C0D{number}");
        let blocks: Vec<String> = (1..=n).map(block).collect();
        let said = |number: usize| format!(" start 0000100{number} length {number} crc C0D{number}");
        let words: String = (1..=n).map(said).collect();
        let source_data = format!("070{n}{}", blocks.concat().replace(' ', ""));
        reads(&[(
            &format!("0859 C000 {length_field} 000000000000 00 06 0A 00 {source_data}"),
            &format!("(6,10) pid 5 count 0 time 000000000000 memory 7 blocks {n}{words}"),
            &format!("0000 0059 0000 000000000000 06 0A {source_data}"),
        )]);
    }
}

#[test]
fn fewer_than_16_octets() {
    // Of a connection report, its octets cut off; from 7 on the length field says how many there are.
    refuses_60(&[
        "",
        "08",
        "0859",
        "0859 C0",
        "0859 C000",
        "0859 C000 00",
        "0859 C000 0009",
        "0859 C000 0000 00",
        "0859 C000 0001 0000",
        "0859 C000 0002 000000",
        "0859 C000 0003 00000000",
        "0859 C000 0004 0000000000",
        "0859 C000 0005 000000000000",
        "0859 C000 0006 000000000000 00",
        "0859 C000 0007 000000000000 00 11",
        "0859 C000 0008 000000000000 00 11 02",
    ]);
}

#[test]
fn a_length_field_that_is_off() {
    refuses_60(&[
        // 16 octets are there.
        "0859 C000 0008 000000000000 00 11 02 00",
        "0859 C000 000A 000000000000 00 11 02 00",
        "0859 C000 0000 000000000000 00 11 02 00",
        "0859 C000 0010 000000000000 00 11 02 00",
        "0859 C000 0109 000000000000 00 11 02 00",
        "0859 C000 8009 000000000000 00 11 02 00",
        "0859 C000 FFFF 000000000000 00 11 02 00",
        "0859 C000 0900 000000000000 00 11 02 00",
        // 20, 24, 28 and 34 octets are there.
        "0851 C000 000C 000000000000 00 01 01 00  185C C000",
        "0851 C000 000E 000000000000 00 01 01 00  185C C000",
        "0851 C000 000C 000000000000 00 01 07 00  185C C000",
        "0851 C000 000E 000000000000 00 01 07 00  185C C000",
        "0851 C000 0010 000000000000 00 01 02 00  185C C000 0002 0167",
        "0851 C000 0012 000000000000 00 01 02 00  185C C000 0002 0167",
        "0859 C000 0014 000000000000 00 06 06 00  01 01 0000103E 0002 ABCD1456",
        "0859 C000 0016 000000000000 00 06 06 00  01 01 0000103E 0002 ABCD1456",
        "0859 C000 001A 000000000000 00 06 0A 00  01 02 0000103E 0002 E18B 00001000 0001 1D0F",
        "0859 C000 001C 000000000000 00 06 0A 00  01 02 0000103E 0002 E18B 00001000 0001 1D0F",
    ]);
}

#[test]
fn each_bit_of_the_header() {
    refuses_61(&[
        // Version, three bits.
        "8859 C000 0009 000000000000 00 11 02 00",
        "4859 C000 0009 000000000000 00 11 02 00",
        "2859 C000 0009 000000000000 00 11 02 00",
        "E859 C000 0009 000000000000 00 11 02 00",
        // Type bit, header flag, both.
        "1859 C000 0009 000000000000 00 11 02 00",
        "0059 C000 0009 000000000000 00 11 02 00",
        "1059 C000 0009 000000000000 00 11 02 00",
        // Sequence flags.
        "0859 4000 0009 000000000000 00 11 02 00",
        "0859 8000 0009 000000000000 00 11 02 00",
        "0859 0000 0009 000000000000 00 11 02 00",
        // The same of a report of service 1.
        "8851 C000 000D 000000000000 00 01 01 00  185C C000",
        "4851 C000 000D 000000000000 00 01 01 00  185C C000",
        "2851 C000 000D 000000000000 00 01 01 00  185C C000",
        "1851 C000 000D 000000000000 00 01 01 00  185C C000",
        "0051 C000 000D 000000000000 00 01 01 00  185C C000",
        "0851 4000 000D 000000000000 00 01 01 00  185C C000",
        "0851 8000 000D 000000000000 00 01 01 00  185C C000",
    ]);
}

#[test]
fn octets_12_and_15() {
    let mut frames = Vec::new();
    for octet in ["01", "02", "04", "08", "10", "20", "40", "80", "FF"] {
        frames.push(format!("0859 C000 0009 000000000000 {octet} 11 02 00"));
        frames.push(format!("0859 C000 0009 000000000000 00 11 02 {octet}"));
        frames.push(format!("0851 C000 000D 000000000000 {octet} 01 07 00  185C C000"));
        frames.push(format!("0851 C000 000D 000000000000 00 01 07 {octet}  185C C000"));
    }
    refuses_61(&frames);
}

#[test]
fn a_type_or_subtype_that_is_none() {
    refuses_62(&[
        // Types.
        "0851 C000 000D 000000000000 00 00 01 00  185C C000",
        "0851 C000 000D 000000000000 00 02 01 00  185C C000",
        "0859 C000 0009 000000000000 00 10 02 00",
        "0859 C000 0009 000000000000 00 12 02 00",
        "0859 C000 0009 000000000000 00 91 02 00",
        "0859 C000 0009 000000000000 00 FF 02 00",
        "0859 C000 0013 000000000000 00 07 06 00  01 01 00001000 0001 BEEF",
        "0859 C000 0013 000000000000 00 03 19 00  01 01 00001000 0001 BEEF",
        // Subtypes of a known type, those of another type and of telecommands among them.
        "0851 C000 000D 000000000000 00 01 00 00  185C C000",
        "0851 C000 000D 000000000000 00 01 03 00  185C C000",
        "0851 C000 000D 000000000000 00 01 06 00  185C C000",
        "0851 C000 0011 000000000000 00 01 08 00  185C C000 0002 0167",
        "0851 C000 000D 000000000000 00 01 81 00  185C C000",
        "0859 C000 0013 000000000000 00 06 02 00  01 01 00001000 0001 BEEF",
        "0859 C000 0013 000000000000 00 06 05 00  01 01 00001000 0001 BEEF",
        "0859 C000 0013 000000000000 00 06 07 00  01 01 00001000 0001 BEEF",
        "0859 C000 0013 000000000000 00 06 09 00  01 01 00001000 0001 BEEF",
        "0859 C000 0013 000000000000 00 06 0B 00  01 01 00001000 0001 BEEF",
        "0859 C000 0013 000000000000 00 06 01 00  01 01 00001000 0001 BEEF",
        "0859 C000 0009 000000000000 00 11 01 00",
        "0859 C000 0009 000000000000 00 11 00 00",
        "0859 C000 0009 000000000000 00 11 03 00",
        "0859 C000 0009 000000000000 00 11 07 00",
        "0859 C000 0009 000000000000 00 11 82 00",
    ]);
}

#[test]
fn a_category_that_does_not_go_with_the_type() {
    refuses_62(&[
        // 9 for service 1.
        "0859 C000 000D 000000000000 00 01 01 00  185C C000",
        "0859 C000 0011 000000000000 00 01 02 00  185C C000 0002 0167",
        "0859 C000 000D 000000000000 00 01 07 00  185C C000",
        // 1 for services 6 and 17.
        "0851 C000 0015 000000000000 00 06 06 00  01 01 0000103E 0002 ABCD1456",
        "0851 C000 0013 000000000000 00 06 0A 00  01 01 00001000 0001 1D0F",
        "0851 C000 0009 000000000000 00 11 02 00",
        // 0, 12 and others for each.
        "0850 C000 000D 000000000000 00 01 01 00  185C C000",
        "085C C000 000D 000000000000 00 01 01 00  185C C000",
        "0853 C000 000D 000000000000 00 01 01 00  185C C000",
        "0855 C000 0011 000000000000 00 01 02 00  185C C000 0002 0167",
        "0850 C000 000D 000000000000 00 01 07 00  185C C000",
        "085C C000 000D 000000000000 00 01 07 00  185C C000",
        "0850 C000 0013 000000000000 00 06 06 00  01 01 00001000 0001 BEEF",
        "085C C000 0013 000000000000 00 06 06 00  01 01 00001000 0001 BEEF",
        "085B C000 0013 000000000000 00 06 06 00  01 01 00001000 0001 BEEF",
        "0858 C000 0013 000000000000 00 06 0A 00  01 01 00001000 0001 1D0F",
        "085D C000 0013 000000000000 00 06 0A 00  01 01 00001000 0001 1D0F",
        "0850 C000 0009 000000000000 00 11 02 00",
        "085C C000 0009 000000000000 00 11 02 00",
        "085F C000 0009 000000000000 00 11 02 00",
        // A wrong category of other PIDs.
        "0801 C000 0009 000000000000 00 11 02 00",
        "0FF9 C000 000D 000000000000 00 01 01 00  185C C000",
    ]);
}

#[test]
fn sizes_of_service_1_and_17() {
    refuses_63(&[
        // (1,1) and (1,7) with 0, 3, 5 and 8 octets.
        "0851 C000 0009 000000000000 00 01 01 00",
        "0851 C000 000C 000000000000 00 01 01 00  185C C0",
        "0851 C000 000E 000000000000 00 01 01 00  185C C000 00",
        "0851 C000 0011 000000000000 00 01 01 00  185C C000 0002 0167",
        "0851 C000 0009 000000000000 00 01 07 00",
        "0851 C000 000C 000000000000 00 01 07 00  185C C0",
        "0851 C000 000E 000000000000 00 01 07 00  185C C000 00",
        "0851 C000 0011 000000000000 00 01 07 00  185C C000 0002 0167",
        // (1,2) with 0, 4, 6, 7, 9 and 10 octets.
        "0851 C000 0009 000000000000 00 01 02 00",
        "0851 C000 000D 000000000000 00 01 02 00  185C C000",
        "0851 C000 000F 000000000000 00 01 02 00  185C C000 0002",
        "0851 C000 0010 000000000000 00 01 02 00  185C C000 0002 01",
        "0851 C000 0012 000000000000 00 01 02 00  185C C000 0002 0167 00",
        "0851 C000 0013 000000000000 00 01 02 00  185C C000 0002 0167 0000",
        // (17,2) with 1, 2 and 4 octets.
        "0859 C000 000A 000000000000 00 11 02 00  00",
        "0859 C000 000B 000000000000 00 11 02 00  0000",
        "0859 C000 000D 000000000000 00 11 02 00  185C C000",
    ]);
}

#[test]
fn dumps_that_are_not_well_formed() {
    let words = |count: usize| "0000".repeat(count);
    refuses_63(&[
        // The head cut off: 0, 1, 2, 7 octets.
        "0859 C000 0009 000000000000 00 06 06 00".to_owned(),
        "0859 C000 000A 000000000000 00 06 06 00  01".into(),
        "0859 C000 000B 000000000000 00 06 06 00  01 01".into(),
        "0859 C000 0010 000000000000 00 06 06 00  01 01 00001000 00".into(),
        // Octet 1 is 0, 2, 8, 255.
        "0859 C000 0013 000000000000 00 06 06 00  01 00 00001000 0001 BEEF".into(),
        "0859 C000 0013 000000000000 00 06 06 00  01 02 00001000 0001 BEEF".into(),
        "0859 C000 0013 000000000000 00 06 06 00  01 08 00001000 0001 BEEF".into(),
        "0859 C000 0013 000000000000 00 06 06 00  01 FF 00001000 0001 BEEF".into(),
        // Length 0 without a word and with one.
        "0859 C000 0011 000000000000 00 06 06 00  01 01 00001000 0000".into(),
        "0859 C000 0013 000000000000 00 06 06 00  01 01 00001000 0000 BEEF".into(),
        // Length 1 without a word, with half a word, with a word and a half and with two.
        "0859 C000 0011 000000000000 00 06 06 00  01 01 00001000 0001".into(),
        "0859 C000 0012 000000000000 00 06 06 00  01 01 00001000 0001 BE".into(),
        "0859 C000 0014 000000000000 00 06 06 00  01 01 00001000 0001 BEEFBE".into(),
        "0859 C000 0015 000000000000 00 06 06 00  01 01 00001000 0001 BEEFBEEF".into(),
        // Length 2 with one word.
        "0859 C000 0013 000000000000 00 06 06 00  01 01 00001000 0002 BEEF".into(),
        // Lengths 241, 242, 256 and 257 with so many words: 16 + 8 + 482, 484, 512, 514 octets.
        format!("0859 C000 01F3 000000000000 00 06 06 00  01 01 00001000 00F1 {}", words(241)),
        format!("0859 C000 01F5 000000000000 00 06 06 00  01 01 00001000 00F2 {}", words(242)),
        format!("0859 C000 0211 000000000000 00 06 06 00  01 01 00001000 0100 {}", words(256)),
        format!("0859 C000 0213 000000000000 00 06 06 00  01 01 00001000 0101 {}", words(257)),
        // Length 257 with one word, 240 with 239 and with 241.
        "0859 C000 0013 000000000000 00 06 06 00  01 01 00001000 0101 BEEF".into(),
        format!("0859 C000 01EF 000000000000 00 06 06 00  01 01 00001000 00F0 {}", words(239)),
        format!("0859 C000 01F3 000000000000 00 06 06 00  01 01 00001000 00F0 {}", words(241)),
        // Length 241 with 240 words.
        format!("0859 C000 01F1 000000000000 00 06 06 00  01 01 00001000 00F1 {}", words(240)),
        // Length FFFF with one word.
        "0859 C000 0013 000000000000 00 06 06 00  01 01 00001000 FFFF BEEF".into(),
    ]);
}

#[test]
fn checks_that_are_not_well_formed() {
    let blocks = |count: usize| "00001000 0001 1D0F".repeat(count);
    refuses_63(&[
        // The head cut off: 0 and 1 octet.
        "0859 C000 0009 000000000000 00 06 0A 00".to_owned(),
        "0859 C000 000A 000000000000 00 06 0A 00  01".into(),
        // N 0 without a block and with one.
        "0859 C000 000B 000000000000 00 06 0A 00  01 00".into(),
        "0859 C000 0013 000000000000 00 06 0A 00  01 00 00001000 0001 1D0F".into(),
        // N 9 with nine, eight and one block; N 16 and N 252 with so many blocks; N 129 with one.
        format!("0859 C000 0053 000000000000 00 06 0A 00  01 09 {}", blocks(9)),
        format!("0859 C000 004B 000000000000 00 06 0A 00  01 09 {}", blocks(8)),
        format!("0859 C000 0013 000000000000 00 06 0A 00  01 09 {}", blocks(1)),
        format!("0859 C000 008B 000000000000 00 06 0A 00  01 10 {}", blocks(16)),
        format!("0859 C000 07EB 000000000000 00 06 0A 00  01 FC {}", blocks(252)),
        format!("0859 C000 0013 000000000000 00 06 0A 00  01 81 {}", blocks(1)),
        // N 1 without a block, with seven octets of one, nine octets and two blocks.
        "0859 C000 000B 000000000000 00 06 0A 00  01 01".into(),
        "0859 C000 0012 000000000000 00 06 0A 00  01 01 00001000 0001 1D".into(),
        "0859 C000 0014 000000000000 00 06 0A 00  01 01 00001000 0001 1D0F 00".into(),
        format!("0859 C000 001B 000000000000 00 06 0A 00  01 01 {}", blocks(2)),
        // N 2 with one block, N 8 with seven and nine.
        format!("0859 C000 0013 000000000000 00 06 0A 00  01 02 {}", blocks(1)),
        format!("0859 C000 0043 000000000000 00 06 0A 00  01 08 {}", blocks(7)),
        format!("0859 C000 0053 000000000000 00 06 0A 00  01 08 {}", blocks(9)),
        // A length of 0: the only block, the first, the second, the eighth.
        "0859 C000 0013 000000000000 00 06 0A 00  01 01 00001000 0000 FFFF".into(),
        "0859 C000 001B 000000000000 00 06 0A 00  01 02 00001000 0000 FFFF 00001000 0001 1D0F".into(),
        "0859 C000 001B 000000000000 00 06 0A 00  01 02 00001000 0001 1D0F 00001000 0000 FFFF".into(),
        format!("0859 C000 004B 000000000000 00 06 0A 00  01 08 {} 00001000 0000 FFFF", blocks(7)),
    ]);
}

#[test]
fn the_order_of_the_checks() {
    // 60 before 61, 62 and 63.
    refuses_60(&[
        "8859 C000 000A 000000000000 00 11 02 00",
        "0859 0000 0008 000000000000 00 11 02 00",
        "0859 C000 000A 000000000000 01 11 02 00",
        "0859 C000 000A 000000000000 00 11 02 01",
        "1859 C000 0008 000000000000 00 11 02",
        "0859 C000 000A 000000000000 00 12 02 00",
        "0859 C000 0008 000000000000 00 11 01 00",
        "0851 C000 000A 000000000000 00 11 02 00",
        "085C C000 0008 000000000000 00 11 02",
        "0859 C000 000A 000000000000 00 11 02 00  0000",
        "0851 C000 000A 000000000000 00 01 01 00",
        "0859 C000 0014 000000000000 00 06 06 00  01 02 00001000 0001 BEEF",
        "0859 C000 0012 000000000000 00 06 0A 00  01 01 00001000 0000 FFFF",
        "FFFF FFFF FFFF FFFFFFFFFFFF FF FF FF FF",
    ]);
    // 61 before 62 and 63.
    refuses_61(&[
        "1859 C000 0009 000000000000 00 12 02 00",
        "0859 4000 0009 000000000000 00 11 01 00",
        "8851 C000 0009 000000000000 00 11 02 00",
        "0859 C000 0009 000000000000 80 FF FF 00",
        "085C C000 0009 000000000000 00 11 02 10",
        "0859 C000 000A 000000000000 00 11 02 01  00",
        "0051 C000 0009 000000000000 00 01 01 00",
        "0859 8000 0013 000000000000 00 06 06 00  01 02 00001000 0001 BEEF",
        "0859 C000 0013 000000000000 01 06 0A 00  01 01 00001000 0000 FFFF",
        "185C C000 0009 000000000000 00 11 01 00",
        // Octets that are all ones but for the length field.
        "FFFF FFFF 0009 FFFFFFFFFFFF FF FF FF FF",
    ]);
    // 62 before 63.
    refuses_62(&[
        "0859 C000 0009 000000000000 00 01 01 00",
        "0850 C000 0012 000000000000 00 01 02 00  185C C000 0002 0167 00",
        "0851 C000 000A 000000000000 00 11 02 00  00",
        "0851 C000 0013 000000000000 00 06 06 00  01 02 00001000 0001 BEEF",
        "085C C000 0011 000000000000 00 06 06 00  01 01 00001000 0000",
        "0851 C000 000B 000000000000 00 06 0A 00  01 00",
        "0850 C000 0013 000000000000 00 06 0A 00  01 01 00001000 0000 FFFF",
        "0859 C000 000A 000000000000 00 11 01 00  00",
    ]);
}

#[test]
fn empty_input_and_empty_lines() {
    assert_eq!(run(""), "");
    assert_eq!(run("\n"), "refused 60\n");
    assert_eq!(run("\n\n"), "refused 60\nrefused 60\n");
    assert_eq!(run(format!("\n{GOOD}")), format!("refused 60\n{GOOD_WORDS}"));
    assert_eq!(run(format!("{GOOD}\n\n{GOOD}\n")), format!("{GOOD_WORDS}refused 60\n{GOOD_WORDS}"));
}

#[test]
fn a_last_line_without_its_newline() {
    assert_eq!(run(GOOD), GOOD_WORDS);
    assert_eq!(run("0"), "bad line\n");
    assert_eq!(run("00"), "refused 60\n");
    assert_eq!(run(format!("{GOOD}\r")), "bad line\n");
}

#[test]
fn both_letter_cases_are_read_and_upper_case_is_written() {
    let frame = "0859c0010015abcdefabcdef00060600010100abcdef0002abcd1456";
    let expected = "(6,6) pid 5 count 1 time ABCDEFABCDEF memory 1 start 00ABCDEF length 2 words ABCD1456\n";
    assert_eq!(run(frame), expected);
    assert_eq!(run(frame.to_uppercase()), expected);
    assert_eq!(run("0859C0010015aBcDeFAbCdEf00060600010100abCDEF0002ABcd1456\n"), expected);
    let fields = "0000 0059 0001 ABCDEFABCDEF 06 06 010100ABCDEF0002ABCD1456\n";
    assert_eq!(run_cases(format!("F {frame}\n")), fields);
}

#[test]
fn bad_lines() {
    let bad: [&[u8]; 22] = [
        b"0",
        b"085",
        b"0859C00000090000000000000011020",
        b"0859C0000009000000000000001102000",
        b"0859C000000900000000000000110200\r",
        b"\r",
        b" ",
        b" 0859C000000900000000000000110200",
        b"0859C000000900000000000000110200 ",
        b"0859 C000 0009 000000000000 00 11 02 00",
        b"0859C0000009000000000000001102\t\t",
        b"0859C00000090000000000000011020\0",
        b"\0\0",
        b"G859C000000900000000000000110200",
        b"0859g000000900000000000000110200",
        b"0x59C000000900000000000000110200",
        b"/:@`",
        b"0859C00000090000000000000011020\x7F",
        b"0859C00000090000000000000011020\x80",
        b"\xFF\xFF",
        b"\xB1\xB1",
        b"\xC3\xA9",
    ];
    let input: Vec<u8> = bad.iter().flat_map(|line| [line, GOOD.as_bytes(), b""].join(&b'\n')).collect();
    assert_eq!(run(input), format!("bad line\n{GOOD_WORDS}").repeat(bad.len()));
    for line in bad {
        assert_eq!(run(line), "bad line\n", "{}", line.escape_ascii());
    }
}

#[test]
fn the_longest_line() {
    let digits = |count: usize| "0".repeat(count);
    assert_eq!(run(digits(4_096) + "\n"), "refused 60\n");
    assert_eq!(run(digits(4_096)), "refused 60\n");
    for count in [4_095, 4_097, 4_098, 8_192, 65_536, 131_072, 300_001] {
        assert_eq!(run(digits(count)), "bad line\n", "{count}");
        assert_eq!(run(format!("{}\n{GOOD}\n", digits(count))), format!("bad line\n{GOOD_WORDS}"), "{count}");
    }
    // 2,048 octets that are a frame but for a dump that is too long: 2,048 - 7 is 07F9, (2,048 - 24) / 2 is 03F4.
    let frame = format!("0859C00007F900000000000000060600010100001000{}{}", "03F4", "00".repeat(2_024));
    assert_eq!(run(&frame), "refused 63\n");
    assert_eq!(run(frame + "00"), "bad line\n");
}

#[test]
fn f_of_no_octets_and_of_the_most() {
    let refused_60 = "013C 0000 0000 000000000000 00 00 \n";
    assert_eq!(run_cases("F \n"), refused_60);
    assert_eq!(run_cases("F "), refused_60);
    assert_eq!(run_cases(format!("F {}\n", "00".repeat(69_999))), refused_60);
    assert_eq!(run_cases(format!("F {}\n", "00".repeat(70_000))), "0200\n");
    assert_eq!(run_cases(format!("F {}\n", "00".repeat(70_001))), "0200\n");
    assert_eq!(run_cases(format!("F {}\nF {GOOD}\n", "0".repeat(300_000))), format!("0200\n{GOOD_FIELDS}"));
}

#[test]
fn f_of_the_longest_frame_that_a_length_field_announces() {
    let refused = |octet: &str| format!("01{octet} 0000 0000 000000000000 00 00 \n");
    // A length field of FFFF is right for 65,542 octets: 65,526 of source data, 8 and 32,759 (7FF7) words.
    let long = |start: &str, octets: usize| format!("F {start}{}\n", "00".repeat(octets - start.len() / 2));
    let dump = "0859C000FFFF000000000000000606000101000010007FF7";
    assert_eq!(run_cases(long(dump, 65_542)), refused("3F"));
    assert_eq!(run_cases(long(dump, 65_541)), refused("3C"));
    assert_eq!(run_cases(long(dump, 65_543)), refused("3C"));
    assert_eq!(run_cases(long("0859C000FFFF00000000000000110200", 65_542)), refused("3F"));
    assert_eq!(run_cases(long("0851C000FFFF00000000000000110200", 65_542)), refused("3E"));
    assert_eq!(run_cases(long("1859C000FFFF00000000000000110200", 65_542)), refused("3D"));
    // 65,536 octets more than the length field says.
    assert_eq!(run_cases(long(GOOD, 65_552)), refused("3C"));
    assert_eq!(run_cases(long("0851C000000D00000000000000010100185CC000", 65_556)), refused("3C"));
}

#[test]
fn f_lines_that_are_bad() {
    let bad = [
        "F".to_owned(),
        "f 00".into(),
        "F0".into(),
        "F00".into(),
        "F 0".into(),
        "F  00".into(),
        "F\t00".into(),
        " F 00".into(),
        format!("F {GOOD} "),
        format!("F {GOOD}\r"),
        format!("F{GOOD}"),
        format!("f {GOOD}"),
        format!("F {}G", &GOOD[1..]),
    ];
    let input: String = bad.iter().map(|line| format!("{line}\nF {GOOD}\n")).collect();
    assert_eq!(run_cases(input), format!("0200\n{GOOD_FIELDS}").repeat(bad.len()));
}

#[test]
fn f_changes_nothing() {
    let packet = "X 185CC0000005191101000167\nM\nO\n";
    let unchanged = run_cases(packet);
    let dump = "F 0859C0010015000000000000000606000101000010000002ABCD1456\n";
    let fields = "0000 0059 0001 000000000000 06 06 0101000010000002ABCD1456\n";
    assert_eq!(run_cases(format!("{dump}{packet}")), format!("{fields}{unchanged}"));
    assert_eq!(run_cases(format!("{packet}{dump}")), format!("{unchanged}{fields}"));
    // Nor does what stands before matter to it.
    assert_eq!(run_cases(format!("P 060000\nK 00010002\nT 010203040506\nS \n{dump}")), fields);
}

fn command() -> Command {
    common::command("FRAMES_COMMAND").unwrap_or_else(|| Command::new(env!("CARGO_BIN_EXE_frames")))
}

#[test]
fn input_in_pieces_through_a_pipe() {
    let input = format!("{GOOD}\n\n{}\nzz\n{GOOD}", "0".repeat(4_098)).into_bytes();
    let expected = format!("{GOOD_WORDS}refused 60\nbad line\nbad line\n{GOOD_WORDS}").into_bytes();
    for size in [1, 7, 65_536] {
        let pieces = input.chunks(size).map(<[u8]>::to_vec).collect();
        assert_eq!(common::piped(command(), pieces), expected, "pieces of {size}");
    }
}

#[test]
fn a_hundred_million_digits_without_a_newline() {
    let pieces = vec![vec![b'0'; 1_000_000]; 100];
    assert_eq!(common::piped(command(), pieces), b"bad line\n");
}

#[test]
fn one_line_is_answered_before_more_is_read() {
    let good = format!("{GOOD}\n");
    common::answers_at_once(command(), &[(&good, GOOD_WORDS.trim_end()), ("\n", "refused 60"), ("x\n", "bad line")]);
}

#[test]
fn a_closed_output_ends_it() {
    let mut child = command().stdin(Stdio::piped()).stdout(Stdio::piped()).spawn().expect("the program starts");
    drop(child.stdout.take());
    let mut input = child.stdin.take().expect("its input");
    thread::spawn(move || while input.write_all(b"\n\n\n\n\n\n\n\n").is_ok() {});
    let begun = Instant::now();
    while child.try_wait().expect("its state").is_none() {
        if begun.elapsed() > Duration::from_secs(20) {
            child.kill().expect("it is there");
            panic!("it goes on although nobody reads");
        }
        thread::sleep(Duration::from_millis(10));
    }
}

/// This implementation's own program, with these arguments and standard input.
fn own(arguments: &[&str], input: &str) -> Output {
    let mut command = Command::new(env!("CARGO_BIN_EXE_frames"));
    let mut child = command
        .args(arguments)
        .stdin(Stdio::piped())
        .stdout(Stdio::piped())
        .stderr(Stdio::piped())
        .spawn()
        .expect("the program starts");
    // A program that refuses its arguments does not read its input.
    let _ = child.stdin.take().expect("its input").write_all(input.as_bytes());
    child.wait_with_output().expect("the program ends")
}

#[test]
fn a_file_standard_input_and_the_status() {
    let path = Path::new(env!("CARGO_TARGET_TMPDIR")).join("telemetry.in");
    fs::write(&path, format!("x\n\n{GOOD}")).expect("the file can be written");
    let answer = format!("bad line\nrefused 60\n{GOOD_WORDS}");
    let from_file = own(&[&path.to_string_lossy()], "00\n");
    assert_eq!((from_file.status.code(), from_file.stdout), (Some(0), answer.into_bytes()));
    for arguments in [&[] as &[&str], &["-"]] {
        let answered = own(arguments, "00\n");
        assert_eq!((answered.status.code(), answered.stdout), (Some(0), b"refused 60\n".to_vec()), "{arguments:?}");
    }
}

#[test]
fn arguments_that_are_wrong() {
    let folder = env!("CARGO_TARGET_TMPDIR");
    for arguments in [&["no such file"] as &[&str], &[folder], &["--size"], &["-x"], &["-", "-"], &["a", "b"]] {
        let refused = own(arguments, "00\n");
        assert_eq!(refused.status.code(), Some(2), "{arguments:?}");
        assert!(refused.stdout.is_empty() && !refused.stderr.is_empty(), "{arguments:?}");
    }
}
