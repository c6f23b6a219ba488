//! The program `judge`: document 01's example as a record, every verdict and what is told with it, records of real
//! units, its arguments and its streams. Where JUDGE_COMMAND names another program, one word a line, it is held to the
//! same. Line numbers are those that an editor shows.

mod common;

use std::env;
use std::ffi::OsStr;
use std::fs::{self, OpenOptions};
use std::io::Write;
use std::path::Path;
use std::process::{Command, Stdio};

use common::judging::{command, judge, run, start, Judged};
use common::packing::{dumped, end_of, packet, refused, TestFile, EXAMPLE, GOOD, GOOD_RECORD};

/// The frames of document 01's first packet: (1,1), (17,2) and (1,7).
const ACCEPTED: &str = "0851C000000D00000000000000010100185CC000";
const TESTED: &str = "0859C000000900000000000000110200";
const COMPLETED: &str = "0851C001000D00000000000000010700185CC000";
/// The example's second packet, whose error control is wrong, and its (1,2) behind the first packet.
const WRONG: &str = "185CC0000005191101000168";
const REFUSED: &str = "0851C002001100000000000000010200185CC00000020167";
const WRONG_RECORD: &str = "185CC0000005191101000168
0851C002001100000000000000010200185CC00000020167

";

/// A unit that is not sound and a bad one, with what is said of them.
const UNSOUND: &str = "pid 128\nstore 0\n";
const UNSOUND_WORDS: &str = "the PID is above 127";
const BAD_UNIT: &str = "pid 5\nstore\n";
const BAD_UNIT_WORDS: &str = "unit 2: a store is \"store N\"\n";

/// The text of these lines, each with its newline.
fn lines(lines: &[&str]) -> String {
    lines.iter().map(|line| format!("{line}\n")).collect()
}

/// What is told where a frame is due and a line is found.
fn both(packet: u64, due: &str, found: &str, octet: usize) -> String {
    format!("packet {packet}\ndue {due}\nfound {found}\noctet {octet}\n")
}

/// What is told where a frame is missing.
fn missing(packet: u64, due: &str) -> String {
    format!("packet {packet}\ndue {due}\nfound nothing\n")
}

/// What is told where a line is one too many.
fn too_many(packet: u64, found: &str) -> String {
    format!("packet {packet}\ndue nothing\nfound {found}\n")
}

/// So many digits.
fn digits(count: usize) -> String {
    "0".repeat(count)
}

// ---- conforming

#[test]
fn the_example_of_document_01() {
    let record = "185CC0000005191101000167
0851C000000D00000000000000010100185CC000
0859C000000900000000000000110200
0851C001000D00000000000000010700185CC000

185CC0000005191101000168
0851C002001100000000000000010200185CC00000020167

";
    judge(EXAMPLE, record).conforms(2, 4);
    judge(EXAMPLE, GOOD_RECORD).conforms(1, 3);
}

/// Flag 0: the ISO checksum, the CRC in its place, FF sent for 0 in both octets, and 00 for one of them. A unit that takes
/// the other method differs.
#[test]
fn the_checksum_flag_selects_the_method() {
    let record = "185CC00000050911010002A8
0851C000000D00000000000000010100185CC000
0859C000000900000000000000110200
0851C001000D00000000000000010700185CC000

185CC0000005091101001AC0
0851C002001100000000000000010200185CC000000202A8

185CC19B00050911010EFFFF
0851C003000D00000000000000010100185CC19B
0859C001000900000000000000110200
0851C004000D00000000000000010700185CC19B

185CC19B00050911010E00FF
0851C005001100000000000000010200185CC19B0002FFFF

";
    judge(EXAMPLE, record).conforms(4, 8);
    let refused = "0851C000001100000000000000010200185CC00000021AC0";
    judge(EXAMPLE, lines(&["185CC00000050911010002A8", refused, ""])).differs(2, &both(1, ACCEPTED, refused, 5));
    let due = "0851C000001100000000000000010200185CC000000202A8";
    judge(EXAMPLE, lines(&["185CC0000005091101001AC0", refused, ""])).differs(2, &both(1, due, refused, 22));
    let accepted = lines(&["185CC0000005091101001AC0", ACCEPTED, TESTED, COMPLETED, ""]);
    judge(EXAMPLE, accepted).differs(2, &both(1, due, ACCEPTED, 5));
}

#[test]
fn the_end_of_the_input_ends_a_group() {
    let record = format!("{GOOD_RECORD}{WRONG_RECORD}");
    // Without the empty line, and without the last newline too.
    judge(EXAMPLE, record.strip_suffix("\n").expect("an empty line")).conforms(2, 4);
    judge(EXAMPLE, record.strip_suffix("\n\n").expect("an empty line")).conforms(2, 4);
    judge(EXAMPLE, lines(&[GOOD, ACCEPTED, TESTED, COMPLETED])).conforms(1, 3);
    judge(EXAMPLE, [GOOD, ACCEPTED, TESTED, COMPLETED].join("\n")).conforms(1, 3);
    // A TC alone, without a newline: 42 has no frame.
    judge(EXAMPLE, "00").conforms(1, 0);
}

#[test]
fn further_empty_lines_are_passed_over() {
    for (before, between, behind) in [
        ("\n", "", ""),
        ("\n\n\n", "", ""),
        ("", "\n", ""),
        ("", "\n\n\n\n", ""),
        ("", "", "\n"),
        ("\n\n", "\n\n", "\n\n\n"),
    ] {
        judge(EXAMPLE, format!("{before}{GOOD_RECORD}{between}{WRONG_RECORD}{behind}")).conforms(2, 4);
    }
}

#[test]
fn any_time_conforms() {
    for time in ["000000000000", "FFFFFFFFFFFF", "123456789ABC", "000000000001", "010000000000"] {
        let at = |frame: &str| format!("{}{time}{}", &frame[..12], &frame[24..]);
        let record = lines(&[GOOD, &at(ACCEPTED), &at(TESTED), &at(COMPLETED), "", WRONG, &at(REFUSED), ""]);
        judge(EXAMPLE, record).conforms(2, 4);
    }
    // Each line has a time of its own, and it may go back.
    let record = "185CC0000005191101000167
0851C000000D12345678000000010100185CC000
0859C0000009FEDCBA98765400110200
0851C001000D00000000000100010700185CC000

185CC0000005191101000168
0851C0020011A5A5A5A5A5A500010200185CC00000020167

";
    judge(EXAMPLE, record).conforms(2, 4);
}

#[test]
fn letter_case_does_not_matter() {
    let record = format!("{GOOD_RECORD}{WRONG_RECORD}");
    judge(EXAMPLE, record.to_lowercase()).conforms(2, 4);
    judge(EXAMPLE, lines(&["185cC0000005191101000167", "0851c000000D00000000000000010100185Cc000", TESTED, COMPLETED]))
        .conforms(1, 3);
}

#[test]
fn a_packet_of_fewer_than_6_octets_has_no_frame_due() {
    // 42: its group is its line and the empty line, and the counts stay.
    judge(EXAMPLE, format!("00\n\n{GOOD_RECORD}185CC00000\n\n{WRONG_RECORD}")).conforms(4, 4);
    judge(EXAMPLE, "00\n\n\n0102030405\n").conforms(2, 0);
    judge(EXAMPLE, lines(&["00", TESTED, ""])).differs(2, &too_many(1, TESTED));
    // Six octets are refused by 1, which has its report.
    judge(EXAMPLE, "185CC0000005\n0851C000001100000000000000010200185CC00000010006\n").conforms(1, 1);
    judge(EXAMPLE, "185CC0000005\n\n").differs(2, &missing(1, "0851C000001100000000000000010200185CC00000010006"));
}

#[test]
fn a_load_without_acks_has_no_frame_due() {
    let load = packet(6, 2, "01 01 00001000 0001 ABCD");
    judge(EXAMPLE, format!("{load}\n{GOOD_RECORD}")).conforms(2, 3);
    judge(EXAMPLE, format!("{load}{ACCEPTED}\n\n")).differs(2, &too_many(1, ACCEPTED));
}

#[test]
fn the_store_goes_on_from_packet_to_packet() {
    let load = packet(6, 2, "01 01 0000103F 0001 BEEF");
    let dump = packet(6, 5, "01 02 0000103E 0002 00001000 0001");
    let outside = packet(6, 2, "01 02 0000103E 0001 DEAD 00001040 0001 DEAD");
    let unit = format!("{EXAMPLE}put 124 ABCD 1456\nput 0 0102\n");
    let before = [dumped(0, 1, 0x103E, "ABCD1456"), dumped(1, 1, 0x1000, "0102")].concat();
    let after = [dumped(2, 1, 0x103E, "ABCDBEEF"), dumped(3, 1, 0x1000, "0102")].concat();
    let refusal = refused(0, 19, 2);
    judge(&unit, format!("{dump}{before}\n{load}\n{outside}{refusal}\n{dump}{after}\n")).conforms(4, 5);
    // A unit that accepts the load and writes no words: its dump is line 7.
    let test = packet(17, 1, "");
    let found = "0859C00100150000000000000006060001010000103E0002ABCD1456";
    let due = found.replace("ABCD1456", "ABCDBEEF");
    judge(&unit, format!("{test}{TESTED}\n\n{load}\n{dump}{found}\n")).differs(7, &both(6, &due, found, 26));
}

#[test]
fn the_counts_go_on_from_packet_to_packet() {
    let test = packet(17, 1, "");
    let frame = |number: u32| format!("0859{:04X}000900000000000000110200\n", 0xC000 + number % 16_384);
    let groups = |numbers: std::ops::Range<u32>| -> String {
        numbers.map(|number| format!("{test}{}\n", frame(number))).collect()
    };
    // 16,383 is followed by 0.
    judge(EXAMPLE, groups(0..20_000)).conforms(20_000, 20_000);
    // A group has three lines: that of the 16,385th packet begins at line 49,153.
    judge(EXAMPLE, groups(0..16_384) + &test + &frame(1) + "\n")
        .differs(49_154, &both(49_153, "0859C000000900000000000000110200", "0859C001000900000000000000110200", 3));
    // A unit that starts at 1, and one that starts again at each packet.
    judge(EXAMPLE, groups(1..3)).differs(2, &both(1, TESTED, "0859C001000900000000000000110200", 3));
    judge(EXAMPLE, groups(0..1) + &groups(0..1)).differs(5, &both(4, "0859C001000900000000000000110200", TESTED, 3));
}

#[test]
fn one_count_for_both_categories() {
    // Document 01's ledger: the (17,2) has the count behind that of the (1,1), at line 3.
    let record =
        lines(&[GOOD, ACCEPTED, "0859C001000900000000000000110200", "0851C002000D00000000000000010700185CC000", ""]);
    judge(EXAMPLE, record).differs(3, &both(1, TESTED, "0859C001000900000000000000110200", 3));
    // Where each TC has one frame it shows as soon as the category is another one: at line 8.
    let test = packet(17, 1, "");
    let record = format!(
        "{test}{TESTED}\n\n{test}0859C001000900000000000000110200\n\n{WRONG}\n0851C002001100000000000000010200185CC00000020167\n\n"
    );
    let due = "0851C000001100000000000000010200185CC00000020167";
    judge(EXAMPLE, record).differs(8, &both(7, due, REFUSED, 3));
}

// ---- a line that differs

#[test]
fn a_frame_is_missing_in_the_middle() {
    // The next line stands in its place and differs.
    judge(EXAMPLE, lines(&[GOOD, ACCEPTED, COMPLETED, ""])).differs(3, &both(1, TESTED, COMPLETED, 1));
    judge(EXAMPLE, lines(&[GOOD, TESTED, COMPLETED, ""])).differs(2, &both(1, ACCEPTED, TESTED, 1));
    judge(EXAMPLE, lines(&["", GOOD, COMPLETED])).differs(3, &both(2, ACCEPTED, COMPLETED, 3));
}

#[test]
fn a_frame_is_missing_at_the_end_of_a_group() {
    let record = lines(&[GOOD, ACCEPTED, TESTED, "", WRONG, REFUSED, ""]);
    judge(EXAMPLE, record).differs(4, &missing(1, COMPLETED));
    // Of several the first that is missing is told.
    judge(EXAMPLE, lines(&[GOOD, ACCEPTED, "", ""])).differs(3, &missing(1, TESTED));
    judge(EXAMPLE, lines(&["", GOOD, "", WRONG, REFUSED])).differs(3, &missing(2, ACCEPTED));
    // The frames that stand behind an empty line are no part of the group.
    judge(EXAMPLE, lines(&[GOOD, ACCEPTED, "", TESTED, COMPLETED, ""])).differs(3, &missing(1, TESTED));
}

#[test]
fn a_frame_is_missing_at_the_end_of_the_input() {
    // The number after the last line, whether that has its newline or not.
    for end in ["", "\n"] {
        judge(EXAMPLE, format!("{GOOD}{end}")).differs(2, &missing(1, ACCEPTED));
        judge(EXAMPLE, format!("{GOOD}\n{ACCEPTED}{end}")).differs(3, &missing(1, TESTED));
        judge(EXAMPLE, format!("{GOOD}\n{ACCEPTED}\n{TESTED}{end}")).differs(4, &missing(1, COMPLETED));
        judge(EXAMPLE, format!("{GOOD_RECORD}\n\n{WRONG}{end}")).differs(9, &missing(8, REFUSED));
    }
    // Where the empty line is there it is that line.
    judge(EXAMPLE, format!("{GOOD}\n\n")).differs(2, &missing(1, ACCEPTED));
    judge(EXAMPLE, format!("{GOOD_RECORD}{WRONG}\n\n\n\n")).differs(7, &missing(6, REFUSED));
}

#[test]
fn silence_is_no_refusal() {
    // Document 01: a refused TC gets (1,2) whether asked or not. This one has no ack and a wrong error control.
    let record = "185CC00000051011010099FF\n\n";
    let due = "0851C000001100000000000000010200185CC0000002";
    let test = packet(17, 1, "");
    let right = &test[20..24];
    assert_ne!(right, "99FF");
    judge(EXAMPLE, record).differs(2, &missing(1, &format!("{due}{right}")));
    judge(EXAMPLE, format!("{GOOD_RECORD}{WRONG}\n\n")).differs(7, &missing(6, REFUSED));
    judge(EXAMPLE, format!("{GOOD_RECORD}{WRONG}\n\n{test}\n")).differs(7, &missing(6, REFUSED));
}

#[test]
fn a_frame_is_doubled() {
    judge(EXAMPLE, lines(&[GOOD, ACCEPTED, ACCEPTED, TESTED, COMPLETED, ""])).differs(3, &both(1, TESTED, ACCEPTED, 1));
    judge(EXAMPLE, lines(&[GOOD, ACCEPTED, TESTED, TESTED, COMPLETED, ""])).differs(4, &both(1, COMPLETED, TESTED, 1));
    let record = lines(&[GOOD, ACCEPTED, TESTED, COMPLETED, COMPLETED, ""]);
    judge(EXAMPLE, record).differs(5, &too_many(1, COMPLETED));
}

#[test]
fn frames_are_swapped() {
    judge(EXAMPLE, lines(&[GOOD, TESTED, ACCEPTED, COMPLETED, ""])).differs(2, &both(1, ACCEPTED, TESTED, 1));
    judge(EXAMPLE, lines(&[GOOD, ACCEPTED, COMPLETED, TESTED, ""])).differs(3, &both(1, TESTED, COMPLETED, 1));
    judge(EXAMPLE, lines(&[GOOD, COMPLETED, TESTED, ACCEPTED, ""])).differs(2, &both(1, ACCEPTED, COMPLETED, 3));
}

#[test]
fn a_line_is_one_too_many() {
    judge(EXAMPLE, lines(&[GOOD, ACCEPTED, TESTED, COMPLETED, "00", ""])).differs(5, &too_many(1, "00"));
    judge(EXAMPLE, format!("{GOOD_RECORD}{WRONG}\n{REFUSED}\n{TESTED}")).differs(8, &too_many(6, TESTED));
    // It is told in upper case.
    judge(EXAMPLE, lines(&["00", "abcdef"])).differs(2, &too_many(1, "ABCDEF"));
    // Without its empty line the next TC stands as a TM line.
    judge(EXAMPLE, lines(&[GOOD, ACCEPTED, TESTED, COMPLETED, WRONG, REFUSED, ""])).differs(5, &too_many(1, WRONG));
    // The longest line that is not bad.
    judge(EXAMPLE, format!("00\n{}\n", digits(4_096))).differs(2, &too_many(1, &digits(4_096)));
}

#[test]
fn an_empty_line_inside_a_group() {
    judge(EXAMPLE, lines(&[GOOD, "", ACCEPTED, TESTED, COMPLETED, ""])).differs(2, &missing(1, ACCEPTED));
    judge(EXAMPLE, lines(&[GOOD, ACCEPTED, "", TESTED, COMPLETED, ""])).differs(3, &missing(1, TESTED));
    judge(EXAMPLE, lines(&[GOOD, ACCEPTED, TESTED, "", COMPLETED, ""])).differs(4, &missing(1, COMPLETED));
}

#[test]
fn a_frame_is_cut_short_or_lengthened() {
    // By an octet, by a digit, and one octet more.
    let cut = &ACCEPTED[..38];
    judge(EXAMPLE, lines(&[GOOD, cut, TESTED, COMPLETED])).differs(2, &both(1, ACCEPTED, cut, 19));
    judge(EXAMPLE, lines(&[GOOD, &ACCEPTED[..39], TESTED, COMPLETED])).is_70(2, "odd digits");
    let longer = format!("{ACCEPTED}00");
    judge(EXAMPLE, lines(&[GOOD, &longer, TESTED, COMPLETED])).differs(2, &both(1, ACCEPTED, &longer, 20));
    let longer = format!("{TESTED}AB");
    judge(EXAMPLE, lines(&[GOOD, ACCEPTED, &longer, COMPLETED])).differs(3, &both(1, TESTED, &longer, 16));
    // Cut to its header, and an octet less.
    judge(EXAMPLE, lines(&[GOOD, &ACCEPTED[..32]])).differs(2, &both(1, ACCEPTED, &ACCEPTED[..32], 16));
    judge(EXAMPLE, lines(&[GOOD, ACCEPTED, &TESTED[..30]])).differs(3, &both(1, TESTED, &TESTED[..30], 15));
    // Where an octet before the end differs, that one is told.
    let other = "0851C000000D0000000000000001010018";
    judge(EXAMPLE, lines(&[GOOD, &other.replace("000D", "000A")]))
        .differs(2, &both(1, ACCEPTED, "0851C000000A0000000000000001010018", 5));
}

#[test]
fn a_time_needs_12_octets() {
    // 12 octets hold a time, and the frame due is told with it; 11 do not, and it is told with time zero.
    let due = "0851C000000D01020304050600010100185CC000";
    let found = "0851C000000D010203040506";
    judge(EXAMPLE, lines(&[GOOD, found])).differs(2, &both(1, due, found, 12));
    let found = "0851C000000D0102030405";
    judge(EXAMPLE, lines(&[GOOD, found])).differs(2, &both(1, ACCEPTED, found, 11));
    // The octets of a time that is cut off are the time's all the same.
    for octets in 7..=10 {
        let found = &found[..octets * 2];
        judge(EXAMPLE, lines(&[GOOD, found])).differs(2, &both(1, ACCEPTED, found, octets));
    }
    let found = "0851C000000D";
    judge(EXAMPLE, lines(&[GOOD, found])).differs(2, &both(1, ACCEPTED, found, 6));
    judge(EXAMPLE, lines(&[GOOD, "0851C0"])).differs(2, &both(1, ACCEPTED, "0851C0", 3));
    judge(EXAMPLE, lines(&[GOOD, "08"])).differs(2, &both(1, ACCEPTED, "08", 1));
    judge(EXAMPLE, lines(&[GOOD, "09"])).differs(2, &both(1, ACCEPTED, "09", 0));
    judge(EXAMPLE, lines(&[GOOD, "0851C000000C0102030405"]))
        .differs(2, &both(1, ACCEPTED, "0851C000000C0102030405", 5));
    // 13 octets: the one behind the time.
    let found = "0851C000000D01020304050601";
    judge(EXAMPLE, lines(&[GOOD, found])).differs(2, &both(1, due, found, 12));
    let found = "0851C000000D01020304050600";
    judge(EXAMPLE, lines(&[GOOD, found])).differs(2, &both(1, due, found, 13));
}

#[test]
fn the_frame_due_is_told_with_the_time_of_the_line_found() {
    let found = "0851C000000D123456789ABC00010100185CC001";
    let due = "0851C000000D123456789ABC00010100185CC000";
    judge(EXAMPLE, lines(&[GOOD, found, TESTED, COMPLETED])).differs(2, &both(1, due, found, 19));
    judge(EXAMPLE, lines(&[GOOD, &found.to_lowercase()])).differs(2, &both(1, due, found, 19));
    // Where none is found it has time zero, whatever times there were.
    let accepted = "0851C000000D12345678000000010100185CC000";
    judge(EXAMPLE, lines(&[GOOD, accepted, ""])).differs(3, &missing(1, TESTED));
    // A line too many keeps its time.
    let tested = "0859C0000009FFFFFFFFFFFF00110200";
    judge(EXAMPLE, lines(&["00", tested])).differs(2, &too_many(1, tested));
}

#[test]
fn every_octet_is_compared_but_the_time() {
    let frames = [ACCEPTED, TESTED, COMPLETED];
    for (place, frame) in frames.iter().enumerate() {
        for octet in 0..frame.len() / 2 {
            let mut octets = common::hex(frame);
            octets[octet] ^= 1 << (octet % 8);
            let changed: String = octets.iter().map(|octet| format!("{octet:02X}")).collect();
            let mut record = vec![GOOD, ACCEPTED, TESTED, COMPLETED, ""];
            record[place + 1] = &changed;
            let judged = judge(EXAMPLE, lines(&record));
            if (6..12).contains(&octet) {
                judged.conforms(1, 3);
            } else {
                judged.differs(place as u64 + 2, &both(1, frame, &changed, octet));
            }
        }
    }
}

#[test]
fn another_check_value() {
    // The CRC of 00 00 is 1D0F, and of ABCDEF01 it is 04A2: document 01 and source document 004, A4.4.
    let unit = format!("{EXAMPLE}put 2 ABCDEF01\n");
    let check = packet(6, 9, "01 02 00001000 0001 00001001 0002");
    let due = "0859C000001B00000000000000060A0001020000100000011D0F00001001000204A2";
    judge(&unit, format!("{check}{due}\n\n")).conforms(1, 1);
    for (found, octet) in [
        ("0859C000001B00000000000000060A0001020000100000011D0E00001001000204A2", 25),
        ("0859C000001B00000000000000060A0001020000100000019D0F00001001000204A2", 24),
        ("0859C000001B00000000000000060A0001020000100000011D0F00001001000204A3", 33),
        ("0859C000001B00000000000000060A0001020000100000011D0F000010010002FFFF", 32),
    ] {
        judge(&unit, format!("{check}{found}\n\n")).differs(2, &both(1, due, found, octet));
    }
}

#[test]
fn the_longest_answer() {
    // Eight blocks of 64 words, and every line of it is compared.
    let blocks = "00001000 0040 ".repeat(8);
    let dump = packet(6, 5, &format!("01 08 {blocks}"));
    let words = "00".repeat(128);
    let frames: Vec<String> = (0..8).map(|count| dumped(count, 1, 0x1000, &words)).collect();
    judge(EXAMPLE, format!("{dump}{}\n", frames.concat())).conforms(1, 8);
    let last = frames[7].trim_end();
    let found = format!("{}01", &last[..last.len() - 2]);
    judge(EXAMPLE, format!("{dump}{}{found}\n", frames[..7].concat())).differs(9, &both(1, last, &found, 151));
}

// ---- refused 70

#[test]
fn a_bad_line_where_a_tc_is_to_stand() {
    for (line, words) in [
        ("1".to_owned(), "odd digits"),
        ("185".into(), "odd digits"),
        (digits(4_095), "odd digits"),
        (format!("{GOOD}\r"), "character 25 is 0D"),
        ("\r".into(), "character 1 is 0D"),
        (format!(" {GOOD}"), "character 1 is 20"),
        (format!("{GOOD} "), "character 25 is 20"),
        (format!("# {GOOD}"), "character 1 is 23"),
        ("0g".into(), "character 2 is 67"),
        ("G0".into(), "character 1 is 47"),
        ("0zz".into(), "character 2 is 7A"),
        ("0x185C".into(), "character 2 is 78"),
        ("\0".into(), "character 1 is 00"),
        (digits(4_095) + "\r", "character 4096 is 0D"),
        (digits(4_097), "too long"),
        (digits(4_096) + "\r", "too long"),
        (format!("x{}", digits(4_096)), "too long"),
        (digits(70_000), "too long"),
        (digits(300_001), "too long"),
    ] {
        judge(EXAMPLE, format!("{line}\n")).is_70(1, words);
        judge(EXAMPLE, line.as_bytes()).is_70(1, words);
        judge(EXAMPLE, format!("\n\n{line}\n{GOOD}\n")).is_70(3, words);
        judge(EXAMPLE, format!("{GOOD_RECORD}{line}\n")).is_70(6, words);
        judge(EXAMPLE, format!("{GOOD_RECORD}\n{line}")).is_70(7, words);
    }
    judge(EXAMPLE, b"00\xFF\n").is_70(1, "character 3 is FF");
    judge(EXAMPLE, b"\n\x80\x80\n").is_70(2, "character 1 is 80");
}

#[test]
fn a_bad_line_where_a_frame_is_to_stand() {
    for (line, words) in [
        (ACCEPTED[..39].to_owned(), "odd digits"),
        (format!("{ACCEPTED}\r"), "character 41 is 0D"),
        (format!("{}g{}", &ACCEPTED[..12], &ACCEPTED[13..]), "character 13 is 67"),
        (digits(4_097), "too long"),
        ("\r".into(), "character 1 is 0D"),
    ] {
        judge(EXAMPLE, format!("{GOOD}\n{line}\n")).is_70(2, words);
        judge(EXAMPLE, format!("{GOOD}\n{line}")).is_70(2, words);
        judge(EXAMPLE, format!("{GOOD}\n{ACCEPTED}\n{line}\n")).is_70(3, words);
        judge(EXAMPLE, format!("\n{GOOD_RECORD}\n{WRONG}\n{line}\n")).is_70(9, words);
    }
}

#[test]
fn a_text_of_another_system() {
    // Its empty line is no empty line: a carriage return is a character.
    let record = format!("{GOOD_RECORD}{WRONG_RECORD}").replace('\n', "\r\n");
    judge(EXAMPLE, record).is_70(1, "character 25 is 0D");
    judge(EXAMPLE, format!("{GOOD}\n{ACCEPTED}\n{TESTED}\n{COMPLETED}\n\r\n")).is_70(5, "character 1 is 0D");
    judge(EXAMPLE, "\r\n").is_70(1, "character 1 is 0D");
    judge(EXAMPLE, "\n\r").is_70(2, "character 1 is 0D");
}

#[test]
fn a_bad_line_that_is_one_too_many() {
    for (line, words) in [("1", "odd digits"), ("zz", "character 1 is 7A"), (&*digits(5_000), "too long")] {
        judge(EXAMPLE, format!("{GOOD}\n{ACCEPTED}\n{TESTED}\n{COMPLETED}\n{line}\n\n")).is_70(5, words);
        judge(EXAMPLE, format!("00\n{line}")).is_70(2, words);
        // The line too many before it differs first.
        judge(EXAMPLE, format!("00\nAB\n{line}")).differs(2, &too_many(1, "AB"));
    }
}

#[test]
fn a_bad_line_behind_a_difference_is_not_told() {
    for line in ["1", "zz", "\r", &digits(5_000)] {
        let other = "0851C000000D00000000000000010100185CC001";
        judge(EXAMPLE, lines(&[GOOD, other, line])).differs(2, &both(1, ACCEPTED, other, 19));
        judge(EXAMPLE, lines(&[GOOD, ACCEPTED, "", line])).differs(3, &missing(1, TESTED));
        judge(EXAMPLE, lines(&[GOOD, ACCEPTED, TESTED, COMPLETED, "AB", line])).differs(5, &too_many(1, "AB"));
        judge(EXAMPLE, lines(&[GOOD, other, TESTED, COMPLETED, "", WRONG, line]))
            .differs(2, &both(1, ACCEPTED, other, 19));
    }
}

#[test]
fn a_bad_line_before_a_difference_is_told() {
    for (line, words) in [("1", "odd digits"), ("zz", "character 1 is 7A"), (&*digits(5_000), "too long")] {
        // It stands in the place of a frame, and a frame behind it is wrong or missing.
        judge(EXAMPLE, lines(&[GOOD, line, "00", ""])).is_70(2, words);
        judge(EXAMPLE, lines(&[GOOD, ACCEPTED, line, ""])).is_70(3, words);
        judge(EXAMPLE, lines(&[GOOD, ACCEPTED, TESTED, COMPLETED, "", line, "", WRONG, ""])).is_70(6, words);
        // Of two bad lines the first.
        judge(EXAMPLE, lines(&[GOOD, ACCEPTED, line, "0", "xx"])).is_70(3, words);
    }
}

// ---- refused 71

#[test]
fn a_record_of_no_tc() {
    for record in ["", "\n", "\n\n", &"\n".repeat(70_000)] {
        judge(EXAMPLE, record).is_71();
    }
}

// ---- refused 41 and bad units

#[test]
fn each_clause_of_soundness() {
    for (unit, words) in [
        ("pid 5\nstore 3\n", "the store has an odd number of octets"),
        ("pid 128\nstore 0\n", "the PID is above 127"),
        ("pid 5\nstore 8\narea 1 start 0 words 0 at 0\n", "area 1 has no words"),
        ("pid 5\nstore 8\narea 1 start 0xFFFFFFFF words 2 at 0\n", "area 1 ends above address FFFFFFFF"),
        ("pid 5\nstore 8\narea 1 start 0 words 1 at 0\narea 2 start 0 words 4 at 2\n", "area 2 ends past the store"),
        (
            "pid 5\nstore 8\narea 3 start 0 words 1 at 0\narea 1 start 0 words 1 at 2\narea 3 start 8 words 1 at 4\n",
            "areas 1 and 3 have the same memory ID",
        ),
        ("pid 5\nstore 8\narea 1 start 0 words 2 at 0\narea 2 start 0 words 1 at 2\n", "areas 1 and 2 share octet 2"),
    ] {
        // Before anything of the record is looked at.
        for record in ["", "\n", GOOD_RECORD, "zz\n", "1", &digits(5_000), &lines(&[GOOD, "00"])] {
            judge(unit, record).is_41(words);
        }
    }
}

#[test]
fn a_bad_unit_file() {
    for record in ["", "\n", GOOD_RECORD, "zz\n", &lines(&[GOOD, "00"])] {
        judge(BAD_UNIT, record).is(BAD_UNIT_WORDS, "", 2);
        judge("", record).is("unit 1: a unit has \"pid N\", and no line has it\n", "", 2);
        judge("pid 128\nstore 2\nput 1 0000\n", record).is("unit 3: octets are put inside the store\n", "", 2);
    }
}

#[test]
fn a_verdict_on_the_unit_waits_for_no_record() {
    let unit = TestFile::new(UNSOUND);
    start(&[unit.as_ref()]).wait().is_41(UNSOUND_WORDS);
    let unit = TestFile::new(BAD_UNIT);
    start(&[unit.as_ref(), "-".as_ref()]).wait().is(BAD_UNIT_WORDS, "", 2);
}

#[test]
fn the_unit_decides() {
    // The same record of another PID, without the service, and from another store.
    let unit = EXAMPLE.replace("pid 5", "pid 6");
    // Check 0 has the APID received as its detail: 05C. The unit's own frames have APID 061.
    let due = "0861C000001100000000000000010200185CC0000000005C";
    judge(unit, GOOD_RECORD).differs(2, &both(1, due, ACCEPTED, 1));
    let unit = EXAMPLE.replace(" connection", "");
    // Check 3 has the type as its detail: 17.
    let due = "0851C000001100000000000000010200185CC00000030011";
    judge(unit, GOOD_RECORD).differs(2, &both(1, due, ACCEPTED, 5));
    let dump = packet(6, 5, "01 01 00001000 0001");
    let record = format!("{dump}{}\n", dumped(0, 1, 0x1000, "0000"));
    judge(EXAMPLE, &record).conforms(1, 1);
    let found = record.lines().nth(1).expect("the frame");
    judge(format!("{EXAMPLE}put 1 7F\n"), &record)
        .differs(2, &both(1, "0859C0000013000000000000000606000101000010000001007F", found, 25));
}

// ---- records of real units

/// A file of `units/`.
fn stored(name: &str) -> String {
    let path = Path::new(env!("CARGO_MANIFEST_DIR")).join("../../units").join(name);
    fs::read_to_string(path).expect("it is stored")
}

/// The record with one octet changed, both counted as an editor shows lines: lines from 1, octets from 0.
fn changed(record: &str, line: usize, octet: usize) -> (String, String) {
    let mut lines: Vec<String> = record.lines().map(String::from).collect();
    let mut octets = common::hex(&lines[line - 1]);
    octets[octet] ^= 0x80;
    let found: String = octets.iter().map(|octet| format!("{octet:02X}")).collect();
    lines[line - 1] = found.clone();
    (lines.iter().map(|line| format!("{line}\n")).collect(), found)
}

#[test]
fn connection_tests_of_omega() {
    // Source document 000. 8.4: "PID: 81 dec = 51h", so a TC begins with 1D1C and a frame with 0D11 or 0D19. The first
    // TC is the example of 9.3, "no acknowledge required", and its frame has the time of the example of 9.1, 12 34 56 78
    // 00 00. The second TC asks for both reports. The frames are document 01's: category 9 and PUS octet 0, where the
    // source has 7 and 40.
    let (unit, record) = (stored("omega.unit"), stored("omega.record"));
    judge(&unit, &record).conforms(2, 4);
    for (line, packet, octet) in
        [(2, 1, 3), (2, 1, 12), (5, 4, 1), (5, 4, 19), (6, 4, 2), (6, 4, 15), (7, 4, 14), (7, 4, 18)]
    {
        let (record, found) = changed(&record, line, octet);
        let due = stored("omega.record").lines().nth(line - 1).expect("that line").to_owned();
        judge(&unit, record).differs(line as u64, &both(packet, &due, &found, octet));
    }
    // Another time conforms.
    for octet in 6..12 {
        judge(&unit, changed(&record, 6, octet).0).conforms(2, 4);
    }
    // The (17,2) of the source's own example has category 7, count 1 and PUS octet 40: its first octet that differs is 1.
    let own = record.replacen("0D19C000000912345678000000110200", "0D17C001000912345678000040110200", 1);
    let told = both(1, "0D19C000000912345678000000110200", "0D17C001000912345678000040110200", 1);
    judge(&unit, own).differs(2, &told);
}

#[test]
fn checks_of_virtis() {
    // Source document 001. TAB. 1: PID 51, so a TC begins with 1B3C. TAB. 11 and TC-5: memory 140, the EEPROM, from
    // address 20000000 on takes checks, one block in each; an acceptance report can be required and one of execution
    // never, so ack is 1. The window of virtis.unit has 8192 words, to 20001FFF: the blocks of the record are its last two
    // words, zero at first and C0DE1234 after a load, then one that ends a word behind it. CRC: 00000000 gives 84C0 and
    // C0DE1234 gives 5A37.
    let (unit, record) = (stored("virtis.unit"), stored("virtis.record"));
    judge(&unit, &record).conforms(4, 6);
    for (line, packet, octet) in [
        (2, 1, 0),
        (3, 1, 16),
        (3, 1, 24),
        (3, 1, 25),
        (6, 5, 19),
        (9, 8, 3),
        (10, 8, 21),
        (10, 8, 24),
        (10, 8, 25),
        (13, 12, 21),
        (13, 12, 23),
    ] {
        let (record, found) = changed(&record, line, octet);
        let due = stored("virtis.record").lines().nth(line - 1).expect("that line").to_owned();
        judge(&unit, record).differs(line as u64, &both(packet, &due, &found, octet));
    }
    for octet in 6..12 {
        judge(&unit, changed(&record, 10, octet).0).conforms(4, 6);
    }
    // A unit whose load is accepted and written nowhere reports the first check value again.
    let lost = record.replace("5A37", "84C0");
    let due = "0B39C001001302A1B3D2C0DE00060A008C0120001FFE00025A37";
    let found = "0B39C001001302A1B3D2C0DE00060A008C0120001FFE000284C0";
    judge(&unit, lost).differs(10, &both(8, due, found, 24));
}

#[test]
fn the_packs_of_the_units_conform() {
    // What `pack` prints for packets of which none was refused by 70, the judge calls conforming.
    for (name, packets, frames) in
        [("line", 2, 4), ("omega", 11, 14), ("virtis", 12, 16), ("dms", 12, 19), ("vmc", 6, 5)]
    {
        judge(stored(&format!("{name}.unit")), stored(&format!("{name}.pack"))).conforms(packets, frames);
    }
}

// ---- arguments

#[test]
fn the_files_are_named_or_standard_input() {
    let unit = TestFile::new(EXAMPLE);
    let record = TestFile::new(format!("{GOOD_RECORD}\n{WRONG_RECORD}"));
    let (unit, record, standard): (&OsStr, &OsStr, &OsStr) = (unit.as_ref(), record.as_ref(), "-".as_ref());
    run(&[unit], GOOD_RECORD.as_bytes()).conforms(1, 3);
    run(&[unit, standard], GOOD_RECORD.as_bytes()).conforms(1, 3);
    run(&[unit, record], b"").conforms(2, 4);
    run(&[unit, record], b"zz\n").conforms(2, 4);
    run(&[standard, record], EXAMPLE.as_bytes()).conforms(2, 4);
    run(&[standard, record], b"").is("unit 1: a unit has \"pid N\", and no line has it\n", "", 2);
    run(&[standard, record], UNSOUND.as_bytes()).is_41(UNSOUND_WORDS);
    run(&[unit, "/dev/null".as_ref()], b"").is_71();
}

#[test]
fn an_argument_too_many_or_too_few() {
    let unit = TestFile::new(EXAMPLE);
    let record = TestFile::new(GOOD_RECORD);
    run(&[], EXAMPLE.as_bytes()).is_wrong_use();
    run(&[unit.as_ref(), record.as_ref(), record.as_ref()], b"").is_wrong_use();
    run(&[unit.as_ref(), "-".as_ref(), "-".as_ref()], b"").is_wrong_use();
    run(&[unit.as_ref(), record.as_ref(), "".as_ref()], b"").is_wrong_use();
    let said = Command::new(env!("CARGO_BIN_EXE_judge")).output().expect("judge starts").stderr;
    assert_eq!(String::from_utf8_lossy(&said), "judge: usage: judge UNIT [RECORD]\n");
}

#[test]
fn an_unknown_option() {
    let unit = TestFile::new(EXAMPLE);
    let record = TestFile::new(GOOD_RECORD);
    for option in ["-x", "--help", "-h", "--unit", "-1", "--record=x"] {
        run(&[option.as_ref()], b"").is_wrong_use();
        run(&[option.as_ref(), unit.as_ref()], b"").is_wrong_use();
        run(&[option.as_ref(), unit.as_ref(), record.as_ref()], b"").is_wrong_use();
        run(&[unit.as_ref(), option.as_ref()], b"").is_wrong_use();
    }
}

#[test]
fn standard_input_for_both_files() {
    run(&["-".as_ref()], EXAMPLE.as_bytes()).is_wrong_use();
    run(&["-".as_ref(), "-".as_ref()], EXAMPLE.as_bytes()).is_wrong_use();
}

#[test]
fn a_file_that_cannot_be_read() {
    let good = TestFile::new(EXAMPLE);
    let unsound = TestFile::new(UNSOUND);
    let bad = TestFile::new(BAD_UNIT);
    let record = TestFile::new(GOOD_RECORD);
    for missing in ["no such file", "", "/no/such/folder/file", env!("CARGO_TARGET_TMPDIR")] {
        let missing: &OsStr = missing.as_ref();
        run(&[missing], GOOD_RECORD.as_bytes()).is_wrong_use();
        run(&[missing, record.as_ref()], b"").is_wrong_use();
        run(&[missing, "-".as_ref()], GOOD_RECORD.as_bytes()).is_wrong_use();
        run(&[good.as_ref(), missing], GOOD_RECORD.as_bytes()).is_wrong_use();
        // It is said before anything else is done.
        run(&[unsound.as_ref(), missing], b"").is_wrong_use();
        run(&[bad.as_ref(), missing], b"").is_wrong_use();
        run(&["-".as_ref(), missing], BAD_UNIT.as_bytes()).is_wrong_use();
        start(&["-".as_ref(), missing]).wait().is_wrong_use();
    }
}

// ---- streams

#[test]
fn a_record_in_pieces_through_a_pipe() {
    let unit = TestFile::new(EXAMPLE);
    let record = format!("\n{GOOD_RECORD}\n\n{WRONG_RECORD}");
    for size in [1, 7, 65_536] {
        let mut running = start(&[unit.as_ref()]);
        running.send(record.as_bytes().chunks(size));
        running.close_and_wait().conforms(2, 4);
        let mut running = start(&[unit.as_ref()]);
        running.send(format!("{record}{}\n{GOOD}\n", digits(4_097)).as_bytes().chunks(size));
        running.close_and_wait().is_70(12, "too long");
    }
}

#[test]
fn behind_a_verdict_nothing_is_read() {
    let unit = TestFile::new(EXAMPLE);
    let judged = |record: &str| {
        let mut running = start(&[unit.as_ref()]);
        running.send([record.as_bytes()]);
        running.wait()
    };
    judged(&lines(&[GOOD, TESTED])).differs(2, &both(1, ACCEPTED, TESTED, 1));
    judged(&lines(&[GOOD, ACCEPTED, ""])).differs(3, &missing(1, TESTED));
    judged(&lines(&["00", "AB"])).differs(2, &too_many(1, "AB"));
    judged(&lines(&[GOOD, "zz"])).is_70(2, "character 1 is 7A");
    judged(&lines(&["1"])).is_70(1, "odd digits");
    judged(&format!("{GOOD}\n{}\n", digits(4_097))).is_70(2, "too long");
}

#[test]
fn a_hundred_million_digits_in_a_line() {
    let unit = TestFile::new(EXAMPLE);
    let piece = [b'0'; 1_000_000];
    let mut running = start(&[unit.as_ref()]);
    running.send([&piece[..]; 100]);
    running.close_and_wait().is_70(1, "too long");
}

#[test]
fn a_long_record() {
    // Lines are counted beyond 16 bits, and so are packets and frames.
    let test = packet(17, 1, "");
    let frame = |number: u32| format!("0859{:04X}000900000000000000110200\n", 0xC000 + number % 16_384);
    let record: String = (0..70_000).map(|number| format!("{test}{}\n", frame(number))).collect();
    judge(EXAMPLE, &record).conforms(70_000, 70_000);
    judge(EXAMPLE, record + &test).differs(210_002, &missing(210_001, frame(70_000).trim_end()));
}

#[test]
fn a_verdict_that_nobody_reads_keeps_its_status() {
    let unit = TestFile::new(EXAMPLE);
    for (record, status) in [(GOOD_RECORD, 0), ("00\nAB\n", 1), ("zz\n", 2), ("", 2)] {
        let mut child = command()
            .arg(&unit)
            .stdin(Stdio::piped())
            .stdout(Stdio::piped())
            .stderr(Stdio::piped())
            .spawn()
            .expect("judge starts");
        drop(child.stdout.take());
        let mut input = child.stdin.take().expect("its input");
        input.write_all(record.as_bytes()).expect("it reads");
        drop(input);
        assert_eq!(end_of(&mut child), Some(status));
        let said = child.wait_with_output().expect("its standard error").stderr;
        assert_eq!(String::from_utf8_lossy(&said), "");
    }
}

#[test]
fn output_that_cannot_be_written_is_said() {
    let record = TestFile::new(GOOD_RECORD);
    for unit in [EXAMPLE, UNSOUND, BAD_UNIT] {
        let unit = TestFile::new(unit);
        let full = OpenOptions::new().write(true).open("/dev/full").expect("a full device");
        let done = command().arg(&unit).arg(&record).stdin(Stdio::null()).stdout(full).output().expect("judge starts");
        assert_eq!(done.status.code(), Some(2));
        assert!(!done.stderr.is_empty(), "it says nothing");
    }
}
