//! Generated error control: each way is what it is made to be, every row is known by the packet, and the tally takes no
//! answer that the error control does not allow.

mod common;

use std::collections::BTreeSet;
use std::fs;
use std::path::{Path, PathBuf};
use std::process::{self, Output};

use common::packing::line;
use common::{hex, Unit};
use second::cases::{self, Command};
use second::control_rows::{self, marked, right_value, Marked, METHODS};
use second::hexline;
use second::map::{Flags, Rights};
use second::random::Random;
use second::refusal::Refusal;
use second::sample_control::{self, Sent, Turns, Way};
use second::sample_map;
use second::sample_write;
use second::tc::{self, Method};
use second::terminal::Verdict;
use second::write_rows;

fn run(program: &str, arguments: &[&str]) -> Output {
    process::Command::new(program).args(arguments).output().expect("the program starts")
}

/// A file for one test with these octets.
fn file(name: &str, octets: &[u8]) -> PathBuf {
    let path = Path::new(env!("CARGO_TARGET_TMPDIR")).join(name);
    fs::write(&path, octets).expect("the file can be written");
    path
}

/// The tally of these lines with these answers.
fn tally(name: &str, input: &str, output: &[u8]) -> Output {
    let (input, output) = (file(&format!("{name}.in"), input.as_bytes()), file(&format!("{name}.out"), output));
    run(env!("CARGO_BIN_EXE_tally"), &[&input.to_string_lossy(), &output.to_string_lossy()])
}

/// What this implementation answers.
fn answered(lines: &str) -> Vec<u8> {
    let mut answers = Vec::new();
    cases::run(&mut lines.as_bytes(), &mut answers).expect("a vector takes everything");
    answers
}

/// The rows of a tally's text that were reached and have a flag in them.
fn rows(name: &str, lines: &str) -> Vec<String> {
    let tallied = tally(name, lines, &answered(lines));
    assert_eq!(tallied.status.code(), Some(1), "{lines}");
    let text = String::from_utf8_lossy(&tallied.stdout);
    let rows = text.lines().filter(|row| !row.starts_with("NEVER")).filter_map(|row| row.trim_start().split_once("  "));
    rows.map(|(_, row)| row).filter(|row| row.contains("flag ") || row.contains(" W ")).map(String::from).collect()
}

#[test]
fn every_way_is_what_it_is_made_to_be() {
    let mut random = Random::new(11);
    let mut map = sample_map::sound(&mut random, 60, 3);
    map.profile.flags = Flags::ALL;
    for area in &mut map.profile.areas {
        area.rights = Rights::ALL;
    }
    let mut unit = Unit::with(map.profile, map.store_octets);
    for way in sample_control::ways() {
        for request in [None, Some(second::blocks::MemoryRequest::Check), Some(second::blocks::MemoryRequest::Load)] {
            let packet = sample_control::packet(&mut random, &map.profile, request, way);
            let (body, received) = packet.split_last_chunk::<2>().expect("its error control");
            let right = right_value(way.method, body);
            assert_eq!(control_rows::method(&packet), Some(way.method), "{way:?}");
            assert!(way.marked.is_none_or(|wanted| marked(way.method, right) == wanted), "{way:?}");
            let verdict = unit.send(&packet).verdict;
            // Values that are the same by chance are right all the same.
            let expected = match (u16::from_be_bytes(*received) == right, way.wrong_field) {
                (false, _) => common::refused(2, right),
                (true, Some(field)) => common::refused(16, field),
                (true, None) => Verdict::Accepted,
            };
            assert_eq!(verdict, expected, "{way:?}");
        }
    }
}

#[test]
fn there_is_a_way_for_each_row() {
    let profile = hexline::profile();
    let mut random = Random::new(12);
    let mut turns = Turns::default();
    let mut unit = Unit::new();
    let mut reached = BTreeSet::new();
    // Twice, for a value that is the same by chance.
    for _ in 0..2 * turns.round() {
        let packet = turns.packet(&mut random, &profile);
        let refused = match unit.send(&packet).verdict {
            Verdict::Accepted => None,
            Verdict::Refused(refusal) => Some(refusal),
        };
        reached.extend(control_rows::packet_rows(&packet, refused).expect("what the error control allows"));
    }
    let missing: Vec<_> = control_rows::wanted().into_iter().filter(|row| !reached.contains(row)).collect();
    assert!(missing.is_empty(), "{missing:?}");
    assert_eq!(control_rows::wanted().len(), 56);
    assert_eq!(sample_control::ways().len(), 50);
}

#[test]
fn every_way_of_w_is_what_it_is_made_to_be() {
    let mut random = Random::new(13);
    let mut reached = BTreeSet::new();
    for _ in 0..20 {
        for way in sample_write::ways() {
            let octets = sample_write::octets(&mut random, 5, way);
            let text = format!("W {}", line(&octets)).trim_end().to_owned();
            let printed = String::from_utf8(answered(&text)).expect("digits");
            let begin = match way {
                sample_write::Way::Written(_) | sample_write::Way::Marked(..) => "0000 ",
                sample_write::Way::Pid(_) | sample_write::Way::Count(_) | sample_write::Way::Ack(_) => "0132 0000 ",
                sample_write::Way::FieldOfAll(_) => "0132 0000 ",
                sample_write::Way::Data(_) | sample_write::Way::DataOfBoth(_) => "0133 0000 ",
                sample_write::Way::Room(_) => "0134 0000 ",
                _ => "0200\n",
            };
            assert!(printed.starts_with(begin), "{way:?} {text} {printed}");
            assert_eq!(sample_write::written(&octets).is_some(), begin == "0000 ", "{way:?}");
            match cases::parse(text.as_bytes()) {
                Some(Command::WritePacket(fields)) => {
                    assert_eq!(write_rows::written(&fields), sample_write::written(&octets), "{way:?}");
                    let rows = write_rows::rows(&fields, printed.trim_end_matches('\n').as_bytes());
                    reached.extend(rows.expect("what it has to print"));
                }
                _ => reached.extend(write_rows::bad_rows(text.as_bytes()).into_iter().map(String::from)),
            }
        }
    }
    let wanted = write_rows::wanted().into_iter().chain(write_rows::BAD.map(String::from));
    let missing: Vec<_> = wanted.filter(|row| !reached.contains(row)).collect();
    assert!(missing.is_empty(), "{missing:?}");
}

#[test]
fn a_packet_is_written_again() {
    let profile = hexline::profile();
    let mut random = Random::new(14);
    for method in METHODS {
        for _ in 0..50 {
            let mut packet = second::sample::short(&mut random, &profile, None, method);
            let octets = sample_write::rewriting(&packet);
            let written = sample_write::written(&octets).expect("it is written");
            packet[9] = 0;
            assert_eq!(packet[..10], written[..10]);
            assert_eq!(tc::read(&written).map(|read| read.checksum_flag), Ok(method.flag()));
        }
    }
}

/// Rows of single packets, each by hand.
#[test]
fn rows_are_known_by_the_packet() {
    for (packet, expected) in [
        ("185CC00000050911010002A8", &["flag 0 accepted (17,1)"][..]),
        ("185CC0000005191101000167", &["flag 1 accepted (17,1)"]),
        ("185CC0000005091101001AC0", &["flag 0 refused  2 the other method's value"]),
        ("185CC000000519110100B1E8", &["flag 1 refused  2 the other method's value"]),
        ("185CC0000005091101000167", &["flag 0 refused  2 a value right for the other flag"]),
        ("185CC00000051911010002A8", &["flag 1 refused  2 a value right for the other flag"]),
        ("185CC000000509110100B1E8", &["flag 0 refused  2 its method's value for the other flag"]),
        ("185CC0000005191101001AC0", &["flag 1 refused  2 its method's value for the other flag"]),
        ("185CC00000050911010003A8", &["flag 0 refused  2 first octet wrong"]),
        ("185CC00000050911010002FF", &["flag 0 refused  2 second octet wrong"]),
        ("185CC000000509110100A802", &["flag 0 refused  2 octets exchanged"]),
        ("185CC0000005191101006701", &["flag 1 refused  2 octets exchanged"]),
        ("185CC0000005091101001234", &[]),
        ("185CC040000509110100FF6A", &["flag 0 accepted (17,1)", "flag 0 accepted, FF in the first octet"]),
        ("185CC0E7000509110100C2FF", &["flag 0 accepted (17,1)", "flag 0 accepted, FF in the second octet"]),
        ("185CC19B00050911010EFFFF", &["flag 0 accepted (17,1)", "flag 0 accepted, FF in both octets"]),
        (
            "185CC040000509110100006A",
            &["flag 0 refused  2 FF in the first octet, 00 sent for first", "flag 0 refused  2 first octet wrong"],
        ),
        (
            "185CC0E7000509110100C200",
            &["flag 0 refused  2 FF in the second octet, 00 sent for second", "flag 0 refused  2 second octet wrong"],
        ),
        (
            "185CC19B00050911010E00FF",
            &["flag 0 refused  2 FF in both octets, 00 sent for first", "flag 0 refused  2 first octet wrong"],
        ),
        (
            "185CC19B00050911010EFF00",
            &["flag 0 refused  2 FF in both octets, 00 sent for second", "flag 0 refused  2 second octet wrong"],
        ),
        ("185CC19B00050911010E0000", &["flag 0 refused  2 FF in both octets, 00 sent for both"]),
        ("185CC0BA000519110100005D", &["flag 1 accepted (17,1)", "flag 1 accepted, 00 in the first octet"]),
        (
            "185CC0BA000519110100FF5D",
            &["flag 1 refused  2 00 in the first octet, FF sent for first", "flag 1 refused  2 first octet wrong"],
        ),
        ("185CC0870005191101930000", &["flag 1 accepted (17,1)", "flag 1 accepted, 00 in both octets"]),
        ("385CC000000509110100A0E9", &["flag 0 refused 16 detail 1"]),
        (
            "385CC00000050911010023CD",
            &[
                "flag 0 refused  2 the other method's value",
                "flag 0 refused  2 the other method's value, field 1 wrong",
            ],
        ),
        (
            "185CC0000005391101001169",
            &[
                "flag 1 refused  2 the other method's value",
                "flag 1 refused  2 the other method's value, field 5 wrong",
            ],
        ),
        // 0 and 1 are no refusals by error control.
        ("186CC0000005001101008E15", &[]),
        ("185CC0000006091101001234", &[]),
        ("185CC0", &[]),
    ] {
        assert_eq!(rows("known-packet", &format!("X {packet}\n")), expected, "{packet}");
    }
}

#[test]
fn rows_of_reading_and_writing() {
    for (lines, expected) in [
        ("R 185CC00000050911010002A8\n", &["R flag 0 read"][..]),
        ("R 185CC0000005191101000167\n", &["R flag 1 read"]),
        ("R 185CC0000005091101001AC0\n", &["R flag 0 refused  2"]),
        ("R 185CC0000005291101006129\n", &["R flag 0 refused 16"]),
        ("R 185CC00000\n", &[]),
        ("W 05000009001101000C\n", &["W flag 0 written"]),
        ("W 05004009001101000C\n", &["W flag 0 written", "W flag 0 written, FF in the first octet"]),
        ("W 05000009001101000B\n", &["W flag 0 refused 52"]),
        ("W 80000009001101000C\n", &["W flag 0 refused 50 for the PID alone"]),
        ("W 80000009011101000C\n", &["W flag 1 refused 50 for the PID alone"]),
        ("W 80000009001101000B\n", &[]),
        ("W 05000009021101000C\n", &["bad line W flag 2"]),
        ("W 05000009101101000C\n", &["bad line W flag 16"]),
        ("W 05000009FF1101000C\n", &["bad line W flag 255"]),
        ("W 05000009031101000C\n", &["bad line W another flag above 1"]),
        ("W 05400009021101000C\n", &["bad line W flag 2", "bad line W flag above 1 and a field for 50"]),
        ("W 0500000901110100\n", &["bad line W of 8 octets"]),
        // Eight octets whose fifth is no flag, and seven.
        ("W 050000091101000E\n", &[]),
        ("W 05000009011101\n", &[]),
        (
            "W 05000009001101000C\nR 185CC00000050911010002A8\n",
            &["R flag 0 read", "R flag 0 read, which W wrote", "W flag 0 written"],
        ),
        ("W 05000009001101000C\nR 185CC0000005191101000167\n", &["R flag 1 read", "W flag 0 written"]),
        (
            "W 05000009001101000C\nX 185CC00000050911010002A8\n",
            &["W flag 0 written", "flag 0 accepted (17,1)", "flag 0 accepted, which W wrote"],
        ),
        ("W 05000009001101000B\nX 185CC00000050911010002A8\n", &["W flag 0 refused 52", "flag 0 accepted (17,1)"]),
    ] {
        assert_eq!(rows("known-line", lines), expected, "{lines}");
    }
}

/// 1D0F is the CRC of two zero octets, FFFF their ISO checksum.
#[test]
fn a_check_report_has_the_crc() {
    let check = "X 185CC000000D0006090001010000100000012576\n";
    let report =
        |value: &str| format!("0859C000001300000000000000060A000101000010000001{value}\n0000 0000 001A 0000 0001\n");
    let row = "flag 0 accepted (6,9), reported by the CRC, which is not the ISO checksum";
    assert!(rows("check-report", check).contains(&row.into()));
    assert_eq!(answered(check), report("1D0F").into_bytes());
    assert_eq!(tally("check-report", check, report("1D0F").as_bytes()).status.code(), Some(1));
    assert_eq!(tally("check-report", check, report("FFFF").as_bytes()).status.code(), Some(2));
}

#[test]
fn answers_that_the_error_control_does_not_allow_are_not_tallied() {
    let served = "0859C000000900000000000000110200\n0000 0000 0010 0000 0001\n".to_string();
    let refused = |control: &str, detail: &str| {
        format!("0851C000001100000000000000010200185C{control}0002{detail}\n0102 {detail} 0018 0001 0000\n")
    };
    let read = |count: &str, flag: &str| format!("0000 0000 005C {count} {flag} 00 11 01 00 \n");
    let not_read = |detail: &str| format!("0102 {detail} 0000 0000 00 00 00 00 00 \n");
    // Ack 0 and count 0: 2F84 by ISO, E9B7 by CRC; with flag 1 F210 by CRC.
    for (input, right, wrong) in [
        ("X 185CC0000005001101002F84", served.clone(), refused("C000", "2F84")),
        ("X 185CC0000005001101002F84", served.clone(), refused("C000", "E9B7")),
        ("X 185CC000000500110100E9B7", refused("C000", "2F84"), served.clone()),
        ("X 185CC000000500110100E9B7", refused("C000", "2F84"), refused("C000", "E9B7")),
        ("X 185CC000000510110100F210", served.clone(), refused("C000", "F210")),
        ("X 185CC0000005091101000000", refused("C000", "02A8"), refused("C000", "0000")),
        ("X 185CC19B00050911010E0000", refused("C19B", "FFFF"), served.clone()),
        ("X 185CC19B00050911010E0000", refused("C19B", "FFFF"), refused("C19B", "0000")),
        ("R 185CC0000005001101002F84", read("0000", "00"), not_read("2F84")),
        ("R 185CC0000005001101002F84", read("0000", "00"), "0000 0001 005C 0000 00 00 11 01 00 \n".into()),
        ("R 185CC0000005001101002F84", read("0000", "00"), "0200\n".into()),
        ("R 185CC000000500110100E9B7", not_read("2F84"), read("0000", "00")),
        ("R 185CC000000500110100E9B7", not_read("2F84"), not_read("E9B7")),
        (
            "W 05000000001101000C",
            "0000 000C 185CC0000005001101002F84\n".into(),
            "0000 000C 185CC000000500110100E9B7\n".into(),
        ),
        (
            "W 05000000001101000C",
            "0000 000C 185CC0000005001101002F84\n".into(),
            "0000 000C 185CC000000510110100F210\n".into(),
        ),
        (
            "W 05004009001101000C",
            "0000 000C 185CC040000509110100FF6A\n".into(),
            "0000 000C 185CC040000509110100006A\n".into(),
        ),
        (
            "W 05000000001101000C",
            "0000 000C 185CC0000005001101002F84\n".into(),
            "0134 0000 EEEEEEEEEEEEEEEEEEEEEEEE\n".into(),
        ),
        ("W 80000000001101000C", "0132 0000 EEEEEEEEEEEEEEEEEEEEEEEE\n".into(), "0200\n".into()),
        ("W 05000000021101000C", "0200\n".into(), "0000 000C 185CC0000005001101002F84\n".into()),
    ] {
        assert_eq!(tally("not-allowed", input, right.as_bytes()).status.code(), Some(1), "{input} {right}");
        assert_eq!(tally("not-allowed", input, wrong.as_bytes()).status.code(), Some(2), "{input} {wrong}");
    }
    // What W wrote has to read back as its fields.
    let lines = "W 05000000001101000C\nR 185CC0000005001101002F84";
    let written = "0000 000C 185CC0000005001101002F84\n";
    assert_eq!(tally("read-back", lines, format!("{written}{}", read("0000", "00")).as_bytes()).status.code(), Some(1));
    for other in [read("0000", "01"), read("0001", "00"), read("0000", "00").replace("005C", "006C")] {
        assert_eq!(tally("read-back", lines, format!("{written}{other}").as_bytes()).status.code(), Some(2), "{other}");
    }
}

#[test]
fn rows_of_error_control_are_wanted() {
    let tallied = tally("no-control", "C ", b"FFFF\n");
    assert_eq!(tallied.status.code(), Some(1));
    let text = String::from_utf8_lossy(&tallied.stdout);
    let missing =
        |begin: &str| text.lines().filter(|line| line.starts_with(&format!("NEVER REACHED: {begin}"))).count();
    assert_eq!(missing("flag "), 60);
    assert_eq!(missing("R flag "), 8);
    assert_eq!(missing("W flag "), 22);
    assert_eq!(missing("bad line W "), 6);
}

/// Every row is among the packets of 2,000 lines, whatever the seed.
#[test]
fn generated_lines_have_every_way() {
    for seed in ["1", "2", "3", "20261115"] {
        let made = run(env!("CARGO_BIN_EXE_linegen"), &[seed, "2000"]);
        let text = String::from_utf8_lossy(&made.stdout).into_owned();
        let mut unit = Unit::new();
        let mut reached = BTreeSet::new();
        let digits = |line: &&str| {
            line.len() <= 4_096 && line.len().is_multiple_of(2) && line.bytes().all(|digit| digit.is_ascii_hexdigit())
        };
        for packet in text.lines().filter(digits).map(hex) {
            let refused = match unit.send(&packet).verdict {
                Verdict::Accepted => None,
                Verdict::Refused(refusal) => Some(refusal),
            };
            reached.extend(control_rows::packet_rows(&packet, refused).expect("what the error control allows"));
        }
        let missing: Vec<_> = control_rows::wanted().into_iter().filter(|row| !reached.contains(row)).collect();
        assert!(missing.is_empty(), "{seed}: {missing:?}");
    }
}

/// Both sums of every packet with flag 0 that passes check 2 are 0 modulo 255, and no octet of its error control is 00.
#[test]
fn both_sums_of_what_is_accepted_are_0() {
    let made = run(env!("CARGO_BIN_EXE_generate"), &["83", "3000"]);
    let mut checked = 0;
    for line in made.stdout.split(|octet| *octet == b'\n') {
        let Some(Command::Answer(packet)) = cases::parse(line) else { continue };
        let passed = !matches!(tc::read(&packet), Err(Refusal { number: 42 | 1 | 2, .. }));
        if !passed || control_rows::method(&packet) != Some(Method::Iso) {
            continue;
        }
        let plain: u32 = packet.iter().map(|octet| u32::from(*octet)).sum();
        let by_place: u32 = (1..).zip(packet.iter().rev()).map(|(place, octet)| place * u32::from(*octet)).sum();
        assert_eq!((plain % 255, by_place % 255), (0, 0), "{packet:02X?}");
        assert!(!packet[packet.len() - 2..].contains(&0), "{packet:02X?}");
        checked += 1;
    }
    assert!(checked > 500, "{checked}");
}

#[test]
fn marks_are_those_of_the_value() {
    for (method, value, expected) in [
        (Method::Iso, 0xFF6A, Marked::First),
        (Method::Iso, 0xC2FF, Marked::Second),
        (Method::Iso, 0xFFFF, Marked::Both),
        (Method::Iso, 0x02A8, Marked::Neither),
        (Method::Crc, 0x005D, Marked::First),
        (Method::Crc, 0xE400, Marked::Second),
        (Method::Crc, 0x0000, Marked::Both),
        (Method::Crc, 0xFFFF, Marked::Neither),
    ] {
        assert_eq!(marked(method, value), expected);
    }
    let way = Way { method: Method::Iso, wrong_field: None, marked: Some(Marked::Both), sent: Sent::BothInverted };
    let packet = sample_control::packet(&mut Random::new(15), &hexline::profile(), None, way);
    assert_eq!(packet[10..], [0, 0]);
}
