//! The program `cases`: every row of its table, its example and its bad lines. Where CASES_COMMAND names
//! another program, one word a line, it is held to the same.

mod common;

use std::fs;
use std::path::Path;
use std::process::Command;

use second::cases;
use second::crc;
use second::iso;

const GOOD: &str = "X 185CC0000005191101000167\n";
/// The profile that stands at the start.
const AT_THE_START: &str = "05 0F 01  01 00001000 00000040 00000000 07";

fn run(input: impl AsRef<[u8]>) -> String {
    common::written("CASES_COMMAND", cases::run, input.as_ref())
}

fn x(packet: &[u8]) -> String {
    format!("X {}\n", packet.iter().map(|octet| format!("{octet:02X}")).collect::<String>())
}

/// The R line of a packet, without its newline.
fn r(packet: &[u8]) -> String {
    format!("R {}", x(packet).trim_start_matches("X ").trim_end())
}

/// A P or V line of a profile whose text has spaces in it.
fn line(letter: char, profile: &str) -> String {
    format!("{letter} {}\n", profile.replace(' ', ""))
}

fn command() -> Command {
    common::command("CASES_COMMAND").unwrap_or_else(|| Command::new(env!("CARGO_BIN_EXE_cases")))
}

#[test]
fn the_example() {
    assert_eq!(
        run("X 185CC0000005191101000167\nC 0000\n"),
        "0851C000000D00000000000000010100185CC0000859C0000009000000000000001102000851C001000D00000000000000010700185CC000
0000 0000 0038 0002 0001
1D0F
"
    );
}

#[test]
fn x_refused_with_and_without_a_frame() {
    assert_eq!(run("X \n"), "\n012A 0000 0000 0000 0000\n");
    assert_eq!(run("X 185CC00000\n"), "\n012A 0000 0000 0000 0000\n");
    assert_eq!(
        run("X 185cc0000005191101000168"),
        "0851C000001100000000000000010200185CC00000020167\n0102 0167 0018 0001 0000\n"
    );
    let longest = format!("X {}\n", "00".repeat(69_999));
    assert_eq!(run(longest), "0851C000001100000000000000010200000000000001FFFF\n0101 FFFF 0018 0001 0000\n");
    assert_eq!(run(format!("X {}\n", "00".repeat(70_000))), "0200\n");
}

#[test]
fn p_sets_the_profile() {
    // PID 6, connection only, no areas.
    let packet = x(&common::sealed("186C C000 0005 10 11 01 00"));
    assert_eq!(run(format!("P 060800\n{packet}")), "0869C000000900000000000000110200\n0000 0000 0010 0000 0001\n");
    // Two areas; the second may be dumped and nothing else.
    let map = "P 050F0201000010000000000200000000070280000000000000030000000202\n";
    let dump = x(&common::request(0, 6, 5, "02 01 80000001 0001"));
    let check = x(&common::request(0, 6, 9, "02 01 80000001 0001"));
    assert_eq!(
        run(format!("{map}S 00001111222233334444\n{dump}{check}")),
        "0859C00000130000000000000006060002018000000100013333\n0000 0000 001A 0000 0001\n\
         0851C000001100000000000000010200185CC00000120002\n0112 0002 0018 0001 0001\n"
    );
}

#[test]
fn p_takes_any_count_and_gives_zero_places() {
    for unsound in ["P 050F01\n", "P 050F09\n", "P 050FFF\n", "P 800F00\n", "P FF0F00\n"] {
        assert_eq!(run(format!("{unsound}{GOOD}")), "\n0129 0000 0000 0000 0000\n", "{unsound}");
    }
    // A place past the count is ignored.
    let ignored = format!("P 050F000100001000000000000000000007\n{GOOD}");
    assert!(run(ignored).ends_with("\n0000 0000 0038 0002 0001\n"));
}

/// After the lines before, asks about each profile in turn: no answer depends on what was asked earlier.
fn asked(before: &str, rows: &[(&str, &str)]) {
    let questions: String = rows.iter().map(|(profile, _)| line('V', profile)).collect();
    let printed = run(before.to_owned() + &questions);
    for (answer, (profile, expected)) in printed.lines().zip(rows) {
        assert_eq!(answer, *expected, "{before}{profile}");
    }
    assert_eq!(printed.lines().count(), rows.len(), "{before}");
}

#[test]
fn the_example_of_v() {
    let input = "P 0501010100001010000000100000001401
V 050F010100001000000000200000000407
V 050F010100001000000000200000000507
V 0501010100001010000000100000001401
";
    assert_eq!(run(input), "01\n00\n01\n");
}

#[test]
fn v_beside_the_profile_at_the_start() {
    asked(
        "",
        &[
            (AT_THE_START, "01"),
            // PID, each flag, each right, memory ID.
            ("06 0F 01  01 00001000 00000040 00000000 07", "00"),
            ("04 0F 01  01 00001000 00000040 00000000 07", "00"),
            ("05 0E 01  01 00001000 00000040 00000000 07", "00"),
            ("05 0D 01  01 00001000 00000040 00000000 07", "00"),
            ("05 0B 01  01 00001000 00000040 00000000 07", "00"),
            ("05 07 01  01 00001000 00000040 00000000 07", "00"),
            ("05 00 01  01 00001000 00000040 00000000 07", "00"),
            ("05 0F 01  01 00001000 00000040 00000000 06", "00"),
            ("05 0F 01  01 00001000 00000040 00000000 05", "00"),
            ("05 0F 01  01 00001000 00000040 00000000 03", "00"),
            ("05 0F 01  01 00001000 00000040 00000000 00", "00"),
            ("05 0F 01  02 00001000 00000040 00000000 07", "00"),
            ("05 0F 01  00 00001000 00000040 00000000 07", "00"),
            // Starts later, ends earlier, other store words.
            ("05 0F 01  01 00001001 0000003F 00000001 07", "00"),
            ("05 0F 01  01 00001000 0000003F 00000000 07", "00"),
            ("05 0F 01  01 00000FFF 00000040 00000000 07", "00"),
            ("05 0F 01  01 00001001 00000040 00000000 07", "00"),
            // Not sound: past the store, no length, count, PID.
            ("05 0F 01  01 00001000 00000041 00000000 07", "00"),
            ("05 0F 01  01 00000FFF 00000041 00000000 07", "00"),
            ("05 0F 01  01 00001000 00000040 00000001 07", "00"),
            ("05 0F 01  01 00001000 00000000 00000000 07", "00"),
            ("05 0F 09  01 00001000 00000040 00000000 07", "00"),
            ("05 0F FF  01 00001000 00000040 00000000 07", "00"),
            ("85 0F 01  01 00001000 00000040 00000000 07", "00"),
            // The count: the area is not used; a place that is not given is used, and has no length.
            ("05 0F 00  01 00001000 00000040 00000000 07", "00"),
            ("05 0F 00", "00"),
            ("05 0F 01", "00"),
            ("05 0F 02  01 00001000 00000040 00000000 07", "00"),
            // A second area shares a word; past the count it is ignored.
            ("05 0F 02  01 00001000 00000040 00000000 07  02 00000000 00000001 0000003F 07", "00"),
            ("05 0F 01  01 00001000 00000040 00000000 07  02 00000000 00000001 0000003F 07", "01"),
            ("05 0F 01  01 00001000 00000040 00000000 07  01 FFFFFFFF FFFFFFFF FFFFFFFF 00", "01"),
            ("05 0F 01  02 00000000 00000001 0000003F 07  01 00001000 00000040 00000000 07", "00"),
            ("05 0F 02  02 00000000 00000001 0000003F 07  01 00001000 00000040 00000000 07", "00"),
        ],
    );
    assert_eq!(run("V 050f010100001000000000400000000007"), "01\n");
}

#[test]
fn v_flags_and_rights_that_are_not_needed() {
    let before = line('P', "05 05 01  01 00001000 00000040 00000000 02");
    asked(
        &before,
        &[
            ("05 05 01  01 00001000 00000040 00000000 02", "01"),
            ("05 07 01  01 00001000 00000040 00000000 03", "01"),
            ("05 0F 01  01 00001000 00000040 00000000 07", "01"),
            ("05 0D 01  01 00001000 00000040 00000000 06", "01"),
            ("05 0E 01  01 00001000 00000040 00000000 07", "00"),
            ("05 0B 01  01 00001000 00000040 00000000 07", "00"),
            ("05 0F 01  01 00001000 00000040 00000000 05", "00"),
        ],
    );
}

#[test]
fn v_addresses_and_store_words() {
    let before = line('P', "05 0F 01  01 00001010 00000010 00000014 07");
    asked(
        &before,
        &[
            ("05 0F 01  01 00001010 00000010 00000014 07", "01"),
            ("05 0F 01  01 0000100F 00000011 00000013 07", "01"),
            ("05 0F 01  01 00001010 00000011 00000014 07", "01"),
            ("05 0F 01  01 00001000 00000020 00000004 07", "01"),
            ("05 0F 01  01 00000FFC 00000040 00000000 07", "01"),
            // Starts one later, ends one earlier.
            ("05 0F 01  01 00001011 0000000F 00000015 07", "00"),
            ("05 0F 01  01 00001011 00000010 00000015 07", "00"),
            ("05 0F 01  01 00001010 0000000F 00000014 07", "00"),
            ("05 0F 01  01 0000100F 00000010 00000013 07", "00"),
            // Store words: one off, not shifted with the start.
            ("05 0F 01  01 00001010 00000010 00000013 07", "00"),
            ("05 0F 01  01 00001010 00000010 00000015 07", "00"),
            ("05 0F 01  01 00001000 00000020 00000005 07", "00"),
            ("05 0F 01  01 00001000 00000020 00000003 07", "00"),
            ("05 0F 01  01 00001000 00000020 00000014 07", "00"),
            // Split under two IDs, either part under the right one.
            ("05 0F 02  01 00001010 00000008 00000014 07  02 00001018 00000008 0000001C 07", "00"),
            ("05 0F 02  02 00001010 00000008 00000014 07  01 00001018 00000008 0000001C 07", "00"),
            // Another area before it; one with the same ID, which is not sound.
            ("05 0F 02  07 00001010 00000010 00000024 00  01 00001010 00000010 00000014 07", "01"),
            ("05 0F 02  01 00001010 00000010 00000024 00  01 00001010 00000010 00000014 07", "00"),
            ("05 0F 02  01 00001010 00000010 00000014 07  01 00001010 00000010 00000024 00", "00"),
            // A first word, or a sum of two, of 32 bits.
            ("05 0F 02  01 00001010 00000010 00000014 07  02 00000000 00000001 FFFFFFFF 07", "00"),
            ("05 0F 02  01 00001010 00000010 00000014 07  02 00000000 00000001 7FFFFFFF 07", "00"),
            ("05 0F 02  01 00001010 00000010 00000014 07  02 00000000 00000001 80000000 07", "00"),
            ("05 0F 02  01 00001010 00000010 00000014 07  02 00000000 FFFFFFDC 00000024 07", "00"),
            ("05 0F 02  01 00001010 00000010 00000014 07  02 FFFFFFFF 00000002 00000024 07", "00"),
            ("05 0F 02  01 00001010 00000010 00000014 07  02 FFFFFFFE 00000002 00000024 07", "01"),
        ],
    );
}

#[test]
fn v_at_the_end_of_the_addresses() {
    let before = line('P', "05 0F 01  01 FFFFFFF0 00000010 00000010 07");
    asked(
        &before,
        &[
            ("05 0F 01  01 FFFFFFF0 00000010 00000010 07", "01"),
            ("05 0F 01  01 FFFFFFE0 00000020 00000000 07", "01"),
            ("05 0F 01  01 FFFFFFE0 0000001F 00000000 07", "00"),
            ("05 0F 01  01 FFFFFFF0 0000000F 00000010 07", "00"),
            ("05 0F 01  01 FFFFFFF0 00000011 00000010 07", "00"),
            ("05 0F 01  01 00000000 00000010 00000020 07", "00"),
        ],
    );
    // The wider ends there, the narrower before.
    let before = line('P', "05 0F 01  01 FFFFFFE8 00000008 00000008 07");
    asked(&before, &[("05 0F 01  01 FFFFFFE0 00000020 00000000 07", "01")]);
}

#[test]
fn v_beside_a_profile_that_is_not_sound() {
    // Two areas of one ID within one; no length; counts above 8; what both have to fail.
    for (standing, asked_about) in [
        (
            "05 0F 02  01 00001000 00000020 00000000 07  01 00001020 00000020 00000020 07",
            "05 0F 01  01 00001000 00000040 00000000 07",
        ),
        ("05 0F 01  01 00001008 00000000 00000008 07", "05 0F 01  01 00001000 00000040 00000000 07"),
        ("05 0F 09  01 00001000 00000040 00000000 07", "05 0F 01  01 00001000 00000040 00000000 07"),
        ("05 0F FF", "05 0F 00"),
        ("80 0F 00", "80 0F 00"),
        ("FF 0F 00", "7F 0F 00"),
        ("05 0F 01  01 FFFFFFF1 00000010 00000000 07", "05 0F 01  01 FFFFFFF1 00000010 00000000 07"),
        ("05 0F 01  01 00001000 00000041 00000000 07", "05 0F 01  01 00001000 00000041 00000000 07"),
        (
            "05 0F 02  01 00001000 00000020 00000000 07  02 00001000 00000020 0000001F 07",
            "05 0F 02  01 00001000 00000020 00000000 07  02 00001000 00000020 0000001F 07",
        ),
    ] {
        asked(&line('P', standing), &[(asked_about, "00"), (standing, "00")]);
    }
    // Eight areas, and a count of eight, of nine.
    let areas: String =
        (0..8).map(|number| format!("{:02X} 00001000 00000008 {:08X} 07 ", number + 1, number * 8)).collect();
    let (eight, nine) = (format!("05 0F 08 {areas}"), format!("05 0F 09 {areas}"));
    asked(&line('P', &eight), &[(&eight, "01"), (&nine, "00"), (AT_THE_START, "00")]);
    asked(&line('P', &nine), &[(&eight, "00"), (&nine, "00")]);
    // The eighth is looked at.
    let other = eight.replacen("00000038 07", "00000038 05", 1);
    assert_ne!(eight, other);
    asked(&line('P', &eight), &[(&other, "00")]);
    asked(&line('P', &other), &[(&eight, "01")]);
}

#[test]
fn v_without_areas_and_past_the_count() {
    asked(&line('P', "05 0F 00"), &[("05 0F 00", "01"), (AT_THE_START, "01"), ("05 0E 00", "00"), ("06 0F 00", "00")]);
    // What stands past the count of the narrower is not asked for.
    let before = line('P', "05 0F 01  01 00001000 00000010 00000000 07  02 00002000 00000010 00000010 07");
    asked(
        &before,
        &[
            ("05 0F 01  01 00001000 00000010 00000000 07", "01"),
            ("05 0F 00  01 00001000 00000010 00000000 07", "00"),
            (AT_THE_START, "01"),
        ],
    );
}

#[test]
fn v_is_over_the_store_that_stands() {
    let words = |count: u32| format!("05 0F 01  01 00001000 {count:08X} 00000000 07");
    let store = |octets: usize| format!("S {}\n", "00".repeat(octets));
    // An odd store and one that is too long are refused by the terminal, and no part of the question.
    for (length, octets, answer) in [
        (64, 128, "01"),
        (64, 127, "00"),
        (63, 127, "01"),
        (64, 129, "01"),
        (65, 129, "00"),
        (32_768, 65_536, "01"),
        (32_769, 65_537, "00"),
        (32_769, 65_538, "01"),
        (32_800, 65_600, "01"),
        (1, 1, "00"),
        (1, 0, "00"),
    ] {
        let before = line('P', &words(length)) + &store(octets);
        assert_eq!(run(before + &line('V', &words(length))), format!("{answer}\n"), "{length} {octets}");
    }
    assert_eq!(run(format!("P 050F00\nS 00\n{GOOD}V 050F00\n")), "\n0129 0000 0000 0000 0000\n01\n");
    assert_eq!(run("P 050F00\nS \nV 050F00\n"), "01\n");
    // The same question before and after the store grows.
    let wide = line('V', "05 0F 01  01 00001000 00000041 00000000 07");
    assert_eq!(run(format!("{wide}{}{wide}", store(130))), "00\n01\n");
    // Counts and the output buffer are no part either.
    assert_eq!(run(format!("K 4000FFFF\nB 000000\n{}", line('V', AT_THE_START))), "01\n");
}

#[test]
fn v_sets_nothing() {
    let dump = x(&common::request(9, 6, 5, "02 01 00001050 0001"));
    let lines = [
        "S 00112233445566778899\n".to_string(),
        line('P', "05 07 01  01 00001000 00000004 00000001 07"),
        "K 3FFE0005\n".into(),
        "T 010203040506\n".into(),
        "B 1001A5\n".into(),
        x(&common::request(9, 6, 2, "01 01 00001001 0001 BEEF")),
        "M\n".into(),
        "O\n".into(),
        x(&common::request(9, 6, 5, "01 02 00001000 0002 00001003 0001")),
        dump.clone(),
        GOOD.into(),
        "M\n".into(),
        "O\n".into(),
        "C 0000\n".into(),
    ];
    let asked = [
        // Wider than the profile that the second line sets, but not than the one at the start.
        (line('V', "05 0F 02  01 00001000 00000004 00000001 07  02 00001050 00000001 00000000 07"), "01\n"),
        (line('V', "06 0F 00"), "00\n"),
        (line('V', "80 00 09"), "00\n"),
    ];
    let without = run(lines.concat());
    let mut answers = without.lines();
    let (mut input, mut output) = (String::new(), String::new());
    for (number, line) in lines.iter().enumerate() {
        input.push_str(line);
        let printed = match &line[..1] {
            "X" => 2,
            "M" | "O" | "C" => 1,
            _ => 0,
        };
        for answer in answers.by_ref().take(printed) {
            output.push_str(answer);
            output.push('\n');
        }
        for (asked, answer) in &asked {
            input.push_str(asked);
            output.push_str(if number == 0 { "00\n" } else { answer });
        }
    }
    assert_eq!(answers.next(), None);
    assert_eq!(run(input), output);
    // Memory 2 and the connection are not served by what was asked about.
    assert!(without.contains("\n0111 0002 0018 ") && without.contains("\n0103 0011 0018 "), "{without}");
}

#[test]
fn s_replaces_the_store() {
    assert_eq!(run("S 0102abCD\nM\n"), "0102ABCD\n");
    assert_eq!(run("S \nM\n"), "\n");
    assert_eq!(run(format!("S 01\n{GOOD}")), "\n0129 0000 0000 0000 0000\n");
    assert_eq!(run(format!("P 050F00\nS {}\n{GOOD}", "00".repeat(65_538))), "\n0129 0000 0000 0000 0000\n");
    assert_eq!(run(format!("S {}\n", "00".repeat(65_600))), "");
    assert_eq!(run(format!("S {}\nM\n", "00".repeat(65_601))), format!("0200\n{}\n", "00".repeat(128)));
}

#[test]
fn k_sets_both_counts() {
    assert_eq!(
        run("K 3FFF0007\nX 185CC0000005191101000167\n"),
        "0851FFFF000D00000000000000010100185CC0000859C0070009000000000000001102000851C000000D00000000000000010700185CC000
0000 0000 0038 0001 0008
"
    );
    assert_eq!(run(format!("K 4000FFFF\n{GOOD}")), "\n0129 0000 0000 4000 FFFF\n");
}

#[test]
fn t_sets_the_time() {
    assert_eq!(
        run("T 0102030405fF\nX 185CC0000005191101000168\n"),
        "0851C00000110102030405FF00010200185CC00000020167\n0102 0167 0018 0001 0000\n"
    );
}

#[test]
fn b_makes_the_buffer_and_o_prints_it() {
    assert_eq!(run("B 0003A5\nO\n"), "A5A5A5\n");
    assert_eq!(run("B 0000A5\nO\n"), "\n");
    assert_eq!(run("O\n"), format!("{}\n", "00".repeat(4_096)));
    assert_eq!(run("B 200011\nO"), format!("{}\n", "11".repeat(8_192)));
    assert_eq!(run("B 200111\n"), "0200\n");
    assert_eq!(run(format!("B 0FFFA5\n{GOOD}O\n")), format!("\n0128 0000 0000 0000 0000\n{}\n", "A5".repeat(4_095)));
    let frame = "0851C000001100000000000000010200185CC00000020167";
    assert_eq!(
        run("B 1001A5\nX 185CC0000005191101000168\nO\n"),
        format!("{frame}\n0102 0167 0018 0001 0000\n{frame}{}\n", "A5".repeat(4_097 - 24))
    );
}

#[test]
fn m_prints_the_store_after_a_load() {
    let load = x(&common::request(0, 6, 2, "01 01 00001001 0001 BEEF"));
    assert_eq!(run(format!("{load}M\n")), format!("\n0000 0000 0000 0000 0000\n0000BEEF{}\n", "00".repeat(124)));
}

#[test]
fn r_reads() {
    assert_eq!(run("R 185CC0000005191101000167\n"), "0000 0000 005C 0000 01 09 11 01 00 \n");
    assert_eq!(run("R 185CC0000005191101000168\n"), "0102 0167 0000 0000 00 00 00 00 00 \n");
    assert_eq!(run("R \n"), "012A 0000 0000 0000 00 00 00 00 00 \n");
    assert_eq!(run("R 1FF3D234000807ABCDEF1122330304\n"), "0000 0000 07F3 1234 00 07 AB CD EF 112233\n");
    assert_eq!(run("R 1FF3D234000807ABCDEF112233990E\n"), "0102 0304 0000 0000 00 00 00 00 00 \n");
    let packet = x(&common::sealed("1FF3 D234 0008 17 AB CD EF 112233")).replacen('X', "R", 1);
    assert_eq!(run(packet), "0000 0000 07F3 1234 01 07 AB CD EF 112233\n");
}

/// Runs lines that print one line each, all at once, and holds each answer to what is expected there.
fn answers(rows: &[(String, String)]) {
    let lines: String = rows.iter().map(|(line, _)| format!("{line}\n")).collect();
    let printed = run(lines);
    for (answer, (line, expected)) in printed.lines().zip(rows) {
        assert_eq!(answer, expected, "{line}");
    }
    assert_eq!(printed.lines().count(), rows.len());
}

/// What R prints for an accepted connection test of PID 5 with ack 9.
fn tested(count: &str, flag: &str, pad: &str) -> String {
    format!("0000 0000 005C {count} {flag} 09 11 01 {pad} ")
}

/// What R prints for a packet that is refused.
fn not_read(number: u8, detail: &str) -> String {
    format!("01{number:02X} {detail} 0000 0000 00 00 00 00 00 ")
}

#[test]
fn r_goes_by_the_checksum_flag() {
    let rows = [
        ("185CC00000050911010002A8", tested("0000", "00", "00")),
        ("185CC0000005191101000167", tested("0000", "01", "00")),
        ("185CC0000005091101001AC0", not_read(2, "02A8")),
        ("185CC000000519110100B1E8", not_read(2, "0167")),
        ("185CC00000050911010002A9", not_read(2, "02A8")),
        ("185CC00000050911010003A8", not_read(2, "02A8")),
        ("185CC000000509110100A802", not_read(2, "02A8")),
        ("185CC000000509110100B1E8", not_read(2, "02A8")),
        ("185CC0000005191101001AC0", not_read(2, "0167")),
        ("185CC0000005091101000167", not_read(2, "02A8")),
        ("185CC00000051911010002A8", not_read(2, "0167")),
        // FF is sent for 0: in the first octet, in the second, in both.
        ("185CC040000509110100FF6A", tested("0040", "00", "00")),
        ("185CC040000509110100006A", not_read(2, "FF6A")),
        ("185CC0E7000509110100C2FF", tested("00E7", "00", "00")),
        ("185CC0E7000509110100C200", not_read(2, "C2FF")),
        ("185CC19B00050911010EFFFF", tested("019B", "00", "0E")),
        ("185CC19B00050911010E00FF", not_read(2, "FFFF")),
        ("185CC19B00050911010EFF00", not_read(2, "FFFF")),
        ("185CC19B00050911010E0000", not_read(2, "FFFF")),
        // The CRC has 00 where it is 0.
        ("185CC0BA000519110100005D", tested("00BA", "01", "00")),
        ("185CC0BA000519110100FF5D", not_read(2, "005D")),
        ("185CC40D000519110100E400", tested("040D", "01", "00")),
        ("185CC40D000519110100E4FF", not_read(2, "E400")),
        ("185CC0870005191101930000", tested("0087", "01", "93")),
        ("185CC087000519110193FFFF", not_read(2, "0000")),
        // 2 comes before 16, by the method of the flag.
        ("385CC000000509110100A0E9", not_read(16, "0001")),
        ("385CC00000050911010023CD", not_read(2, "A0E9")),
        ("085CC000000509110100B208", not_read(16, "0002")),
        ("085CC0000005091101008E56", not_read(2, "B208")),
        ("105CC0000005091101005A58", not_read(16, "0003")),
        ("105CC000000509110100508B", not_read(2, "5A58")),
        ("185C800000050911010044A6", not_read(16, "0004")),
        ("185C8000000509110100EC10", not_read(2, "44A6")),
        ("185CC0000005291101006129", not_read(16, "0005")),
        ("185CC0000005291101002D8E", not_read(2, "6129")),
        ("185CC0000005391101003629", not_read(16, "0005")),
        ("185CC0000005391101001169", not_read(2, "3629")),
        // 1 comes before 2.
        ("185CC000000609110100A5A5", not_read(1, "000C")),
        ("185CC000000509110100", not_read(1, "000A")),
    ];
    answers(&rows.clone().map(|(packet, expected)| (format!("R {packet}"), expected)));
    answers(&rows.map(|(packet, expected)| (format!("R {}", packet.to_lowercase()), expected)));
}

/// The published vectors as application data, each behind a header over which both sums are 0 modulo 255: 510 and 3825.
/// So the packet's error control is the vector's own.
#[test]
fn r_of_the_published_vectors() {
    for (header, fields, data, value) in [
        ("185CC59500070911010E", "0595 00 09 11 01 0E", "0000", "FFFF"),
        ("185CC19900080911010D", "0199 00 09 11 01 0D", "000000", "FFFF"),
        ("185CC39600090911010D", "0396 00 09 11 01 0D", "ABCDEF01", "9CF8"),
        ("185CC197000B0911010C", "0197 00 09 11 01 0C", "1456F89A0001", "24DC"),
    ] {
        let wrong = if value == "FFFF" { "0000" } else { "FFFF" };
        answers(&[
            (format!("R {header}{data}{value}"), format!("0000 0000 005C {fields} {data}")),
            (format!("R {header}{data}{wrong}"), not_read(2, value)),
        ]);
    }
}

/// Of all values there is one that is right.
#[test]
fn r_takes_one_value_alone() {
    for (body, right, accepted) in [
        ("185CC000000509110100", 0x02A8, tested("0000", "00", "00")),
        ("185CC040000509110100", 0xFF6A, tested("0040", "00", "00")),
        ("185CC19B00050911010E", 0xFFFF, tested("019B", "00", "0E")),
        ("185CC000000519110100", 0x0167, tested("0000", "01", "00")),
    ] {
        let refused = not_read(2, &format!("{right:04X}"));
        let expected = |value| if value == right { accepted.clone() } else { refused.clone() };
        let rows: Vec<_> = (0..=0xFFFF_u16).map(|value| (format!("R {body}{value:04X}"), expected(value))).collect();
        answers(&rows);
    }
}

/// The flag alone selects, whatever the other bits of its octet are. The values are got by weights and bit by bit.
#[test]
fn r_of_every_octet_with_the_flag() {
    let mut rows = Vec::new();
    for octet in 0..=255_u8 {
        let text = format!("185CC0000005{octet:02X}110100");
        let body = common::hex(&text);
        let (by_iso, by_crc) = (iso::weighted(&body), crc::bit_by_bit(crc::START, &body));
        let flag = octet >> 4 & 1;
        let (right, wrong) = if flag == 0 { (by_iso, by_crc) } else { (by_crc, by_iso) };
        let read = match octet {
            0..=31 => format!("0000 0000 005C 0000 {flag:02X} {:02X} 11 01 00 ", octet & 15),
            _ => not_read(16, "0005"),
        };
        rows.push((format!("R {text}{right:04X}"), read));
        rows.push((format!("R {text}{wrong:04X}"), not_read(2, &format!("{right:04X}"))));
    }
    answers(&rows);
}

/// The ISO checksum at every length that a packet can have. The values are got by weights; both sums are 0.
#[test]
fn r_of_every_length_with_flag_0() {
    let mut rows = Vec::new();
    for filler in ["00", "FF", "01", "80", "FE", "A7"] {
        for length in 0..=236 {
            let data = filler.repeat(length);
            let mut packet = common::sealed_by_iso(&format!("185CC000{:04X}00060200{data}", length + 5));
            let plain: u32 = packet.iter().map(|octet| u32::from(*octet)).sum();
            let by_place: u32 = (1..).zip(packet.iter().rev()).map(|(place, octet)| place * u32::from(*octet)).sum();
            assert_eq!((plain % 255, by_place % 255), (0, 0), "{length} of {filler}");
            rows.push((r(&packet), format!("0000 0000 005C 0000 00 00 06 02 00 {data}")));
            let value: String = packet[length + 10..].iter().map(|octet| format!("{octet:02X}")).collect();
            packet[length + 10] ^= 1;
            rows.push((r(&packet), not_read(2, &value)));
        }
    }
    answers(&rows);
}

#[test]
fn r_takes_more_octets_than_x() {
    let octets = |count: usize| "00".repeat(count);
    let refused = |detail: &str| format!("0101 {detail} 0000 0000 00 00 00 00 00 \n");
    assert_eq!(run(format!("R {}\n", octets(65_534))), refused("FFFE"));
    for count in [65_535, 65_536, 69_999, 70_000] {
        assert_eq!(run(format!("R {}\n", octets(count))), refused("FFFF"), "{count}");
    }
    assert_eq!(run(format!("R {}\n", octets(70_001))), "0200\n");
    assert_eq!(run(format!("X {}\n", octets(70_000))), "0200\n");
    assert_eq!(run(format!("R {}", octets(70_000))), refused("FFFF"));
}

#[test]
fn r_changes_nothing() {
    let load = common::request(9, 6, 2, "01 01 00001001 0001 BEEF");
    let read = x(&load).replacen('X', "R", 1);
    let unchanged = run(format!("{GOOD}M\nO\n"));
    assert_eq!(
        run(format!("{read}{GOOD}M\nO\n")),
        format!("0000 0000 005C 0000 01 09 06 02 00 0101000010010001BEEF\n{unchanged}")
    );
}

#[test]
fn w_writes() {
    assert_eq!(run("W 05000009011101000E\n"), "0000 000C 185CC0000005191101000167EEEE\n");
    assert_eq!(run("W 05000009011101000C\n"), "0000 000C 185CC0000005191101000167\n");
    assert_eq!(run("W 05000009001101000E\n"), "0000 000C 185CC00000050911010002A8EEEE\n");
    assert_eq!(run("W 05000009001101000C\n"), "0000 000C 185CC00000050911010002A8\n");
    for flag in ["00", "01"] {
        assert_eq!(run(format!("W 05000009{flag}1101000B\n")), "0134 0000 EEEEEEEEEEEEEEEEEEEEEE\n");
        assert_eq!(run(format!("W 05000009{flag}11010000\n")), "0134 0000 \n");
        assert_eq!(run(format!("W 80000009{flag}11010001\n")), "0132 0000 EE\n");
        assert_eq!(run(format!("W 05400009{flag}11010001\n")), "0132 0000 EE\n");
        assert_eq!(run(format!("W 05000010{flag}11010001\n")), "0132 0000 EE\n");
        assert_eq!(run(format!("W 05000009{flag}11010001{}\n", "00".repeat(237))), "0133 0000 EE\n");
        assert_eq!(run(format!("W 05000009{flag}11010000{}\n", "00".repeat(236))), "0134 0000 \n");
    }
}

#[test]
fn w_with_no_room_with_much_and_with_much_data() {
    for flag in ["00", "01"] {
        // Without room the line ends with the space, whatever is refused.
        assert_eq!(run(format!("W 80000009{flag}11010000\n")), "0132 0000 \n");
        assert_eq!(run(format!("W 05000009{flag}11010000{}\n", "00".repeat(237))), "0133 0000 \n");
        assert_eq!(run(format!("W 80000009{flag}11010000{}\n", "00".repeat(237))), "0132 0000 \n");
        assert_eq!(run(format!("W 80000009{flag}1101FFFF\n")), format!("0132 0000 {}\n", "EE".repeat(65_535)));
        // Any data that the line has room for.
        assert_eq!(run(format!("W 05000009{flag}11010001{}\n", "00".repeat(69_991))), "0133 0000 EE\n");
        assert_eq!(run(format!("W 05000009{flag}11010001{}\n", "00".repeat(69_992))), "0200\n");
    }
    let most = "EE".repeat(65_535 - 12);
    assert_eq!(run("W 05000009011101FFFF\n"), format!("0000 000C 185CC0000005191101000167{most}\n"));
    assert_eq!(run("W 05000009001101FFFF\n"), format!("0000 000C 185CC00000050911010002A8{most}\n"));
    // The longest packet in just its room. By the other method the first two would have 0AFA and 6E7F.
    for (flag, octet, error_control, data) in [
        ("01", "10", "FF01", "11".repeat(236)),
        ("00", "00", "29EB", "11".repeat(236)),
        ("00", "00", "4B85", "00".repeat(236)),
        ("00", "00", "4B85", "FF".repeat(236)),
    ] {
        let packet = format!("185CC00000F1{octet}060200{data}{error_control}");
        assert_eq!(run(format!("W 05000000{flag}060200F8{data}\n")), format!("0000 00F8 {packet}\n"));
        assert_eq!(run(format!("W 05000000{flag}060200F9{data}\n")), format!("0000 00F8 {packet}EE\n"));
        assert_eq!(run(format!("W 05000000{flag}060200F7{data}\n")), format!("0134 0000 {}\n", "EE".repeat(247)));
    }
}

/// The values are what Python's binascii.crc_hqx gives, and the sums of the octets by hand.
#[test]
fn w_at_the_edges_of_its_fields_with_either_flag() {
    for (line, packet) in [
        ("W 7F3FFF0F00FFFF000C", "1FFCFFFF00050FFFFF005E71"),
        ("W 7F3FFF0F01FFFF000C", "1FFCFFFF00051FFFFF0093DB"),
        ("W 00000000000000000C", "180CC000000500000000997C"),
        ("W 00000000010000000C", "180CC000000510000000B955"),
        // FF is sent for 0; the writer's pad is 0, so for both the word of a load is chosen.
        ("W 05004009001101000C", "185CC040000509110100FF6A"),
        ("W 0500E709001101000C", "185CC0E7000509110100C2FF"),
        ("W 0500000900060200160101000010000001E0B6", "185CC000000F090602000101000010000001E0B6FFFF"),
        // The CRC has 00 where it is 0.
        ("W 0500BA09011101000C", "185CC0BA000519110100005D"),
        ("W 05040D09011101000C", "185CC40D000519110100E400"),
    ] {
        let expected = format!("0000 {:04X} {packet}\n", packet.len() / 2);
        let (letter, digits) = line.split_at(2);
        assert_eq!(run(line), expected, "{line}");
        assert_eq!(run(format!("{letter}{}\n", digits.to_lowercase())), expected, "{line}");
    }
}

/// 50 comes before 51 and 51 before 52, with flag 0 too; a flag that is neither 0 nor 1 makes the line bad before that.
#[test]
fn w_refuses_in_order_and_a_bad_flag_is_a_bad_line() {
    let data = "00".repeat(237);
    for flag in ["00", "01"] {
        for fields in ["80000009", "FF000009", "05400009", "05FFFF09", "05000010", "050000FF", "FFFFFFFF"] {
            assert_eq!(run(format!("W {fields}{flag}11010002{data}\n")), "0132 0000 EEEE\n", "{fields}");
            assert_eq!(run(format!("W {fields}{flag}1101000C\n")), format!("0132 0000 {}\n", "EE".repeat(12)));
        }
        assert_eq!(run(format!("W 05000009{flag}11010002{data}\n")), "0133 0000 EEEE\n");
        assert_eq!(run(format!("W 05000009{flag}11010100{data}\n")), format!("0133 0000 {}\n", "EE".repeat(256)));
        assert_eq!(run(format!("W 05000009{flag}11010002{}\n", &data[2..])), "0134 0000 EEEE\n");
    }
    let unchanged = run(format!("{GOOD}M\nO\n"));
    let mut rows = Vec::new();
    for flag in 2..=255_u8 {
        for fields in ["05000009", "80000009", "05400010"] {
            rows.push((format!("W {fields}{flag:02X}1101000C"), "0200".into()));
            rows.push((format!("W {fields}{flag:02X}11010000{data}"), "0200".into()));
        }
    }
    answers(&rows);
    // Eight octets: what a line had before the flag, and one of which only the room is cut.
    for octets in ["050000091101000E", "0500000901110100", "0500000900110100", "0000000000000000", "0100010101010101"] {
        let line = format!("W {octets}");
        assert_eq!(run(format!("{line}\n{GOOD}M\nO\n")), format!("0200\n{unchanged}"), "{line}");
    }
}

/// What W writes with either flag R reads as the same fields, and W writes it again from them.
#[test]
fn r_reads_what_w_writes() {
    for flag in ["00", "01"] {
        for (pid, count, ack, kind, data) in [
            ("05", "0000", "09", "1101", ""),
            ("7F", "3FFF", "0F", "FFFF", "00"),
            ("00", "0000", "00", "0000", "FFFF"),
            ("51", "2A55", "06", "0602", "0101000010000001E0B6"),
            ("05", "0001", "08", "0609", &"A7".repeat(236)),
        ] {
            let room = format!("{:04X}", data.len() / 2 + 12);
            let write = format!("W {pid}{count}{ack}{flag}{kind}{room}{data}\n");
            let printed = run(&write);
            let packet = printed.strip_prefix(&format!("0000 {room} ")).expect("it is written");
            let apid = u16::from_str_radix(pid, 16).expect("digits") * 16 + 12;
            let (service, subtype) = kind.split_at(2);
            let read = format!("0000 0000 {apid:04X} {count} {flag} {ack} {service} {subtype} 00 {data}\n");
            assert_eq!(run(format!("R {packet}")), read, "{write}");
            // With the other flag's bit it is not right any more.
            let octet = u8::from_str_radix(&packet[12..14], 16).expect("digits");
            let other = format!("{}{:02X}{}", &packet[..12], octet ^ 16, &packet[14..]);
            assert!(run(format!("R {other}")).starts_with("0102 "), "{write}");
        }
    }
}

/// What W writes with flag 0 is served: a load, whose word then stands in the store, and a check, whose value is the CRC.
#[test]
fn x_of_what_w_writes() {
    let load = "185CC000000F090602000101000010000001E0B6FFFF";
    assert_eq!(run("W 0500000900060200160101000010000001E0B6\n"), format!("0000 0016 {load}\n"));
    let store = format!("E0B6{}", "00".repeat(126));
    assert_eq!(
        run(format!("X {load}\nM\n")),
        format!(
            "0851C000000D00000000000000010100185CC0000851C001000D00000000000000010700185CC000\n\
             0000 0000 0028 0002 0000\n{store}\n"
        )
    );
    // The same with 00 for FF: refused, and the store is left.
    for wrong in ["00FF", "FF00", "0000"] {
        let line = format!("X {}{wrong}\n", &load[..40]);
        assert_eq!(
            run(format!("{line}M\n")),
            format!(
                "0851C000001100000000000000010200185CC0000002FFFF\n0102 FFFF 0018 0001 0000\n{}\n",
                "00".repeat(128)
            )
        );
    }
    // 1D0F is the CRC of two zero octets; their ISO checksum is FFFF.
    let check = "185CC000000D0006090001010000100000012576";
    assert_eq!(run("W 0500000000060900140101000010000001\n"), format!("0000 0014 {check}\n"));
    assert_eq!(
        run(format!("X {check}\n")),
        "0859C000001300000000000000060A0001010000100000011D0F\n0000 0000 001A 0000 0001\n"
    );
}

/// Each service with flag 0 under the profile at the start, and each check behind check 2 that refuses.
#[test]
fn x_with_flag_0() {
    let by_iso = |text: &str| x(&common::sealed_by_iso(text));
    let lines = [
        x(&common::request_by_iso(0, 6, 2, "01 01 0000103E 0002 ABCD1456")),
        x(&common::request_by_iso(0, 6, 5, "01 01 0000103E 0002")),
        x(&common::request_by_iso(0, 6, 9, "01 02 0000103E 0002 00001000 0001")),
        x(&common::request_by_iso(0, 17, 1, "")),
        by_iso("385C C000 0005 00 11 01 00"),
        by_iso("186C C000 0005 00 11 01 00"),
        by_iso("185C C000 0005 00 09 05 00"),
        by_iso("185C C000 0005 00 06 03 00"),
        x(&common::request_by_iso(0, 17, 1, "00")),
        x(&common::request_by_iso(0, 6, 5, "02 01 00001000 0001")),
        x(&common::request_by_iso(0, 6, 5, "01 01 00001040 0001")),
    ];
    let refused = |count: u16, id: &str, code: &str, detail: &str| {
        let frame = format!("0851{:04X}001100000000000000010200{id}C000{code}{detail}", 0xC000 + count);
        format!("{frame}\n01{} {detail} 0018 {:04X} 0003\n", &code[2..], count + 1)
    };
    let expected = [
        "\n0000 0000 0000 0000 0000\n".to_string(),
        "0859C00000150000000000000006060001010000103E0002ABCD1456\n0000 0000 001C 0000 0001\n".into(),
        "0859C001001B00000000000000060A0001020000103E0002E18B0000100000011D0F\n0000 0000 0022 0000 0002\n".into(),
        "0859C002000900000000000000110200\n0000 0000 0010 0000 0003\n".into(),
        refused(0, "385C", "0010", "0001"),
        refused(1, "186C", "0000", "006C"),
        refused(2, "185C", "0003", "0009"),
        refused(3, "185C", "0004", "0603"),
        refused(4, "185C", "0005", "0000"),
        refused(5, "185C", "0011", "0002"),
        refused(6, "185C", "0013", "0001"),
    ];
    assert_eq!(run(lines.concat()), expected.concat());
}

#[test]
fn nothing_is_printed_as_an_empty_line() {
    assert_eq!(run("S \nM\nB 000000\nO\nM"), "\n\n\n");
    assert_eq!(run(format!("S \nB 000000\n{GOOD}M\nO\n")), "\n0128 0000 0000 0000 0000\n\n\n");
}

#[test]
fn c_is_the_crc() {
    assert_eq!(run("C \nC 00\nC abcdef01\nC 1456F89A0001\n"), "FFFF\nE1F0\n04A2\n7FD5\n");
    assert_eq!(run(format!("C {}\n", "00".repeat(70_001))), "0200\n");
    assert_ne!(run(format!("C {}\n", "00".repeat(70_000))), "0200\n");
}

/// P1 and the published vectors: each start is the value of the octets before.
#[test]
fn d_goes_on_from_its_start() {
    assert_eq!(run("D FFFF\nD FFFF00\nD E1F000\nD 1D0F00\n"), "FFFF\nE1F0\n1D0F\nCC9C\n");
    assert_eq!(run("D FFFF0000\nD FFFF000000\nD E1F00000\n"), "1D0F\nCC9C\nCC9C\n");
    assert_eq!(run("D FFFFABCDEF01\nD FFFF1456F89A0001\n"), "04A2\n7FD5\n");
    // A message with its CRC has CRC zero: the value met by its own octets.
    assert_eq!(run("D 04A204A2\nD 7FD57FD5\nD FFFFFFFF\nD 00000000\n"), "0000\n0000\n0000\n0000\n");
    // P2's packet; 613A is what Python's binascii.crc_hqx gives for its first seven octets.
    assert_eq!(run("D FFFF185CC000000519\nD 613A110100\nD 0167"), "613A\n0167\n0167\n");
}

/// Each published vector in two parts; the values between are what Python's binascii.crc_hqx(octets, 0xFFFF) gives.
#[test]
fn d_over_a_published_vector_cut_at_each_place() {
    let vectors: [(&str, &[&str]); 4] = [
        ("0000", &["FFFF", "E1F0", "1D0F"]),
        ("000000", &["FFFF", "E1F0", "1D0F", "CC9C"]),
        ("ABCDEF01", &["FFFF", "E571", "D46A", "ED38", "04A2"]),
        ("1456F89A0001", &["FFFF", "B345", "E88B", "9931", "0163", "7321", "7FD5"]),
    ];
    for (whole, values) in vectors {
        let value = values[whole.len() / 2];
        for (place, between) in values.iter().enumerate() {
            let (before, behind) = whole.split_at(place * 2);
            let lines = format!("D FFFF{before}\nD {between}{behind}\nC {whole}\n");
            assert_eq!(run(lines), format!("{between}\n{value}\n{value}\n"), "{whole} at {place}");
            // Parts of no octets before, between and behind.
            let lines = format!("D FFFF\nD FFFF{before}\nD {between}\nD {between}{behind}\nD {value}\n");
            let expected = format!("FFFF\n{between}\n{between}\n{value}\n{value}\n");
            assert_eq!(run(lines), expected, "{whole} at {place}");
        }
    }
}

#[test]
fn d_of_no_octets_prints_its_start() {
    for start in ["0000", "0001", "0100", "00FF", "FF00", "1234", "7FFF", "8000", "ABCD", "FFFE", "FFFF"] {
        assert_eq!(run(format!("D {start}\n")), format!("{start}\n"));
    }
}

/// By hand from the polynomial: the upper octet of the start meets the next octet, the lower one the octet after that.
#[test]
fn d_from_zero_and_from_one_bit() {
    assert_eq!(run("D 000000\nD 000001\nD 010000\nD 000100\nD 00010000\n"), "0000\n1021\n1021\n0100\n1021\n");
    assert_eq!(run("D 010101\nD 01010101\nD 008000\n"), "0100\n0000\n8000\n");
    assert_eq!(run(format!("D {}\n", "00".repeat(70_000))), "0000\n");
}

/// The values are what Python's binascii.crc_hqx(octets, start) gives.
#[test]
fn d_from_any_start() {
    for (line, value) in [
        ("D 123456", "3C40"),
        ("D 341256", "5EE4"),
        ("D 800000", "9188"),
        ("D FFFE00", "E0F0"),
        ("D BEEFBEEF", "0000"),
        ("D BEEFEFBE", "775A"),
        ("D 0000ABCDEF01", "8062"),
        ("D 1D0FABCDEF01", "8E72"),
        ("D 04A21456F89A0001", "1983"),
        ("D FFFF313233343536373839", "29B1"),
        ("D 0000313233343536373839", "31C3"),
        ("D 1D0F313233343536373839", "E5CC"),
        ("D 1234313233343536373839", "EDEB"),
        ("D ABCD313233343536373839", "7003"),
    ] {
        assert_eq!(run(line), format!("{value}\n"), "{line}");
        let (letter, digits) = line.split_at(2);
        assert_eq!(run(format!("{letter}{}\n", digits.to_lowercase())), format!("{value}\n"), "{line}");
    }
    assert_eq!(run("D ABCDEF01\nD aBcDeF01\nD AbCdEf01\nD ffff"), "D9C8\nD9C8\nD9C8\nFFFF\n");
}

/// By hand from the polynomial: x^16 for the lowest bit, x times the one before for each next, and their sum.
#[test]
fn d_of_every_octet_from_zero_behind_zeros() {
    let bits = [0x1021, 0x2042, 0x4084, 0x8108, 0x1231, 0x2462, 0x48C4, 0x9188];
    let value = |octet: u8| (0..8).filter(|place| octet >> place & 1 == 1).fold(0, |sum, place| sum ^ bits[place]);
    let values: String = (0..=255).map(|octet| format!("{:04X}\n", value(octet))).collect();
    assert!(values.ends_with("\n1EF0\n"), "all eight bits");
    for zeros in [0, 1, 2, 3, 4, 5, 6, 7, 8, 15, 16, 31, 63, 255, 1_023, 1_500] {
        let before = "00".repeat(zeros);
        let lines: String = (0..=255).map(|octet| format!("D 0000{before}{octet:02X}\n")).collect();
        assert_eq!(run(lines), values, "{zeros}");
    }
}

/// 32,767 zero octets leave every value as it was: the polynomial divides x^32767 + 1. P1's values, and the published
/// ones, come again behind them.
#[test]
fn zeros_come_round() {
    for zeros in [0, 32_767, 65_534] {
        let before = "00".repeat(zeros);
        let lines = format!("C {before}\nC {before}00\nC {before}0000\nC {before}000000\n");
        assert_eq!(run(lines), "FFFF\nE1F0\n1D0F\nCC9C\n", "{zeros}");
        let lines = format!("C {before}ABCDEF01\nC {before}1456F89A0001\nC {before}185CC000000519110100\n");
        assert_eq!(run(lines), "04A2\n7FD5\n0167\n", "{zeros}");
        let lines = format!("D 0001{before}\nD 0100{before}\nD ABCD{before}\nD 04A2{before}04A2\n");
        assert_eq!(run(lines), "0001\n0100\nABCD\n0000\n", "{zeros}");
    }
}

/// A published message with its CRC leaves zero, and zeros leave that; 01 behind them gives x^16, 01 00 gives x^24.
#[test]
fn c_of_a_published_message_before_zeros() {
    for zeros in (0..140).chain(1_000..1_033).chain([2_042, 4_090, 4_091, 4_121, 8_186, 32_762, 65_530, 65_531]) {
        let octets = format!("ABCDEF0104A2{}", "00".repeat(zeros));
        let lines = format!("C {octets}\nC {octets}01\nC {octets}0100\n");
        assert_eq!(run(lines), "0000\n1021\n3331\n", "{zeros}");
    }
}

/// Checks of many words, up to all of the largest store. Of zeros the values are P1's: 65,534 octets leave FFFF. A
/// published message with its CRC at the store's start leaves zero, whatever number of zeros is behind it, and then 01
/// as the last octet gives x^16.
#[test]
fn x_checks_of_many_words() {
    let unit = format!("P 050F010100000000000080000000000007\nS {}\n", "00".repeat(65_536));
    let check = |blocks: &[(u32, u16)]| {
        let named = blocks.iter().map(|(start, words)| format!("{start:08X}{words:04X}"));
        x(&common::request(0, 6, 9, &format!("01{:02X}{}", blocks.len(), named.collect::<String>())))
    };
    let load = |data: &str| x(&common::request(0, 6, 2, data));
    let input = [
        unit,
        check(&[(0, 32_768)]),
        check(&[(0, 32_767), (1, 32_767), (7, 16_384), (0, 1)]),
        load("01 01 00000000 0003 ABCDEF0104A2"),
        check(&[(0, 32_768), (0, 3), (0, 1_024), (0, 1_025), (0, 1_026), (0, 1_027), (0, 4_096), (0, 32_767)]),
        load("01 01 00007FFF 0001 0001"),
        check(&[(0, 32_768), (0, 32_767)]),
        load("01 01 00007FFF 0001 0100"),
        check(&[(0, 32_768)]),
    ];
    let report = |count: u16, rest: &str| {
        let source = format!("01{rest}").replace(' ', "");
        let octets = 16 + source.len() / 2;
        let head = format!("0859{:04X}{:04X}00000000000000060A00", 0xC000 + count, octets - 7);
        format!("{head}{source}\n0000 0000 {octets:04X} 0000 {:04X}\n", count + 1)
    };
    let loaded = |count: u16| format!("\n0000 0000 0000 0000 {count:04X}\n");
    let output = [
        report(0, "01 00000000 8000 1D0F"),
        report(1, "04 00000000 7FFF FFFF 00000001 7FFF FFFF 00000007 4000 E1F0 00000000 0001 1D0F"),
        loaded(2),
        report(
            2,
            "08 00000000 8000 0000 00000000 0003 0000 00000000 0400 0000 00000000 0401 0000 \
             00000000 0402 0000 00000000 0403 0000 00000000 1000 0000 00000000 7FFF 0000",
        ),
        loaded(3),
        report(3, "02 00000000 8000 1021 00000000 7FFF 0000"),
        loaded(4),
        report(4, "01 00000000 8000 3331"),
    ];
    assert_eq!(run(input.concat()), output.concat());
}

#[test]
fn d_from_ffff_is_c() {
    for octets in ["", "00", "ABCD", "abcdef01", "185CC000000519110100", &"5A".repeat(300), &"A5".repeat(69_998)] {
        assert_eq!(run(format!("D FFFF{octets}\n")), run(format!("C {octets}\n")));
    }
}

/// The values are what Python's binascii.crc_hqx gives.
#[test]
fn d_takes_as_many_octets_as_a_line_holds() {
    let d = |start: &str, octet: &str, count: usize| run(format!("D {start}{}\n", octet.repeat(count)));
    assert_eq!(d("FFFF", "00", 69_998), "0AF5\n");
    assert_eq!(d("1234", "11", 69_998), "D7E3\n");
    assert_eq!(d("FFFF", "00", 65_536), "1D0F\n");
    for count in [69_999, 70_000, 100_000] {
        assert_eq!(d("FFFF", "00", count), "0200\n", "{count}");
    }
    assert_eq!(run(format!("D FFFF{}\nD FFFF", "0".repeat(139_995))), "0200\nFFFF\n");
    assert_eq!(run(format!("D FFFF{}\nD FFFF", "0".repeat(139_997))), "0200\nFFFF\n");
    // What D cannot take at once it takes in two parts; 5071 is the CRC of 70,000 octets 00.
    assert_eq!(d("0AF5", "00", 2), "5071\n");
    assert_eq!(run(format!("C {}\n", "00".repeat(70_000))), "5071\n");
}

/// An image that a harness holds in parts of 4 KiB: what `seq -w 1 2000` prints. Its parts are checked in turn, and
/// the whole. The values are what Python's binascii.crc_hqx gives.
#[test]
fn an_image_in_parts() {
    let image: String = (1..=2_000).map(|number| format!("{number:04}\n")).collect();
    let digits: Vec<String> = image.bytes().map(|octet| format!("{octet:02X}")).collect();
    let parts: Vec<String> = digits.chunks(4_096).map(<[String]>::concat).collect();
    assert_eq!(parts.iter().map(|part| part.len() / 2).collect::<Vec<_>>(), [4_096, 4_096, 1_808]);
    assert!(parts[0].starts_with("303030310A303030320A") && parts[2].ends_with("323030300A"));
    let lines = format!("D FFFF{}\nD 9885{}\nD 5541{}\nC {}\n", parts[0], parts[1], parts[2], digits.concat());
    assert_eq!(run(lines), "9885\n5541\n3221\n3221\n");
}

#[test]
fn d_sets_nothing() {
    let lines = [
        "S 00112233445566778899\n".to_string(),
        line('P', "05 0F 01  01 00001000 00000004 00000001 07"),
        "K 3FFE0005\n".into(),
        "T 010203040506\n".into(),
        "B 1001A5\n".into(),
        x(&common::request(9, 6, 2, "01 01 00001001 0001 BEEF")),
        x(&common::request(9, 6, 5, "01 02 00001000 0002 00001003 0001")),
        x(&common::request(1, 6, 9, "01 01 00001000 0004")),
        x(&common::request(0, 6, 5, "02 01 00001050 0001")),
        GOOD.into(),
        "R 185CC0000005191101000168\n".into(),
        "W 05000009011101000E\n".into(),
        "W 05000009001101000E\n".into(),
        line('V', AT_THE_START),
        "C 0000\n".into(),
        "C \n".into(),
        "M\n".into(),
        "O\n".into(),
    ];
    // E1F0 goes on to 1D0F; the last two are bad lines.
    let parts = [("D E1F000\n", "1D0F\n"), ("D 0000\n", "0000\n"), ("D \n", "0200\n"), ("D 12\n", "0200\n")];
    let without = run(lines.concat());
    let mut answers = without.lines();
    let (mut input, mut output) = (String::new(), String::new());
    for line in &lines {
        for (part, answer) in parts {
            input.push_str(part);
            output.push_str(answer);
        }
        input.push_str(line);
        let printed = match &line[..1] {
            "X" => 2,
            "P" | "S" | "K" | "T" | "B" => 0,
            _ => 1,
        };
        for answer in answers.by_ref().take(printed) {
            output.push_str(answer);
            output.push('\n');
        }
    }
    assert_eq!(answers.next(), None);
    assert_eq!(run(input), output);
}

#[test]
fn bad_lines() {
    let area = "0100001000000000400000000007";
    let bad = [
        "".to_string(),
        " ".into(),
        "X".into(),
        "P".into(),
        "C".into(),
        "O ".into(),
        "M ".into(),
        "O 00".into(),
        "M00".into(),
        "o".into(),
        "x 00".into(),
        "Q".into(),
        "Q 00".into(),
        "X  00".into(),
        "X\t00".into(),
        "X00".into(),
        " X 00".into(),
        "X 00\r".into(),
        "X 00 ".into(),
        "X 0".into(),
        "X 0G".into(),
        "P ".into(),
        "P 050F".into(),
        "P 051000".into(),
        "P 05FF00".into(),
        "P 050F0100".into(),
        format!("P 050F01{}", &area[2..]),
        format!("P 050F01{}08", &area[..26]),
        format!("P 050F01{}FF", &area[..26]),
        format!("P 050F08{}", area.repeat(9)),
        "K 000000".into(),
        "K 0000000000".into(),
        "T 0000000000".into(),
        "T 00000000000000".into(),
        "B 1000".into(),
        "B 10000000".into(),
        "B 200100".into(),
        "B FFFF00".into(),
        "W ".into(),
        "W 05000009110100".into(),
        // What it had before the flag, and flags that are neither 0 nor 1.
        "W 050000091101000E".into(),
        "W 0500000901110100".into(),
        "W 05000009021101000C".into(),
        "W 05000009101101000C".into(),
        "W 05000009FF1101000C".into(),
        // A letter that takes octets has its space even for none.
        "S".into(),
        "K".into(),
        "T".into(),
        "B".into(),
        "R".into(),
        "W".into(),
        "V".into(),
        "K ".into(),
        "T ".into(),
        "B ".into(),
        "V ".into(),
        // Octets that are not those of a P.
        "V 05".into(),
        "V 050F".into(),
        "V 050F0".into(),
        "V 051000".into(),
        "V 052F00".into(),
        "V 058F00".into(),
        "V 05FF00".into(),
        "V 050F0000".into(),
        "V 050F0100".into(),
        format!("V 050F01{}", &area[2..]),
        format!("V 050F01{area}00"),
        format!("V 050F01{area}{}", &area[2..]),
        format!("V 050F01{}08", &area[..26]),
        format!("V 050F01{}0F", &area[..26]),
        format!("V 050F01{}87", &area[..26]),
        format!("V 050F01{area}{}08", &area[..26]),
        format!("V 050F08{}", area.repeat(9)),
        format!("V 050F00{}", area.repeat(9)),
        format!("V050F01{area}"),
        format!("v 050F01{area}"),
        format!(" V 050F01{area}"),
        format!("V  050F01{area}"),
        format!("V\t050F01{area}"),
        format!("V 050F01{area} "),
        format!("V 050F01{area}\r"),
        format!("V 050F01{}G", &area[..27]),
        "V 05 0F 00".into(),
        "F".into(),
        "F00".into(),
        "f 00".into(),
        "F 0".into(),
        // Fewer octets than a start has.
        "D ".into(),
        "D FF".into(),
        "D".into(),
        "D F".into(),
        "D FFF".into(),
        "D FFFF0".into(),
        "D GFFF".into(),
        "D FFFF0G".into(),
        "DFFFF".into(),
        "d FFFF".into(),
        " D FFFF".into(),
        "D  FFFF".into(),
        "D\tFFFF".into(),
        "D FFFF 00".into(),
        "D FFFF00 ".into(),
        "D FFFF00\r".into(),
        // Letters that are no commands.
        "E FFFF00".into(),
        "G 00".into(),
    ];
    let unchanged = run(format!("{GOOD}M\nO\n"));
    for line in bad {
        assert_eq!(run(format!("{line}\n{GOOD}M\nO\n")), format!("0200\n{unchanged}"), "{line:?}");
    }
    assert_eq!(run(b"C \x80\x80\nC 0\x000\n"), "0200\n0200\n");
}

#[test]
fn the_last_line_counts_if_it_is_not_empty() {
    assert_eq!(run(""), "");
    assert_eq!(run("C 0000"), "1D0F\n");
    assert_eq!(run("C 0000\n"), "1D0F\n");
    assert_eq!(run("Z"), "0200\n");
    assert_eq!(run("\n"), "0200\n");
    assert_eq!(run("O\n\nM"), format!("{}\n0200\n{}\n", "00".repeat(4_096), "00".repeat(128)));
}

#[test]
fn the_longest_line() {
    let digits = |letter: &str, count: usize| format!("{letter} {}", "0".repeat(count));
    let refused = "0101 FFFF 0000 0000 00 00 00 00 00 \n";
    assert_eq!(run(digits("R", 140_000)), refused);
    assert_eq!(run(digits("R", 140_000) + "\nC 0000\n"), format!("{refused}1D0F\n"));
    for count in [139_999, 140_001, 140_002, 140_003, 140_004, 280_000, 1_000_000] {
        assert_eq!(run(digits("R", count)), "0200\n", "{count}");
        assert_eq!(run(digits("R", count) + "\nC 0000"), "0200\n1D0F\n", "{count}");
    }
}

#[test]
fn input_in_pieces_through_a_pipe() {
    let folder = Path::new(env!("CARGO_MANIFEST_DIR")).join("../../crates/cases");
    let input = fs::read(folder.join("stdin")).expect("its input is stored");
    let output = fs::read(folder.join("stdout")).expect("its output is stored");
    for size in [1, 7, 65_536] {
        let pieces = input.chunks(size).map(<[u8]>::to_vec).collect();
        assert!(common::piped(command(), pieces) == output, "pieces of {size}");
    }
}

#[test]
fn one_line_is_answered_before_more_is_read() {
    let question = line('V', AT_THE_START);
    let lines = [("C 0000\n", "1D0F"), ("D E1F000\n", "1D0F"), (question.as_str(), "01"), ("\n", "0200")];
    common::answers_at_once(command(), &lines);
}

#[test]
fn a_line_far_too_long_is_skipped_to_its_newline() {
    assert_eq!(run(format!("C {}\nC 0000\n", "0".repeat(1_000_000))), "0200\n1D0F\n");
}
