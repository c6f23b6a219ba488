//! Generated input: every verdict and detail is reached, the same seed gives the same input,
//! and the tally fails when it should.

mod common;

use std::fs;
use std::path::{Path, PathBuf};
use std::process::{self, Output};

use common::packing::line;
use second::cases::{self, Command, State};
use second::clauses::{ALONE, BOTH};
use second::random::Random;
use second::sample_parts::{self, IMAGE_PART};
use second::write_rows;

fn run(program: &str, arguments: &[&str]) -> Output {
    process::Command::new(program).args(arguments).output().expect("the program starts")
}

/// A file for one test with these octets.
fn file(name: &str, octets: &[u8]) -> PathBuf {
    let path = Path::new(env!("CARGO_TARGET_TMPDIR")).join(name);
    fs::write(&path, octets).expect("the file can be written");
    path
}

fn tally(input: &Path, output: &Path) -> Output {
    run(env!("CARGO_BIN_EXE_tally"), &[&input.to_string_lossy(), &output.to_string_lossy()])
}

/// The rows of a tally's text that were reached, and that begin so.
fn reached(tallied: &Output, begin: &str) -> Vec<String> {
    let text = String::from_utf8_lossy(&tallied.stdout);
    let rows = text.lines().filter_map(|line| line.trim_start().split_once("  "));
    rows.map(|(_, row)| row).filter(|row| row.starts_with(begin)).map(String::from).collect()
}

/// The rows of a tally's text that were never reached.
fn never_reached(tallied: &Output) -> Vec<String> {
    let text = String::from_utf8_lossy(&tallied.stdout);
    text.lines().filter_map(|line| line.strip_prefix("NEVER REACHED: ")).map(String::from).collect()
}

#[test]
fn everything_is_reached() {
    let made = run(env!("CARGO_BIN_EXE_generate"), &["77", "20000"]);
    assert!(made.status.success());
    let input = file("everything.in", &made.stdout);
    let answered = run(env!("CARGO_BIN_EXE_cases"), &[&input.to_string_lossy()]);
    assert!(answered.status.success());
    let output = file("everything.out", &answered.stdout);
    let tallied = tally(&input, &output);
    assert!(tallied.status.success(), "{}", String::from_utf8_lossy(&tallied.stdout));

    let cut = file("everything.cut", &answered.stdout[..answered.stdout.len() / 2]);
    assert!(!tally(&input, &cut).status.success());
}

#[test]
fn questions_set_nothing_and_are_wanted() {
    let made = run(env!("CARGO_BIN_EXE_generate"), &["78", "3000"]);
    let (mut with, mut without) = (State::new(), State::new());
    let (mut answer, mut answer_without) = (Vec::new(), Vec::new());
    let mut others = Vec::new();
    let mut questions = 0;
    for line in made.stdout.split_inclusive(|octet| *octet == b'\n') {
        let Some(command) = cases::parse(line.strip_suffix(b"\n").unwrap_or(line)) else { continue };
        answer.clear();
        with.obey(command.clone(), &mut answer);
        if let Command::AskWider(_) = command {
            questions += 1;
            continue;
        }
        answer_without.clear();
        without.obey(command, &mut answer_without);
        assert!(answer == answer_without);
        others.extend_from_slice(line);
    }
    assert!(questions > 400, "{questions}");

    let input = file("others.in", &others);
    let answered = run(env!("CARGO_BIN_EXE_cases"), &[&input.to_string_lossy()]);
    let tallied = tally(&input, &file("others.out", &answered.stdout));
    assert_eq!(tallied.status.code(), Some(1));
    let text = String::from_utf8(tallied.stdout).expect("text");
    let never = text.lines().filter(|line| line.starts_with("NEVER REACHED: V 00 only "));
    assert_eq!(never.count(), ALONE.len() + BOTH.len() + 1);
}

#[test]
fn a_wrong_answer_to_a_question_is_not_tallied() {
    for (question, right, wrong) in [
        ("V 050F010100001000000000400000000007", "01\n", "00\n"),
        ("V 060F010100001000000000400000000007", "00\n", "01\n"),
    ] {
        let input = file("question.in", question.as_bytes());
        assert_eq!(tally(&input, &file("question.out", right.as_bytes())).status.code(), Some(1));
        assert_eq!(tally(&input, &file("question.out", wrong.as_bytes())).status.code(), Some(2));
        assert_eq!(tally(&input, &file("question.out", b"0200\n")).status.code(), Some(2));
    }
}

/// The rows of single D lines, and of parts before the C line of their whole.
const OF_LINES: [&str; 5] = ["D from FFFF", "D from 0000", "D from another start", "D of no octets", "D of one octet"];
const OF_WHOLES: [&str; 8] = [
    "D: a whole in one part",
    "D: a whole of 69,998 octets in one part",
    "D: a whole of 64 KiB in parts",
    "D: parts of 4,096, the last one short",
    "D: parts with an empty one first",
    "D: parts with an empty one in the middle",
    "D: parts with an empty one last",
    "D: parts that are all empty",
];

#[test]
fn parts_set_nothing_and_are_wanted() {
    let made = run(env!("CARGO_BIN_EXE_generate"), &["80", "20000"]);
    let (mut with, mut without) = (State::new(), State::new());
    let (mut answer, mut answer_without) = (Vec::new(), Vec::new());
    let [mut no_parts, mut no_parts_out, mut no_wholes, mut no_wholes_out]: [Vec<u8>; 4] = Default::default();
    let mut parts = 0;
    for line in made.stdout.split_inclusive(|octet| *octet == b'\n') {
        let Some(command) = cases::parse(line.strip_suffix(b"\n").unwrap_or(line)) else { continue };
        answer.clear();
        with.obey(command.clone(), &mut answer);
        if !matches!(command, Command::Crc(_)) {
            no_wholes.extend_from_slice(line);
            no_wholes_out.extend_from_slice(&answer);
        }
        if let Command::CrcFrom { .. } = command {
            parts += 1;
            continue;
        }
        answer_without.clear();
        without.obey(command, &mut answer_without);
        assert!(answer == answer_without);
        no_parts.extend_from_slice(line);
        no_parts_out.extend_from_slice(&answer);
    }
    assert!(parts > 1_500, "{parts}");

    // Bad lines are no commands, so they are left out of both.
    let bad = ["bad line", "bad line F of 70,000 octets", "bad line D of no octets", "bad line D of one octet"];
    let bad = [&bad[..], &write_rows::BAD].concat();
    let missing = |input: &[u8], output: &[u8]| {
        let tallied = tally(&file("parts.in", input), &file("parts.out", output));
        assert_eq!(tallied.status.code(), Some(1));
        never_reached(&tallied)
    };
    let long: Vec<String> = (0..8).map(long_whole).collect();
    let long: Vec<&str> = long.iter().map(String::as_str).collect();
    assert_eq!(missing(&no_parts, &no_parts_out), [&bad[..], &OF_LINES, &OF_WHOLES].concat());
    assert_eq!(missing(&no_wholes, &no_wholes_out), [&bad[..], &OF_WHOLES, &long].concat());
}

/// ABCDEF01 is a published vector; D46A and ED38 are what Python's binascii.crc_hqx gives for the first octets of it.
#[test]
fn parts_of_a_whole_are_known_by_the_input() {
    let [one, _, _, _, first, middle, last, empty] = OF_WHOLES;
    for (input, output, wholes, row) in [
        ("D FFFFABCDEF01\nC ABCDEF01", "04A2\n04A2\n", 1, Some(one)),
        ("D FFFF\nC ", "FFFF\nFFFF\n", 1, Some(one)),
        ("D FFFFABCD\nD D46AEF01\nC ABCDEF01", "D46A\n04A2\n04A2\n", 1, None),
        ("D FFFF\nD FFFFABCDEF01\nC ABCDEF01", "FFFF\n04A2\n04A2\n", 1, Some(first)),
        ("D FFFFABCD\nD D46A\nD D46AEF01\nC ABCDEF01", "D46A\nD46A\n04A2\n04A2\n", 1, Some(middle)),
        ("D FFFFABCD\nD D46AEF01\nD 04A2\nC ABCDEF01", "D46A\n04A2\n04A2\n04A2\n", 1, Some(last)),
        ("D FFFF\nD FFFF\nC ", "FFFF\nFFFF\nFFFF\n", 1, Some(empty)),
        // Other octets on the C line, a first start that is not FFFF, a line between.
        ("D FFFFABCDEF\nC ABCDEF01", "ED38\n04A2\n", 0, None),
        ("D FFFFABCDEF01\nC ABCDEF", "04A2\nED38\n", 0, None),
        ("D 0000\nC ", "0000\nFFFF\n", 0, None),
        ("D FFFF\nT 000000000000\nC ", "FFFF\nFFFF\n", 0, None),
        ("D FFFF\nD\nC ", "FFFF\n0200\nFFFF\n", 0, None),
    ] {
        let tallied = tally(&file("known.in", input.as_bytes()), &file("known.out", output.as_bytes()));
        assert_eq!(tallied.status.code(), Some(1), "{input}");
        let missing: Vec<_> = never_reached(&tallied).into_iter().filter(|row| row.starts_with("D:")).collect();
        let expected: Vec<_> = OF_WHOLES.into_iter().filter(|other| Some(*other) != row).collect();
        assert_eq!(missing, expected, "{input}");
        let text = String::from_utf8_lossy(&tallied.stdout);
        assert!(text.contains(&format!(", {wholes} wholes in parts\n")), "{input}\n{text}");
    }
}

#[test]
fn parts_that_do_not_give_the_whole_are_not_tallied() {
    let in_turn = "D FFFFABCD\nD D46AEF01\nC ABCDEF01";
    let empty = "D FFFFABCDEF01\nD 04A2\nC ABCDEF01";
    let rows = [
        (in_turn, "D46A\n04A2\n04A2\n", "D46A\n04A3\n04A2\n"),
        (in_turn, "D46A\n04A2\n04A2\n", "D46A\n04A2\n04A3\n"),
        // The second part goes on from another value than the first one gave.
        (in_turn, "D46A\n04A2\n04A2\n", "D46B\n04A2\n04A2\n"),
        (in_turn, "D46A\n04A2\n04A2\n", "FFFF\n04A2\n04A2\n"),
        (empty, "04A2\n04A2\n04A2\n", "04A2\nFFFF\n04A2\n"),
        (empty, "04A2\n04A2\n04A2\n", "FB5D\n04A2\n04A2\n"),
        ("D FFFF\nC ", "FFFF\nFFFF\n", "0000\nFFFF\n"),
        // Another form.
        ("D FFFF00", "E1F0\n", "e1f0\n"),
        ("D FFFF00", "E1F0\n", "E1F0 \n"),
        ("D FFFF00", "E1F0\n", "1F0\n"),
        ("D FFFF00", "E1F0\n", "00E1F0\n"),
        ("D FFFF00", "E1F0\n", "\n"),
        ("D FFFF00", "E1F0\n", ""),
        ("D FFFF00", "E1F0\n", "E1F0\nE1F0\n"),
        ("C 00", "E1F0\n", "e1f0\n"),
        ("D FF", "0200\n", "FF00\n"),
        ("D ", "0200\n", "FFFF\n"),
    ];
    for (input, right, wrong) in rows {
        let input = file("parts-answer.in", input.as_bytes());
        assert_eq!(tally(&input, &file("parts-answer.out", right.as_bytes())).status.code(), Some(1), "{right}");
        assert_eq!(tally(&input, &file("parts-answer.out", wrong.as_bytes())).status.code(), Some(2), "{wrong}");
    }
}

/// The row of long C lines with that remainder.
fn long_whole(remainder: usize) -> String {
    format!("C of more than 2,048 octets, {remainder} modulo 8")
}

/// What the tally of these lines has of the rows that begin so. The answers are this implementation's.
fn tallied_rows(name: &str, lines: &str, begin: &str) -> Vec<String> {
    let mut answers = Vec::new();
    cases::run(&mut lines.as_bytes(), &mut answers).expect("a vector takes everything");
    let input = file(&format!("{name}.in"), lines.as_bytes());
    reached(&tally(&input, &file(&format!("{name}.out"), &answers)), begin)
}

#[test]
fn long_c_lines_count_by_their_remainder() {
    for octets in [0, 300, 2_047, 2_048] {
        let rows = tallied_rows("long-c", &format!("C {}\n", "5A".repeat(octets)), "C ");
        assert!(rows.is_empty(), "{octets}: {rows:?}");
    }
    for octets in [2_049, 2_050, 2_051, 2_052, 2_053, 2_054, 2_055, 2_056, 4_096, 65_535, 70_000] {
        let rows = tallied_rows("long-c", &format!("C {}\n", "00".repeat(octets)), "C ");
        assert_eq!(rows, [long_whole(octets % 8)], "{octets}");
    }
}

/// All of the largest store, 32,768 words, in one area from 1000 hex on; the store is all zeros.
fn largest_store() -> String {
    format!("P 050F010100001000000080000000000007\nS {}\n", "00".repeat(65_536))
}

/// The X line of a packet of service 6.
fn x_line(subtype: u8, data: &str) -> String {
    format!("X {}", line(&common::request(0, 6, subtype, data)))
}

/// The same for memory 1 with one block, which stands so many words behind the area's start.
fn x(subtype: u8, later_by: u32, length: u16, words: &str) -> String {
    x_line(subtype, &format!("01 01 {:08X} {length:04X} {words}", 0x1000 + later_by))
}

#[test]
fn checks_of_many_words_count_by_their_words() {
    for (words, row) in [
        (1_023, None),
        (1_024, Some("1,024 to 4,095 words, 0 modulo 4")),
        (1_025, Some("1,024 to 4,095 words, 1 modulo 4")),
        (4_094, Some("1,024 to 4,095 words, 2 modulo 4")),
        (4_095, Some("1,024 to 4,095 words, 3 modulo 4")),
        (4_096, Some("4,096 to 32,767 words, 0 modulo 4")),
        (4_097, Some("4,096 to 32,767 words, 1 modulo 4")),
        (32_766, Some("4,096 to 32,767 words, 2 modulo 4")),
        (32_767, Some("4,096 to 32,767 words, 3 modulo 4")),
        (32_768, Some("32,768 words")),
    ] {
        let begin = 32_768 - u32::from(words);
        let held = [0, words / 2, words - 1].map(|place| x(2, begin + u32::from(place), 1, "0101")).concat();
        let lines = format!("{}{held}{}", largest_store(), x(9, begin, words, ""));
        let rows = tallied_rows("many-words", &lines, "accepted (6,9) of");
        let expected: Vec<_> = row.iter().map(|row| format!("accepted (6,9) of {row}")).collect();
        assert_eq!(rows, expected, "{words}");
    }
}

#[test]
fn checks_of_many_words_count_where_the_block_holds_something() {
    // 2,050 words from word 9 on, 4,100 octets: the one in the middle is the first of word 1,034.
    let (first, middle, last) = (&x(2, 9, 1, "0100"), &x(2, 1_034, 1, "0100"), &x(2, 2_058, 1, "0001"));
    let check = &x(9, 9, 2_050, "");
    let counts = |lines: &[&str], expected: bool| {
        let rows = tallied_rows("held", &(largest_store() + &lines.concat()), "accepted (6,9) of");
        let row = "accepted (6,9) of 1,024 to 4,095 words, 2 modulo 4";
        assert_eq!(rows, [row].into_iter().filter(|_| expected).collect::<Vec<_>>(), "{lines:?}");
    };
    counts(&[first, middle, last, check], true);
    counts(&[last, first, middle, check], true);
    counts(&[check, first, middle, last], false);
    counts(&[first, middle, check], false);
    counts(&[first, last, check], false);
    counts(&[middle, last, check], false);
    counts(&[first, &x(2, 1_033, 1, "01FF"), last, check], false);
    // Zeros that are loaded later, or with the whole store.
    counts(&[first, middle, last, &x(2, 2_058, 1, "0000"), check], false);
    counts(&[first, middle, last, &format!("S {}\n", "00".repeat(65_536)), check], false);
    // A load of two blocks that is refused, for the second is behind the area: it changes nothing.
    let refused = |word: &str| x_line(2, &format!("01 02 0000180A 0001 {word} 00009000 0001 {word}"));
    counts(&[first, middle, &refused("0101"), check], false);
    counts(&[first, middle, last, &refused("0000"), check], true);
    // A check that is refused, for its flag is off.
    counts(&[first, middle, last, "P 0503010100001000000080000000000007\n", check], false);
}

#[test]
fn checks_of_many_words_are_wanted() {
    let begin = "accepted (6,9) of ";
    let tallied = tally(&file("no-checks.in", b"C "), &file("no-checks.out", b"FFFF\n"));
    assert_eq!(tallied.status.code(), Some(1));
    let missing: Vec<_> = never_reached(&tallied).into_iter().filter(|row| row.starts_with(begin)).collect();
    assert_eq!(missing.len(), 9, "{missing:?}");
}

#[test]
fn lengths_about_a_place() {
    let mut random = Random::new(82);
    for number in 0..1_000 {
        let length = sample_parts::length_about(&mut random, 4_096, number % 8);
        assert!((4_072..4_120).contains(&length) && length % 8 == number % 8, "{length}");
    }
}

#[test]
fn parts_make_up_the_whole() {
    let mut random = Random::new(81);
    for number in 0..2_000 {
        let cuts = number % 9;
        let whole = random.octets(number % 50);
        let parts = sample_parts::divided(&mut random, &whole, cuts);
        assert_eq!(parts.concat(), whole);
        assert!((cuts + 1..=cuts + 4).contains(&parts.len()), "{} of {cuts} cuts", parts.len());
        if number % 100 == 0 {
            let image = sample_parts::image(&mut random);
            assert!((IMAGE_PART + 1..4 * IMAGE_PART).contains(&image.len()) && !image.len().is_multiple_of(IMAGE_PART));
        }
    }
}

#[test]
fn a_short_input_leaves_something_out() {
    let made = run(env!("CARGO_BIN_EXE_generate"), &["0x4D", "50"]);
    let input = file("short.in", &made.stdout);
    let answered = run(env!("CARGO_BIN_EXE_cases"), &[&input.to_string_lossy()]);
    let output = file("short.out", &answered.stdout);
    let tallied = tally(&input, &output);
    assert_eq!(tallied.status.code(), Some(1));
    assert!(String::from_utf8_lossy(&tallied.stdout).contains("NEVER REACHED: refused 41 PID"));
}

#[test]
fn a_seed_gives_the_same_input() {
    for program in [env!("CARGO_BIN_EXE_generate"), env!("CARGO_BIN_EXE_linegen")] {
        let decimal = run(program, &["77", "500"]).stdout;
        assert!(!decimal.is_empty());
        assert!(decimal == run(program, &["0x4d", "500"]).stdout);
        assert!(decimal != run(program, &["78", "500"]).stdout);
        assert_eq!(run(program, &["x", "500"]).status.code(), Some(2));
    }
}

#[test]
fn generated_lines_reach_every_closing_line() {
    let made = run(env!("CARGO_BIN_EXE_linegen"), &["5", "5000"]);
    assert!(made.stdout.last().is_some_and(|octet| *octet != b'\n'));
    let input = file("lines.in", &made.stdout);
    let answered = run(env!("CARGO_BIN_EXE_line"), &[&input.to_string_lossy()]);
    assert!(answered.status.success());
    let text = String::from_utf8(answered.stdout).expect("digits");
    let closings: Vec<&str> = text.lines().filter(|line| line.len() == 4).collect();
    assert_eq!(closings.len(), 5_000);
    for closing in ["0000", "0200", "012A", "0101", "0102", "0110", "0100", "0103", "0104", "0105", "0111", "0113"] {
        assert!(closings.contains(&closing), "{closing}");
    }
}
