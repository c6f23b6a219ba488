//! Generated packets for `explain`: each is refused as it is made to be, every row is reached, the same seed gives the same
//! files, and the tally fails when it should.

mod common;

use std::fs;
use std::path::{Path, PathBuf};
use std::process::{self, Output};

use common::packing::{line, EXAMPLE, GOOD};
use common::{hex, request, request_by_iso};
use second::packet_causes::causes;
use second::random::Random;
use second::sample_refused::{self, Aim, Data, Head};

/// So many files are compared, and so many reach everything.
const COUNT: u64 = 240;
const ENOUGH: u64 = 58;

/// What a program of this package gives.
fn run(program: &str, arguments: &[&str]) -> Output {
    process::Command::new(program).args(arguments).output().expect("the program starts")
}

/// An empty folder for one test.
fn folder(name: &str) -> PathBuf {
    let path = Path::new(env!("CARGO_TARGET_TMPDIR")).join(name);
    if path.exists() {
        fs::remove_dir_all(&path).expect("an old folder can be removed");
    }
    path
}

/// Writes the files of a seed.
fn explaingen(seed: &str, count: u64, folder: &Path) {
    let arguments = [seed, &count.to_string(), &folder.to_string_lossy()];
    assert!(run(env!("CARGO_BIN_EXE_explaingen"), &arguments).status.success());
}

/// What the tally says of a folder.
fn explaintally(folder: &Path) -> Output {
    run(env!("CARGO_BIN_EXE_explaintally"), &[&folder.to_string_lossy()])
}

/// The files of a folder that end so, in order.
fn files(folder: &Path, extension: &str) -> Vec<PathBuf> {
    let entries = fs::read_dir(folder).expect("the folder is there");
    let mut paths: Vec<_> = entries.map(|entry| entry.expect("an entry").path()).collect();
    paths.retain(|path| path.extension().is_some_and(|there| there == extension));
    paths.sort();
    paths
}

/// Runs `explain` on each pair, and keeps what it gives beside it.
fn explain_all(folder: &Path) {
    for unit in files(folder, "unit") {
        let packets = unit.with_extension("packets");
        let arguments = ["--unit", &unit.to_string_lossy(), &packets.to_string_lossy()];
        let done = run(env!("CARGO_BIN_EXE_explain"), &arguments);
        let verdict = done.stdout.starts_with(b"unit ") || done.stdout.starts_with(b"refused ");
        assert_eq!(done.status.code(), Some(if verdict { 2 } else { 0 }), "{}", unit.display());
        fs::write(unit.with_extension("theirs"), done.stdout).expect("it can be written");
        fs::write(unit.with_extension("said"), done.stderr).expect("it can be written");
    }
}

#[test]
fn every_row_is_reached() {
    let folder = folder("explain-all");
    explaingen("77", COUNT, &folder);
    assert_eq!(files(&folder, "unit").len() as u64, COUNT);
    assert_eq!(files(&folder, "packets").len() as u64, COUNT);
    explain_all(&folder);
    let tallied = explaintally(&folder);
    assert_eq!(tallied.status.code(), Some(0), "{}", String::from_utf8_lossy(&tallied.stdout));

    // Without its answers a row is never reached, and the tally says which.
    for path in files(&folder, "said") {
        if fs::read(&path).expect("it is there") == b"the PID is above 127\n" {
            fs::remove_file(path.with_extension("theirs")).expect("it can be removed");
        }
    }
    let tallied = explaintally(&folder);
    assert_eq!(tallied.status.code(), Some(1));
    let text = String::from_utf8(tallied.stdout).expect("text");
    let never: Vec<_> = text.lines().filter(|line| line.starts_with("NEVER REACHED")).collect();
    assert_eq!(never, ["NEVER REACHED: refused 41: the PID is above N"]);
}

#[test]
fn the_first_files_reach_every_row_whatever_the_seed() {
    for seed in ["0", "1", "20261115", "0xFFFFFFFFFFFFFFFF"] {
        let folder = folder("explain-enough");
        explaingen(seed, ENOUGH, &folder);
        explain_all(&folder);
        let tallied = explaintally(&folder);
        assert_eq!(tallied.status.code(), Some(0), "{seed}: {}", String::from_utf8_lossy(&tallied.stdout));
    }
}

#[test]
fn a_seed_gives_the_same_files() {
    let (one, same, other) = (folder("explain-one"), folder("explain-same"), folder("explain-other"));
    explaingen("77", 40, &one);
    explaingen("0x4d", 40, &same);
    explaingen("78", 40, &other);
    let texts = |folder: &Path| -> Vec<Vec<u8>> {
        let paths = files(folder, "unit").into_iter().chain(files(folder, "packets"));
        paths.map(|path| fs::read(path).expect("it is there")).collect()
    };
    assert!(texts(&one) == texts(&same));
    assert!(texts(&one) != texts(&other));
    for arguments in [&["x", "1", "y"][..], &["1", "1"], &[]] {
        assert_eq!(run(env!("CARGO_BIN_EXE_explaingen"), arguments).status.code(), Some(2));
    }
}

/// The check that an aim is about, and its detail where it is a place in the packet.
fn aimed_at(aim: &Aim) -> Option<(u8, Option<u16>)> {
    let (head, data) = match aim {
        Aim::Count { octets: ..6, .. } => return Some((42, Some(0))),
        Aim::Count { octets, .. } => return Some((1, Some(*octets as u16))),
        Aim::Packet { head, data, .. } => (head.first(), *data),
    };
    match head {
        Some(Head::FieldLarger | Head::FieldSmaller) => return Some((1, None)),
        Some(Head::Control) => return Some((2, None)),
        Some(Head::Header(detail)) => return Some((16, Some(*detail))),
        Some(Head::OtherPid | Head::OtherCategory | Head::OtherApid) => return Some((0, None)),
        Some(Head::OtherType) => return Some((3, None)),
        Some(Head::OtherSubtype) => return Some((4, None)),
        None => (),
    }
    Some(match data {
        Data::Right | Data::Longest => return None,
        Data::Octets(_) | Data::None | Data::OneOctet | Data::NoBlocks | Data::TooManyBlocks => (5, Some(0)),
        Data::LeftOver => (5, Some(0)),
        Data::HeadCut(block) | Data::NoWords(block) | Data::Above240(block) | Data::WordsCut(block) => {
            (5, Some(block as u16))
        }
        Data::OtherMemoryAndNoWords | Data::WithoutRightAndNoWords => (5, Some(1)),
        Data::OtherMemory => (17, None),
        Data::WithoutRight | Data::WithoutRightAndOutside => (18, None),
        Data::Outside(block, _) | Data::OutsideFrom(block) => (19, Some(block as u16)),
        Data::OutsideBehind(_) | Data::SpelledBefore | Data::SpelledBehind => (19, Some(2)),
    })
}

#[test]
fn each_packet_is_refused_as_it_is_made_to_be() {
    let mut random = Random::new(23);
    let aims = sample_refused::aims();
    for areas in 4..=8 {
        let stated = sample_refused::roomy(&mut random, areas);
        assert!(stated.profile.sound(stated.store_octets));
        for aim in &aims {
            let packet = sample_refused::packet(&mut random, &stated.profile, aim);
            let causes = causes(&stated.profile, &packet);
            let first = causes.first().map(|cause| (cause.number, cause.detail));
            let expected = aimed_at(aim);
            assert_eq!(first.map(|(number, _)| number), expected.map(|(number, _)| number), "{aim:?}");
            if let Some((_, Some(detail))) = expected {
                assert_eq!(first.map(|(_, detail)| detail), Some(detail), "{aim:?}");
            }
            // Where there are two faults before the data, both are found.
            if let Aim::Packet { head, .. } = aim {
                assert!(causes.len() >= head.len(), "{aim:?}");
            }
        }
    }
}

/// A folder with one unit file, its packets and what `explain` is taken to have answered.
struct Tried {
    folder: PathBuf,
}

impl Tried {
    fn new(name: &str) -> Tried {
        let folder = folder(name);
        fs::create_dir_all(&folder).expect("a folder");
        Tried { folder }
    }

    /// What the tally says of this.
    fn tally(&self, unit: &str, packets: &str, out: &str, said: &str) -> Output {
        for (extension, text) in [("unit", unit), ("packets", packets), ("theirs", out), ("said", said)] {
            fs::write(self.folder.join("0001").with_extension(extension), text).expect("it can be written");
        }
        explaintally(&self.folder)
    }

    /// The answer is that of the line, and is counted as these rows.
    #[track_caller]
    fn counts(&self, unit: &str, line: &str, answer: &str, rows: &[&str]) {
        let tallied = self.tally(unit, line, &format!("{answer}\n"), "");
        let text = String::from_utf8_lossy(&tallied.stdout).into_owned();
        assert_eq!(tallied.status.code(), Some(1), "{line} {answer}: {}", String::from_utf8_lossy(&tallied.stderr));
        for row in rows {
            assert!(text.lines().any(|line| line.get(11..) == Some(row)), "{row}: {text}");
        }
    }

    /// Any of these is another answer than that of the line.
    #[track_caller]
    fn refuses(&self, unit: &str, line: &str, answers: &[&str]) {
        for answer in answers {
            let tallied = self.tally(unit, line, &format!("{answer}\n"), "");
            assert_eq!(tallied.status.code(), Some(2), "{line} {answer}");
        }
    }
}

/// The line of a packet of PID 5 with flag 1.
fn tc(service: u8, subtype: u8, data: &str) -> String {
    line(&request(0, service, subtype, data))
}

#[test]
fn the_tally_tells_the_ways_apart() {
    let tried = Tried::new("explain-apart");
    let rights = EXAMPLE.replace(" load dump check\n", "\n");
    let (last_with, last_without) = ("last line with its newline", "last line without its newline");
    tried.counts(EXAMPLE, GOOD, "0000", &["0000 (17,1) flag 1", "line in upper case", last_without]);
    tried.counts(EXAMPLE, &format!("{GOOD}\n").to_lowercase(), "0000", &["line in lower case", last_with]);
    tried.counts(EXAMPLE, &GOOD.replacen('C', "c", 1), "0000", &["line in both cases"]);
    let iso = line(&request_by_iso(0, 6, 5, "01 01 00001000 0001"));
    tried.counts(EXAMPLE, &iso, "0000", &["0000 (6,5) flag 0"]);
    tried.counts(EXAMPLE, &format!("{GOOD}\r\n"), "0200", &["0200 carriage return"]);
    tried.counts(EXAMPLE, "0g\n", "0200", &["0200 character"]);
    tried.counts(EXAMPLE, "0\n", "0200", &["0200 odd digits"]);
    tried.counts(EXAMPLE, &"0".repeat(4_097), "0200", &["0200 too long"]);
    tried.counts(EXAMPLE, "\n", "42 0 0 0", &["42 0 octets"]);
    tried.counts(EXAMPLE, "0011223344", "42 0 0 0", &["42 5 octets"]);
    let below = " 1 fewer than 12 octets, and the length field says";
    tried.counts(EXAMPLE, "185CC0000005", "1 6 4 5", &[" 1 of 6 octets", &format!("{below} another number")]);
    tried.counts(EXAMPLE, "185CC00000041011010012", "1 11 4 5", &[" 1 of 11 octets", &format!("{below} so")]);
    tried.counts(EXAMPLE, &format!("{GOOD}00"), "1 13 4 5", &[" 1 the length field says fewer"]);
    tried.counts(EXAMPLE, &GOOD.replace("0005", "0006"), "1 12 4 5", &[" 1 of 12 octets", " 1 and  2"]);
    tried.counts(EXAMPLE, &GOOD.replace("0167", "0168"), "2 359 10 11", &[" 2 flag 1, 12 octets"]);
    tried.counts(EXAMPLE, &tc(6, 5, ""), "5 0 10 9", &[" 5 (6,5) no data"]);
    tried.counts(
        EXAMPLE,
        &tc(6, 5, "02 01 00001000 0000"),
        "5 1 10 17",
        &[" 5 (6,5) block 1 has no words", " 5 and 17"],
    );
    tried.counts(EXAMPLE, &tc(6, 9, "02 01 00001000 0001"), "17 2 10 10", &["17 (6,9)"]);
    tried.counts(&rights, &tc(6, 9, "01 01 00001040 0001"), "18 1 10 10", &["18 (6,9)", "18 and 19"]);
    let load = tc(6, 2, "01 02 00001000 0003 000010400001 00001040 0001 ABCD");
    let rows = [
        "19 (6,2) block 2",
        "19 (6,2) block 2 behind other numbers of words",
        "19 area 1",
        "19 starts behind the area",
        "19 the same octets stand before it",
    ];
    tried.counts(EXAMPLE, &load, "19 2 24 29", &rows);
    let check = tc(6, 9, "01 02 0000103F 0002 0000103F 0002");
    let rows = ["19 (6,9) block 1", "19 starts inside the area", "19 the same octets stand behind it"];
    tried.counts(EXAMPLE, &check, "19 1 12 17", &rows);
}

#[test]
fn what_is_not_the_answer_of_a_packet_is_not_tallied() {
    let tried = Tried::new("explain-other");
    // Another number, detail or octet, another form, and an answer to a line that has another kind of answer.
    for (line, answer, others) in [
        (GOOD.to_owned(), "0000", &["0 0 0 0", "0200", "0100", "00000", "", "17 0 10 10"][..]),
        ("zz".into(), "0200", &["0000", "bad line", "42 0 0 0", "0200 "]),
        ("00".into(), "42 0 0 0", &["0200", "42 0 0 1", "42 1 0 0", "42 0 0", "42 0 0 0 0", "2A 0 0 0", "1 1 4 5"]),
        (format!("{GOOD}00"), "1 13 4 5", &["1 13 5 4", "1 12 4 5", "1 13 4 4", "1 13 5 5", "1 13 0 12", "1  13 4 5"]),
        (
            GOOD.replace("0167", "0168"),
            "2 359 10 11",
            &["2 359 11 12", "2 359 10 12", "2 359 11 11", "2 360 10 11", "2 0167 10 11", "2 359 0 1", "02 359 10 11"],
        ),
        (
            line(&common::sealed("385C C000 0005 10 11 01 00")),
            "16 1 0 0",
            &["16 1 0 1", "16 1 2 2", "16 2 0 0", "0 92 0 1"],
        ),
        (
            line(&common::sealed("185C 0000 0005 30 11 01 00")),
            "16 4 2 2",
            &["16 4 6 6", "16 5 6 6", "16 4 2 3", "16 4 0 0"],
        ),
        (
            line(&common::sealed("185C C000 0005 30 11 01 00")),
            "16 5 6 6",
            &["16 5 0 0", "16 5 2 2", "16 5 6 7", "16 4 6 6"],
        ),
        (
            line(&common::sealed("184C C000 0005 10 11 01 00")),
            "0 76 0 1",
            &["0 76 0 0", "0 76 1 2", "0 4 0 1", "0000", "3 17 7 7"],
        ),
        (tc(7, 7, ""), "3 7 7 7", &["3 7 7 8", "3 7 8 8", "3 1799 7 7", "4 1799 7 8"]),
        (tc(6, 6, ""), "4 1542 7 8", &["4 1542 8 8", "4 6 7 8", "4 1542 7 7", "5 0 10 9"]),
        (tc(6, 5, ""), "5 0 10 9", &["5 0 10 10", "5 0 10 11", "5 1 10 9", "5 0 9 10"]),
        (
            tc(6, 5, "01 01 00001000 0000"),
            "5 1 10 17",
            &["5 1 10 19", "5 1 12 17", "5 1 10 18", "5 0 10 17", "5 2 10 17"],
        ),
        (tc(17, 1, "0000"), "5 0 10 11", &["5 0 10 10", "5 0 10 13", "0000"]),
        (tc(6, 9, "0A 01 00001000 0001"), "17 10 10 10", &["17 10 10 11", "17 10 11 11", "18 10 10 10", "17 1 10 10"]),
        (
            tc(6, 2, "01 02 00001000 0001 ABCD 00001040 0001 ABCD"),
            "19 2 20 25",
            &["19 2 12 17", "19 2 18 23", "19 1 20 25", "19 2 20 26", "19 2 20 24", "19 1 12 17", "19 2 10 15", "0000"],
        ),
        (
            // The words in front spell the same as the block that is outside.
            tc(6, 2, "01 02 00001000 0003 000010400001 00001040 0001 ABCD"),
            "19 2 24 29",
            &["19 2 18 23", "19 1 12 17"],
        ),
    ] {
        tried.counts(EXAMPLE, &line, answer, &[]);
        tried.refuses(EXAMPLE, &line, others);
    }
    let rights = EXAMPLE.replace(" load dump check\n", "\n");
    let check = tc(6, 9, "01 01 00001040 0001");
    tried.counts(&rights, &check, "18 1 10 10", &[]);
    tried.refuses(&rights, &check, &["17 1 10 10", "18 1 10 11", "18 1 11 11", "18 0 10 10", "19 1 12 17", "0000"]);
    // The unit decides.
    tried.refuses(EXAMPLE, &check, &["18 1 10 10"]);
    tried.refuses(&EXAMPLE.replace("pid 5", "pid 6"), GOOD, &["0000"]);
    tried.refuses(&EXAMPLE.replace(" connection", ""), GOOD, &["0000"]);
}

#[test]
fn what_explain_never_gives_is_not_tallied() {
    let tried = Tried::new("explain-form");
    let reached =
        |unit: &str, packets: &str, out: &str, said: &str| tried.tally(unit, packets, out, said).status.code();
    let (bad, unsound) = ("pid 5\nstore\n", "pid 128\nstore 0\n");
    let bad_words = "unit 2: a store is \"store N\"\n";
    let unsound_words = "the PID is above 127\n";
    for (unit, packets, out, said) in [
        (EXAMPLE, "", "", ""),
        (EXAMPLE, "\n", "42 0 0 0\n", ""),
        (EXAMPLE, "00\n00", "42 0 0 0\n42 0 0 0\n", ""),
        (bad, "00\n", bad_words, ""),
        (unsound, "00\n", "refused 41\n", unsound_words),
    ] {
        assert_eq!(reached(unit, packets, out, said), Some(1), "{out}");
    }
    for (unit, packets, out, said) in [
        // A line too few or too many, and one without its newline.
        (EXAMPLE, "00\n00\n", "42 0 0 0\n", ""),
        (EXAMPLE, "00\n", "42 0 0 0\n42 0 0 0\n", ""),
        (EXAMPLE, "", "42 0 0 0\n", ""),
        (EXAMPLE, "00\n", "", ""),
        (EXAMPLE, "00\n", "42 0 0 0", ""),
        (EXAMPLE, "00\n", "42 0 0 0\n", "words\n"),
        // An end that is not that of the unit.
        (EXAMPLE, "00\n", bad_words, ""),
        (EXAMPLE, "00\n", "refused 41\n", unsound_words),
        (bad, "00\n", "42 0 0 0\n", ""),
        (bad, "00\n", "refused 41\n", unsound_words),
        (unsound, "00\n", "42 0 0 0\n", ""),
        (unsound, "00\n", bad_words, ""),
        // Another form of it.
        (bad, "00\n", "unit 2\n", ""),
        (bad, "00\n", "unit 2: a store is not\n", ""),
        (bad, "00\n", bad_words, "words\n"),
        (bad, "00\n", "unit 2: a store is \"store N\"\n42 0 0 0\n", ""),
        (unsound, "00\n", "refused 41\n", ""),
        (unsound, "00\n", "refused 41\n", "it is bad\n"),
        (unsound, "00\n", "refused 41\nthe PID is above 127\n", ""),
        (unsound, "00\n", "refused 41\n42 0 0 0\n", unsound_words),
    ] {
        assert_eq!(reached(unit, packets, out, said), Some(2), "{out}");
    }
    for extension in ["unit", "packets", "said"] {
        assert_eq!(reached(EXAMPLE, "00\n", "42 0 0 0\n", ""), Some(1));
        fs::remove_file(tried.folder.join("0001").with_extension(extension)).expect("it can be removed");
        assert_eq!(explaintally(&tried.folder).status.code(), Some(2), "{extension}");
    }
    assert_eq!(explaintally(&tried.folder.join("nothing")).status.code(), Some(2));
    assert_eq!(run(env!("CARGO_BIN_EXE_explaintally"), &[]).status.code(), Some(2));
}

#[test]
fn every_cause_of_a_packet_is_found() {
    // The causes of a packet, each on its own: all of them are found, in checking order.
    let packet = hex("F84C 0000 0006 F0 06 05 00 02 00 0000");
    let profile = second::hexline::profile();
    let found: Vec<_> = causes(&profile, &packet).iter().map(|cause| (cause.number, cause.detail)).collect();
    assert_eq!(found.len(), 8);
    let numbers: Vec<_> = found.iter().map(|(number, _)| *number).collect();
    assert_eq!(numbers, [1, 2, 16, 16, 16, 0, 5, 17]);
    assert_eq!(found[0], (1, 14));
    assert_eq!(found[2..], [(16, 1), (16, 4), (16, 5), (0, 76), (5, 0), (17, 2)]);
}
