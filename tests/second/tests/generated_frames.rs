//! Generated frames: each has the causes that it is made for and no others, what the terminal writes reads back as its
//! own fields, every row is reached, and the tallies fail when they should.

mod common;

use std::collections::BTreeSet;
use std::fs;
use std::path::{Path, PathBuf};
use std::process::{self, Output};

use second::cases::{self, Command, State};
use second::frame_causes::{self, failing, Aims, KINDS};
use second::frame_rows;
use second::frame_words;
use second::frames;
use second::hex;
use second::hexline;
use second::random::Random;
use second::sample;
use second::sample_frame::{self, CLEAN_TURNS};
use second::sample_map;
use second::telemetry;
use second::terminal;
use second::tm::Counts;
use second::write_rows;

fn run(program: &str, arguments: &[&str]) -> Output {
    process::Command::new(program).args(arguments).output().expect("the program starts")
}

/// A file for one test with these octets.
fn file(name: &str, octets: &[u8]) -> PathBuf {
    let path = Path::new(env!("CARGO_TARGET_TMPDIR")).join(name);
    fs::write(&path, octets).expect("the file can be written");
    path
}

fn tally(program: &str, name: &str, input: &[u8], output: &[u8]) -> Output {
    let [input, output] = [("in", input), ("out", output)].map(|(end, octets)| file(&format!("{name}.{end}"), octets));
    run(program, &[&input.to_string_lossy(), &output.to_string_lossy()])
}

fn frametally(name: &str, input: &[u8], output: &[u8]) -> Output {
    tally(env!("CARGO_BIN_EXE_frametally"), name, input, output)
}

/// Lines for `frames` and what it answers to them.
fn generated(seed: &str, lines: &str) -> (Vec<u8>, Vec<u8>) {
    let made = run(env!("CARGO_BIN_EXE_framegen"), &[seed, lines]);
    assert!(made.status.success());
    let answers = answers(&made.stdout);
    (made.stdout, answers)
}

fn answers(input: &[u8]) -> Vec<u8> {
    let mut output = Vec::new();
    frames::run(&mut &input[..], &mut output).expect("a vector takes everything");
    output
}

fn never_reached(tallied: &Output) -> Vec<String> {
    let text = String::from_utf8_lossy(&tallied.stdout);
    text.lines().filter_map(|line| line.strip_prefix("NEVER REACHED: ")).map(String::from).collect()
}

#[test]
fn every_aim_is_met() {
    let mut random = Random::new(3);
    let mut aims = Aims::new();
    assert_eq!((frame_causes::all().len(), frame_causes::pairs().len()), (41, 491));
    for _ in 0..15_000 {
        let aim = aims.next_aim();
        let frame = sample_frame::with_causes(&mut random, &aim);
        assert_eq!(failing(&frame), aim, "{frame:02X?}");
        assert_eq!(telemetry::read(&frame), Err(aim[0].number()), "{frame:02X?}");
    }
}

#[test]
fn no_other_two_causes_go_together() {
    let mut random = Random::new(4);
    let (mut aims, pairs) = (Aims::new(), frame_causes::pairs());
    let mut seen = 0;
    for _ in 0..30_000 {
        let mut frame = sample_frame::with_causes(&mut random, &aims.next_aim());
        if frame.is_empty() {
            continue;
        }
        let place = random.below(frame.len().min(34) as u64) as usize;
        frame[place] = random.octet();
        if random.once_in(4) {
            frame.truncate(place);
        }
        if let [first, second] = failing(&frame)[..] {
            seen += 1;
            assert!(pairs.contains(&[first, second]), "{first} and {second}");
        }
    }
    assert!(seen > 5_000, "{seen}");
}

#[test]
fn every_category_type_and_subtype_is_swept() {
    let mut random = Random::new(12);
    let mut seen = BTreeSet::new();
    for turn in 0..sample_frame::SWEPT_TURNS {
        let frame = sample_frame::swept(&mut random, turn);
        assert!(failing(&frame).iter().all(|cause| cause.number() >= 62), "{frame:02X?}");
        seen.insert((frame[13], frame[14], frame[1] % 16));
    }
    for (service, subtype) in KINDS {
        assert!((0..16).all(|category| seen.contains(&(service, subtype, category))), "({service},{subtype})");
    }
    for value in 0..32 {
        for (service, category) in [(1, 1), (6, 9), (17, 9)] {
            assert!(seen.contains(&(service, value, category)), "({service},{value})");
        }
        assert!(seen.iter().any(|(service, ..)| *service == value), "{value}");
    }
}

#[test]
fn clean_frames_are_said_as_they_are() {
    let mut random = Random::new(5);
    for turn in 0..CLEAN_TURNS * 50 {
        let frame = sample_frame::clean(&mut random, turn);
        assert_eq!(failing(&frame), []);
        let mut line = Vec::new();
        hex::write(&frame, &mut line);
        let said = String::from_utf8(answers(&line)).expect("words");
        assert_eq!(frame_words::frame(said.trim_end_matches('\n')).as_deref(), Some(frame.as_slice()), "{said}");
    }
}

/// What stands in an answer's frames besides PID and time: category, count and type.
type Stamp = (u16, u16, u8);

/// Reads each frame of an answer, which has to have this PID and time, and returns its stamp.
fn stamps(mut written: &[u8], pid: u16, time: [u8; 6]) -> Vec<Stamp> {
    let mut stamps = Vec::new();
    while let Some((frame, rest)) = hexline::split_frame(written) {
        let read = telemetry::read(frame).expect("it reads cleanly");
        assert_eq!((read.pid(), read.time, read.source_data), (pid, time, &frame[16..]));
        stamps.push((read.apid % 16, read.count, read.service));
        written = rest;
    }
    stamps
}

#[test]
fn what_the_terminal_writes_reads_back_as_its_own_stamp() {
    let mut random = Random::new(6);
    let mut buffer = vec![0; 4_096];
    let mut frames = 0;
    for _ in 0..200 {
        let map = sample_map::sound(&mut random, 300, 3);
        let mut store = random.octets(map.store_octets);
        let mut counts = Counts { category_1: random.below(16_384) as u16, category_9: random.below(16_384) as u16 };
        for _ in 0..20 {
            let packet = sample::packet(&mut random, &map.profile);
            let time = [(); 6].map(|()| random.octet());
            let mut due = counts;
            let answer = terminal::answer(&map.profile, counts, time, &packet, &mut store, &mut buffer);
            counts = answer.counts;
            for (category, count, service) in stamps(&buffer[..answer.written], map.profile.pid.into(), time) {
                let (right, next) = match service {
                    1 => (1, &mut due.category_1),
                    _ => (9, &mut due.category_9),
                };
                assert_eq!((category, count), (right, *next));
                *next = (*next + 1) % 16_384;
                frames += 1;
            }
            assert_eq!(due, counts);
        }
    }
    assert!(frames > 3_000, "{frames}");
}

#[test]
fn what_the_terminal_writes_reads_back_as_its_own_contents() {
    let mut unit = common::Unit::new();
    unit.time = [1, 2, 3, 4, 5, 6];
    let mut said = |packet: Vec<u8>| {
        let answer = unit.send(&packet);
        let mut lines = Vec::new();
        hexline::write_frames(&unit.output[..answer.written], &mut lines);
        String::from_utf8(answers(&lines)).expect("words")
    };
    assert_eq!(
        said(common::request(9, 6, 2, "01 02 0000103E 0002 ABCD 1456 00001002 0002 ABCD EF01")),
        "(1,1) pid 5 count 0 time 010203040506 packet 185C control C000
(1,7) pid 5 count 1 time 010203040506 packet 185C control C000
"
    );
    assert_eq!(
        said(common::request(0, 6, 5, "01 02 0000103E 0002 0000103F 0001")),
        "(6,6) pid 5 count 0 time 010203040506 memory 1 start 0000103E length 2 words ABCD1456
(6,6) pid 5 count 1 time 010203040506 memory 1 start 0000103F length 1 words 1456
"
    );
    // Two of the published vectors: the CRC of AB CD EF 01 is 04A2, that of 00 00 is 1D0F.
    assert_eq!(
        said(common::request(1, 6, 9, "01 02 00001002 0002 00001000 0001")),
        "(1,1) pid 5 count 2 time 010203040506 packet 185C control C000
(6,10) pid 5 count 2 time 010203040506 memory 1 blocks 2 start 00001002 length 2 crc 04A2 start 00001000 length 1 crc 1D0F
"
    );
    assert_eq!(said(common::request(0, 17, 1, "")), "(17,2) pid 5 count 3 time 010203040506\n");
    // No area has memory ID 2: refused with 17, the detail that ID.
    assert_eq!(
        said(common::request(0, 6, 5, "02 01 0000103E 0002")),
        "(1,2) pid 5 count 3 time 010203040506 packet 185C control C000 code 17 detail 2\n"
    );
}

#[test]
fn every_row_is_reached() {
    for seed in ["7", "8", "9"] {
        let (input, output) = generated(seed, "2000");
        assert!(input.last().is_some_and(|octet| *octet != b'\n'));
        let tallied = frametally("rows", &input, &output);
        assert!(tallied.status.success(), "{:?}", never_reached(&tallied));
    }
}

#[test]
fn a_row_that_is_not_reached_is_told() {
    let (input, output) = generated("10", "2000");
    let lines: Vec<_> = input.split(|octet| *octet == b'\n').collect();
    let answers: Vec<_> = output.split(|octet| *octet == b'\n').collect();
    // Kinds of frames have edges of their own, which would be missing with them.
    let wanted: Vec<_> = frame_rows::wanted().into_iter().filter(|row| !row.ends_with(')')).collect();
    for row in wanted.iter().step_by(61) {
        let others = |line: &[u8]| !hex::read(line).is_some_and(|frame| frame_rows::rows(&frame).contains(row));
        let kept: Vec<_> = lines.iter().zip(&answers).filter(|(line, _)| others(line)).collect();
        let lines: Vec<&[u8]> = kept.iter().map(|(line, _)| **line).collect();
        let answers: Vec<u8> = kept.iter().flat_map(|(_, answer)| [answer, b"\n" as &[u8]].concat()).collect();
        let tallied = frametally("row", &lines.join(&b'\n'), &answers);
        assert_eq!(tallied.status.code(), Some(1), "{row}");
        assert!(never_reached(&tallied).contains(row), "{row}");
    }
}

#[test]
fn sorts_of_lines_that_are_not_reached_are_told() {
    let (input, output) = generated("11", "2000");
    let lines: Vec<_> = input.split(|octet| *octet == b'\n').collect();
    let answers = String::from_utf8(output).expect("words");
    let good = lines.iter().zip(answers.lines()).filter(|(line, answer)| !line.is_empty() && *answer != "bad line");
    let mut kept = Vec::new();
    let mut said = String::new();
    for (line, answer) in good.filter(|(line, _)| line.len() < 4_096) {
        kept.extend(line.to_ascii_uppercase());
        kept.push(b'\n');
        said.push_str(&format!("{answer}\n"));
    }
    let tallied = frametally("sorts", &kept, said.as_bytes());
    assert_eq!(tallied.status.code(), Some(1));
    let expected = [
        "bad line of 4,096 characters",
        "bad line of 4,097 characters",
        "bad line of 4,098 characters",
        "bad line of more than 4,098 characters",
        "bad line of odd digits",
        "bad line with a NUL",
        "bad line with a carriage return",
        "bad line with a space",
        "bad line with an octet above 7F",
        "bad line with another character",
        "line empty",
        "line of 4,096 digits",
        "line with lower-case letters",
        "line without its newline",
    ];
    assert_eq!(never_reached(&tallied), expected);
}

#[test]
fn a_wrong_answer_is_not_tallied() {
    let good = "0859C000000900000000000000110200";
    let dump = "0859C00100130000000000000006060001010000103E0001ABCD";
    let rows = [
        (good, "(17,2) pid 5 count 0 time 000000000000\n", "refused 60\n"),
        (good, "(17,2) pid 5 count 0 time 000000000000\n", "(17,2) pid 6 count 0 time 000000000000\n"),
        (good, "(17,2) pid 5 count 0 time 000000000000\n", "(17,2) pid 5 count 0 time 000000000000 \n"),
        (good, "(17,2) pid 5 count 0 time 000000000000\n", "(17,2) pid 5 count 00 time 000000000000\n"),
        (good, "(17,2) pid 5 count 0 time 000000000000\n", "(17,2) pid 5 count 0 time 0000000000\n"),
        (good, "(17,2) pid 5 count 0 time 000000000000\n", "(17,2) pid 5 count 0 time 000000000000"),
        (good, "(17,2) pid 5 count 0 time 000000000000\n", ""),
        (
            dump,
            "(6,6) pid 5 count 1 time 000000000000 memory 1 start 0000103E length 1 words ABCD\n",
            "(6,6) pid 5 count 1 time 000000000000 memory 1 start 0000103E length 1 words abcd\n",
        ),
        (
            dump,
            "(6,6) pid 5 count 1 time 000000000000 memory 1 start 0000103E length 1 words ABCD\n",
            "(6,6) pid 5 count 1 time 000000000000 memory 1 start 103E length 1 words ABCD\n",
        ),
        ("", "", "refused 60\n"),
        ("00", "refused 60\n", "refused 61\n"),
        ("0", "bad line\n", "refused 60\n"),
        ("00", "refused 60\n", "bad line\n"),
        ("0851C000000900000000000000110200", "refused 62\n", "refused 61\n"),
        ("0851C000000900000000000000110200", "refused 62\n", "(17,2) pid 5 count 0 time 000000000000\n"),
    ];
    for (line, right, wrong) in rows {
        assert_eq!(frametally("answer", line.as_bytes(), right.as_bytes()).status.code(), Some(1), "{right}");
        assert_eq!(frametally("answer", line.as_bytes(), wrong.as_bytes()).status.code(), Some(2), "{wrong}");
    }
}

/// Input for `cases` and what is answered to it.
#[derive(Default)]
struct Answered {
    input: Vec<u8>,
    answers: Vec<u8>,
    frames: usize,
}

/// The commands of the input with its F lines and without: all others are answered the same.
fn with_and_without_frames(made: &[u8]) -> [Answered; 2] {
    let (mut with, mut without) = (State::new(), State::new());
    let [mut all, mut others] = [Answered::default(), Answered::default()];
    for line in made.split_inclusive(|octet| *octet == b'\n') {
        let Some(command) = cases::parse(line.strip_suffix(b"\n").unwrap_or(line)) else { continue };
        let begun = all.answers.len();
        all.input.extend_from_slice(line);
        with.obey(command.clone(), &mut all.answers);
        if let Command::ReadFrame(_) = command {
            all.frames += 1;
            continue;
        }
        let begun_without = others.answers.len();
        others.input.extend_from_slice(line);
        without.obey(command, &mut others.answers);
        assert!(all.answers[begun..] == others.answers[begun_without..]);
    }
    [all, others]
}

#[test]
fn frames_of_cases_set_nothing_and_are_wanted() {
    let made = run(env!("CARGO_BIN_EXE_generate"), &["79", "20000"]);
    let [with, without] = with_and_without_frames(&made.stdout);
    assert!(with.frames > 2_000, "{}", with.frames);
    let missing = |answered: &Answered| {
        let tallied = tally(env!("CARGO_BIN_EXE_tally"), "cases-frames", &answered.input, &answered.answers);
        assert_eq!(tallied.status.code(), Some(1));
        let mut missing = never_reached(&tallied);
        missing.sort();
        missing
    };
    // Bad lines are no commands, so they are left out of both.
    let bad = ["bad line", "bad line D of no octets", "bad line D of one octet", "bad line F of 70,000 octets"];
    let mut expected: Vec<String> = bad.into_iter().chain(write_rows::BAD).map(String::from).collect();
    expected.sort();
    assert_eq!(missing(&with), expected);
    expected.extend(frame_rows::wanted().into_iter().map(|row| format!("F {row}")));
    expected.extend(["F no octets", "F 65,542 octets", "F above 65,542 octets"].map(String::from));
    expected.sort();
    assert_eq!(missing(&without), expected);
}

#[test]
fn a_wrong_answer_to_an_f_line_is_not_tallied() {
    let good = "F 0859C000000900000000000000110200";
    let rows = [
        (good, "0000 0059 0000 000000000000 11 02 \n", "0000 0059 0000 000000000000 11 02\n"),
        (good, "0000 0059 0000 000000000000 11 02 \n", "0000 0005 0000 000000000000 11 02 \n"),
        (good, "0000 0059 0000 000000000000 11 02 \n", "0000 0059 0000 00000000 11 02 \n"),
        (good, "0000 0059 0000 000000000000 11 02 \n", "0000 0059 0000 000000000000 02 11 \n"),
        (good, "0000 0059 0000 000000000000 11 02 \n", "013C 0000 0000 000000000000 00 00 \n"),
        ("F ", "013C 0000 0000 000000000000 00 00 \n", "013D 0000 0000 000000000000 00 00 \n"),
        ("F ", "013C 0000 0000 000000000000 00 00 \n", "013C 0000 0000 000000000000 00 00\n"),
        ("F ", "013C 0000 0000 000000000000 00 00 \n", "0200\n"),
        (
            "F 0851C000000900000000000000110200",
            "013E 0000 0000 000000000000 00 00 \n",
            "013E 0051 0000 000000000000 00 00 \n",
        ),
        // A frame that the terminal cannot have written: category 1 for service 17.
        (
            "X 185CC000000510110100F210",
            "0859C000000900000000000000110200\n0000 0000 0010 0000 0001\n",
            "0851C000000900000000000000110200\n0000 0000 0010 0000 0001\n",
        ),
    ];
    for (line, right, wrong) in rows {
        let tallied = |answer: &str| {
            let program = env!("CARGO_BIN_EXE_tally");
            tally(program, "f-answer", line.as_bytes(), answer.as_bytes()).status.code()
        };
        assert_eq!(tallied(right), Some(1), "{right}");
        assert_eq!(tallied(wrong), Some(2), "{wrong}");
    }
}

#[test]
fn a_seed_gives_the_same_frames() {
    let program = env!("CARGO_BIN_EXE_framegen");
    let decimal = run(program, &["77", "500"]).stdout;
    assert_eq!(decimal.iter().filter(|octet| **octet == b'\n').count(), 499);
    assert!(decimal == run(program, &["0x4d", "500"]).stdout);
    assert!(decimal != run(program, &["78", "500"]).stdout);
    assert_eq!(run(program, &["x", "500"]).status.code(), Some(2));
}
