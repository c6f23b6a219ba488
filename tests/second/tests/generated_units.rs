//! Generated unit files: what they are made to state is read, every row of the tables is reached, the same seed gives
//! the same files, and the tally fails when it should.

use std::fs;
use std::path::{Path, PathBuf};
use std::process::{self, Output};

use second::random::Random;
use second::sample_bad_unit::{self, AIMS};
use second::sample_unit::{self, Stated};
use second::unit;
use second::unit_fault::Fault;

/// So many files reach everything.
const COUNT: u64 = 400;

/// What a program of this package gives.
fn run(program: &str, arguments: &[&str]) -> Output {
    process::Command::new(program).args(arguments).output().expect("the program starts")
}

/// An empty folder for one test.
fn folder(name: &str) -> PathBuf {
    let path = Path::new(env!("CARGO_TARGET_TMPDIR")).join(name);
    if path.exists() {
        fs::remove_dir_all(&path).expect("an old folder can be removed");
    }
    path
}

/// Writes the files of a seed.
fn unitgen(seed: &str, count: u64, folder: &Path) {
    let arguments = [seed, &count.to_string(), &folder.to_string_lossy()];
    assert!(run(env!("CARGO_BIN_EXE_unitgen"), &arguments).status.success());
}

/// What the tally says of a folder.
fn packtally(folder: &Path) -> Output {
    run(env!("CARGO_BIN_EXE_packtally"), &[&folder.to_string_lossy()])
}

/// The files of a folder that end so, in order.
fn files(folder: &Path, extension: &str) -> Vec<PathBuf> {
    let entries = fs::read_dir(folder).expect("the folder is there");
    let mut paths: Vec<_> = entries.map(|entry| entry.expect("an entry").path()).collect();
    paths.retain(|path| path.extension().is_some_and(|there| there == extension));
    paths.sort();
    paths
}

/// Runs `pack` on each pair, and keeps what it gives beside it.
fn pack_all(folder: &Path) {
    for unit in files(folder, "unit") {
        let packets = unit.with_extension("packets");
        let done = run(env!("CARGO_BIN_EXE_pack"), &[&unit.to_string_lossy(), &packets.to_string_lossy()]);
        let last = done.stdout.split_last().map_or(&[][..], |(_, text)| text);
        let last = last.rsplit(|octet| *octet == b'\n').next().unwrap_or(&[]);
        let verdict = last.starts_with(b"unit ") || last.starts_with(b"refused ");
        assert_eq!(done.status.code(), Some(if verdict { 2 } else { 0 }), "{}", unit.display());
        fs::write(unit.with_extension("theirs"), done.stdout).expect("it can be written");
        fs::write(unit.with_extension("said"), done.stderr).expect("it can be written");
    }
}

#[test]
fn every_row_is_reached() {
    let folder = folder("units-all");
    unitgen("77", COUNT, &folder);
    assert_eq!(files(&folder, "unit").len() as u64, COUNT);
    assert_eq!(files(&folder, "packets").len() as u64, COUNT);
    pack_all(&folder);
    let tallied = packtally(&folder);
    assert_eq!(tallied.status.code(), Some(0), "{}", String::from_utf8_lossy(&tallied.stdout));

    // Without its answers a row is never reached, and the tally says which.
    for path in files(&folder, "theirs") {
        if fs::read(&path).expect("it is there").ends_with(b": a unit has at most 8 areas\n") {
            fs::remove_file(path).expect("it can be removed");
        }
    }
    let tallied = packtally(&folder);
    assert_eq!(tallied.status.code(), Some(1));
    let text = String::from_utf8(tallied.stdout).expect("text");
    let never: Vec<_> = text.lines().filter(|line| line.starts_with("NEVER REACHED")).collect();
    assert_eq!(never, ["NEVER REACHED: unit: a unit has at most 8 areas"]);
}

#[test]
fn what_pack_never_gives_is_not_tallied() {
    let folder = folder("units-form");
    fs::create_dir_all(&folder).expect("a folder");
    let reached = |out: &str, said: &str| {
        fs::write(folder.join("0001.theirs"), out).expect("it can be written");
        fs::write(folder.join("0001.said"), said).expect("it can be written");
        packtally(&folder).status.code()
    };
    assert_eq!(reached("unit 3: a store is \"store N\"\n", ""), Some(1));
    assert_eq!(reached("refused 41\n", "area 1 has no words\n"), Some(1));
    assert_eq!(reached("00\n\nrefused 70 2\n", "odd digits\n"), Some(1));
    for (out, said) in [
        ("unit 3\n", ""),
        ("unit 3: a store is not\n", ""),
        ("refused 41\n", "area 1 has no word\n"),
        ("refused 70 1\n", "too short\n"),
        ("refused 71\n", ""),
        ("00\n\nunit 3: a store is \"store N\"\n", ""),
        ("unit 3: a store is \"store N\"\n", "words"),
        ("00\n\nrefused 41\n", "area 1 has no words\n"),
        ("00\n\n", "words"),
        ("00\nnot a frame\n\n", ""),
    ] {
        assert_eq!(reached(out, said), Some(2), "{out:?} {said:?}");
    }
    fs::remove_file(folder.join("0001.said")).expect("it can be removed");
    assert_eq!(packtally(&folder).status.code(), Some(2));
    assert_eq!(packtally(&folder.join("nothing")).status.code(), Some(2));
}

#[test]
fn a_seed_gives_the_same_files() {
    let (one, same, other) = (folder("units-one"), folder("units-same"), folder("units-other"));
    unitgen("77", 40, &one);
    unitgen("0x4d", 40, &same);
    unitgen("78", 40, &other);
    let texts = |folder: &Path| -> Vec<Vec<u8>> {
        let paths = files(folder, "unit").into_iter().chain(files(folder, "packets"));
        paths.map(|path| fs::read(path).expect("it is there")).collect()
    };
    assert!(texts(&one) == texts(&same));
    assert!(texts(&one) != texts(&other));
    for arguments in [&["x", "1", "y"][..], &["1", "1"], &[]] {
        assert_eq!(run(env!("CARGO_BIN_EXE_unitgen"), arguments).status.code(), Some(2));
    }
}

#[test]
fn every_bad_line_is_told_as_it_is_meant() {
    for fault in Fault::ALL {
        assert!(AIMS.iter().any(|aim| aim.fault == fault), "{fault}");
    }
    let mut random = Random::new(21);
    for _ in 0..50 {
        for aim in &AIMS {
            let stated = sample_unit::sound_with_everything(&mut random);
            let mut items = sample_unit::items(&mut random, &stated);
            sample_bad_unit::spoil(&mut random, &stated, &mut items, aim);
            let text = sample_unit::text(&mut random, &items);
            let bad = unit::read(&mut text.as_slice()).expect("it can be read").expect_err("it is bad");
            assert_eq!(bad.fault, aim.fault, "{aim:?} in\n{}", String::from_utf8_lossy(&text));
        }
    }
}

/// The octets that stand in the store after every `put`, in the order of the file.
fn put_in_order(stated: &Stated, items: &[sample_unit::Item]) -> Vec<u8> {
    let mut store = vec![0; stated.store_octets];
    for item in items.iter().filter(|item| item.kind == sample_unit::Kind::Put) {
        let text = String::from_utf8(item.words.concat()[item.words[0].len() + item.words[1].len()..].to_vec());
        let digits = text.expect("digits");
        let at = String::from_utf8(item.words[1].clone()).expect("a number");
        let at = match at.strip_prefix("0x") {
            Some(digits) => usize::from_str_radix(digits, 16),
            None => at.parse(),
        };
        for (octet, place) in (at.expect("a number")..).enumerate().take(digits.len() / 2) {
            store[place] = u8::from_str_radix(&digits[octet * 2..octet * 2 + 2], 16).expect("two digits");
        }
    }
    store
}

#[test]
fn what_is_stated_is_read() {
    let mut random = Random::new(22);
    for number in 0..2_000 {
        let stated = match number % 2 {
            0 => sample_unit::sound(&mut random),
            _ => sample_unit::unsound(&mut random, sample_unit::WAYS[number / 2 % 7], true),
        };
        let items = sample_unit::items(&mut random, &stated);
        let text = sample_unit::text(&mut random, &items);
        let read = unit::read(&mut text.as_slice()).expect("it can be read").expect("it is no bad file");
        assert_eq!((read.profile.pid, read.profile.flags), (stated.profile.pid, stated.profile.flags));
        // The areas stand in another order.
        let sorted = |unit: &second::map::Profile| {
            let mut areas = unit.used_areas().to_vec();
            areas.sort_by_key(|area| (area.memory_id, area.start, area.length, area.first_word));
            areas
        };
        assert_eq!(sorted(&read.profile), sorted(&stated.profile));
        assert!(read.store == put_in_order(&stated, &items));
    }
}
