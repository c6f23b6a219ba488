//! Generated records: each is what it is made to be, every end is reached, the same seed gives the same files, the tally
//! fails when it should, and so does the program that changes octets.

use std::fs;
use std::path::{Path, PathBuf};
use std::process::{self, Output};

use second::judge;
use second::random::Random;
use second::sample_record;
use second::sample_unit;
use second::unit;

/// So many files reach everything.
const COUNT: u64 = 400;

/// The first line of each turn's verdict, up to its number: `judgegen` has the ways in this order.
const VERDICTS: [&str; 33] = [
    "conforming",
    "differs ",
    "differs ",
    "differs ",
    "refused 70 ",
    "conforming",
    "refused 41",
    "differs ",
    "differs ",
    "differs ",
    "refused 70 ",
    "differs ",
    "differs ",
    "conforming",
    "differs ",
    "differs ",
    "differs ",
    "refused 70 ",
    "differs ",
    "conforming",
    "unit ",
    "conforming",
    "refused 70 ",
    "refused 71",
    "differs ",
    "differs ",
    "refused 71",
    "differs ",
    "differs ",
    "", // Another store may never be looked at.
    "differs ",
    "refused 70 1",
    "refused 41",
];

/// What a program of this package gives.
fn run(program: &str, arguments: &[&str]) -> Output {
    process::Command::new(program).args(arguments).output().expect("the program starts")
}

/// An empty folder for one test.
fn folder(name: &str) -> PathBuf {
    let path = Path::new(env!("CARGO_TARGET_TMPDIR")).join(name);
    if path.exists() {
        fs::remove_dir_all(&path).expect("an old folder can be removed");
    }
    path
}

/// Writes the files of a seed.
fn judgegen(seed: &str, count: u64, folder: &Path) {
    let arguments = [seed, &count.to_string(), &folder.to_string_lossy()];
    assert!(run(env!("CARGO_BIN_EXE_judgegen"), &arguments).status.success());
}

/// What the tally says of a folder.
fn judgetally(folder: &Path) -> Output {
    run(env!("CARGO_BIN_EXE_judgetally"), &[&folder.to_string_lossy()])
}

/// The files of a folder that end so, in order.
fn files(folder: &Path, extension: &str) -> Vec<PathBuf> {
    let entries = fs::read_dir(folder).expect("the folder is there");
    let mut paths: Vec<_> = entries.map(|entry| entry.expect("an entry").path()).collect();
    paths.retain(|path| path.extension().is_some_and(|there| there == extension));
    paths.sort();
    paths
}

/// Runs `judge` on each pair, and keeps what it gives beside it.
fn judge_all(folder: &Path) {
    for unit in files(folder, "unit") {
        let record = unit.with_extension("record");
        let done = run(env!("CARGO_BIN_EXE_judge"), &[&unit.to_string_lossy(), &record.to_string_lossy()]);
        let status = match done.stdout.first() {
            Some(b'c') => 0,
            Some(b'd') => 1,
            _ => 2,
        };
        assert_eq!(done.status.code(), Some(status), "{}", unit.display());
        assert!(done.stderr.is_empty(), "{}", unit.display());
        fs::write(unit.with_extension("theirs"), done.stdout).expect("it can be written");
    }
}

#[test]
fn every_end_is_reached() {
    let folder = folder("records-all");
    judgegen("77", COUNT, &folder);
    assert_eq!(files(&folder, "unit").len() as u64, COUNT);
    assert_eq!(files(&folder, "record").len() as u64, COUNT);
    judge_all(&folder);
    let tallied = judgetally(&folder);
    assert_eq!(tallied.status.code(), Some(0), "{}", String::from_utf8_lossy(&tallied.stdout));

    // Each way gives its verdict.
    for (path, verdict) in files(&folder, "theirs").into_iter().zip(VERDICTS.into_iter().cycle()) {
        let out = fs::read_to_string(&path).expect("text");
        assert!(out.starts_with(verdict), "{}: {verdict}: {out}", path.display());
    }

    // Without its answers an end is never reached, and the tally says which.
    for path in files(&folder, "theirs") {
        if fs::read(&path).expect("it is there") == b"refused 71\n" {
            fs::remove_file(path).expect("it can be removed");
        }
    }
    let tallied = judgetally(&folder);
    assert_eq!(tallied.status.code(), Some(1));
    let text = String::from_utf8(tallied.stdout).expect("text");
    let never: Vec<_> = text.lines().filter(|line| line.starts_with("NEVER REACHED")).collect();
    assert_eq!(never, ["NEVER REACHED: refused 71"]);
}

#[test]
fn the_tally_tells_the_differences_apart() {
    let folder = folder("records-apart");
    fs::create_dir_all(&folder).expect("a folder");
    let due = "0851C000000D00000000000000010100185CC000";
    for (record, told, kind) in [
        ("00\n00\n", "due nothing\nfound 00\n".to_owned(), "due nothing"),
        ("00\n\n", format!("due {due}\nfound nothing\n"), "found nothing, at an empty line"),
        ("00\n", format!("due {due}\nfound nothing\n"), "found nothing, at the end of the input"),
        ("00", format!("due {due}\nfound nothing\n"), "found nothing, at the end of the input"),
        ("", format!("due {due}\nfound 09\noctet 0\n"), "octet before the time"),
        ("", format!("due {due}\nfound {}01\noctet 19\n", &due[..38]), "octet behind the time"),
        ("", format!("due {due}\nfound {}\noctet 11\n", &due[..22]), "the line ends before the time does"),
        ("", format!("due {due}\nfound {}\noctet 12\n", &due[..24]), "the line ends first"),
        ("", format!("due {due}\nfound {due}00\noctet 20\n"), "the frame due ends first"),
    ] {
        fs::write(folder.join("0001.record"), record).expect("it can be written");
        fs::write(folder.join("0001.theirs"), format!("differs 2\npacket 1\n{told}")).expect("it can be written");
        let tallied = judgetally(&folder);
        assert_eq!(tallied.status.code(), Some(1));
        let text = String::from_utf8(tallied.stdout).expect("text");
        assert!(text.contains(&format!("        1  differs: {kind}\n")), "{kind}: {text}");
    }
}

#[test]
fn what_judge_never_gives_is_not_tallied() {
    let folder = folder("records-form");
    fs::create_dir_all(&folder).expect("a folder");
    fs::write(folder.join("0001.record"), "").expect("it can be written");
    let reached = |out: &str| {
        fs::write(folder.join("0001.theirs"), out).expect("it can be written");
        judgetally(&folder).status.code()
    };
    for out in [
        "conforming\npackets 1 frames 0\n",
        "refused 41\narea 1 has no words\n",
        "refused 70 3\nodd digits\n",
        "refused 70 3\ncharacter 1 is 0D\n",
        "refused 71\n",
        "unit 1: a unit has \"pid N\", and no line has it\n",
    ] {
        assert_eq!(reached(out), Some(1), "{out}");
    }
    for out in [
        "",
        "\n",
        "conforming\n",
        "conforming\npackets 1\n",
        "conforming\npackets 1 frames x\n",
        "conforming\npackets 1 frames 0",
        "refused 41\n",
        "refused 41\nit is bad\n",
        "refused 70\nodd digits\n",
        "refused 70 3\n",
        "refused 70 x\nodd digits\n",
        "refused 70 3\nodd\n",
        "refused 71\nno packet\n",
        "refused 72\n",
        "unit x: a word has 2 octets\n",
        "differs 2\n",
        "differs x\npacket 1\ndue nothing\nfound 00\n",
        "differs 2\npacket\ndue nothing\nfound 00\n",
        "differs 2\npacket 1\ndue nothing\nfound nothing\n",
        "differs 2\npacket 1\ndue nothing\nfound 0\n",
        "differs 2\npacket 1\ndue nothing\nfound ab\n",
        "differs 2\npacket 1\ndue nothing\nfound 00\noctet 0\n",
        "differs 2\npacket 1\ndue 00\nfound 01\n",
        "differs 2\npacket 1\ndue 00\nfound 01\noctet\n",
    ] {
        assert_eq!(reached(out), Some(2), "{out}");
    }
    fs::remove_file(folder.join("0001.record")).expect("it can be removed");
    assert_eq!(reached("refused 71\n"), Some(2));
    assert_eq!(judgetally(&folder.join("nothing")).status.code(), Some(2));
    assert_eq!(run(env!("CARGO_BIN_EXE_judgetally"), &[]).status.code(), Some(2));
}

#[test]
fn a_seed_gives_the_same_files() {
    let (one, same, other) = (folder("records-one"), folder("records-same"), folder("records-other"));
    judgegen("77", 40, &one);
    judgegen("0x4d", 40, &same);
    judgegen("78", 40, &other);
    let texts = |folder: &Path| -> Vec<Vec<u8>> {
        let paths = files(folder, "unit").into_iter().chain(files(folder, "record"));
        paths.map(|path| fs::read(path).expect("it is there")).collect()
    };
    assert!(texts(&one) == texts(&same));
    assert!(texts(&one) != texts(&other));
    for arguments in [&["x", "1", "y"][..], &["1", "1"], &[]] {
        assert_eq!(run(env!("CARGO_BIN_EXE_judgegen"), arguments).status.code(), Some(2));
    }
}

#[test]
fn a_record_that_is_made_to_conform_conforms() {
    let mut random = Random::new(31);
    for _ in 0..300 {
        let stated = sample_unit::sound_with_everything(&mut random);
        let items = sample_unit::items(&mut random, &stated);
        let text = sample_unit::text(&mut random, &items);
        let read = unit::read(&mut text.as_slice()).expect("it can be read").expect("it is no bad file");
        let packets: Vec<_> = (0..20).map(|_| second::sample::packet(&mut random, &stated.profile)).collect();
        let record = sample_record::conforming(&mut random, read, &packets);
        let record = sample_record::text(&mut random, &record);
        let verdict = judge::run(&mut text.as_slice(), &mut record.as_slice()).expect("it can be read");
        assert_eq!(verdict.status(), 0, "{verdict}");
    }
}

#[test]
fn changes_are_found() {
    let judge = env!("CARGO_BIN_EXE_judge");
    let done = run(env!("CARGO_BIN_EXE_changes"), &["6", "0x1F", judge]);
    let text = String::from_utf8(done.stdout).expect("text");
    assert_eq!(done.status.code(), Some(0), "{text}");
    assert!(text.starts_with("6 records, "), "{text}");
    for kind in ["(1,1)", "(1,2)", "(1,7)", "(6,6)", "(6,10)", "(17,2)"] {
        assert!(text.lines().any(|line| line.ends_with(&format!("  {kind}"))), "{kind}: {text}");
    }
    assert!(text.ends_with("        0  other answers\n"), "{text}");
}

#[test]
fn another_answer_is_printed() {
    // A command that calls everything conforming, one that says nothing, and too few records for every kind of frame.
    let folder = folder("changes");
    fs::create_dir_all(&folder).expect("a folder");
    let script = folder.join("always");
    fs::write(&script, "echo conforming\n").expect("it can be written");
    for command in [&["sh", &*script.to_string_lossy()][..], &["true"]] {
        let arguments = [&["6", "1"], command].concat();
        let done = run(env!("CARGO_BIN_EXE_changes"), &arguments);
        let text = String::from_utf8(done.stdout).expect("text");
        assert_eq!(done.status.code(), Some(1));
        assert!(text.starts_with("OTHER ANSWER for the unit\n"), "{text}");
    }
    let judge = env!("CARGO_BIN_EXE_judge");
    let done = run(env!("CARGO_BIN_EXE_changes"), &["1", "1", judge]);
    assert_eq!(done.status.code(), Some(1));
    assert!(String::from_utf8_lossy(&done.stdout).contains("NEVER THERE: ("));
    for arguments in
        [&["x", "1", judge][..], &["1", "x", judge], &["1", "1"], &["1"], &[], &["1", "1", "/no such program"]]
    {
        assert_eq!(run(env!("CARGO_BIN_EXE_changes"), arguments).status.code(), Some(2));
    }
}
