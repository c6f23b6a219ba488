//! `changes RECORDS SEED COMMAND..` makes so many conforming records, changes each octet of each of their TM lines in turn,
//! and runs COMMAND.. UNIT - on each changed record. A change of the time has to be let through; of any other octet it has
//! to be told, at that line and that octet. Any other answer is printed, and it ends with 1.

use std::collections::BTreeMap;
use std::env;
use std::fs;
use std::io::{self, ErrorKind, Write};
use std::path::{Path, PathBuf};
use std::process::{self, Command, ExitCode, Stdio};
use std::sync::Mutex;
use std::thread;

use second::hex;
use second::judge::TIME;
use second::map::{Flags, Rights};
use second::program;
use second::random::Random;
use second::sample_record::{self, Entry};
use second::sample_unit::{self, Stated};
use second::unit;

const USAGE: &str = "usage: changes RECORDS SEED COMMAND..";
/// So many processes run at a time.
const AT_A_TIME: usize = 2;
/// After so many other answers no more records are tried.
const OTHER_ANSWERS: u64 = 10;
/// One record in so many gets packets until its TM lines have that many octets; the others have one packet each.
const RECORDS_FOR_ONE_LONG: u64 = 4;
const TM_OCTETS: usize = 48;
/// Type and subtype of each kind of frame.
const KINDS: [(u8, u8); 6] = [(1, 1), (1, 2), (1, 7), (6, 6), (6, 10), (17, 2)];

/// A unit file with a conforming record.
struct Sample {
    unit: Vec<u8>,
    record: Vec<Entry>,
}

/// What was tried and went as it should.
#[derive(Default)]
struct Done {
    found: u64,
    one_bit: u64,
    let_through: u64,
    kinds: BTreeMap<(u8, u8), u64>,
    other: u64,
}

fn main() -> ExitCode {
    let arguments: Vec<String> = env::args().skip(1).collect();
    let (records, seed, command) = match arguments.as_slice() {
        [records, seed, command @ ..] if !command.is_empty() => {
            match (program::number(records), program::number(seed)) {
                (Some(records), Some(seed)) => (records, seed, command),
                _ => return program::fail(USAGE),
            }
        }
        _ => return program::fail(USAGE),
    };
    let folder = env::temp_dir().join(format!("changes.{}", process::id()));
    let done = fs::create_dir(&folder).and_then(|()| try_all(records, seed, command, &folder));
    // A folder that stays behind disturbs nobody.
    let _ = fs::remove_dir_all(&folder);
    match done {
        Ok(done) => report(records, &done),
        Err(error) => program::fail(&error.to_string()),
    }
}

/// Tries every change of every record, some at a time.
fn try_all(records: u64, seed: u64, command: &[String], folder: &Path) -> io::Result<Done> {
    let next = Mutex::new(0..records);
    let done = Mutex::new(Done::default());
    let worker = || -> io::Result<()> {
        loop {
            let enough = done.lock().expect("no worker panics").other >= OTHER_ANSWERS;
            let number = next.lock().expect("no worker panics").next();
            let Some(number) = number.filter(|_| !enough) else {
                return Ok(());
            };
            // Each record has a seed of its own, so it does not matter which worker takes it.
            let mut random = Random::new(seed);
            let mut random = Random::new(random.any() ^ number);
            let path = folder.join(format!("{number}.unit"));
            let sample = sample(&mut random, number);
            fs::write(&path, &sample.unit)?;
            try_record(&mut random, &sample, command, &path, &done)?;
            fs::remove_file(&path)?;
        }
    };
    thread::scope(|scope| {
        let workers: Vec<_> = (0..AT_A_TIME).map(|_| scope.spawn(worker)).collect();
        workers.into_iter().try_for_each(|worker| worker.join().expect("no worker panics"))
    })?;
    Ok(done.into_inner().expect("no worker panics"))
}

/// A unit with every service and right, and a small record of it that has a frame of the kind that is next in turn.
fn sample(random: &mut Random, number: u64) -> Sample {
    let mut stated = sample_unit::sound_with_everything(random);
    stated.profile.flags = Flags::ALL;
    for area in &mut stated.profile.areas {
        area.rights = Rights::ALL;
    }
    let items = sample_unit::items(random, &stated);
    let text = sample_unit::text(random, &items);
    let unit = unit::read(&mut text.as_slice());
    let unit = unit.expect("it is in memory").expect("it is no bad file");
    let mut packets = vec![packet(random, &stated, KINDS[number as usize % KINDS.len()])];
    // The kinds come round once before a turn of long and short ones goes on.
    let long = (number / KINDS.len() as u64).is_multiple_of(RECORDS_FOR_ONE_LONG);
    let enough = if long { TM_OCTETS } else { 1 };
    loop {
        let record = sample_record::conforming(random, unit.clone(), &packets);
        let octets: usize = record.iter().filter_map(Entry::frame).map(Vec::len).sum();
        if octets >= enough {
            return Sample { unit: text, record };
        }
        let kind = random.pick(&KINDS);
        packets.push(packet(random, &stated, kind));
    }
}

/// A packet whose answer has a frame of that kind; at most three words are named.
fn packet(random: &mut Random, stated: &Stated, kind: (u8, u8)) -> Vec<u8> {
    let pid = stated.profile.pid;
    match kind {
        (1, 1) => {
            let block = sample_record::one_block(random, &stated.profile);
            let data = sample_record::with_words(random, &block);
            sample_record::packet(random, pid, 1, 6, 2, &data)
        }
        (1, 2) => {
            let ack = random.octet() & 0x0F;
            let test = sample_record::packet(random, pid, ack, 17, 1, &[]);
            match random.below(3) {
                0 => sample_record::damaged(random, test),
                1 => sample_record::packet(random, pid ^ 1, ack, 17, 1, &[]),
                _ => sample_record::packet(random, pid, ack, 6, 5, &[]),
            }
        }
        (1, 7) => sample_record::packet(random, pid, 8, 17, 1, &[]),
        (6, 6) => {
            let data = sample_record::one_block(random, &stated.profile);
            sample_record::packet(random, pid, 0, 6, 5, &data)
        }
        (6, 10) => {
            let data = sample_record::one_block(random, &stated.profile);
            sample_record::packet(random, pid, 0, 6, 9, &data)
        }
        _ => sample_record::packet(random, pid, 0, 17, 1, &[]),
    }
}

/// The record as it is, then with each octet of each TM line changed.
fn try_record(
    random: &mut Random,
    sample: &Sample,
    command: &[String],
    path: &Path,
    done: &Mutex<Done>,
) -> io::Result<()> {
    let packets = sample.record.iter().filter(|entry| matches!(entry, Entry::Packet(_))).count();
    let frames: Vec<_> =
        sample.record.iter().enumerate().filter_map(|(at, entry)| Some((at, entry.frame()?))).collect();
    let conforming = format!("conforming\npackets {packets} frames {}\n", frames.len());
    expect(random, sample, &sample.record, command, path, &conforming, done)?;
    for (at, frame) in frames {
        let group = sample.record[..at].iter().rposition(|entry| matches!(entry, Entry::Packet(_))).unwrap_or(0);
        *done.lock().expect("no worker panics").kinds.entry((frame[13], frame[14])).or_default() += 1;
        for octet in 0..frame.len() {
            let one_bit = random.once_in(2);
            let change = if one_bit { 1 << random.below(8) } else { random.between(1, 255) as u8 };
            let mut changed = frame.clone();
            changed[octet] ^= change;
            let mut record = sample.record.clone();
            record[at] = Entry::Frame(changed.clone());
            let in_time = TIME.contains(&octet);
            let told = match in_time {
                true => conforming.clone(),
                false => told(at + 1, group + 1, frame, &changed, octet),
            };
            if expect(random, sample, &record, command, path, &told, done)? {
                let mut done = done.lock().expect("no worker panics");
                done.let_through += u64::from(in_time);
                done.found += u64::from(!in_time);
                done.one_bit += u64::from(!in_time && change.is_power_of_two());
            }
        }
    }
    Ok(())
}

/// What has to be told of the changed line.
fn told(line: usize, packet: usize, due: &[u8], found: &[u8], octet: usize) -> String {
    let digits = |octets: &[u8]| {
        let mut digits = Vec::new();
        hex::write(octets, &mut digits);
        String::from_utf8_lossy(&digits).into_owned()
    };
    format!("differs {line}\npacket {packet}\ndue {}\nfound {}\noctet {octet}\n", digits(due), digits(found))
}

/// Whether the command gives that answer for the record; one that is other is printed.
fn expect(
    random: &mut Random,
    sample: &Sample,
    record: &[Entry],
    command: &[String],
    path: &Path,
    told: &str,
    done: &Mutex<Done>,
) -> io::Result<bool> {
    let text = sample_record::text(random, record);
    let answer = answer(command, path, &text)?;
    if answer == told.as_bytes() {
        return Ok(true);
    }
    done.lock().expect("no worker panics").other += 1;
    println!(
        "OTHER ANSWER for the unit\n{}\nand the record\n{}expected\n{told}and got\n{}",
        String::from_utf8_lossy(&sample.unit),
        String::from_utf8_lossy(&text),
        String::from_utf8_lossy(&answer)
    );
    Ok(false)
}

/// What the command prints for the unit and the record.
fn answer(command: &[String], unit: &Path, record: &[u8]) -> io::Result<Vec<u8>> {
    let unit = PathBuf::from(unit);
    let mut child = Command::new(&command[0])
        .args(&command[1..])
        .arg(unit)
        .arg(program::STANDARD_INPUT)
        .stdin(Stdio::piped())
        .stdout(Stdio::piped())
        .spawn()?;
    let mut input = child.stdin.take().expect("it is piped");
    match input.write_all(record) {
        // After a verdict the rest is not read.
        Err(error) if error.kind() != ErrorKind::BrokenPipe => return Err(error),
        _ => drop(input),
    }
    Ok(child.wait_with_output()?.stdout)
}

/// Prints what was tried; every kind of frame has to be there, and no answer other than expected.
fn report(records: u64, done: &Done) -> ExitCode {
    let frames: u64 = done.kinds.values().sum();
    println!("{records} records, {frames} TM lines");
    for (service, subtype) in KINDS {
        match done.kinds.get(&(service, subtype)) {
            Some(times) => println!("{times:9}  ({service},{subtype})"),
            None => println!("NEVER THERE: ({service},{subtype})"),
        }
    }
    println!("{:9}  changes found, {} of them of one bit", done.found, done.one_bit);
    println!("{:9}  changes of the time let through", done.let_through);
    println!("{:9}  other answers", done.other);
    let all_kinds = KINDS.iter().all(|kind| done.kinds.contains_key(kind));
    ExitCode::from(u8::from(done.other > 0 || !all_kinds))
}
