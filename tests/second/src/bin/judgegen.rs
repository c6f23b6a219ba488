//! `judgegen SEED COUNT FOLDER` writes so many unit files, NNNN.unit, each with a record, NNNN.record: conforming ones, ones
//! that differ or are refused in each way that there is, and now and then a unit that is bad or not sound.

use std::fs;
use std::io;
use std::path::Path;
use std::process::ExitCode;

use second::judge::TIME;
use second::map::{Flags, Rights};
use second::program;
use second::random::Random;
use second::sample;
use second::sample_bad_unit::{self, AIMS};
use second::sample_control::Turns;
use second::sample_line::{self, Bad, BAD};
use second::sample_record::{self, Entry};
use second::sample_unit::{self, Stated, WAYS};
use second::unit;

/// What a pair of files is to be.
#[derive(Clone, Copy, PartialEq, Eq)]
enum Way {
    Conforming,
    /// What was loaded is dumped and checked.
    Loaded,
    TimeChanged,
    HeaderOctet,
    OctetBehindTime,
    LeftOut,
    MissingAtTheEnd,
    Silence,
    Doubled,
    Swapped,
    Added,
    /// A TC of fewer than 6 octets is answered.
    Answered42,
    Cut,
    TooShortForATime,
    Lengthened,
    EmptyLines,
    BadPacket,
    BadFrame,
    BadAndTooMany,
    BadBeforeADifference,
    BadBehindADifference,
    CarriageReturns,
    NoNewline,
    Empty,
    OnlyEmptyLines,
    WrongCount,
    OneCount,
    OtherStore,
    NoEmptyLine,
    EmptyLineInside,
    Unsound,
    BadUnit,
}

/// The ways in turn; the three kinds of bad lines change from one turn of the list to the next.
const TURNS: [Way; 33] = [
    Way::Conforming,
    Way::HeaderOctet,
    Way::OctetBehindTime,
    Way::LeftOut,
    Way::BadPacket,
    Way::TimeChanged,
    Way::Unsound,
    Way::MissingAtTheEnd,
    Way::Silence,
    Way::Doubled,
    Way::BadFrame,
    Way::Swapped,
    Way::Added,
    Way::Loaded,
    Way::Answered42,
    Way::Cut,
    Way::TooShortForATime,
    Way::BadAndTooMany,
    Way::Lengthened,
    Way::EmptyLines,
    Way::BadUnit,
    Way::NoNewline,
    Way::BadBeforeADifference,
    Way::Empty,
    Way::WrongCount,
    Way::OneCount,
    Way::OnlyEmptyLines,
    Way::BadBehindADifference,
    Way::NoEmptyLine,
    Way::OtherStore,
    Way::EmptyLineInside,
    Way::CarriageReturns,
    Way::Unsound,
];

/// A line of so many octets holds a time.
const HOLDS_TIME: u64 = TIME.end as u64;

fn main() -> ExitCode {
    let Some((seed, count, folder)) = program::seed_count_and_folder() else {
        return program::fail("usage: judgegen SEED COUNT FOLDER");
    };
    program::finish(write_files(seed, count, &folder))
}

/// Writes the pairs of files, numbered from 1.
fn write_files(seed: u64, count: u64, folder: &Path) -> io::Result<()> {
    fs::create_dir_all(folder)?;
    let mut random = Random::new(seed);
    let mut controls = Turns::default();
    let (mut unsound, mut bad) = (0, 0);
    for (number, way) in (1..=count).zip(TURNS.into_iter().cycle()) {
        let round = (number as usize - 1) / TURNS.len();
        let (unit, record) = match way {
            Way::Unsound => {
                // Each clause alone, then each with others.
                let others = !(unsound / WAYS.len()).is_multiple_of(2);
                let stated = sample_unit::unsound(&mut random, WAYS[unsound % WAYS.len()], others);
                unsound += 1;
                (unit_text(&mut random, &stated), any_record(&mut random, &mut controls, unsound))
            }
            Way::BadUnit => {
                let stated = sample_unit::sound_with_everything(&mut random);
                let mut items = sample_unit::items(&mut random, &stated);
                sample_bad_unit::spoil(&mut random, &stated, &mut items, &AIMS[bad % AIMS.len()]);
                bad += 1;
                (sample_unit::text(&mut random, &items), any_record(&mut random, &mut controls, bad))
            }
            _ => pair(&mut random, &mut controls, way, BAD[round % BAD.len()]),
        };
        fs::write(folder.join(format!("{number:04}.unit")), unit)?;
        fs::write(folder.join(format!("{number:04}.record")), record)?;
    }
    Ok(())
}

/// The text of a unit file that states the unit.
fn unit_text(random: &mut Random, stated: &Stated) -> Vec<u8> {
    let items = sample_unit::items(random, stated);
    sample_unit::text(random, &items)
}

/// In turn a record that another unit gave, one that differs, a bad one and none: none is looked at.
fn any_record(random: &mut Random, controls: &mut Turns, turn: usize) -> Vec<u8> {
    match turn % 4 {
        0 => Vec::new(),
        1 => b"zz\n".to_vec(),
        2 => pair(random, controls, Way::HeaderOctet, Bad::Character).1,
        _ => pair(random, controls, Way::Conforming, Bad::Character).1,
    }
}

/// A sound unit and a record of that way.
fn pair(random: &mut Random, controls: &mut Turns, way: Way, bad: Bad) -> (Vec<u8>, Vec<u8>) {
    let mut stated = match way {
        Way::Loaded => able(sample_unit::sound_with_everything(random)),
        _ => sample_unit::sound(random),
    };
    // So that a packet with three frames can be given to every unit.
    stated.profile.flags.connection |= way != Way::Conforming;
    let text = unit_text(random, &stated);
    let Ok(Ok(mut unit)) = unit::read(&mut text.as_slice()) else {
        return (text, Vec::new());
    };
    let mut packets = packets(random, controls, &stated);
    if way == Way::Loaded {
        packets.extend(load_and_read(random, &stated));
    }
    if way == Way::OtherStore {
        unit.store.fill(random.octet());
    }
    let mut record = sample_record::conforming(random, unit, &packets);
    change(random, &mut record, way, bad);
    let mut written = sample_record::text(random, &record);
    match way {
        Way::CarriageReturns => written = with_carriage_returns(&written),
        // The last group has no empty line, and its last line no newline.
        Way::NoNewline => written.truncate(written.len() - 2),
        Way::MissingAtTheEnd if random.once_in(2) => drop(written.pop()),
        _ => (),
    }
    (text, written)
}

/// Five to eleven packets of any kind, among them one with three frames, one that is refused, and the next two ways of
/// error control.
fn packets(random: &mut Random, controls: &mut Turns, stated: &Stated) -> Vec<Vec<u8>> {
    let pid = stated.profile.pid;
    let mut packets: Vec<_> = (0..random.between(1, 7)).map(|_| sample::packet(random, &stated.profile)).collect();
    packets.retain(|packet| !packet.is_empty());
    packets.push(sample_record::packet(random, pid, 9, 17, 1, &[]));
    let ack = random.octet() & 0x0F;
    let test = sample_record::packet(random, pid, ack, 17, 1, &[]);
    packets.push(sample_record::damaged(random, test));
    packets.extend((0..2).map(|_| controls.packet(random, &stated.profile)));
    random.shuffle(&mut packets);
    packets
}

/// The unit with every service and right.
fn able(mut stated: Stated) -> Stated {
    stated.profile.flags = Flags::ALL;
    for area in &mut stated.profile.areas {
        area.rights = Rights::ALL;
    }
    stated
}

/// A load of one block, then a dump and a check of it.
fn load_and_read(random: &mut Random, stated: &Stated) -> [Vec<u8>; 3] {
    let block = sample_record::one_block(random, &stated.profile);
    let words = sample_record::with_words(random, &block);
    let pid = stated.profile.pid;
    [(2, &words), (5, &block), (9, &block)].map(|(subtype, data)| {
        let ack = random.octet() & 0x0F;
        sample_record::packet(random, pid, ack, 6, subtype, data)
    })
}

/// Changes a conforming record in that way.
fn change(random: &mut Random, record: &mut Vec<Entry>, way: Way, bad: Bad) {
    match way {
        Way::TimeChanged => change_octet(random, record, |place| TIME.contains(&place)),
        Way::HeaderOctet => change_octet(random, record, |place| place < TIME.start),
        Way::OctetBehindTime => change_octet(random, record, |place| place >= TIME.end),
        Way::Cut => resize(random, record, |random, length| {
            let any = random.between(HOLDS_TIME, length - 1);
            random.pick(&[HOLDS_TIME, any])
        }),
        Way::TooShortForATime => resize(random, record, |random, _| {
            let any = random.between(1, HOLDS_TIME - 1);
            random.pick(&[HOLDS_TIME - 1, any])
        }),
        Way::Lengthened => resize(random, record, |random, length| length + random.pick(&[1, 1, 2, 16])),
        Way::LeftOut => drop(record.remove(any_frame(random, record))),
        Way::Silence => {
            // The frame of a refusal, (1,2).
            let place = pick_place(random, record, |entry| entry.frame().is_some_and(|frame| frame[13..15] == [1, 2]));
            record.remove(place);
        }
        Way::MissingAtTheEnd => {
            let last = record.iter().rposition(|entry| entry.frame().is_some());
            record.truncate(last.unwrap_or(0));
        }
        Way::Doubled => {
            let place = any_frame(random, record);
            record.insert(place, record[place].clone());
        }
        Way::Swapped => {
            let pairs: Vec<_> = (1..record.len()).filter(|place| are_frames(&record[place - 1..=*place])).collect();
            let place = random.pick(&pairs);
            record.swap(place - 1, place);
        }
        Way::Added => {
            let count = random.pick(&[1, 11, 12, 16, 20, 24]);
            let added = match random.below(2) {
                0 => Entry::Frame(random.octets(count)),
                _ => record[any_frame(random, record)].clone(),
            };
            let place = inside_group(random, record);
            record.insert(place, added);
        }
        Way::Answered42 => {
            let count = random.between(1, 5) as usize;
            let group = [Entry::Packet(random.octets(count)), record[any_frame(random, record)].clone(), Entry::End];
            let place = between_groups(random, record);
            record.splice(place..place, group);
        }
        Way::EmptyLines => {
            for _ in 0..random.between(1, 6) {
                let place = between_groups(random, record);
                record.insert(place, Entry::End);
            }
        }
        Way::NoEmptyLine => {
            let last = record.len() - 1;
            let ends: Vec<_> = (0..last).filter(|place| record[*place] == Entry::End).collect();
            record.remove(random.pick(&ends));
        }
        Way::EmptyLineInside => record.insert(any_frame(random, record), Entry::End),
        Way::Empty => record.clear(),
        Way::OnlyEmptyLines => *record = vec![Entry::End; random.between(1, 5) as usize],
        Way::WrongCount => {
            // From one frame on, the unit has skipped a count.
            let from = any_frame(random, record);
            let by = random.pick(&[1, 1, 2, 16_383]);
            renumber(&mut record[from..], |_, count| count + by);
        }
        Way::OneCount => renumber(record, |before, _| before),
        Way::BadPacket | Way::BadFrame | Way::BadAndTooMany | Way::BadBeforeADifference | Way::BadBehindADifference => {
            put_bad_line(random, record, way, bad)
        }
        Way::Conforming | Way::Loaded | Way::CarriageReturns | Way::NoNewline | Way::OtherStore => (),
        Way::Unsound | Way::BadUnit => (),
    }
}

/// Puts a bad line where the way says.
fn put_bad_line(random: &mut Random, record: &mut Vec<Entry>, way: Way, bad: Bad) {
    match way {
        Way::BadPacket => {
            let place = between_groups(random, record);
            record.insert(place, bad_line(random, bad));
        }
        Way::BadAndTooMany => {
            let place = pick_place(random, record, |entry| *entry == Entry::End);
            record.insert(place, bad_line(random, bad));
        }
        Way::BadBeforeADifference => {
            let place = any_frame(random, record);
            let mut behind = record.split_off(place);
            if any_frames(&behind[1..]) {
                change_octet(random, &mut behind[1..], |place| !TIME.contains(&place));
            }
            record.append(&mut behind);
            spoil_frame(random, record, place, bad);
        }
        Way::BadBehindADifference => {
            let place = any_frame(random, record);
            change_octet(random, &mut record[..=place], |place| !TIME.contains(&place));
            let behind = random.between(place as u64 + 1, record.len() as u64) as usize;
            record.insert(behind, bad_line(random, bad));
        }
        _ => {
            let place = any_frame(random, record);
            spoil_frame(random, record, place, bad);
        }
    }
}

/// A line of up to 40 octets made bad.
fn bad_line(random: &mut Random, bad: Bad) -> Entry {
    let count = random.between(1, 40) as usize;
    let octets = random.octets(count);
    let mut line = sample_line::digits(random, &octets);
    sample_line::spoil(random, &mut line, bad);
    Entry::Text(line)
}

/// Makes the line of a frame bad.
fn spoil_frame(random: &mut Random, record: &mut [Entry], place: usize, bad: Bad) {
    if let Some(frame) = record[place].frame() {
        let mut line = sample_line::digits(random, frame);
        sample_line::spoil(random, &mut line, bad);
        record[place] = Entry::Text(line);
    }
}

/// Changes one octet of one frame, at a place that will do.
fn change_octet(random: &mut Random, record: &mut [Entry], will_do: impl Fn(usize) -> bool) {
    let line = any_frame(random, record);
    if let Entry::Frame(frame) = &mut record[line] {
        let places: Vec<_> = (0..frame.len()).filter(|place| will_do(*place)).collect();
        let place = random.pick(&places);
        frame[place] ^= match random.below(2) {
            0 => 1 << random.below(8),
            _ => random.between(1, 255) as u8,
        };
    }
}

/// Gives one frame another length.
fn resize(random: &mut Random, record: &mut [Entry], length: impl Fn(&mut Random, u64) -> u64) {
    let line = any_frame(random, record);
    if let Entry::Frame(frame) = &mut record[line] {
        let length = length(random, frame.len() as u64) as usize;
        frame.resize(length, random.octet());
    }
}

/// Gives each frame the count that follows from how many frames stand before it and from its own.
fn renumber(record: &mut [Entry], count: impl Fn(u16, u16) -> u16) {
    let mut before = 0;
    for entry in record {
        if let Entry::Frame(frame) = entry {
            let own = u16::from_be_bytes([frame[2], frame[3]]) & 0x3FFF;
            frame[2..4].copy_from_slice(&(0xC000 | count(before, own) & 0x3FFF).to_be_bytes());
            before += 1;
        }
    }
}

/// Whether all of these are frames.
fn are_frames(entries: &[Entry]) -> bool {
    entries.iter().all(|entry| entry.frame().is_some())
}

/// Whether there is a frame.
fn any_frames(entries: &[Entry]) -> bool {
    entries.iter().any(|entry| entry.frame().is_some())
}

/// The place of a frame; each record has some.
fn any_frame(random: &mut Random, record: &[Entry]) -> usize {
    pick_place(random, record, |entry| entry.frame().is_some())
}

/// The place of an entry of that kind, of which there is at least one.
fn pick_place(random: &mut Random, record: &[Entry], wanted: impl Fn(&Entry) -> bool) -> usize {
    let places: Vec<_> = (0..record.len()).filter(|place| wanted(&record[*place])).collect();
    random.pick(&places)
}

/// A place behind a TC or a frame, where a line is in the group.
fn inside_group(random: &mut Random, record: &[Entry]) -> usize {
    pick_place(random, record, |entry| *entry != Entry::End) + 1
}

/// A place before the first group, between two or behind the last.
fn between_groups(random: &mut Random, record: &[Entry]) -> usize {
    match random.below(4) {
        0 => 0,
        1 => record.len(),
        _ => pick_place(random, record, |entry| *entry == Entry::End) + 1,
    }
}

/// The lines as another system ends them.
fn with_carriage_returns(text: &[u8]) -> Vec<u8> {
    let mut written = Vec::new();
    for octet in text {
        if *octet == b'\n' {
            written.push(b'\r');
        }
        written.push(*octet);
    }
    written
}
