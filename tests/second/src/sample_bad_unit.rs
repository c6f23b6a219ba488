//! Bad unit files for the generator: one for each thing that can be wrong, in several ways each, and files that are
//! changed at random.

use crate::random::Random;
use crate::sample_unit::{insert_behind, Item, Kind, Stated};
use crate::unit_fault::Fault;

/// Where the bad line goes.
#[derive(Clone, Copy, Debug, PartialEq, Eq)]
pub enum Where {
    Anywhere,
    /// In place of the line of that kind.
    Instead(Kind),
    Behind(Kind),
    Before(Kind),
    /// Behind eight areas.
    BehindEight,
    /// Nowhere: lines of these kinds are left out.
    Without(&'static [Kind]),
}

/// A bad line, and what is told of it. SIZE in its text stands for the octets of the store and LAST for one less; its
/// last character fills a shorter line up to so many characters.
#[derive(Clone, Copy, Debug)]
pub struct Aim {
    pub fault: Fault,
    pub place: Where,
    pub text: &'static str,
    pub filled_to: usize,
}

/// A bad line as it stands.
const fn aim(fault: Fault, place: Where, text: &'static str) -> Aim {
    Aim { fault, place, text, filled_to: 0 }
}

/// A bad line whose last character fills it up.
const fn filled(place: Where, text: &'static str, filled_to: usize) -> Aim {
    Aim { fault: Fault::LineTooLong, place, text, filled_to }
}

/// The places of the list by shorter names.
const PID: Where = Where::Instead(Kind::Pid);
const SERVICES: Where = Where::Instead(Kind::Services);
const STORE: Where = Where::Instead(Kind::Store);
const BEHIND_STORE: Where = Where::Behind(Kind::Store);
const ANYWHERE: Where = Where::Anywhere;

/// Every row of the table of messages, each in several ways: the first of each row, then the second of each.
pub const AIMS: [Aim; 88] = [
    filled(ANYWHERE, "#", 4_097),
    aim(Fault::NoItem, ANYWHERE, "Pid 5"),
    aim(Fault::PidAgain, Where::Behind(Kind::Pid), "pid 5"),
    aim(Fault::PidForm, PID, "pid"),
    aim(Fault::PidTooLarge, PID, "pid 256"),
    aim(Fault::ServicesAgain, Where::Behind(Kind::Services), "services load"),
    aim(Fault::ServicesForm, SERVICES, "services"),
    aim(Fault::ServiceAgain, SERVICES, "services load dump load"),
    aim(Fault::StoreAgain, BEHIND_STORE, "store 128"),
    aim(Fault::StoreForm, STORE, "store"),
    aim(Fault::StoreTooLarge, STORE, "store 65537"),
    aim(Fault::PutBeforeStore, Where::Before(Kind::Store), "put 0 00"),
    aim(Fault::PutForm, BEHIND_STORE, "put 0"),
    aim(Fault::PutNoDigit, BEHIND_STORE, "put 0 0g"),
    aim(Fault::PutOddDigits, BEHIND_STORE, "put 0 0"),
    aim(Fault::PutPastStore, BEHIND_STORE, "put SIZE 00"),
    aim(Fault::NinthArea, Where::BehindEight, "area 9 start 0 words 1 at 0"),
    aim(Fault::AreaForm, ANYWHERE, "area"),
    aim(Fault::MemoryIdTooLarge, ANYWHERE, "area 256 start 0 words 1 at 0"),
    aim(Fault::OddPlace, ANYWHERE, "area 1 start 0 words 1 at 1"),
    aim(Fault::OtherSize, ANYWHERE, "area 1 start 0 words 1 at 0 size 3"),
    aim(Fault::RightAgain, ANYWHERE, "area 1 start 0 words 1 at 0 load load"),
    aim(Fault::NoNumber, PID, "pid 0x"),
    aim(Fault::NumberTooLarge, PID, "pid 4294967296"),
    aim(Fault::NoPid, Where::Without(&[Kind::Pid]), ""),
    aim(Fault::NoStore, Where::Without(&[Kind::Store, Kind::Put]), ""),
    filled(ANYWHERE, " ", 4_097),
    aim(Fault::NoItem, ANYWHERE, "PUT 0 00"),
    aim(Fault::PidAgain, Where::Behind(Kind::Pid), "pid x y"),
    aim(Fault::PidForm, PID, "pid 5 6"),
    aim(Fault::PidTooLarge, PID, "pid 0x105 x"),
    aim(Fault::ServicesAgain, Where::Behind(Kind::Services), "services"),
    aim(Fault::ServicesForm, SERVICES, "services load foo"),
    aim(Fault::ServiceAgain, SERVICES, "services connection connection foo"),
    aim(Fault::StoreAgain, BEHIND_STORE, "store"),
    aim(Fault::StoreForm, STORE, "store 128 octets"),
    aim(Fault::StoreTooLarge, STORE, "store 0xFFFFFFFF x"),
    aim(Fault::PutBeforeStore, Where::Before(Kind::Store), "put"),
    aim(Fault::PutForm, BEHIND_STORE, "put"),
    aim(Fault::PutNoDigit, BEHIND_STORE, "put SIZE 00 x"),
    aim(Fault::PutOddDigits, BEHIND_STORE, "put 0 00 000"),
    aim(Fault::PutPastStore, BEHIND_STORE, "put LAST 0000"),
    aim(Fault::NinthArea, Where::BehindEight, "area"),
    aim(Fault::AreaForm, ANYWHERE, "area 1 words 1 start 0 at 0"),
    aim(Fault::MemoryIdTooLarge, ANYWHERE, "area 511 begin"),
    aim(Fault::OddPlace, ANYWHERE, "area 1 start 0 words 1 at 0x7F size 3"),
    aim(Fault::OtherSize, ANYWHERE, "area 1 start 0 words 1 at 0 size 258 load load"),
    aim(Fault::RightAgain, ANYWHERE, "area 1 start 0 words 1 at 0 size 2 dump check dump foo"),
    aim(Fault::NoNumber, PID, "pid 05"),
    aim(Fault::NumberTooLarge, STORE, "store 0x100000000"),
    aim(Fault::NoPid, Where::Without(&[Kind::Pid, Kind::Store, Kind::Put]), ""),
    filled(ANYWHERE, "foo \r", 4_097),
    aim(Fault::NoItem, ANYWHERE, "pi#d 5"),
    aim(Fault::PidForm, PID, "pid #5"),
    aim(Fault::ServicesForm, SERVICES, "services Load"),
    aim(Fault::PutForm, BEHIND_STORE, "put 4294967295"),
    aim(Fault::PutNoDigit, BEHIND_STORE, "put 0 00g 0"),
    aim(Fault::PutOddDigits, BEHIND_STORE, "put SIZE 0 0g"),
    aim(Fault::PutPastStore, BEHIND_STORE, "put 4294967295 00 00"),
    aim(Fault::AreaForm, ANYWHERE, "area 1 start 0 words 1 at 0 load size 2"),
    aim(Fault::OtherSize, ANYWHERE, "area 1 start 0 words 1 at 0 size 0"),
    aim(Fault::NoNumber, STORE, "store 0X80"),
    aim(Fault::NumberTooLarge, BEHIND_STORE, "put 4294967296 00"),
    filled(PID, "pid 0x0", 70_000),
    aim(Fault::NoItem, ANYWHERE, "\0"),
    aim(Fault::ServicesForm, SERVICES, "services foo load load"),
    aim(Fault::AreaForm, ANYWHERE, "area 1 start 0 words 1 at 0 connection"),
    aim(Fault::NoNumber, BEHIND_STORE, "put 00 00"),
    aim(Fault::NumberTooLarge, ANYWHERE, "area 1 start 4294967296 words 1 at 0"),
    aim(Fault::NoItem, ANYWHERE, "\u{E9}"),
    aim(Fault::AreaForm, ANYWHERE, "area 1 start 0 words 1 at"),
    aim(Fault::NoNumber, ANYWHERE, "area x begin"),
    aim(Fault::NumberTooLarge, ANYWHERE, "area 1 start 0 words 18446744073709551617 at 0"),
    aim(Fault::NoItem, ANYWHERE, "pid5"),
    aim(Fault::AreaForm, ANYWHERE, "area 1 start 0 words 1 at 0 load 0"),
    aim(Fault::NoNumber, ANYWHERE, "area 1 start 00001000 words 1 at 0"),
    aim(Fault::NumberTooLarge, ANYWHERE, "area 1 start 0 words 1 at 0 size 0x00100000002"),
    aim(Fault::NoNumber, PID, "pid +5"),
    aim(Fault::NoNumber, PID, "pid 5x"),
    aim(Fault::NoNumber, PID, "pid -1"),
    aim(Fault::NoNumber, STORE, "store 128\0"),
    aim(Fault::NoNumber, PID, "pid 4294967296x"),
    aim(Fault::NoNumber, ANYWHERE, "area 1 start words 1 at 0"),
    aim(Fault::NoNumber, ANYWHERE, "area 1 start 0 words 0x1g at 1"),
    aim(Fault::NumberTooLarge, PID, "pid 0x00000100000000"),
    aim(Fault::NumberTooLarge, ANYWHERE, "area 99999999999999999999"),
    aim(Fault::NumberTooLarge, ANYWHERE, "area 1 start 0 words 1 at 4294967297"),
    aim(Fault::StoreTooLarge, STORE, "store 65538"),
];

/// Makes the lines of a unit with everything bad as the aim says; no line before the bad one is bad, and now and then
/// one behind it is.
pub fn spoil(random: &mut Random, stated: &Stated, items: &mut Vec<Item>, aim: &Aim) {
    let bad = Item { kind: Kind::Other, words: vec![bad_line(stated, aim)] };
    let place_of = |items: &[Item], kind| items.iter().position(|item| item.kind == kind).unwrap_or(0);
    match aim.place {
        Where::Anywhere => items.insert(random.below(items.len() as u64 + 1) as usize, bad),
        Where::Instead(kind) => {
            // What needs the line that is gone comes behind it, so it is never reached.
            let place = place_of(items, kind);
            items[place] = bad;
        }
        Where::Behind(kind) => insert_behind(random, items, kind, bad),
        Where::Before(kind) => {
            let place = random.below(place_of(items, kind) as u64 + 1) as usize;
            items.insert(place, bad);
        }
        Where::BehindEight => {
            let mut areas: Vec<_> = items.iter().filter(|item| item.kind == Kind::Area).cloned().collect();
            items.retain(|item| item.kind != Kind::Area);
            while let (Some(area), true) = (areas.first().cloned(), areas.len() < 8) {
                areas.push(area);
            }
            items.extend(areas);
            items.push(bad);
        }
        Where::Without(kinds) => items.retain(|item| !kinds.contains(&item.kind)),
    }
    if random.once_in(3) && !matches!(aim.place, Where::Without(_)) {
        let later = random.pick(&AIMS);
        items.push(Item { kind: Kind::Other, words: vec![bad_line(stated, &later)] });
    }
}

/// The text of a bad line.
fn bad_line(stated: &Stated, aim: &Aim) -> Vec<u8> {
    let size = stated.store_octets;
    let text = aim.text.replace("SIZE", &size.to_string()).replace("LAST", &size.saturating_sub(1).to_string());
    let mut line = text.into_bytes();
    let fill = line.last().copied().unwrap_or(b' ');
    line.resize(aim.filled_to.max(line.len()), fill);
    line
}

/// Words that a unit file has, and words that it nearly has.
const WORDS: [&str; 50] = [
    "pid",
    "services",
    "store",
    "put",
    "area",
    "start",
    "words",
    "at",
    "size",
    "load",
    "dump",
    "check",
    "connection",
    "0",
    "1",
    "2",
    "3",
    "5",
    "127",
    "128",
    "255",
    "256",
    "65536",
    "65537",
    "4294967294",
    "4294967295",
    "4294967296",
    "00",
    "01",
    "0x",
    "0x0",
    "0x02",
    "0xFF",
    "0x100",
    "0xFFFFFFFF",
    "0x100000000",
    "0X10",
    "+5",
    "-1",
    "5x",
    "AB",
    "abc",
    "abcd",
    "0g",
    "Pid",
    "LOAD",
    "#",
    "x#y",
    "\0",
    "\u{E9}",
];

/// Changes the text of a unit file at random places, once or more.
pub fn mutate(random: &mut Random, text: &mut Vec<u8>) {
    for _ in 0..random.between(1, 3) {
        mutate_once(random, text);
    }
}

/// Changes one character, word or line, or cuts the text.
fn mutate_once(random: &mut Random, text: &mut Vec<u8>) {
    if text.is_empty() {
        return;
    }
    let place = random.below(text.len() as u64) as usize;
    match random.below(10) {
        0 | 1 => text[place] = random.pick(b"0123456789abcdefxX#gG \t\r\n\0\x0B\x80\xFF+-"),
        2 => drop(text.remove(place)),
        3 => text.insert(place, text[place]),
        4 => text.truncate(place),
        5 | 6 => {
            let begin = text[..place].iter().rposition(u8::is_ascii_whitespace).map_or(0, |before| before + 1);
            let end = text[place..].iter().position(u8::is_ascii_whitespace).map_or(text.len(), |end| place + end);
            text.splice(begin.min(end)..end, random.pick(&WORDS).bytes());
        }
        _ => mutate_lines(random, text),
    }
}

/// Swaps, doubles or drops a line, or adds one of any words.
fn mutate_lines(random: &mut Random, text: &mut Vec<u8>) {
    let mut lines: Vec<Vec<u8>> = text.split(|character| *character == b'\n').map(<[u8]>::to_vec).collect();
    let one = random.below(lines.len() as u64) as usize;
    let other = random.below(lines.len() as u64) as usize;
    match random.below(6) {
        0 | 1 => lines.swap(one, other),
        2 => lines.insert(other, lines[one].clone()),
        3 => drop(lines.remove(one)),
        _ => {
            let mut words = vec![random.pick(&WORDS[..5])];
            words.extend((0..random.below(10)).map(|_| random.pick(&WORDS)));
            lines.insert(one, words.join(" ").into_bytes());
        }
    }
    *text = lines.join(&b'\n');
}
