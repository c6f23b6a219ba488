//! Unit files: a unit's profile and its store at the start, or the first bad line.

use std::io::{self, Read};
use std::mem;

use crate::hex;
use crate::line_reader::{Line, LineReader};
use crate::map::{Area, Flags, Profile, Rights, AREA_PLACES};
use crate::unit_fault::{BadLine, Fault};

/// A line has at most this many characters, the newline aside.
pub const LONGEST_LINE: usize = 4_096;
/// A store is stated with at most this many octets.
const LARGEST_STORE: u32 = 65_536;
/// Numbers are below this.
const NUMBERS: u64 = 1 << 32;
/// The octets of a word.
const WORD_OCTETS: u32 = 2;

/// A unit as its file states it; nothing says that its profile is sound.
#[derive(Clone, Debug, PartialEq, Eq)]
pub struct Unit {
    pub profile: Profile,
    pub store: Vec<u8>,
}

/// What the lines so far have stated.
#[derive(Default)]
struct Draft {
    pid: Option<u8>,
    flags: Option<Flags>,
    store: Option<Vec<u8>>,
    areas: Vec<Area>,
}

/// Reads a unit file up to its end or its first bad line.
pub fn read(input: &mut dyn Read) -> io::Result<Result<Unit, BadLine>> {
    let mut lines = LineReader::new(input, LONGEST_LINE);
    let mut draft = Draft::default();
    let mut number = 0;
    while let Some(line) = lines.next(|| Ok(()))? {
        number += 1;
        let taken = match line {
            Line::Whole(line) => draft.take(line),
            Line::TooLong => Err(Fault::LineTooLong),
        };
        if let Err(fault) = taken {
            return Ok(Err(BadLine { number, fault }));
        }
    }
    Ok(draft.unit().map_err(|fault| BadLine { number: number + 1, fault }))
}

impl Draft {
    /// Takes one line; where several things are wrong, the leftmost is told.
    fn take(&mut self, line: &[u8]) -> Result<(), Fault> {
        let mut words = words(line);
        let Some(item) = words.next() else {
            return Ok(());
        };
        match item {
            b"pid" => self.take_pid(words),
            b"services" => self.take_services(words),
            b"store" => self.take_store(words),
            b"put" => self.take_put(words),
            b"area" => self.take_area(words),
            _ => Err(Fault::NoItem),
        }
    }

    /// `pid N`
    fn take_pid<'a>(&mut self, mut words: impl Iterator<Item = &'a [u8]>) -> Result<(), Fault> {
        if self.pid.is_some() {
            return Err(Fault::PidAgain);
        }
        let pid = next_number(&mut words, Fault::PidForm)?;
        self.pid = Some(u8::try_from(pid).map_err(|_| Fault::PidTooLarge)?);
        no_more(words, Fault::PidForm)
    }

    /// `services WORD ..`
    fn take_services<'a>(&mut self, words: impl Iterator<Item = &'a [u8]>) -> Result<(), Fault> {
        if self.flags.is_some() {
            return Err(Fault::ServicesAgain);
        }
        let mut flags = Flags::default();
        for word in words {
            let flag = match word {
                b"load" => &mut flags.load,
                b"dump" => &mut flags.dump,
                b"check" => &mut flags.check,
                b"connection" => &mut flags.connection,
                _ => return Err(Fault::ServicesForm),
            };
            set_once(flag, Fault::ServiceAgain)?;
        }
        if flags == Flags::default() {
            return Err(Fault::ServicesForm);
        }
        self.flags = Some(flags);
        Ok(())
    }

    /// `store N`
    fn take_store<'a>(&mut self, mut words: impl Iterator<Item = &'a [u8]>) -> Result<(), Fault> {
        if self.store.is_some() {
            return Err(Fault::StoreAgain);
        }
        let octets = next_number(&mut words, Fault::StoreForm)?;
        if octets > LARGEST_STORE {
            return Err(Fault::StoreTooLarge);
        }
        self.store = Some(vec![0; octets as usize]);
        no_more(words, Fault::StoreForm)
    }

    /// `put AT HEX ..`
    fn take_put<'a>(&mut self, mut words: impl Iterator<Item = &'a [u8]>) -> Result<(), Fault> {
        let store = self.store.as_mut().ok_or(Fault::PutBeforeStore)?;
        let at = next_number(&mut words, Fault::PutForm)? as usize;
        let mut octets = Vec::new();
        for word in words {
            if !word.iter().all(u8::is_ascii_hexdigit) {
                return Err(Fault::PutNoDigit);
            }
            octets.extend(hex::read(word).ok_or(Fault::PutOddDigits)?);
        }
        if octets.is_empty() {
            return Err(Fault::PutForm);
        }
        if octets.len() > store.len().saturating_sub(at) {
            return Err(Fault::PutPastStore);
        }
        for (place, octet) in store.iter_mut().skip(at).zip(octets) {
            *place = octet;
        }
        Ok(())
    }

    /// `area ID start N words N at N [size N] [RIGHT ..]`
    fn take_area<'a>(&mut self, mut words: impl Iterator<Item = &'a [u8]>) -> Result<(), Fault> {
        if self.areas.len() == AREA_PLACES {
            return Err(Fault::NinthArea);
        }
        let memory_id = next_number(&mut words, Fault::AreaForm)?;
        let memory_id = u8::try_from(memory_id).map_err(|_| Fault::MemoryIdTooLarge)?;
        let start = named_number(&mut words, b"start")?;
        let length = named_number(&mut words, b"words")?;
        let at = named_number(&mut words, b"at")?;
        if at % WORD_OCTETS != 0 {
            return Err(Fault::OddPlace);
        }
        let mut words = words.peekable();
        if words.next_if_eq(b"size").is_some() && next_number(&mut words, Fault::AreaForm)? != WORD_OCTETS {
            return Err(Fault::OtherSize);
        }
        let mut rights = Rights::default();
        for word in words {
            let right = match word {
                b"load" => &mut rights.load,
                b"dump" => &mut rights.dump,
                b"check" => &mut rights.check,
                _ => return Err(Fault::AreaForm),
            };
            set_once(right, Fault::RightAgain)?;
        }
        self.areas.push(Area { memory_id, start, length, first_word: at / WORD_OCTETS, rights });
        Ok(())
    }

    /// The unit of the whole file.
    fn unit(self) -> Result<Unit, Fault> {
        let pid = self.pid.ok_or(Fault::NoPid)?;
        let store = self.store.ok_or(Fault::NoStore)?;
        let flags = self.flags.unwrap_or_default();
        let mut profile = Profile { pid, flags, area_count: self.areas.len() as u8, ..Profile::default() };
        for (place, area) in profile.areas.iter_mut().zip(self.areas) {
            *place = area;
        }
        Ok(Unit { profile, store })
    }
}

/// The words of a line: blanks separate them, and `#` and what follows it is passed over.
fn words(line: &[u8]) -> impl Iterator<Item = &[u8]> {
    let stated = line.iter().position(|character| *character == b'#').unwrap_or(line.len());
    line[..stated].split(|character| is_blank(*character)).filter(|word| !word.is_empty())
}

/// Spaces, tabs and carriage returns separate words.
fn is_blank(character: u8) -> bool {
    matches!(character, b' ' | b'\t' | b'\r')
}

/// The number that has to stand next; where there is no word more, the form of the line is wrong.
fn next_number<'a>(words: &mut impl Iterator<Item = &'a [u8]>, form: Fault) -> Result<u32, Fault> {
    number(words.next().ok_or(form)?)
}

/// The number behind that word in an area's line.
fn named_number<'a>(words: &mut impl Iterator<Item = &'a [u8]>, name: &[u8]) -> Result<u32, Fault> {
    if words.next() != Some(name) {
        return Err(Fault::AreaForm);
    }
    next_number(words, Fault::AreaForm)
}

/// A word too many makes the form of the line wrong.
fn no_more<'a>(mut words: impl Iterator<Item = &'a [u8]>, form: Fault) -> Result<(), Fault> {
    words.next().map_or(Ok(()), |_| Err(form))
}

/// Sets what may be set once.
fn set_once(flag: &mut bool, again: Fault) -> Result<(), Fault> {
    if mem::replace(flag, true) {
        return Err(again);
    }
    Ok(())
}

/// Decimal digits without a leading zero, or `0x` and hexadecimal digits. A word that has another character is no
/// number, however large what stands before it is.
fn number(word: &[u8]) -> Result<u32, Fault> {
    let (base, digits) = match word {
        [b'0', b'x', digits @ ..] => (16, digits),
        [b'0', _, ..] => return Err(Fault::NoNumber),
        digits => (10, digits),
    };
    if digits.is_empty() {
        return Err(Fault::NoNumber);
    }
    let mut value = 0;
    for character in digits {
        let digit = char::from(*character).to_digit(base).ok_or(Fault::NoNumber)?;
        value = NUMBERS.min(value * u64::from(base) + u64::from(digit));
    }
    u32::try_from(value).map_err(|_| Fault::NumberTooLarge)
}
