//! Profile and memory map: when a profile is sound over a store, when one is wider than another,
//! which area has a memory ID, and whether a block lies inside an area.

use std::fmt::{self, Display, Formatter};
use std::ops::Range;

use crate::tc::LARGEST_PID;

pub const AREA_PLACES: usize = 8;
pub const LONGEST_STORE: usize = 65_536;
/// Addresses have 32 bits: no area ends above this.
const ADDRESSES: u64 = 1 << 32;
const WORD_OCTETS: u64 = 2;

#[derive(Clone, Copy, Debug, Default, PartialEq, Eq)]
pub struct Rights {
    pub load: bool,
    pub dump: bool,
    pub check: bool,
}

#[derive(Clone, Copy, Debug, Default, PartialEq, Eq)]
pub struct Area {
    pub memory_id: u8,
    pub start: u32,
    pub length: u32,
    pub first_word: u32,
    pub rights: Rights,
}

#[derive(Clone, Copy, Debug, Default, PartialEq, Eq)]
pub struct Flags {
    pub load: bool,
    pub dump: bool,
    pub check: bool,
    pub connection: bool,
}

/// Area places at or past the count are not used and never looked at.
#[derive(Clone, Copy, Debug, Default, PartialEq, Eq)]
pub struct Profile {
    pub pid: u8,
    pub flags: Flags,
    pub area_count: u8,
    pub areas: [Area; AREA_PLACES],
}

/// The clauses of soundness, each by what is wrong when it fails.
#[derive(Clone, Copy, Debug, PartialEq, Eq)]
pub enum Unsound {
    Pid,
    AreaCount,
    SameMemoryId,
    NoLength,
    EndAbove32Bits,
    OutsideStore,
    SharedWord,
}

impl Display for Unsound {
    fn fmt(&self, text: &mut Formatter) -> fmt::Result {
        text.write_str(match self {
            Unsound::Pid => "PID",
            Unsound::AreaCount => "area count",
            Unsound::SameMemoryId => "same memory ID",
            Unsound::NoLength => "no length",
            Unsound::EndAbove32Bits => "end above 32 bits",
            Unsound::OutsideStore => "outside the store",
            Unsound::SharedWord => "shared word",
        })
    }
}

/// A store is even in length and at most 65,536 octets; it may be empty.
pub fn store_in_order(store_octets: usize) -> bool {
    store_octets.is_multiple_of(2) && store_octets <= LONGEST_STORE
}

impl Rights {
    pub const ALL: Rights = Rights { load: true, dump: true, check: true };

    fn at_least(&self, other: &Rights) -> bool {
        (self.load || !other.load) && (self.dump || !other.dump) && (self.check || !other.check)
    }
}

impl Flags {
    pub const ALL: Flags = Flags { load: true, dump: true, check: true, connection: true };

    fn at_least(&self, other: &Flags) -> bool {
        (self.load || !other.load)
            && (self.dump || !other.dump)
            && (self.check || !other.check)
            && (self.connection || !other.connection)
    }
}

impl Area {
    /// Whether the block of that start and length is wholly inside the area.
    pub fn holds(&self, start: u32, length: u16) -> bool {
        let block_end = u64::from(start) + u64::from(length);
        start >= self.start && block_end <= self.end()
    }

    /// The store octets of a block, if it is wholly inside the area.
    pub fn store_octets(&self, start: u32, length: u16) -> Option<Range<usize>> {
        if !self.holds(start, length) {
            return None;
        }
        let first = u64::from(self.first_word) + u64::from(start - self.start);
        let end = first + u64::from(length);
        let from = usize::try_from(first * WORD_OCTETS).ok()?;
        let to = usize::try_from(end * WORD_OCTETS).ok()?;
        Some(from..to)
    }

    /// The address after the last one, at most 2^32 in a sound profile.
    fn end(&self) -> u64 {
        u64::from(self.start) + u64::from(self.length)
    }

    /// The store word after the last one.
    fn word_end(&self) -> u64 {
        u64::from(self.first_word) + u64::from(self.length)
    }

    fn shares_word(&self, other: &Area) -> bool {
        u64::from(self.first_word) < other.word_end() && u64::from(other.first_word) < self.word_end()
    }

    /// Same memory ID, at least the same rights and addresses, the same store word for each of those.
    fn covers(&self, other: &Area) -> bool {
        let lower_by = i64::from(other.start) - i64::from(self.start);
        let words_lower_by = i64::from(other.first_word) - i64::from(self.first_word);
        self.memory_id == other.memory_id
            && self.rights.at_least(&other.rights)
            && self.start <= other.start
            && self.end() >= other.end()
            && lower_by == words_lower_by
    }
}

impl Profile {
    pub fn used_areas(&self) -> &[Area] {
        let used = usize::from(self.area_count).min(AREA_PLACES);
        &self.areas[..used]
    }

    pub fn area_with_id(&self, memory_id: u8) -> Option<&Area> {
        self.used_areas().iter().find(|area| area.memory_id == memory_id)
    }

    pub fn sound(&self, store_octets: usize) -> bool {
        self.unsound(store_octets).is_none()
    }

    /// A clause of soundness that fails, if one does.
    pub fn unsound(&self, store_octets: usize) -> Option<Unsound> {
        if self.pid > LARGEST_PID {
            return Some(Unsound::Pid);
        }
        if usize::from(self.area_count) > AREA_PLACES {
            return Some(Unsound::AreaCount);
        }
        let areas = self.used_areas();
        for area in areas {
            if area.length < 1 {
                return Some(Unsound::NoLength);
            }
            if area.end() > ADDRESSES {
                return Some(Unsound::EndAbove32Bits);
            }
            if area.word_end() * WORD_OCTETS > store_octets as u64 {
                return Some(Unsound::OutsideStore);
            }
        }
        for (place, area) in areas.iter().enumerate() {
            for later in &areas[place + 1..] {
                if area.memory_id == later.memory_id {
                    return Some(Unsound::SameMemoryId);
                }
                if area.shares_word(later) {
                    return Some(Unsound::SharedWord);
                }
            }
        }
        None
    }

    /// Whether this profile is wider than the other over a store of that many octets.
    pub fn wider(&self, narrower: &Profile, store_octets: usize) -> bool {
        self.sound(store_octets)
            && narrower.sound(store_octets)
            && self.pid == narrower.pid
            && self.flags.at_least(&narrower.flags)
            && narrower.used_areas().iter().all(|area| self.used_areas().iter().any(|wide| wide.covers(area)))
    }
}
