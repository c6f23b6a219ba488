//! Which clause of soundness a unit fails first, in the words of refusal 41.

use std::fmt::{self, Display, Formatter};

use crate::map::Area;
use crate::tc::LARGEST_PID;
use crate::unit::Unit;

/// Addresses have 32 bits.
const ADDRESSES: u64 = 1 << 32;
/// The octets of a word.
const WORD_OCTETS: u64 = 2;

/// A clause that fails, for which areas, counted from 1, and at which octet of the store.
#[derive(Clone, Copy, Debug, PartialEq, Eq)]
pub enum Failing {
    OddStore,
    Pid,
    NoWords(usize),
    EndsAboveAddresses(usize),
    EndsPastStore(usize),
    SameMemoryId(usize, usize),
    SharedOctet(usize, usize, u64),
}

/// The first clause that fails, if one does: of the whole, then area by area, then pair by pair.
pub fn first_failing(unit: &Unit) -> Option<Failing> {
    if !unit.store.len().is_multiple_of(2) {
        return Some(Failing::OddStore);
    }
    if unit.profile.pid > LARGEST_PID {
        return Some(Failing::Pid);
    }
    let areas = unit.profile.used_areas();
    let of_one = (1..).zip(areas).find_map(|(number, area)| of_area(number, area, unit.store.len() as u64));
    of_one.or_else(|| pairs(areas).find_map(of_pair))
}

/// The first clause that one area fails.
fn of_area(number: usize, area: &Area, store_octets: u64) -> Option<Failing> {
    if area.length == 0 {
        return Some(Failing::NoWords(number));
    }
    if u64::from(area.start) + u64::from(area.length) > ADDRESSES {
        return Some(Failing::EndsAboveAddresses(number));
    }
    if end(area) > store_octets {
        return Some(Failing::EndsPastStore(number));
    }
    None
}

/// An area and its number.
type Numbered<'a> = (usize, &'a Area);

/// Each area with each later one: the first with all of them, then the second.
fn pairs(areas: &[Area]) -> impl Iterator<Item = (Numbered<'_>, Numbered<'_>)> {
    let numbered = (1..).zip(areas);
    numbered.clone().flat_map(move |one| numbered.clone().skip(one.0).map(move |later| (one, later)))
}

/// The first clause that two areas fail.
fn of_pair(((one, area), (other, later)): (Numbered, Numbered)) -> Option<Failing> {
    if area.memory_id == later.memory_id {
        return Some(Failing::SameMemoryId(one, other));
    }
    let first_of_both = begin(area).max(begin(later));
    if first_of_both < end(area).min(end(later)) {
        return Some(Failing::SharedOctet(one, other, first_of_both));
    }
    None
}

/// The octet of the store at which an area begins.
fn begin(area: &Area) -> u64 {
    u64::from(area.first_word) * WORD_OCTETS
}

/// The octet behind an area's last one.
fn end(area: &Area) -> u64 {
    begin(area) + u64::from(area.length) * WORD_OCTETS
}

impl Display for Failing {
    fn fmt(&self, text: &mut Formatter) -> fmt::Result {
        match self {
            Failing::OddStore => write!(text, "the store has an odd number of octets"),
            Failing::Pid => write!(text, "the PID is above 127"),
            Failing::NoWords(area) => write!(text, "area {area} has no words"),
            Failing::EndsAboveAddresses(area) => write!(text, "area {area} ends above address FFFFFFFF"),
            Failing::EndsPastStore(area) => write!(text, "area {area} ends past the store"),
            Failing::SameMemoryId(one, other) => write!(text, "areas {one} and {other} have the same memory ID"),
            Failing::SharedOctet(one, other, octet) => write!(text, "areas {one} and {other} share octet {octet}"),
        }
    }
}
