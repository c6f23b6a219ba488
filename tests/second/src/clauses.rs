//! Every clause of wider that fails for a pair of profiles, for the tally and the generator: a pair for which one
//! fails alone is barely not wider. `map` has the rule itself; nothing of it is used here.

use std::fmt::{self, Display, Formatter};

use crate::map::{Area, Profile, Unsound, AREA_PLACES};

const ADDRESSES: u64 = 1 << 32;

/// What is wrong when a clause fails.
#[derive(Clone, Copy, Debug, PartialEq, Eq)]
pub enum Clause {
    WiderUnsound(Unsound),
    NarrowerUnsound(Unsound),
    Pid,
    LoadFlag,
    DumpFlag,
    CheckFlag,
    ConnectionFlag,
    /// No area has the memory ID, and none has the addresses at those store words.
    Missing,
    /// The area stands in the wider past its count.
    PastTheCount,
    /// The area stands in the wider under another memory ID.
    OtherId,
    LoadRight,
    DumpRight,
    CheckRight,
    StartsLater,
    EndsEarlier,
    /// Starts later or ends earlier, and the rest stands in an area of another memory ID.
    Split,
    StoreWord,
}

/// The clauses that can fail alone. Of soundness, the narrower can fail the count, the IDs and the lengths alone; what
/// else it fails, the wider fails with it, or their PIDs differ.
pub const ALONE: [Clause; 24] = [
    Clause::WiderUnsound(Unsound::AreaCount),
    Clause::WiderUnsound(Unsound::SameMemoryId),
    Clause::WiderUnsound(Unsound::NoLength),
    Clause::WiderUnsound(Unsound::EndAbove32Bits),
    Clause::WiderUnsound(Unsound::OutsideStore),
    Clause::WiderUnsound(Unsound::SharedWord),
    Clause::NarrowerUnsound(Unsound::AreaCount),
    Clause::NarrowerUnsound(Unsound::SameMemoryId),
    Clause::NarrowerUnsound(Unsound::NoLength),
    Clause::Pid,
    Clause::LoadFlag,
    Clause::DumpFlag,
    Clause::CheckFlag,
    Clause::ConnectionFlag,
    Clause::Missing,
    Clause::PastTheCount,
    Clause::OtherId,
    Clause::LoadRight,
    Clause::DumpRight,
    Clause::CheckRight,
    Clause::StartsLater,
    Clause::EndsEarlier,
    Clause::Split,
    Clause::StoreWord,
];

/// The clauses of soundness that only both can fail while every other clause holds.
pub const BOTH: [Unsound; 4] = [Unsound::Pid, Unsound::EndAbove32Bits, Unsound::OutsideStore, Unsound::SharedWord];

impl Display for Clause {
    fn fmt(&self, text: &mut Formatter) -> fmt::Result {
        text.write_str(match self {
            Clause::WiderUnsound(clause) => return write!(text, "the wider is not sound: {clause}"),
            Clause::NarrowerUnsound(clause) => return write!(text, "the narrower is not sound: {clause}"),
            Clause::Pid => "other PID",
            Clause::LoadFlag => "no load flag",
            Clause::DumpFlag => "no dump flag",
            Clause::CheckFlag => "no check flag",
            Clause::ConnectionFlag => "no connection flag",
            Clause::Missing => "area missing",
            Clause::PastTheCount => "area past the count",
            Clause::OtherId => "area under another memory ID",
            Clause::LoadRight => "no load right",
            Clause::DumpRight => "no dump right",
            Clause::CheckRight => "no check right",
            Clause::StartsLater => "area starts later",
            Clause::EndsEarlier => "area ends earlier",
            Clause::Split => "area split",
            Clause::StoreWord => "other store word",
        })
    }
}

/// Every clause that fails for this pair over a store of that many octets, each once.
pub fn failing(wider: &Profile, narrower: &Profile, store_octets: usize) -> Vec<Clause> {
    let mut failing: Vec<Clause> = Vec::new();
    failing.extend(unsound(wider, store_octets).into_iter().map(Clause::WiderUnsound));
    failing.extend(unsound(narrower, store_octets).into_iter().map(Clause::NarrowerUnsound));
    let (has, needs) = (wider.flags, narrower.flags);
    let checks = [
        (wider.pid != narrower.pid, Clause::Pid),
        (needs.load && !has.load, Clause::LoadFlag),
        (needs.dump && !has.dump, Clause::DumpFlag),
        (needs.check && !has.check, Clause::CheckFlag),
        (needs.connection && !has.connection, Clause::ConnectionFlag),
    ];
    failing.extend(checks.iter().filter(|(fails, _)| *fails).map(|(_, clause)| *clause));
    for area in narrower.used_areas() {
        for clause in failing_for(wider, area) {
            if !failing.contains(&clause) {
                failing.push(clause);
            }
        }
    }
    failing
}

/// Every clause of soundness that fails.
fn unsound(profile: &Profile, store_octets: usize) -> Vec<Unsound> {
    let areas = profile.used_areas();
    let any = |fails: fn(&Area, u64) -> bool| areas.iter().any(|area| fails(area, store_octets as u64));
    let any_pair = |fails: fn(&Area, &Area) -> bool| {
        (0..areas.len()).any(|one| (0..one).any(|other| fails(&areas[one], &areas[other])))
    };
    let checks = [
        (profile.pid >= 128, Unsound::Pid),
        (usize::from(profile.area_count) > AREA_PLACES, Unsound::AreaCount),
        (any_pair(|one, other| one.memory_id == other.memory_id), Unsound::SameMemoryId),
        (any(|area, _| area.length == 0), Unsound::NoLength),
        (any(|area, _| address_end(area) > ADDRESSES), Unsound::EndAbove32Bits),
        (any(|area, octets| word_end(area) * 2 > octets), Unsound::OutsideStore),
        (any_pair(share_a_word), Unsound::SharedWord),
    ];
    checks.iter().filter(|(fails, _)| *fails).map(|(_, clause)| *clause).collect()
}

fn share_a_word(one: &Area, other: &Area) -> bool {
    u64::from(one.first_word.max(other.first_word)) < word_end(one).min(word_end(other))
}

fn address_end(area: &Area) -> u64 {
    u64::from(area.start) + u64::from(area.length)
}

fn word_end(area: &Area) -> u64 {
    u64::from(area.first_word) + u64::from(area.length)
}

/// What the wider lacks of one area of the narrower.
pub fn failing_for(wider: &Profile, area: &Area) -> Vec<Clause> {
    let (used, past) = wider.areas.split_at(wider.used_areas().len());
    let named: Vec<_> = used.iter().filter(|wide| wide.memory_id == area.memory_id).collect();
    let Some(wide) = named.iter().find(|wide| lacking(wide, area).is_empty()).or(named.first()) else {
        let stands_in = |places: &[Area], named: bool| {
            places.iter().any(|wide| named == (wide.memory_id == area.memory_id) && lacking(wide, area).is_empty())
        };
        return vec![if stands_in(past, true) {
            Clause::PastTheCount
        } else if stands_in(used, false) {
            Clause::OtherId
        } else {
            Clause::Missing
        }];
    };
    let mut failing = lacking(wide, area);
    if let [end @ (Clause::StartsLater | Clause::EndsEarlier)] = failing.as_mut_slice() {
        let rest = rest(wide, area);
        if used.iter().any(|other| lacking(other, &rest).is_empty()) {
            *end = Clause::Split;
        }
    }
    failing
}

/// What one area lacks to stand for another, the memory ID aside.
fn lacking(wide: &Area, narrow: &Area) -> Vec<Clause> {
    let (has, needs) = (wide.rights, narrow.rights);
    let by_address = i64::from(narrow.start) - i64::from(wide.start);
    let by_word = i64::from(narrow.first_word) - i64::from(wide.first_word);
    let checks = [
        (needs.load && !has.load, Clause::LoadRight),
        (needs.dump && !has.dump, Clause::DumpRight),
        (needs.check && !has.check, Clause::CheckRight),
        (by_address < 0, Clause::StartsLater),
        (address_end(wide) < address_end(narrow), Clause::EndsEarlier),
        (by_address != by_word, Clause::StoreWord),
    ];
    checks.iter().filter(|(fails, _)| *fails).map(|(_, clause)| *clause).collect()
}

/// The part of the narrow area before or after the wide one.
fn rest(wide: &Area, narrow: &Area) -> Area {
    if wide.start > narrow.start {
        return Area { length: narrow.length.min(wide.start - narrow.start), ..*narrow };
    }
    let held = address_end(wide).saturating_sub(u64::from(narrow.start)) as u32;
    Area {
        start: narrow.start.wrapping_add(held),
        length: narrow.length - held,
        first_word: narrow.first_word.wrapping_add(held),
        ..*narrow
    }
}
