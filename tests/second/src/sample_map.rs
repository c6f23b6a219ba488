//! Memory maps for the generators: sound ones, ones that are unsound in one chosen way,
//! and one that a given map is wider than.

use crate::map::{Area, Flags, Profile, Rights, Unsound, AREA_PLACES};
use crate::random::Random;

/// A profile and the octets of the store it is meant for.
#[derive(Clone, Copy, Debug)]
pub struct Map {
    pub profile: Profile,
    pub store_octets: usize,
    /// How many area places the profile has filled in; the count may say something else.
    pub areas_given: usize,
}

pub const CLAUSES: [Unsound; 7] = [
    Unsound::Pid,
    Unsound::AreaCount,
    Unsound::SameMemoryId,
    Unsound::NoLength,
    Unsound::EndAbove32Bits,
    Unsound::OutsideStore,
    Unsound::SharedWord,
];

/// A sound map of that many areas (fewer if the store is too small for them).
pub fn sound(random: &mut Random, store_words: u32, areas: usize) -> Map {
    let mut profile = Profile { pid: pid(random), flags: flags(random), ..Profile::default() };
    let areas = areas.min(AREA_PLACES).min(store_words as usize);
    let share = store_words.checked_div(areas as u32).unwrap_or(0);
    let first_id = random.octet();
    for place in 0..areas {
        let (length, gap) = match random.below(3) {
            0 => (share, 0),
            1 => (random.between(1, u64::from(share)) as u32, 0),
            _ => {
                let length = random.between(1, u64::from(share)) as u32;
                (length, random.below(u64::from(share - length) + 1) as u32)
            }
        };
        profile.areas[place] = Area {
            memory_id: first_id.wrapping_add(place as u8 * 31),
            start: start(random, length),
            length,
            first_word: place as u32 * share + gap,
            rights: rights(random),
        };
    }
    for place in (1..areas).rev() {
        profile.areas.swap(place, random.below(place as u64 + 1) as usize);
    }
    profile.area_count = areas as u8;
    Map { profile, store_octets: store_words as usize * 2, areas_given: areas }
}

/// A map of two areas or more that fails that clause of soundness.
pub fn unsound(random: &mut Random, clause: Unsound) -> Map {
    let store_words = random.between(16, 80) as u32;
    let areas = random.between(2, AREA_PLACES as u64) as usize;
    let mut map = sound(random, store_words, areas);
    let one = random.below(areas as u64) as usize;
    let other = (one + 1) % areas;
    let profile = &mut map.profile;
    match clause {
        Unsound::Pid => profile.pid = random.pick(&[128, 129, 133, 255]),
        Unsound::AreaCount => profile.area_count = random.pick(&[9, 10, 16, 255]),
        Unsound::SameMemoryId => profile.areas[one].memory_id = profile.areas[other].memory_id,
        Unsound::NoLength if areas < AREA_PLACES && random.once_in(2) => profile.area_count += 1,
        Unsound::NoLength => profile.areas[one].length = 0,
        Unsound::EndAbove32Bits => {
            profile.areas[one].length = profile.areas[one].length.max(2);
            profile.areas[one].start = (u32::MAX - profile.areas[one].length).wrapping_add(2);
            map.store_octets += 2;
        }
        Unsound::OutsideStore => {
            let ends = profile.used_areas().iter().map(|area| area.first_word + area.length);
            let last = ends.max().unwrap_or(0);
            map.store_octets = last.saturating_sub(1) as usize * 2;
            if random.once_in(4) {
                profile.areas[one].first_word = random.pick(&[0xFFFF_FFFF, 0x8000_0000, 0x7FFF_FFFF]);
            }
        }
        Unsound::SharedWord => {
            let last_word = profile.areas[other].first_word + profile.areas[other].length - 1;
            profile.areas[one].first_word = last_word;
            map.store_octets += (last_word + profile.areas[one].length) as usize * 2;
        }
    }
    map
}

/// A profile that the given sound one is wider than.
pub fn narrowed(random: &mut Random, wide: &Profile) -> Profile {
    let mut narrow = Profile { pid: wide.pid, flags: wide.flags, ..Profile::default() };
    narrow.flags.load &= !random.once_in(6);
    narrow.flags.dump &= !random.once_in(6);
    narrow.flags.check &= !random.once_in(6);
    narrow.flags.connection &= !random.once_in(4);
    let mut used = 0;
    for area in wide.used_areas() {
        if random.once_in(5) {
            continue;
        }
        let mut area = *area;
        if !random.once_in(3) {
            let later_by = random.below(u64::from(area.length)) as u32;
            area.start += later_by;
            area.first_word += later_by;
            area.length = random.between(1, u64::from(area.length - later_by)) as u32;
        }
        area.rights.load &= !random.once_in(5);
        area.rights.dump &= !random.once_in(5);
        area.rights.check &= !random.once_in(5);
        narrow.areas[used] = area;
        used += 1;
    }
    narrow.area_count = used as u8;
    narrow
}

fn pid(random: &mut Random) -> u8 {
    match random.below(4) {
        0 => random.pick(&[0, 1, 126, 127]),
        1 => random.below(128) as u8,
        _ => 5,
    }
}

fn flags(random: &mut Random) -> Flags {
    if !random.once_in(3) {
        return Flags::ALL;
    }
    if random.once_in(12) {
        return Flags { connection: random.once_in(2), ..Flags::default() };
    }
    Flags {
        load: !random.once_in(3),
        dump: !random.once_in(3),
        check: !random.once_in(3),
        connection: !random.once_in(3),
    }
}

pub fn rights(random: &mut Random) -> Rights {
    if random.once_in(2) {
        return Rights::ALL;
    }
    Rights { load: !random.once_in(3), dump: !random.once_in(3), check: !random.once_in(3) }
}

/// A start that keeps the end at or below 2^32, now and then at exactly 2^32.
pub fn start(random: &mut Random, length: u32) -> u32 {
    let highest = (u32::MAX - length).wrapping_add(1);
    match random.below(5) {
        0 => 0,
        1 => highest,
        2 => random.any() as u32 % highest.max(1),
        _ => 0x1000,
    }
}
