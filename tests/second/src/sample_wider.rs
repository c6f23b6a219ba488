//! Profiles to ask `V` about: ones that are wider than the profile that stands, ones that fail one clause alone,
//! and others.

use crate::clauses::{Clause, ALONE};
use crate::map::{Area, Profile, Unsound, AREA_PLACES};
use crate::random::Random;
use crate::sample_map::{self, Map, CLAUSES};

const ADDRESSES: u64 = 1 << 32;
const COUNTS_OUT_OF_RANGE: [u8; 4] = [9, 10, 16, 255];

/// A profile to be set beside the one that stands, over the store that stands.
pub fn asked(random: &mut Random, standing: &Profile, store_octets: usize) -> Profile {
    let store_words = (store_octets / 2) as u32;
    let sound = standing.sound(store_octets);
    let mut profile = match random.below(100) {
        0..=19 if sound => widened(random, standing, store_words),
        20..=79 if sound => {
            let clause = random.pick(&ALONE);
            barely_not(random, standing, store_words, clause).unwrap_or(counted(standing))
        }
        80..=86 if sound => sample_map::narrowed(random, standing),
        87..=91 => {
            let clause = random.pick(&CLAUSES);
            sample_map::unsound(random, clause).profile
        }
        92..=93 => {
            let areas = random.below(9) as usize;
            sample_map::sound(random, store_words, areas).profile
        }
        _ => counted(standing),
    };
    let past = usize::from(profile.area_count);
    if past < AREA_PLACES && profile.areas[past] == Area::default() && random.once_in(3) {
        // Would be unsound, were it used.
        profile.areas[past] = profile.areas[0];
    }
    profile
}

/// A profile that is wider than the given sound one over a store of that many words.
pub fn widened(random: &mut Random, narrow: &Profile, store_words: u32) -> Profile {
    let mut wide = counted(narrow);
    wide.flags.load |= random.once_in(2);
    wide.flags.dump |= random.once_in(2);
    wide.flags.check |= random.once_in(2);
    wide.flags.connection |= random.once_in(2);
    for place in 0..usize::from(wide.area_count) {
        let (before, after) = free_beside(&wide, place, store_words);
        let area = &mut wide.areas[place];
        if random.once_in(2) {
            let lower_by = random.below(u64::from(before.min(area.start)) + 1) as u32;
            area.start -= lower_by;
            area.first_word -= lower_by;
            area.length += lower_by;
        }
        if random.once_in(2) {
            let addresses_left = ADDRESSES - address_end(area);
            area.length += random.below(u64::from(after).min(addresses_left) + 1) as u32;
        }
        area.rights.load |= random.once_in(2);
        area.rights.dump |= random.once_in(2);
        area.rights.check |= random.once_in(2);
    }
    for _ in 0..random.below(3) {
        add_area(random, &mut wide, store_words);
    }
    wide
}

/// A profile that fails that clause alone beside the given sound one. Nothing where this try finds none, and for a
/// clause that the narrower would have to fail.
pub fn barely_not(random: &mut Random, standing: &Profile, store_words: u32, clause: Clause) -> Option<Profile> {
    let mut wide = if random.once_in(2) { widened(random, standing, store_words) } else { counted(standing) };
    match clause {
        Clause::WiderUnsound(clause) => make_unsound(random, &mut wide, store_words, clause)?,
        Clause::NarrowerUnsound(_) => return None,
        Clause::Pid => wide.pid = (wide.pid + random.pick(&[1, 16, 64, 127])) % 128,
        Clause::LoadFlag => take(standing.flags.load, &mut wide.flags.load)?,
        Clause::DumpFlag => take(standing.flags.dump, &mut wide.flags.dump)?,
        Clause::CheckFlag => take(standing.flags.check, &mut wide.flags.check)?,
        Clause::ConnectionFlag => take(standing.flags.connection, &mut wide.flags.connection)?,
        _ => {
            let able: Vec<_> = standing.used_areas().iter().filter(|area| can_lack(area, clause)).collect();
            if able.is_empty() {
                return None;
            }
            let narrow = random.pick(&able);
            make_lacking(random, &mut wide, store_words, narrow, clause)?;
        }
    }
    Some(wide)
}

/// A profile and a narrower one for which that clause of soundness fails alone: in the narrower where that can be,
/// else in both, which are then the same.
pub fn unsound_narrower(random: &mut Random, clause: Unsound) -> (Profile, Map) {
    let areas = match clause {
        Unsound::AreaCount => AREA_PLACES,
        Unsound::SameMemoryId | Unsound::NoLength => random.between(1, 7) as usize,
        _ => {
            let map = sample_map::unsound(random, clause);
            return (map.profile, map);
        }
    };
    let (mut map, place) = loop {
        let store_words = random.between(16, 80) as u32;
        let map = sample_map::sound(random, store_words, areas);
        let places = map.profile.used_areas().iter().enumerate();
        if let Some((place, _)) = places.filter(|(_, area)| area.length >= 2).max_by_key(|(_, area)| area.length) {
            break (map, place);
        }
    };
    let wide = map.profile;
    let whole = wide.areas[place];
    let cut = random.between(1, u64::from(whole.length) - 1) as u32;
    match clause {
        Unsound::SameMemoryId => {
            map.profile.areas[place] = part(&whole, 0, cut);
            put(random, &mut map.profile, part(&whole, cut, whole.length - cut));
            map.areas_given += 1;
        }
        Unsound::NoLength => map.profile.areas[place] = part(&whole, cut, 0),
        _ => map.profile.area_count = random.pick(&COUNTS_OUT_OF_RANGE),
    }
    (wide, map)
}

/// Makes the profile, sound so far, fail that clause of soundness and no other.
fn make_unsound(random: &mut Random, profile: &mut Profile, store_words: u32, clause: Unsound) -> Option<()> {
    let used = profile.used_areas().to_vec();
    let memory_id = unused_id(random, profile);
    match clause {
        Unsound::Pid => return None,
        Unsound::AreaCount => {
            while usize::from(profile.area_count) < AREA_PLACES {
                add_area(random, profile, store_words)?;
            }
            profile.area_count = random.pick(&COUNTS_OUT_OF_RANGE);
        }
        Unsound::SameMemoryId => {
            let place = add_area(random, profile, store_words)?;
            let taken = if used.is_empty() { return None } else { random.pick(&used).memory_id };
            profile.areas[place].memory_id = taken;
        }
        Unsound::NoLength => {
            let mut area = Area { memory_id, ..Area::default() };
            if random.once_in(2) {
                area.start = random.any() as u32;
                area.first_word = random.below(u64::from(store_words) + 1) as u32;
            }
            put(random, profile, area)?;
        }
        Unsound::EndAbove32Bits => {
            let at_the_end = used.iter().position(|area| address_end(area) == ADDRESSES);
            match at_the_end {
                Some(place) if free_beside(profile, place, store_words).1 > 0 => profile.areas[place].length += 1,
                _ => {
                    let place = add_area(random, profile, store_words)?;
                    let area = &mut profile.areas[place];
                    if area.length < 2 {
                        return None;
                    }
                    area.start = (ADDRESSES + 1 - u64::from(area.length)) as u32;
                }
            }
        }
        Unsound::OutsideStore => {
            let last = used.iter().position(|area| area.first_word + area.length == store_words);
            match last {
                Some(place) if address_end(&used[place]) < ADDRESSES => profile.areas[place].length += 1,
                _ => {
                    let length = random.between(1, 3) as u32;
                    let first_word = random.pick(&[store_words, store_words, 0xFFFF_FFFF, 0x8000_0000, 0x7FFF_FFFF]);
                    let (start, rights) = (sample_map::start(random, length), sample_map::rights(random));
                    put(random, profile, Area { memory_id, start, length, first_word, rights })?;
                }
            }
        }
        Unsound::SharedWord => {
            let other = if used.is_empty() { return None } else { random.pick(&used) };
            let first_word = random.pick(&[other.first_word, other.first_word + other.length - 1]);
            let (start, rights) = (sample_map::start(random, 1), sample_map::rights(random));
            put(random, profile, Area { memory_id, start, length: 1, first_word, rights })?;
        }
    }
    Some(())
}

/// Whether a profile can be made that fails that clause for the area alone.
fn can_lack(area: &Area, clause: Clause) -> bool {
    match clause {
        Clause::LoadRight => area.rights.load,
        Clause::DumpRight => area.rights.dump,
        Clause::CheckRight => area.rights.check,
        Clause::StartsLater | Clause::EndsEarlier | Clause::Split => area.length >= 2,
        _ => true,
    }
}

/// Makes the wider profile fail that clause for the area of the narrower and no other.
fn make_lacking(
    random: &mut Random,
    wide: &mut Profile,
    store_words: u32,
    narrow: &Area,
    clause: Clause,
) -> Option<()> {
    let place = wide.used_areas().iter().position(|area| area.memory_id == narrow.memory_id)?;
    let last = usize::from(wide.area_count) - 1;
    let memory_id = unused_id(random, wide);
    let (before, after) = free_beside(wide, place, store_words);
    let area = &mut wide.areas[place];
    match clause {
        Clause::LoadRight => area.rights.load = false,
        Clause::DumpRight => area.rights.dump = false,
        Clause::CheckRight => area.rights.check = false,
        Clause::OtherId => area.memory_id = memory_id,
        Clause::Missing | Clause::PastTheCount => {
            wide.areas.swap(place, last);
            wide.area_count -= 1;
            if clause == Clause::Missing {
                wide.areas[last] = Area::default();
            }
        }
        Clause::StartsLater => {
            let later_by = narrow.start - area.start + often_one(random, narrow.length - 1);
            *area = part(area, later_by, area.length - later_by);
        }
        Clause::EndsEarlier => {
            let held = narrow.length - often_one(random, narrow.length - 1);
            *area = part(area, 0, narrow.start - area.start + held);
        }
        Clause::Split => {
            let cut = narrow.start - area.start + random.between(1, u64::from(narrow.length) - 1) as u32;
            let mut parts = [part(area, 0, cut), part(area, cut, area.length - cut)];
            let [kept, other] = if random.once_in(2) { [0, 1] } else { [1, 0] };
            parts[other].memory_id = memory_id;
            *area = parts[kept];
            put(random, wide, parts[other])?;
        }
        Clause::StoreWord => match random.below(3) {
            0 if before > 0 => area.first_word -= often_one(random, before),
            1 if after > 0 => area.first_word += often_one(random, after),
            _ if area.start < narrow.start => {
                area.start += 1;
                area.length -= 1;
            }
            _ if before > 0 => area.first_word -= 1,
            _ if after > 0 => area.first_word += 1,
            _ => return None,
        },
        _ => return None,
    }
    Some(())
}

/// The profile as it is used: every place past the count is zero.
fn counted(profile: &Profile) -> Profile {
    let mut counted = Profile { areas: Default::default(), ..*profile };
    for (place, area) in counted.areas.iter_mut().zip(profile.used_areas()) {
        *place = *area;
    }
    counted
}

/// Clears what the narrower has set.
fn take(narrower_has: bool, wider_has: &mut bool) -> Option<()> {
    *wider_has = false;
    narrower_has.then_some(())
}

/// 1 to `most`, mostly 1.
fn often_one(random: &mut Random, most: u32) -> u32 {
    if random.once_in(4) {
        random.between(1, u64::from(most)) as u32
    } else {
        1
    }
}

fn address_end(area: &Area) -> u64 {
    u64::from(area.start) + u64::from(area.length)
}

/// The part of an area that begins so many words later and is that long.
fn part(area: &Area, later_by: u32, length: u32) -> Area {
    Area { start: area.start + later_by, first_word: area.first_word + later_by, length, ..*area }
}

/// Puts an area at any of the used places; its place, if there is one.
fn put(random: &mut Random, profile: &mut Profile, area: Area) -> Option<usize> {
    let last = usize::from(profile.area_count);
    *profile.areas.get_mut(last)? = area;
    profile.area_count += 1;
    let place = random.below(last as u64 + 1) as usize;
    profile.areas.swap(place, last);
    Some(place)
}

/// Puts a new area on store words that are free.
fn add_area(random: &mut Random, profile: &mut Profile, store_words: u32) -> Option<usize> {
    let mut used: Vec<_> = profile.used_areas().iter().map(|area| (area.first_word, area.length)).collect();
    used.sort_unstable();
    used.push((store_words, 0));
    let mut free = Vec::new();
    let mut end = 0;
    for (first_word, length) in used {
        if end < first_word {
            free.push((end, first_word - end));
        }
        end = first_word + length;
    }
    if free.is_empty() {
        return None;
    }
    let (first_word, room) = random.pick(&free);
    let length = random.between(1, u64::from(room)) as u32;
    let first_word = first_word + random.below(u64::from(room - length) + 1) as u32;
    let memory_id = unused_id(random, profile);
    let (start, rights) = (sample_map::start(random, length), sample_map::rights(random));
    put(random, profile, Area { memory_id, start, length, first_word, rights })
}

fn unused_id(random: &mut Random, profile: &Profile) -> u8 {
    let mut memory_id = random.octet();
    while profile.used_areas().iter().any(|area| area.memory_id == memory_id) {
        memory_id = memory_id.wrapping_add(1);
    }
    memory_id
}

/// How many store words directly before and after the area at that place are free.
fn free_beside(profile: &Profile, place: usize, store_words: u32) -> (u32, u32) {
    let area = profile.areas[place];
    let (mut from, mut to) = (0, store_words);
    for other in profile.used_areas() {
        if other.first_word < area.first_word {
            from = from.max(other.first_word + other.length);
        }
        if other.first_word > area.first_word {
            to = to.min(other.first_word);
        }
    }
    (area.first_word - from, to - (area.first_word + area.length))
}
