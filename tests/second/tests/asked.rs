//! What the generator asks `V` about: each pair fails the clause it is made to fail, and the rule of wider agrees
//! with one that goes address by address.

mod common;

use second::clauses::{self, Clause, ALONE, BOTH};
use second::map::{Area, Profile, Unsound};
use second::random::Random;
use second::sample_map::{self, Map, CLAUSES};
use second::sample_wider::{asked, barely_not, unsound_narrower, widened};

fn any_map(random: &mut Random) -> Map {
    let words = random.between(0, 90) as u32;
    let areas = random.below(9) as usize;
    sample_map::sound(random, words, areas)
}

#[test]
fn widened_is_wider() {
    let mut random = Random::new(1);
    for _ in 0..3_000 {
        let map = any_map(&mut random);
        let wide = widened(&mut random, &map.profile, map.store_octets as u32 / 2);
        assert_eq!(clauses::failing(&wide, &map.profile, map.store_octets), []);
        assert!(wide.wider(&map.profile, map.store_octets));
        let wider = widened(&mut random, &wide, map.store_octets as u32 / 2);
        assert!(wider.wider(&map.profile, map.store_octets));
    }
}

#[test]
fn barely_not_fails_one_clause() {
    let mut random = Random::new(2);
    for clause in ALONE {
        let mut found = 0;
        for _ in 0..1_000 {
            let map = any_map(&mut random);
            let words = map.store_octets as u32 / 2;
            let Some(wide) = barely_not(&mut random, &map.profile, words, clause) else { continue };
            assert_eq!(clauses::failing(&wide, &map.profile, map.store_octets), [clause], "{wide:?} {map:?}");
            assert!(!wide.wider(&map.profile, map.store_octets), "{clause}");
            found += 1;
        }
        match clause {
            Clause::NarrowerUnsound(_) => assert_eq!(found, 0),
            _ => assert!(found > 100, "{clause}: {found}"),
        }
    }
}

#[test]
fn the_narrower_fails_one_clause_of_soundness() {
    let mut random = Random::new(3);
    for clause in CLAUSES {
        let mut both = 0;
        for _ in 0..300 {
            let (wide, map) = unsound_narrower(&mut random, clause);
            let failing = clauses::failing(&wide, &map.profile, map.store_octets);
            assert!(!wide.wider(&map.profile, map.store_octets), "{clause}");
            if BOTH.contains(&clause) {
                both += usize::from(failing == [Clause::WiderUnsound(clause), Clause::NarrowerUnsound(clause)]);
            } else {
                assert_eq!(failing, [Clause::NarrowerUnsound(clause)]);
            }
        }
        assert!(both > 100 || !BOTH.contains(&clause), "{clause}: {both}");
    }
}

#[test]
fn the_rule_agrees_with_one_that_goes_address_by_address() {
    let mut random = Random::new(4);
    let mut times = [0, 0];
    for number in 0..20_000 {
        let map = match number % 10 {
            0 => sample_map::unsound(&mut random, CLAUSES[number / 10 % 7]),
            1 => unsound_narrower(&mut random, CLAUSES[number / 10 % 7]).1,
            _ => any_map(&mut random),
        };
        let octets = map.store_octets + usize::from(random.once_in(8));
        let wide = asked(&mut random, &map.profile, octets);
        for (wide, narrow) in [(&wide, &map.profile), (&map.profile, &wide)] {
            let wider = wider_by_address(wide, narrow, octets);
            assert_eq!(wide.wider(narrow, octets), wider, "{wide:?} {narrow:?} {octets}");
            assert_eq!(clauses::failing(wide, narrow, octets).is_empty(), wider, "{wide:?} {narrow:?} {octets}");
            times[usize::from(wider)] += 1;
        }
    }
    assert!(times.iter().all(|count| *count > 5_000), "{times:?}");
}

fn wider_by_address(wide: &Profile, narrow: &Profile, octets: usize) -> bool {
    let ([Some(wide_words), Some(narrow_words)], true) =
        ([wide, narrow].map(|map| words(map, octets)), wide.pid == narrow.pid)
    else {
        return false;
    };
    let set = |map: &Profile| [map.flags.load, map.flags.dump, map.flags.check, map.flags.connection];
    let given = |area: &Area| [area.rights.load, area.rights.dump, area.rights.check];
    let no_less = |has: &[bool], needs: &[bool]| has.iter().zip(needs).all(|(has, needs)| has >= needs);
    no_less(&set(wide), &set(narrow))
        && narrow_words.iter().all(|(area, addresses)| {
            wide_words.iter().any(|(other, more)| {
                other.memory_id == area.memory_id
                    && no_less(&given(other), &given(area))
                    && addresses.iter().all(|one| more.contains(one))
            })
        })
}

/// An area, and each of its addresses with its store word.
type Words = (Area, Vec<(u64, u64)>);

/// The areas of a sound profile; nothing for one that is not.
fn words(profile: &Profile, octets: usize) -> Option<Vec<Words>> {
    if profile.pid > 127 || profile.area_count > 8 {
        return None;
    }
    let mut taken = vec![false; octets / 2];
    let mut ids = Vec::new();
    let mut areas = Vec::new();
    for area in &profile.areas[..usize::from(profile.area_count)] {
        if ids.contains(&area.memory_id) || area.length == 0 {
            return None;
        }
        ids.push(area.memory_id);
        let mut addresses = Vec::new();
        for number in 0..u64::from(area.length) {
            let (address, word) = (u64::from(area.start) + number, u64::from(area.first_word) + number);
            let free = taken.get_mut(usize::try_from(word).expect("64 bits")).filter(|taken| !**taken)?;
            *free = true;
            if address > 0xFFFF_FFFF {
                return None;
            }
            addresses.push((address, word));
        }
        areas.push((*area, addresses));
    }
    Some(areas)
}

#[test]
fn each_clause_has_its_own_name() {
    let mut names: Vec<String> = ALONE.iter().map(Clause::to_string).collect();
    names.extend(CLAUSES.iter().map(Unsound::to_string));
    let count = names.len();
    names.sort();
    names.dedup();
    assert_eq!(names.len(), count);
}
