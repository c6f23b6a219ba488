//! Which clause of soundness fails first: it agrees with a rule that goes octet by octet, with the terminal's own
//! refusal 41, and with what the generator's units are made to fail.

use second::map::store_in_order;
use second::random::Random;
use second::sample_unit::{self, Stated, Way, WAYS};
use second::soundness::{first_failing, Failing};
use second::unit::Unit;

/// The unit over a store of zeros.
fn unit(stated: &Stated) -> Unit {
    Unit { profile: stated.profile, store: vec![0; stated.store_octets] }
}

/// The way in which a unit was made to fail that clause.
fn way(failing: Failing) -> Way {
    match failing {
        Failing::OddStore => Way::OddStore,
        Failing::Pid => Way::Pid,
        Failing::NoWords(_) => Way::NoWords,
        Failing::EndsAboveAddresses(_) => Way::EndsAboveAddresses,
        Failing::EndsPastStore(_) => Way::EndsPastStore,
        Failing::SameMemoryId(..) => Way::SameMemoryId,
        Failing::SharedOctet(..) => Way::SharedOctet,
    }
}

/// What is said, found address by address and octet by octet.
fn said_by_octet(unit: &Unit) -> Option<String> {
    let areas = unit.profile.used_areas();
    if unit.store.len() % 2 == 1 {
        return Some("the store has an odd number of octets".into());
    }
    if unit.profile.pid >= 128 {
        return Some("the PID is above 127".into());
    }
    let mut taken = Vec::new();
    for (number, area) in areas.iter().enumerate() {
        let number = number + 1;
        if area.length == 0 {
            return Some(format!("area {number} has no words"));
        }
        if area.start.checked_add(area.length - 1).is_none() {
            return Some(format!("area {number} ends above address FFFFFFFF"));
        }
        let mut octets = vec![false; unit.store.len()];
        for octet in 0..u64::from(area.length) * 2 {
            let place = usize::try_from(u64::from(area.first_word) * 2 + octet).expect("64 bits");
            match octets.get_mut(place) {
                Some(there) => *there = true,
                None => return Some(format!("area {number} ends past the store")),
            }
        }
        taken.push(octets);
    }
    for one in 0..areas.len() {
        for other in one + 1..areas.len() {
            if areas[one].memory_id == areas[other].memory_id {
                return Some(format!("areas {} and {} have the same memory ID", one + 1, other + 1));
            }
            let shared = (0..unit.store.len()).find(|octet| taken[one][*octet] && taken[other][*octet]);
            if let Some(octet) = shared {
                return Some(format!("areas {} and {} share octet {octet}", one + 1, other + 1));
            }
        }
    }
    None
}

#[test]
fn it_agrees_with_a_rule_that_goes_octet_by_octet() {
    let mut random = Random::new(11);
    let mut unsound = 0;
    for number in 0..6_000 {
        let stated = match number % 3 {
            0 => sample_unit::sound_with_everything(&mut random),
            others => sample_unit::unsound(&mut random, WAYS[number / 3 % WAYS.len()], others == 2),
        };
        let unit = unit(&stated);
        let failing = first_failing(&unit);
        assert_eq!(failing.map(|clause| clause.to_string()), said_by_octet(&unit), "{unit:?}");
        let sound = store_in_order(unit.store.len()) && unit.profile.sound(unit.store.len());
        assert_eq!(failing.is_none(), sound, "{unit:?}");
        unsound += usize::from(!sound);
    }
    assert_eq!(unsound, 4_000);
}

#[test]
fn units_are_unsound_in_the_way_they_are_made_to_be() {
    let mut random = Random::new(12);
    for _ in 0..500 {
        for made in WAYS {
            let stated = sample_unit::unsound(&mut random, made, false);
            assert_eq!(first_failing(&unit(&stated)).map(way), Some(made), "{stated:?}");
        }
        let stated = sample_unit::sound(&mut random);
        assert_eq!(first_failing(&unit(&stated)), None, "{stated:?}");
    }
}
