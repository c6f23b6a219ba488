//! When a profile is wider than another, each clause by hand, and demand 3: what both answer to the same packets.

mod common;

use common::{area, profile, Unit};
use second::map::{Area, Flags, Profile, Rights};
use second::random::Random;
use second::terminal::Verdict;
use second::{sample, sample_map};

/// 64 words.
const STORE: usize = 128;

fn with_pid(pid: u8, profile: Profile) -> Profile {
    Profile { pid, ..profile }
}

fn with_count(area_count: u8, profile: Profile) -> Profile {
    Profile { area_count, ..profile }
}

fn flags(bits: u8) -> Flags {
    Flags { load: bits & 1 != 0, dump: bits & 2 != 0, check: bits & 4 != 0, connection: bits & 8 != 0 }
}

fn rights(bits: u8) -> Rights {
    Rights { load: bits & 1 != 0, dump: bits & 2 != 0, check: bits & 4 != 0 }
}

/// Eight areas of one word each.
fn eight() -> Profile {
    profile(&[0, 1, 2, 3, 4, 5, 6, 7].map(|number| area(number + 10, 0x1000, 1, u32::from(number))))
}

#[test]
fn each_clause_of_wider() {
    let narrow = profile(&[area(1, 0x1010, 16, 20), area(2, 0, 4, 0)]);
    let wide = profile(&[area(2, 0, 4, 0), area(3, 0, 1, 60), area(1, 0x1000, 40, 4)]);
    assert!(wide.wider(&narrow, 128));
    assert!(wide.wider(&wide, 128));
    assert!(!narrow.wider(&wide, 128));

    let mut pid = wide;
    pid.pid = 6;
    let mut flag = wide;
    flag.flags.check = false;
    let mut missing = wide;
    missing.areas[0].memory_id = 9;
    let mut rights = wide;
    rights.areas[2].rights = Rights { dump: false, ..Rights::ALL };
    let mut starts_later = wide;
    starts_later.areas[2] = area(1, 0x1011, 16, 21);
    let mut ends_earlier = wide;
    ends_earlier.areas[2].length = 31;
    let mut other_words = wide;
    other_words.areas[2].first_word = 5;
    let mut unsound = wide;
    unsound.areas[1].first_word = 64;
    for other in [pid, flag, missing, rights, starts_later, ends_earlier, other_words, unsound] {
        assert!(!other.wider(&narrow, 128), "{other:?}");
    }
    let mut just_as_long = wide;
    just_as_long.areas[2].length = 32;
    assert!(just_as_long.wider(&narrow, 128));
    assert!(!wide.wider(&narrow, 40));
}

#[test]
fn the_wider_alone_is_not_sound() {
    let narrow = profile(&[area(1, 0x1000, 32, 0)]);
    let rows = [
        // The same memory ID twice; the one that would do comes first, or last.
        profile(&[area(1, 0x1000, 32, 0), area(1, 0x2000, 1, 32)]),
        profile(&[area(1, 0x2000, 1, 32), area(1, 0x1000, 32, 0)]),
        profile(&[area(1, 0x1000, 32, 0), area(1, 0x1000, 32, 0)]),
        // No length: given, and a place that is not given.
        profile(&[area(1, 0x1000, 32, 0), area(2, 0x2000, 0, 40)]),
        with_count(2, profile(&[area(1, 0x1000, 32, 0)])),
        // An area that ends at 2^32 and 1.
        profile(&[area(1, 0x1000, 32, 0), area(2, 0xFFFF_FFFF, 2, 40)]),
        // Outside the store: by a word, and by so much that a sum or an octet is 2^32.
        profile(&[area(1, 0x1000, 65, 0)]),
        profile(&[area(1, 0x1000, 32, 0), area(2, 0, 1, 64)]),
        profile(&[area(1, 0x1000, 32, 0), area(2, 0, 1, 0xFFFF_FFFF)]),
        profile(&[area(1, 0x1000, 32, 0), area(2, 0, 0xFFFF_FFE0, 32)]),
        profile(&[area(1, 0x1000, 32, 0), area(2, 0, 1, 0x7FFF_FFFF)]),
        profile(&[area(1, 0x1000, 32, 0), area(2, 0, 1, 0x8000_0000)]),
        profile(&[area(1, 0x1000, 32, 0), area(2, 0, 0x8000_0000, 0x8000_0000)]),
        // A shared word: the last, the first, one within, one that is all.
        profile(&[area(1, 0x1000, 32, 0), area(2, 0x5000, 1, 31)]),
        profile(&[area(1, 0x1000, 32, 0), area(2, 0x5000, 1, 0)]),
        profile(&[area(2, 0x5000, 2, 31), area(1, 0x1000, 32, 0)]),
        profile(&[area(2, 0x5000, 64, 0), area(1, 0x1000, 32, 0)]),
    ];
    for wide in rows {
        assert!(!wide.wider(&narrow, STORE), "{wide:?}");
        assert!(!wide.wider(&wide, STORE), "{wide:?}");
    }
    for count in [9, 10, 16, 128, 255] {
        assert!(!with_count(count, eight()).wider(&eight(), STORE), "{count}");
        assert!(!with_count(count, narrow).wider(&narrow, STORE), "{count}");
    }
    // Sound over a longer store.
    let wide = profile(&[area(1, 0x1000, 65, 0)]);
    assert!(wide.wider(&narrow, 130));
    assert!(!wide.wider(&narrow, 129));
}

#[test]
fn the_narrower_alone_is_not_sound() {
    let wide = profile(&[area(1, 0x1000, 32, 0)]);
    let rows = [
        profile(&[area(1, 0x1000, 16, 0), area(1, 0x1010, 16, 16)]),
        profile(&[area(1, 0x1000, 0, 0)]),
        profile(&[area(1, 0x1008, 0, 8)]),
        profile(&[area(1, 0x1020, 0, 32)]),
    ];
    for narrow in rows {
        assert!(!wide.wider(&narrow, STORE), "{narrow:?}");
    }
    for count in [9, 10, 16, 128, 255] {
        assert!(!eight().wider(&with_count(count, eight()), STORE), "{count}");
        assert!(!wide.wider(&with_count(count, wide), STORE), "{count}");
    }
    assert!(!wide.wider(&with_count(2, wide), STORE));
    assert!(!wide.wider(&with_pid(133, wide), STORE));
}

#[test]
fn both_are_not_sound() {
    let rows = [
        with_pid(128, profile(&[area(1, 0x1000, 64, 0)])),
        with_pid(255, profile(&[])),
        with_count(9, eight()),
        with_count(255, eight()),
        profile(&[area(1, 0xFFFF_FFF1, 16, 0)]),
        profile(&[area(1, 0x1000, 65, 0)]),
        profile(&[area(1, 0x1000, 1, 64)]),
        profile(&[area(1, 0x1000, 1, 0xFFFF_FFFF)]),
        profile(&[area(1, 0x1000, 0, 0)]),
        profile(&[area(1, 0x1000, 1, 0), area(1, 0x1000, 1, 1)]),
        profile(&[area(1, 0x1000, 33, 0), area(2, 0x1000, 32, 32)]),
    ];
    for both in rows {
        assert!(!both.wider(&both, STORE), "{both:?}");
    }
}

#[test]
fn whether_the_store_is_in_order_is_no_part() {
    let words = |length| profile(&[area(1, 0, length, 0)]);
    for (length, octets, sound) in [
        (63, 127, true),
        (64, 127, false),
        (64, 129, true),
        (65, 129, false),
        (32_768, 65_536, true),
        (32_769, 65_537, false),
        (32_769, 65_538, true),
        (32_800, 65_600, true),
        (1, 2, true),
        (1, 1, false),
        (1, 0, false),
    ] {
        assert_eq!(words(length).wider(&words(length), octets), sound, "{length} words, {octets} octets");
    }
    for octets in [0, 1, 2, 65_536, 65_537, 65_600] {
        assert!(profile(&[]).wider(&profile(&[]), octets), "{octets}");
    }
}

#[test]
fn the_pid_is_equal() {
    let map = profile(&[area(1, 0x1000, 64, 0)]);
    for (wide, narrow) in [(6, 5), (5, 6), (0, 127), (127, 0), (1, 65), (4, 5), (127, 126)] {
        assert!(!with_pid(wide, map).wider(&with_pid(narrow, map), STORE), "{wide} {narrow}");
    }
    for pid in [0, 1, 64, 126, 127] {
        assert!(with_pid(pid, map).wider(&with_pid(pid, map), STORE), "{pid}");
    }
}

#[test]
fn each_flag_and_each_right() {
    for wide in 0..16 {
        for narrow in 0..16 {
            let [wide_map, narrow_map] =
                [wide, narrow].map(|bits| Profile { flags: flags(bits), ..profile(&[area(1, 0x1000, 64, 0)]) });
            assert_eq!(wide_map.wider(&narrow_map, STORE), wide & narrow == narrow, "flags {wide} {narrow}");
        }
    }
    for wide in 0..8 {
        for narrow in 0..8 {
            let [wide_map, narrow_map] = [wide, narrow].map(|bits| {
                profile(&[area(2, 0x1000, 4, 60), Area { rights: rights(bits), ..area(1, 0x1000, 60, 0) }])
            });
            assert_eq!(wide_map.wider(&narrow_map, STORE), wide & narrow == narrow, "rights {wide} {narrow}");
        }
    }
    // Rights do not stand in for flags, nor flags for rights.
    let all = profile(&[area(1, 0x1000, 64, 0)]);
    let no_flags = Profile { flags: flags(0), ..all };
    let no_rights = profile(&[Area { rights: rights(0), ..area(1, 0x1000, 64, 0) }]);
    assert!(!no_flags.wider(&no_rights, STORE));
    assert!(!no_rights.wider(&no_flags, STORE));
    assert!(all.wider(&no_flags, STORE) && all.wider(&no_rights, STORE));
}

#[test]
fn addresses_and_store_words() {
    let narrow = profile(&[area(1, 0x1010, 16, 20)]);
    for (start, length, first_word, wider) in [
        (0x1010, 16, 20, true),
        // Starts lower, and the first store word with it; ends later; both.
        (0x100F, 17, 19, true),
        (0x1010, 17, 20, true),
        (0x100F, 18, 19, true),
        (0x1000, 32, 4, true),
        (0x0FFC, 64, 0, true),
        (0x0FFC, 36, 0, true),
        (0x1010, 44, 20, true),
        // Starts later, with more or less after it.
        (0x1011, 15, 21, false),
        (0x1011, 16, 21, false),
        (0x1011, 43, 21, false),
        (0x101F, 1, 35, false),
        // Ends earlier, with more or less before it.
        (0x1010, 15, 20, false),
        (0x100F, 16, 19, false),
        (0x0FFC, 35, 0, false),
        (0x1010, 1, 20, false),
        // Both; beside it; far from it.
        (0x1011, 14, 21, false),
        (0x1000, 16, 4, false),
        (0x1020, 16, 36, false),
        (0, 16, 20, false),
        (0x8000_1010, 16, 20, false),
        (0xFFFF_FFF0, 16, 20, false),
        // Other store words: one off either way, not shifted with the start, shifted the wrong way or twice.
        (0x1010, 16, 19, false),
        (0x1010, 16, 21, false),
        (0x100F, 17, 20, false),
        (0x100F, 17, 21, false),
        (0x100F, 17, 18, false),
        (0x1000, 32, 3, false),
        (0x1000, 32, 5, false),
        (0x1000, 32, 20, false),
        (0x1010, 16, 0, false),
        (0x1010, 16, 48, false),
    ] {
        let wide = profile(&[area(1, start, length, first_word)]);
        assert_eq!(wide.wider(&narrow, STORE), wider, "{start:X} {length} {first_word}");
        // The same beside another area, that of the narrower first or last.
        let wide = profile(&[area(1, start, length, first_word), area(7, 0, 1, 64)]);
        let narrow = profile(&[area(7, 0, 1, 64), area(1, 0x1010, 16, 20)]);
        assert_eq!(wide.wider(&narrow, 130), wider, "{start:X} {length} {first_word}, with another");
    }
}

#[test]
fn an_area_that_ends_at_two_to_the_32() {
    let end = profile(&[area(1, 0xFFFF_FFF0, 16, 16)]);
    assert!(end.wider(&end, STORE));
    for (start, length, first_word, wider) in [
        (0xFFFF_FFE0, 32, 0, true),
        (0xFFFF_FFEF, 17, 15, true),
        // Ends at FFFFFFFF: a word less.
        (0xFFFF_FFE0, 31, 0, false),
        (0xFFFF_FFF0, 15, 16, false),
        // Not sound: ends at 2^32 and 1, at 2^32 and 16.
        (0xFFFF_FFF0, 17, 16, false),
        (0xFFFF_FFE0, 48, 0, false),
        // In 32 bits the store word of its address 0 would be that.
        (0, 16, 32, false),
        (0, 32, 0, false),
    ] {
        let wide = profile(&[area(1, start, length, first_word)]);
        assert_eq!(wide.wider(&end, STORE), wider, "{start:X} {length} {first_word}");
    }
    // The wider ends there and the narrower before.
    let wide = profile(&[area(1, 0xFFFF_FFE0, 32, 0)]);
    assert!(wide.wider(&profile(&[area(1, 0xFFFF_FFE8, 8, 8)]), STORE));
    assert!(wide.wider(&profile(&[area(1, 0xFFFF_FFE0, 31, 0)]), STORE));
    assert!(wide.wider(&profile(&[area(1, 0xFFFF_FFFF, 1, 31)]), STORE));
    assert!(!wide.wider(&profile(&[area(1, 0xFFFF_FFDF, 1, 0)]), STORE));
    // Starts 2^32 - 1 lower, and in 32 bits the first word as well.
    let (wide, narrow) = (profile(&[area(1, 0, 1, 1)]), profile(&[area(1, 0xFFFF_FFFF, 1, 0)]));
    assert!(!wide.wider(&narrow, STORE));
    assert!(!narrow.wider(&wide, STORE));
}

#[test]
fn an_area_that_is_missing_split_or_under_another_id() {
    let narrow = profile(&[area(1, 0x1000, 16, 0), area(2, 0x2000, 8, 16)]);
    let rows = [
        // Missing, with none or another in its place.
        (profile(&[area(1, 0x1000, 16, 0)]), false),
        (profile(&[area(2, 0x2000, 8, 16)]), false),
        (profile(&[]), false),
        (profile(&[area(1, 0x1000, 16, 0), area(3, 0x2000, 8, 16)]), false),
        // The two exchange their IDs.
        (profile(&[area(2, 0x1000, 16, 0), area(1, 0x2000, 8, 16)]), false),
        // Split: the addresses are all there at their words, under two IDs.
        (profile(&[area(1, 0x1000, 8, 0), area(3, 0x1008, 8, 8), area(2, 0x2000, 8, 16)]), false),
        (profile(&[area(3, 0x1000, 8, 0), area(1, 0x1008, 8, 8), area(2, 0x2000, 8, 16)]), false),
        // In another order, with others before, between and after.
        (profile(&[area(2, 0x2000, 8, 16), area(1, 0x1000, 16, 0)]), true),
        (
            profile(&[
                area(9, 0x1000, 16, 40),
                area(2, 0x2000, 8, 16),
                area(0, 0x2000, 8, 24),
                area(1, 0x1000, 16, 0),
                area(255, 0, 1, 63),
            ]),
            true,
        ),
    ];
    for (wide, wider) in rows {
        assert_eq!(wide.wider(&narrow, STORE), wider, "{wide:?}");
    }
    // Two areas of the narrower within one of the wider.
    let one = profile(&[area(1, 0x1000, 16, 0)]);
    let two = profile(&[area(1, 0x1000, 8, 0), area(2, 0x1008, 8, 8)]);
    assert!(!one.wider(&two, STORE));
    assert!(!two.wider(&one, STORE));
}

#[test]
fn places_at_or_past_the_count_are_ignored() {
    let both = [area(1, 0x1000, 16, 0), area(2, 0x2000, 8, 16)];
    let one = profile(&both[..1]);
    let two = profile(&both);
    // The second area of the narrower does not count, that of the wider does not help.
    assert!(one.wider(&with_count(1, two), STORE));
    assert!(with_count(1, two).wider(&one, STORE));
    assert!(with_count(1, two).wider(&with_count(1, two), STORE));
    assert!(!with_count(1, two).wider(&two, STORE));
    assert!(!with_count(0, two).wider(&one, STORE));
    assert!(profile(&[]).wider(&with_count(0, two), STORE));
    // What would not be sound were it counted: no length, far outside, the same ID and words, at every place.
    let bad = [area(1, 0x1000, 0, 0), area(9, 0xFFFF_FFFF, 0xFFFF_FFFF, 0xFFFF_FFFF), both[0]];
    for place in 1..8 {
        for bad in bad {
            let mut map = one;
            map.areas[place] = bad;
            assert!(map.wider(&one, STORE) && one.wider(&map, STORE) && map.wider(&map, STORE), "{place} {bad:?}");
            map.area_count = place as u8 + 1;
            assert!(!map.wider(&one, STORE) && !one.wider(&map, STORE), "{place} {bad:?}");
        }
    }
}

#[test]
fn no_areas_and_eight() {
    let none = profile(&[]);
    assert!(none.wider(&none, STORE) && none.wider(&none, 0));
    assert!(eight().wider(&none, STORE));
    assert!(!none.wider(&eight(), STORE));
    assert!(eight().wider(&eight(), STORE) && eight().wider(&eight(), 16));
    assert!(!eight().wider(&none, 14));
    // The eighth is looked at, of either.
    let mut other = eight();
    other.areas[7].start = 0x1001;
    assert!(!other.wider(&eight(), STORE) && !eight().wider(&other, STORE));
    let mut reversed = eight();
    reversed.areas.reverse();
    assert!(reversed.wider(&eight(), STORE));
}

#[test]
fn every_sound_profile_is_wider_than_itself_and_no_other_is() {
    let mut random = Random::new(5);
    for number in 0..2_000 {
        let words = random.between(0, 90) as u32;
        let map = sample_map::sound(&mut random, words, number % 9);
        assert!(map.profile.wider(&map.profile, map.store_octets), "{map:?}");
        let unsound = sample_map::unsound(&mut random, sample_map::CLAUSES[number % 7]);
        assert!(!unsound.profile.wider(&unsound.profile, unsound.store_octets), "{unsound:?}");
    }
}

/// The place of a verdict's check in 01's order; acceptance comes after every check.
fn place(verdict: Verdict) -> usize {
    const ORDER: [u8; 13] = [40, 41, 42, 1, 2, 16, 0, 3, 4, 5, 17, 18, 19];
    match verdict {
        Verdict::Accepted => ORDER.len(),
        Verdict::Refused(refusal) => ORDER.iter().position(|number| *number == refusal.number).expect("a number of 01"),
    }
}

#[test]
fn both_agree_up_to_the_first_refusal_that_tells_them_apart() {
    let (mut parted, mut served) = (0, 0);
    for seed in 0..300 {
        let mut random = Random::new(seed);
        let words = random.between(8, 120) as u32;
        let areas = random.between(1, 8) as usize;
        let map = sample_map::sound(&mut random, words, areas);
        let narrow_profile = sample_map::narrowed(&mut random, &map.profile);
        assert!(map.profile.wider(&narrow_profile, map.store_octets));
        let mut wide = Unit::with(map.profile, map.store_octets);
        let mut narrow = Unit::with(narrow_profile, map.store_octets);
        for _ in 0..40 {
            let maker = if random.once_in(4) { &map.profile } else { &narrow_profile };
            let packet = sample::packet(&mut random, maker);
            let (answer, wide_answer) = (narrow.send(&packet), wide.send(&packet));
            if matches!(answer.verdict, Verdict::Refused(refusal) if [3, 4, 17, 18, 19].contains(&refusal.number)) {
                assert!(place(wide_answer.verdict) >= place(answer.verdict));
                parted += 1;
                break;
            }
            assert_eq!(answer, wide_answer);
            assert_eq!(narrow.output, wide.output);
            assert_eq!(narrow.store, wide.store);
            served += usize::from(answer.verdict == Verdict::Accepted);
        }
    }
    assert!(parted > 200 && served > 200, "{parted} parted, {served} served");
}
