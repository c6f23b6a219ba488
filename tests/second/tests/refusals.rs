//! Every refusal number with its details, and which check comes first.

mod common;

use common::{area, hex, profile, request, request_by_iso, sealed, sealed_by_iso, Unit};
use second::map::{Flags, Rights};
use second::terminal::Verdict;
use second::tm::Counts;

const CONNECTION: &str = "185CC0000005191101000167";

#[test]
fn number_40_a_buffer_below_4096() {
    for length in [0, 1, 4_095] {
        let mut unit = Unit::new();
        unit.output = vec![9; length];
        unit.ignores(&hex(CONNECTION), 40);
    }
    let mut unit = Unit::new();
    unit.output = vec![9; 4_096];
    assert_eq!(unit.send(&hex(CONNECTION)).verdict, Verdict::Accepted);
}

#[test]
fn number_41_each_clause_of_soundness() {
    let sound = profile(&[area(1, 0x1000, 32, 0), area(2, 0x1000, 32, 32)]);
    assert_eq!(Unit::with(sound, 128).send(&hex(CONNECTION)).verdict, Verdict::Accepted);

    let mut pid = sound;
    pid.pid = 128;
    let mut count = sound;
    count.area_count = 9;
    let mut place_not_given = sound;
    place_not_given.area_count = 3;
    let mut same_id = sound;
    same_id.areas[1].memory_id = 1;
    let mut no_length = sound;
    no_length.areas[1].length = 0;
    let mut end = sound;
    end.areas[1].start = 0xFFFF_FFE1;
    let mut past_store = sound;
    past_store.areas[1].first_word = 33;
    let mut far_past_store = sound;
    far_past_store.areas[1].first_word = 0xFFFF_FFE1;
    let mut shared = sound;
    shared.areas[1].first_word = 31;
    let mut shared_the_other_way = sound;
    shared_the_other_way.areas.swap(0, 1);
    shared_the_other_way.areas[1].length = 33;
    let unsound = [
        pid,
        count,
        place_not_given,
        same_id,
        no_length,
        end,
        past_store,
        far_past_store,
        shared,
        shared_the_other_way,
    ];
    for profile in unsound {
        Unit::with(profile, 128).ignores(&hex(CONNECTION), 41);
    }

    let mut at_the_end = sound;
    at_the_end.areas[1].start = 0xFFFF_FFE0;
    assert_eq!(Unit::with(at_the_end, 128).send(&hex(CONNECTION)).verdict, Verdict::Accepted);
}

#[test]
fn number_41_places_past_the_count_are_ignored() {
    let mut map = profile(&[area(1, 0x1000, 64, 0)]);
    map.areas[1] = area(1, 0xFFFF_FFFF, 0xFFFF_FFFF, 0);
    assert_eq!(Unit::with(map, 128).send(&hex(CONNECTION)).verdict, Verdict::Accepted);
    Unit::with(map, 128).refuses(&request(0, 6, 9, "01 01 FFFFFFFF 0001"), 19, 1);
}

#[test]
fn number_41_stores() {
    let empty = profile(&[]);
    for octets in [0, 2, 65_534, 65_536] {
        assert_eq!(Unit::with(empty, octets).send(&hex(CONNECTION)).verdict, Verdict::Accepted);
    }
    for octets in [1, 129, 65_535, 65_537, 65_538, 65_600] {
        Unit::with(empty, octets).ignores(&hex(CONNECTION), 41);
    }
}

#[test]
fn number_41_counts() {
    for (category_1, category_9) in [(16_384, 0), (0, 16_384), (65_535, 0), (0, 65_535)] {
        let mut unit = Unit::new();
        unit.counts = Counts { category_1, category_9 };
        unit.ignores(&hex(CONNECTION), 41);
    }
}

#[test]
fn number_42_fewer_than_six() {
    for received in 0..6 {
        Unit::new().ignores(&hex(CONNECTION)[..received], 42);
    }
}

#[test]
fn number_1_received_counts() {
    let mut unit = Unit::new();
    for received in 6..12 {
        let mut packet = hex(CONNECTION);
        packet.truncate(received);
        unit.refuses(&packet, 1, received as u16);
    }
    unit.refuses(&hex("185CC000FFFF"), 1, 6);
    unit.refuses(&sealed("185C C000 0006 19 11 01 00"), 1, 12);
    unit.refuses(&sealed("185C C000 0004 19 11 01 00"), 1, 12);
    unit.refuses(&sealed("185C C000 0105 19 11 01 00"), 1, 12);
    unit.refuses(&sealed("185C C000 0005 19 11 01 00 00"), 1, 13);
    for received in [249, 250, 65_534, 65_535] {
        let data = vec![0; received - 12];
        unit.refuses(&common::packet(0, 6, 2, &data), 1, received as u16);
    }
    for received in [65_536, 65_548, 69_999, 131_084] {
        let mut packet = hex(CONNECTION);
        packet.resize(received, 0);
        unit.refuses(&packet, 1, 65_535);
    }
}

#[test]
fn number_2_the_right_value() {
    let mut unit = Unit::new();
    unit.refuses(&hex("185CC0000005191101000168"), 2, 0x0167);
    unit.refuses(&hex("185CC0000005191101008167"), 2, 0x0167);
    unit.refuses(&hex("185CC0000005191101006701"), 2, 0x0167);
    // The OMEGA manual's packet: another PID, but its error control comes first.
    unit.refuses(&hex("1D1CC001000510110100D7D9"), 2, 0xD7D8);
}

#[test]
fn number_2_the_right_value_of_the_method_that_the_flag_selects() {
    let mut unit = Unit::new();
    for wrong in ["1AC0", "02A9", "82A8", "A802", "0000", "FFFF", "0167", "B1E8"] {
        unit.refuses(&hex(&format!("185CC000000509110100 {wrong}")), 2, 0x02A8);
    }
    for wrong in ["B1E8", "1AC0", "02A8"] {
        unit.refuses(&hex(&format!("185CC000000519110100 {wrong}")), 2, 0x0167);
    }
    for (body, right, wrong) in [
        ("185CC040000509110100", 0xFF6A, "006A"),
        ("185CC0E7000509110100", 0xC2FF, "C200"),
        ("185CC19B00050911010E", 0xFFFF, "00FF"),
        ("185CC19B00050911010E", 0xFFFF, "FF00"),
        ("185CC19B00050911010E", 0xFFFF, "0000"),
    ] {
        unit.refuses(&hex(&format!("{body} {wrong}")), 2, right);
        assert_eq!(unit.send(&hex(&format!("{body} {right:04X}"))).verdict, Verdict::Accepted);
    }
    // Another PID with the CRC, which the OMEGA manual's packet has, but flag 0: error control comes first.
    unit.refuses(&hex("1D1CC001000500110100CC7F"), 2, 0x727B);
    unit.refuses(&hex("1D1CC001000500110100727B"), 0, 0x051C);
}

#[test]
fn number_16_the_first_wrong_field() {
    let mut unit = Unit::new();
    unit.refuses(&sealed("385C C000 0005 19 11 01 00"), 16, 1);
    unit.refuses(&sealed("985C C000 0005 19 11 01 00"), 16, 1);
    unit.refuses(&sealed("085C C000 0005 19 11 01 00"), 16, 2);
    unit.refuses(&sealed("105C C000 0005 19 11 01 00"), 16, 3);
    unit.refuses(&sealed("185C 8000 0005 19 11 01 00"), 16, 4);
    unit.refuses(&sealed("185C 4000 0005 19 11 01 00"), 16, 4);
    unit.refuses(&sealed("185C C000 0005 39 11 01 00"), 16, 5);
    unit.refuses(&sealed("185C C000 0005 99 11 01 00"), 16, 5);
    unit.refuses(&sealed("E05C 0000 0005 F9 11 01 00"), 16, 1);
    unit.refuses(&sealed("005C 0000 0005 F9 11 01 00"), 16, 2);
    unit.refuses(&sealed("105C 0000 0005 F9 11 01 00"), 16, 3);
    unit.refuses(&sealed("185C 0000 0005 F9 11 01 00"), 16, 4);
}

#[test]
fn number_16_behind_2_by_the_method_that_the_flag_selects() {
    let mut unit = Unit::new();
    for (text, by_iso, place) in [
        ("385C C000 0005 09 11 01 00", 0xA0E9, 1),
        ("085C C000 0005 09 11 01 00", 0xB208, 2),
        ("105C C000 0005 09 11 01 00", 0x5A58, 3),
        ("185C 8000 0005 09 11 01 00", 0x44A6, 4),
        ("185C C000 0005 29 11 01 00", 0x6129, 5),
        ("185C C000 0005 E9 11 01 00", 0x9D2C, 5),
    ] {
        unit.refuses(&hex(&format!("{text} {by_iso:04X}")), 16, place);
        unit.refuses(&sealed(text), 2, by_iso);
    }
    for (text, by_crc, place) in [
        ("385C C000 0005 19 11 01 00", 0x386A, 1),
        ("185C C000 0005 39 11 01 00", 0x3629, 5),
        ("185C C000 0005 F9 11 01 00", 0x858D, 5),
    ] {
        unit.refuses(&hex(&format!("{text} {by_crc:04X}")), 16, place);
        unit.refuses(&sealed_by_iso(text), 2, by_crc);
    }
}

#[test]
fn number_0_the_apid() {
    let mut unit = Unit::new();
    unit.refuses(&hex("1D1CC001000510110100D7D8"), 0, 0x051C);
    unit.refuses(&sealed("185B C000 0005 19 11 01 00"), 0, 0x05B);
    unit.refuses(&sealed("1FFF C000 0005 19 FF FF 00"), 0, 0x7FF);
    unit.refuses(&sealed("184C C000 0005 19 11 01 00"), 0, 0x04C);
}

#[test]
fn number_3_the_type() {
    let mut unit = Unit::new();
    for service in [0, 1, 5, 7, 16, 18, 255] {
        unit.refuses(&request(0, service, 2, ""), 3, u16::from(service));
    }
    unit.profile.flags.connection = false;
    unit.refuses(&hex(CONNECTION), 3, 17);
    unit.refuses(&request(0, 17, 9, ""), 3, 17);
    unit.profile.flags = Flags { connection: true, ..Flags::default() };
    unit.refuses(&request(0, 6, 2, "01 01 00001000 0001 0000"), 3, 6);
    assert_eq!(unit.send(&hex(CONNECTION)).verdict, Verdict::Accepted);
}

#[test]
fn number_4_the_subtype() {
    let mut unit = Unit::new();
    for subtype in [0, 1, 3, 4, 6, 8, 10, 255] {
        unit.refuses(&request(0, 6, subtype, ""), 4, 0x0600 + u16::from(subtype));
    }
    for subtype in [0, 2, 5, 9, 255] {
        unit.refuses(&request(0, 17, subtype, ""), 4, 0x1100 + u16::from(subtype));
    }
    unit.profile.flags = Flags { load: true, ..Flags::default() };
    unit.refuses(&request(0, 6, 5, ""), 4, 0x0605);
    unit.refuses(&request(0, 6, 9, ""), 4, 0x0609);
    unit.profile.flags = Flags { check: true, ..Flags::default() };
    unit.refuses(&request(0, 6, 2, ""), 4, 0x0602);
}

#[test]
fn number_5_detail_0() {
    let mut unit = Unit::new();
    for subtype in [2, 5, 9] {
        for data in ["", "01", "01 00", "01 09", "01 FF 00001000 0001 0000", "01 00 00001000 0001 0000"] {
            unit.refuses(&request(0, 6, subtype, data), 5, 0);
        }
    }
    unit.refuses(&request(0, 6, 2, "01 01 00001000 0001 0000 00"), 5, 0);
    unit.refuses(&request(0, 6, 5, "01 01 00001000 0001 00"), 5, 0);
    unit.refuses(&request(0, 6, 9, "01 02 00001000 0001 00001000 0001 00001000 0001"), 5, 0);
    unit.refuses(&request(0, 17, 1, "00"), 5, 0);
    unit.refuses(&request(0, 17, 1, "01 01 00001000 0001"), 5, 0);
}

#[test]
fn number_5_the_first_block_cut_off_or_of_bad_length() {
    let mut unit = Unit::new();
    for number in 1..=8_u16 {
        let good = "00001000 0001".repeat(usize::from(number) - 1);
        let good_load = "00001000 0001 AAAA".repeat(usize::from(number) - 1);
        for subtype in [5, 9] {
            for bad in ["", "00", "00001000 00", "00001000 0000", "00001000 0000 00001000 0000"] {
                unit.refuses(&request(0, 6, subtype, &format!("01 08 {good} {bad}")), 5, number);
            }
        }
        unit.refuses(&request(0, 6, 5, &format!("01 08 {good} 00001000 00F1")), 5, number);
        unit.refuses(&request(0, 6, 5, &format!("01 08 {good} 00001000 FFFF")), 5, number);
        for bad in ["", "00", "00001000 00", "00001000 0000 0000", "00001000 0001 AA", "00001000 FFFF AAAA"] {
            unit.refuses(&request(0, 6, 2, &format!("01 08 {good_load} {bad}")), 5, number);
        }
    }
}

#[test]
fn numbers_17_and_18_the_memory_id_and_the_right() {
    let mut map = profile(&[area(1, 0x1000, 32, 0), area(200, 0x1000, 32, 32)]);
    map.areas[1].rights = Rights { load: false, dump: true, check: false };
    let mut unit = Unit::with(map, 128);
    unit.refuses(&request(0, 6, 2, "02 01 00001000 0001 AAAA"), 17, 2);
    unit.refuses(&request(0, 6, 5, "FF 01 00001000 0001"), 17, 255);
    unit.refuses(&request(0, 6, 9, "00 01 00001000 0001"), 17, 0);
    unit.refuses(&request(0, 6, 2, "C8 01 00001000 0001 AAAA"), 18, 200);
    unit.refuses(&request(0, 6, 9, "C8 01 FFFFFFFF 0001"), 18, 200);
    assert_eq!(unit.send(&request(0, 6, 5, "C8 01 00001000 0001")).verdict, Verdict::Accepted);
    unit.profile.areas[1].rights = Rights { load: true, dump: false, check: true };
    unit.refuses(&request(0, 6, 5, "C8 01 00001000 0001"), 18, 200);
}

#[test]
fn number_19_the_first_block_outside() {
    let mut unit = Unit::new();
    for number in 1..=8_u16 {
        let before = usize::from(number) - 1;
        let after = 8 - usize::from(number);
        for subtype in [5, 9] {
            let data =
                format!("01 08 {} 0000103F 0002 {}", "00001000 0001".repeat(before), "00001040 0001".repeat(after));
            unit.refuses(&request(0, 6, subtype, &data), 19, number);
        }
        let data = format!(
            "01 08 {} FFFFFFFF 0001 BBBB {}",
            "00001000 0001 AAAA".repeat(before),
            "00001001 0001 CCCC".repeat(after)
        );
        unit.refuses(&request(0, 6, 2, &data), 19, number);
    }
}

#[test]
fn a_refusal_is_reported_whether_asked_or_not() {
    for ack in 0..16 {
        Unit::new().refuses(&request(ack, 6, 9, "02 01 00001000 0001"), 17, 2);
        Unit::new().refuses(&request_by_iso(ack, 6, 9, "02 01 00001000 0001"), 17, 2);
    }
}

#[test]
fn the_checks_come_in_their_order() {
    // Everything is wrong at once; what is wrong is put right one check at a time.
    let mut unit = Unit::new();
    unit.output = vec![0; 4_095];
    unit.profile.pid = 200;
    unit.ignores(&[], 40);
    unit.output = vec![0; 4_096];
    unit.ignores(&[], 41);
    unit.profile = profile(&[area(1, 0x1000, 32, 0), area(2, 0x1000, 32, 32)]);
    unit.profile.areas[0].rights.check = false;
    unit.profile.flags.dump = false;
    unit.ignores(&hex("F8"), 42);
    unit.refuses(&hex("F85C 0000 0000 0000"), 1, 8);
    let mut damaged = sealed("F85D C000 0005 10 09 05 00");
    damaged[11] ^= 1;
    let right = u16::from_be_bytes([damaged[10], damaged[11] ^ 1]);
    unit.refuses(&damaged, 2, right);
    unit.refuses(&sealed("F85D C000 0005 10 09 05 00"), 16, 1);
    unit.refuses(&sealed("185D C000 0005 10 09 05 00"), 0, 0x05D);
    unit.refuses(&sealed("185C C000 0005 10 09 05 00"), 3, 9);
    unit.refuses(&sealed("185C C000 0005 10 06 05 00"), 4, 0x0605);
    unit.refuses(&sealed("185C C000 0005 10 06 09 00"), 5, 0);
    unit.refuses(&request(0, 6, 9, "09 01 FFFFFFFF 0001"), 17, 9);
    unit.refuses(&request(0, 6, 9, "01 01 FFFFFFFF 0001"), 18, 1);
    unit.refuses(&request(0, 6, 9, "02 01 FFFFFFFF 0001"), 19, 1);
    assert_eq!(unit.send(&request(0, 6, 9, "02 01 00001000 0001")).verdict, Verdict::Accepted);
}
