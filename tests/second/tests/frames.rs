//! Frames, counts and store of accepted telecommands, octet for octet.

mod common;

use common::{area, hex, profile, request, Unit};
use second::terminal::Verdict;
use second::tm::Counts;

/// Time, then (1,1) or (1,7) for the packet ID and sequence control of the tests' packets.
const ACCEPTANCE: &str = "000D 000000000000 00010100 185CC000";
const COMPLETION: &str = "000D 000000000000 00010700 185CC000";

#[test]
fn load_then_dump_then_check() {
    let mut unit = Unit::new();
    unit.accepts(
        &request(9, 6, 2, "01 01 00001002 0002 ABCDEF01"),
        &format!("0851C000 {ACCEPTANCE} 0851C001 {COMPLETION}"),
    );
    let mut store = vec![0; 128];
    store[4..8].copy_from_slice(&hex("ABCDEF01"));
    assert_eq!(unit.store, store);
    assert_eq!(unit.counts, Counts { category_1: 2, category_9: 0 });

    unit.accepts(
        &request(8, 6, 5, "01 02 00001002 0002 00001001 0002"),
        &format!(
            "0859C000 0015 000000000000 00060600 01 01 00001002 0002 ABCDEF01 \
             0859C001 0015 000000000000 00060600 01 01 00001001 0002 0000ABCD \
             0851C002 {COMPLETION}"
        ),
    );

    // The CRCs are two of 004's published vectors: of AB CD EF 01 and of 00 00.
    unit.accepts(
        &request(1, 6, 9, "01 02 00001002 0002 00001000 0001"),
        &format!(
            "0851C003 {ACCEPTANCE} \
             0859C002 001B 000000000000 00060A00 01 02 00001002 0002 04A2 00001000 0001 1D0F"
        ),
    );
    assert_eq!(unit.counts, Counts { category_1: 4, category_9: 3 });
    assert_eq!(unit.store, store);
}

#[test]
fn of_two_loads_that_overlap_the_later_stays() {
    let mut unit = Unit::new();
    unit.accepts(&request(0, 6, 2, "01 02 00001000 0002 11112222 00001001 0002 33334444"), "");
    assert_eq!(unit.store[..8], hex("1111 3333 4444 0000"));
}

#[test]
fn words_come_from_the_area_s_store_words() {
    let map = profile(&[area(7, 0x0000_0000, 2, 6), area(9, 0x8000_0000, 4, 1)]);
    let mut unit = Unit::with(map, 16);
    unit.accepts(&request(0, 6, 2, "09 01 80000001 0002 AAAABBBB"), "");
    unit.accepts(&request(0, 6, 2, "07 01 00000001 0001 CCCC"), "");
    assert_eq!(unit.store, hex("0000 0000 AAAA BBBB 0000 0000 0000 CCCC"));
    unit.accepts(
        &request(0, 6, 5, "07 01 00000000 0002"),
        "0859C000 0015 000000000000 00060600 07 01 00000000 0002 0000CCCC",
    );
}

#[test]
fn each_ack_value_asks_for_its_reports() {
    for ack in 0..16 {
        let mut unit = Unit::new();
        let answer = unit.send(&request(ack, 17, 1, ""));
        assert_eq!(answer.verdict, Verdict::Accepted);
        let mut frames = String::new();
        let mut count = 0;
        if ack % 2 == 1 {
            frames.push_str(&format!("0851C000 {ACCEPTANCE}"));
            count = 1;
        }
        frames.push_str("0859C000 0009 000000000000 00110200");
        if ack >= 8 {
            frames.push_str(&format!("0851C00{count} {COMPLETION}"));
            count += 1;
        }
        assert_eq!(unit.output[..answer.written], hex(&frames));
        assert_eq!(unit.counts, Counts { category_1: count, category_9: 1 });
    }
}

#[test]
fn pad_and_the_other_ack_bits_are_not_examined() {
    let mut unit = Unit::new();
    unit.accepts(&common::sealed("185C FFFF 0005 16 11 01 A5"), "0859C000 0009 000000000000 00110200");
    unit.accepts(&hex("185C FFFF 0005 06 11 01 A5 8C3C"), "0859C001 0009 000000000000 00110200");
}

#[test]
fn reports_carry_the_time_the_profile_s_pid_and_the_telecommand_s_head() {
    let mut unit = Unit::new();
    unit.profile.pid = 127;
    unit.time = [1, 2, 3, 4, 5, 6];
    unit.accepts(
        &common::sealed("1FFC D234 0005 11 11 01 00"),
        "0FF1C000 000D 010203040506 00010100 1FFCD234 \
         0FF9C000 0009 010203040506 00110200",
    );
}

#[test]
fn the_counts_wrap_each_in_its_category() {
    let mut unit = Unit::new();
    unit.counts = Counts { category_1: 16_383, category_9: 5 };
    unit.accepts(&request(1, 17, 1, ""), &format!("0851FFFF {ACCEPTANCE} 0859C005 0009 000000000000 00110200"));
    assert_eq!(unit.counts, Counts { category_1: 0, category_9: 6 });

    unit.counts = Counts { category_1: 7, category_9: 16_383 };
    unit.accepts(&request(1, 17, 1, ""), &format!("0851C007 {ACCEPTANCE} 0859FFFF 0009 000000000000 00110200"));
    assert_eq!(unit.counts, Counts { category_1: 8, category_9: 0 });

    unit.counts = Counts { category_1: 16_383, category_9: 16_383 };
    unit.refuses(&request(0, 6, 3, ""), 4, 0x0603);
    assert_eq!(unit.counts, Counts { category_1: 0, category_9: 16_383 });
}

#[test]
fn the_counts_wrap_within_the_frames_of_one_packet() {
    let mut unit = Unit::new();
    unit.counts = Counts { category_1: 16_383, category_9: 16_382 };
    let dump = |start: &str| format!("0013 000000000000 00060600 01 01 {start} 0001 0000");
    unit.accepts(
        &request(9, 6, 5, "01 03 00001000 0001 00001001 0001 00001002 0001"),
        &format!(
            "0851FFFF {ACCEPTANCE} 0859FFFE {} 0859FFFF {} 0859C000 {} 0851C000 {COMPLETION}",
            dump("00001000"),
            dump("00001001"),
            dump("00001002"),
        ),
    );
    assert_eq!(unit.counts, Counts { category_1: 1, category_9: 1 });
}

#[test]
fn eight_blocks_of_240_words_with_both_reports_are_4072_octets() {
    let mut unit = Unit::with(profile(&[area(1, 0x1000, 300, 10)]), 620);
    for (place, octet) in unit.store.iter_mut().enumerate() {
        *octet = (place % 251) as u8;
    }
    unit.output = vec![0xA5; 4_100];
    let mut data = String::from("01 08");
    for _ in 0..8 {
        data.push_str("00001005 00F0");
    }
    let answer = unit.send(&request(9, 6, 5, &data));
    assert_eq!(answer.verdict, Verdict::Accepted);
    assert_eq!(answer.written, 4_072);

    let mut expected = hex(&format!("0851C000 {ACCEPTANCE}"));
    for count in 0..8 {
        // 16 + 8 + 480 octets less 7 are 01F1.
        expected.extend(hex(&format!("0859C00{count} 01F1 000000000000 00060600 01 01 00001005 00F0")));
        // Address 1005 is store word 15, octet 30.
        expected.extend((30..510).map(|place| (place % 251) as u8));
    }
    expected.extend(hex(&format!("0851C001 {COMPLETION}")));
    assert_eq!(expected.len(), 4_072);
    expected.extend([0xA5; 28]);
    assert_eq!(unit.output, expected);
    assert_eq!(unit.counts, Counts { category_1: 2, category_9: 8 });
}

#[test]
fn octets_beyond_the_frames_keep_their_value() {
    let mut unit = Unit::new();
    unit.output = vec![0x77; 4_096];
    let answer = unit.send(&request(0, 17, 1, ""));
    assert_eq!(answer.written, 16);
    assert!(unit.output[16..].iter().all(|octet| *octet == 0x77));
}
