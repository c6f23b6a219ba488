//! 01's numbers to hold it to, P3 to P10. P1 and P2 stand with the CRC.

mod common;

use common::{area, hex, packet, profile, request, Unit};
use second::blocks::{read_memory_data, MemoryRequest};
use second::refusal::Refusal;
use second::tc::{self, Method, Order};
use second::terminal::Verdict;
use second::tm::{next_count, Counts};

#[test]
fn p3_both_lines() {
    let mut unit = Unit::new();
    unit.accepts(
        &hex("185CC0000005191101000167"),
        "0851C000000D00000000000000010100185CC000 \
         0859C000000900000000000000110200 \
         0851C001000D00000000000000010700185CC000",
    );
    assert_eq!(unit.counts, Counts { category_1: 2, category_9: 1 });
    let answer = unit.send(&hex("185CC0000005191101000168"));
    assert_eq!(answer.verdict, common::refused(2, 0x0167));
    assert_eq!(unit.output[..24], hex("0851C002001100000000000000010200185CC00000020167"));
    assert_eq!(answer.written, 24);
    assert_eq!(unit.counts, Counts { category_1: 3, category_9: 1 });
}

#[test]
fn p4_five_octets() {
    Unit::new().ignores(&hex("185CC00000"), 42);
    assert_eq!(tc::read(&hex("185CC00000")), Err(Refusal { number: 42, detail: 0 }));
}

#[test]
fn p5_count_16383_then_0() {
    assert_eq!(next_count(0), 1);
    assert_eq!(next_count(16_382), 16_383);
    assert_eq!(next_count(16_383), 0);
}

#[test]
fn p6_load_of_114_and_115_words() {
    let mut data = hex("01 01 00001000 0072");
    data.extend([0x11; 228]);
    let mut buffer = [0; 300];
    for method in [Method::Crc, Method::Iso] {
        let order = Order { pid: 5, count: 0, ack: 9, method, service: 6, subtype: 2, data: &data };
        assert_eq!(tc::write(&order, &mut buffer), Ok(248));
        assert_eq!(tc::read(&buffer[..248]).map(|read| read.data), Ok(&data[..]));
    }

    let mut data = hex("01 01 00001000 0073");
    data.extend([0x11; 230]);
    let packet = packet(9, 6, 2, &data);
    assert_eq!(packet.len(), 250);
    Unit::new().refuses(&packet, 1, 250);
    assert_eq!(tc::read(&packet), Err(Refusal { number: 1, detail: 250 }));
}

#[test]
fn p6_the_load_of_114_words_is_served_where_there_is_room() {
    let mut unit = Unit::with(profile(&[area(1, 0x1000, 128, 0)]), 256);
    let mut data = hex("01 01 00001001 0072");
    data.extend([0x5A; 228]);
    assert_eq!(unit.send(&packet(0, 6, 2, &data)).verdict, Verdict::Accepted);
    let mut store = vec![0; 2];
    store.extend([0x5A; 228]);
    store.extend([0; 26]);
    assert_eq!(unit.store, store);
}

#[test]
fn p7_dump_of_240_and_241_words() {
    assert!(read_memory_data(MemoryRequest::Dump, &hex("01 01 00001000 00F0")).is_ok());
    assert_eq!(read_memory_data(MemoryRequest::Dump, &hex("01 01 00001000 00F1")), Err(1));
    let mut unit = Unit::new();
    unit.refuses(&request(0, 6, 5, "01 01 00001000 00F1"), 5, 1);
    unit.refuses(&request(0, 6, 5, "01 01 00001000 00F0"), 19, 1);
    assert!(read_memory_data(MemoryRequest::Check, &hex("01 01 00001000 00F1")).is_ok());
}

#[test]
fn p8_inside_and_outside() {
    let area = area(1, 0x1000, 64, 0);
    assert!(area.holds(0x103F, 1));
    assert!(!area.holds(0x103F, 2));
    assert!(!area.holds(0x1040, 1));
    assert!(!area.holds(0x0FFF, 1));
    assert!(!area.holds(0xFFFF_FFFF, 1));
    let mut unit = Unit::new();
    assert_eq!(unit.send(&request(0, 6, 9, "01 01 0000103F 0001")).verdict, Verdict::Accepted);
    for block in ["0000103F 0002", "00001040 0001", "00000FFF 0001", "FFFFFFFF 0001"] {
        unit.refuses(&request(0, 6, 9, &format!("01 01 {block}")), 19, 1);
    }
}

#[test]
fn p8_an_area_may_end_at_two_to_the_32() {
    let mut unit = Unit::with(profile(&[area(1, 0xFFFF_FFFE, 2, 0)]), 4);
    unit.store = hex("0000 ABCD");
    unit.accepts(
        &request(0, 6, 5, "01 01 FFFFFFFF 0001"),
        "0859C0000013 000000000000 00060600 0101 FFFFFFFF 0001 ABCD",
    );
    unit.refuses(&request(0, 6, 5, "01 01 FFFFFFFF 0002"), 19, 1);
    unit.refuses(&request(0, 6, 5, "01 01 00000000 0001"), 19, 1);
}

#[test]
fn p9_two_areas_share_word_63() {
    let overlapping = profile(&[area(1, 0x1000, 64, 0), area(2, 0x2000, 8, 63)]);
    let touching = profile(&[area(1, 0x1000, 64, 0), area(2, 0x2000, 8, 64)]);
    Unit::with(overlapping, 256).ignores(&hex("185CC0000005191101000167"), 41);
    assert_eq!(Unit::with(touching, 256).send(&hex("185CC0000005191101000167")).verdict, Verdict::Accepted);
}

#[test]
fn p10_three_blocks_under_both_profiles() {
    let check = request(0, 6, 9, "01 03 00001000 0001 00001050 0001 00001090 0001");
    let narrow = profile(&[area(1, 0x1000, 64, 0)]);
    let wide = profile(&[area(1, 0x1000, 128, 0)]);
    assert!(wide.wider(&narrow, 256));
    Unit::with(narrow, 256).refuses(&check, 19, 2);
    Unit::with(wide, 256).refuses(&check, 19, 3);
}
