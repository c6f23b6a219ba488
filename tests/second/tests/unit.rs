//! Unit files: every item, every message and every clause of soundness, seen through `pack`. Where PACK_COMMAND names
//! another program, one word a line, it is held to the same.

mod common;

use common::packing::{dumped, line, pack, packet, refused, run, start, TestFile, EXAMPLE, GOOD, GOOD_RECORD};

// What is said, from the table of docs/UNITS.md.
const LINE: &str = "a line has at most 4096 characters";
const ITEM: &str = "a line begins with pid, services, store, put or area";
const PID_AGAIN: &str = "pid stands once, and an earlier line has it";
const PID: &str = "a process ID is \"pid N\"";
const PID_MOST: &str = "a process ID is at most 255";
const SERVICES_AGAIN: &str = "services stands once, and an earlier line has it";
const SERVICES: &str = "services are \"services WORD ..\": one or more of load, dump, check and connection";
const SERVICE_AGAIN: &str = "a service stands once on its line";
const STORE_AGAIN: &str = "store stands once, and an earlier line has it";
const STORE: &str = "a store is \"store N\"";
const STORE_MOST: &str = "a store has at most 65536 octets";
const PUT_BEHIND: &str = "put stands behind store, and no earlier line has it";
const PUT: &str = "octets are put by \"put AT HEX ..\"";
const HEX: &str = "HEX is hexadecimal digits";
const HEX_ODD: &str = "HEX is two digits for each octet";
const PUT_INSIDE: &str = "octets are put inside the store";
const AREAS_MOST: &str = "a unit has at most 8 areas";
const AREA: &str = "an area is \"area ID start N words N at N [size N] [load] [dump] [check]\"";
const ID_MOST: &str = "a memory ID is at most 255";
const AT_ODD: &str = "an area begins at an even octet of the store";
const SIZE: &str = "a word has 2 octets";
const RIGHT_AGAIN: &str = "a right stands once on its line";
const NUMBER: &str = "a number is decimal digits without a leading zero, or 0x and hexadecimal digits";
const NUMBER_MOST: &str = "a number is at most 4294967295";
const PID_MISSING: &str = "a unit has \"pid N\", and no line has it";
const STORE_MISSING: &str = "a unit has \"store N\", and no line has it";

/// The file states a sound unit.
#[track_caller]
fn reads(unit: impl AsRef<[u8]>) {
    pack(unit, "").is_record("");
}

/// The file is bad at that line.
#[track_caller]
fn bad(unit: impl AsRef<[u8]>, line: u64, words: &str) {
    pack(unit, "").is_bad_unit(line, words);
}

/// The file reads cleanly, and its unit is not sound.
#[track_caller]
fn unsound(unit: impl AsRef<[u8]>, words: &str) {
    pack(unit, "").is_unsound(words);
}

/// A line behind `pid 5` and `store 128` is bad: it is line 3.
#[track_caller]
fn bad_line(third: impl AsRef<[u8]>, words: &str) {
    bad([b"pid 5\nstore 128\n", third.as_ref(), b"\n"].concat(), 3, words);
}

/// A line behind `pid 5` and `store 128` is fine, and the unit sound.
#[track_caller]
fn fine_line(third: impl AsRef<[u8]>) {
    reads([b"pid 5\nstore 128\n", third.as_ref(), b"\n"].concat());
}

/// The lines behind `store 16` make it these octets.
#[track_caller]
fn store_is(lines: &str, octets: &str) {
    let unit = format!("pid 5\nservices dump\nstore 16\n{lines}area 1 start 0 words 8 at 0 dump\n");
    let dump = packet(6, 5, "01 01 00000000 0008");
    pack(unit, &dump).is_record(&format!("{dump}{}\n", dumped(0, 1, 0, octets)));
}

// ---- pid

#[test]
fn pid_up_to_127_is_sound_and_up_to_255_reads() {
    for number in ["0", "1", "5", "126", "127", "0x7F", "0x7f", "0x0"] {
        reads(format!("pid {number}\nstore 0\n"));
    }
    for number in ["128", "129", "200", "254", "255", "0x80", "0xFF"] {
        unsound(format!("pid {number}\nstore 0\n"), "the PID is above 127");
    }
    for number in ["256", "257", "261", "65536", "65541", "4294967295", "0x100", "0xFFFFFFFF"] {
        bad(format!("pid {number}\nstore 0\n"), 1, PID_MOST);
    }
}

#[test]
fn the_pid_is_that_of_the_unit() {
    // PID 127: APIDs 7FC, 7F1 and 7F9. PID 0: 00C, 001 and 009.
    for (number, tc, report, service) in [("127", "1FFC", "0FF1", "0FF9"), ("0", "180C", "0801", "0809")] {
        let unit = format!("pid {number}\nservices connection\nstore 0\n");
        let test = line(&common::sealed(&format!("{tc} C003 0005 19 11 01 00")));
        pack(unit, &test).is_record(&format!(
            "{test}{report}C000000D00000000000000010100{tc}C003\n{service}C000000900000000000000110200\n{report}C001000D00000000000000010700{tc}C003\n\n"
        ));
    }
}

#[test]
fn pid_stands_once() {
    bad("pid 5\npid 5\nstore 0\n", 2, PID_AGAIN);
    bad("pid 5\nstore 0\n\n# again\npid 6\n", 5, PID_AGAIN);
    bad("pid 5\npid\n", 2, PID_AGAIN);
    bad("pid 5\npid 256 x\n", 2, PID_AGAIN);
}

#[test]
fn pid_has_one_word_behind_it() {
    bad("pid\n", 1, PID);
    bad("pid \t\r\n", 1, PID);
    bad("pid #5\n", 1, PID);
    bad("pid 5 6\nstore 0\n", 1, PID);
    bad("pid 5 5\nstore 0\n", 1, PID);
    bad("pid 5 store 0\n", 1, PID);
    bad("pid 5 x\n", 1, PID);
}

// ---- services

/// A load of one word, a dump, a check and a connection test for PID 5, memory 1.
fn four_requests() -> [String; 4] {
    [
        packet(6, 2, "01 01 00001000 0001 0000"),
        packet(6, 5, "01 01 00001000 0001"),
        packet(6, 9, "01 01 00001000 0001"),
        packet(17, 1, ""),
    ]
}

/// The record of the four requests where these frames are due for each.
fn record_of(frames: [String; 4]) -> String {
    four_requests().iter().zip(frames).map(|(request, frames)| format!("{request}{frames}\n")).collect()
}

/// The report (6,10) for the third of them: the CRC of the word 0000 is 1D0F.
fn checked(count: u16) -> String {
    format!("0859{:04X}001300000000000000060A0001010000100000011D0F\n", 0xC000 + count)
}

/// The report (17,2).
fn connected(count: u16) -> String {
    format!("0859{:04X}000900000000000000110200\n", 0xC000 + count)
}

/// The line of services makes these frames due for the four requests.
#[track_caller]
fn services_give(services: &str, frames: [String; 4]) {
    let unit = format!("pid 5\n{services}\nstore 2\narea 1 start 0x1000 words 1 at 0 load dump check\n");
    pack(unit, four_requests().concat()).is_record(&record_of(frames));
}

#[test]
fn all_services_in_any_order() {
    for services in [
        "services load dump check connection",
        "services connection check dump load",
        "services dump connection load check",
        "\tservices  check\rload\tconnection dump\r",
    ] {
        let frames = [String::new(), dumped(0, 1, 0x1000, "0000"), checked(1), connected(2)];
        services_give(services, frames);
    }
}

#[test]
fn each_service_alone() {
    // 4 for a subtype whose flag is off, 3 where no flag of the type is set.
    services_give("services load", [String::new(), refused(0, 4, 0x0605), refused(1, 4, 0x0609), refused(2, 3, 17)]);
    services_give(
        "services dump",
        [refused(0, 4, 0x0602), dumped(0, 1, 0x1000, "0000"), refused(1, 4, 0x0609), refused(2, 3, 17)],
    );
    services_give("services check", [refused(0, 4, 0x0602), refused(1, 4, 0x0605), checked(0), refused(2, 3, 17)]);
    services_give("services connection", [refused(0, 3, 6), refused(1, 3, 6), refused(2, 3, 6), connected(0)]);
}

#[test]
fn services_left_out_are_none() {
    services_give("", [refused(0, 3, 6), refused(1, 3, 6), refused(2, 3, 6), refused(3, 3, 17)]);
    services_give("# services load", [refused(0, 3, 6), refused(1, 3, 6), refused(2, 3, 6), refused(3, 3, 17)]);
}

#[test]
fn services_stand_on_one_line() {
    bad("pid 5\nstore 0\nservices load\nservices dump\n", 4, SERVICES_AGAIN);
    bad("services load\n\nservices\n", 3, SERVICES_AGAIN);
    bad("services load\nservices foo\n", 2, SERVICES_AGAIN);
    bad("services load\nservices load load\n", 2, SERVICES_AGAIN);
}

#[test]
fn services_are_known_words_each_once() {
    for services in [
        "services",
        "services #load",
        "services foo",
        "services load foo",
        "services load,dump",
        "services Load",
        "services LOAD",
        "services connections",
        "services loa",
        "services none",
        "services load pid 5",
        "services 5",
        "services foo load load",
        "services load\0",
    ] {
        bad_line(services, SERVICES);
    }
    for services in [
        "services load load",
        "services dump dump",
        "services check check",
        "services connection connection",
        "services load dump check connection load",
        "services connection load connection foo",
    ] {
        bad_line(services, SERVICE_AGAIN);
    }
}

// ---- store

#[test]
fn store_up_to_65536() {
    for number in ["0", "2", "128", "65534", "65536", "0x10000", "0x0"] {
        reads(format!("pid 5\nstore {number}\n"));
    }
    for number in ["1", "127", "65535", "0xFFFF"] {
        unsound(format!("pid 5\nstore {number}\n"), "the store has an odd number of octets");
    }
    for number in ["65537", "65538", "131072", "4294967295", "0x10001", "0xffffffff"] {
        bad(format!("pid 5\nstore {number}\n"), 2, STORE_MOST);
    }
}

#[test]
fn the_store_has_that_many_zero_octets() {
    store_is("", "00000000000000000000000000000000");
    reads("pid 5\nstore 65536\narea 1 start 0 words 32768 at 0\n");
    unsound("pid 5\nstore 65536\narea 1 start 0 words 32769 at 0\n", "area 1 ends past the store");
    unsound("pid 5\nstore 0\narea 1 start 0 words 1 at 0\n", "area 1 ends past the store");
}

#[test]
fn store_stands_once() {
    bad("pid 5\nstore 128\nstore 128\n", 3, STORE_AGAIN);
    bad("store 0\nstore 0\npid 5\n", 2, STORE_AGAIN);
    bad("store 0\nstore\n", 2, STORE_AGAIN);
    bad("store 0\nstore x y\n", 2, STORE_AGAIN);
}

#[test]
fn store_has_one_word_behind_it() {
    bad("store\n", 1, STORE);
    bad("pid 5\nstore\n", 2, STORE);
    bad("store # 128\n", 1, STORE);
    bad("store 128 octets\n", 1, STORE);
    bad("store 128 128\n", 1, STORE);
    bad("store 0 0\n", 1, STORE);
}

// ---- put

#[test]
fn what_is_put_stands_in_the_store() {
    store_is("put 0 AB\n", "AB000000000000000000000000000000");
    store_is("put 3 abCD\n", "000000ABCD0000000000000000000000");
    store_is("put 0x0F fF\n", "000000000000000000000000000000FF");
    store_is("put 14 BEEF\n", "0000000000000000000000000000BEEF");
    store_is("put 0 00112233445566778899aabbccddeeff\n", "00112233445566778899AABBCCDDEEFF");
    store_is("\tput\t4 \r01 \t 0203\r04\r\n", "00000000010203040000000000000000");
    store_is("put 4 01 02 03 04 # 05\n", "00000000010203040000000000000000");
    store_is("put 4 0102#0304\n", "00000000010200000000000000000000");
    store_is("put 1 11\nput 5 55 66\nput 3 33\n", "00110033005566000000000000000000");
}

#[test]
fn where_two_lines_overlap_the_later_one_stays() {
    store_is("put 2 11111111\nput 4 2222\n", "00001111222200000000000000000000");
    store_is("put 4 2222\nput 2 11111111\n", "00001111111100000000000000000000");
    store_is("put 0 FFFFFFFF\nput 1 0000\n", "FF0000FF000000000000000000000000");
    store_is("put 0 01\nput 0 02\nput 0 03\n", "03000000000000000000000000000000");
}

#[test]
fn put_stands_behind_store_wherever_its_area_is() {
    let dump = packet(6, 5, "01 01 00000000 0001");
    let record = format!("{dump}{}\n", dumped(0, 1, 0, "BEEF"));
    for unit in [
        "store 2\nput 0 BEEF\npid 5\nservices dump\narea 1 start 0 words 1 at 0 dump\n",
        "area 1 start 0 words 1 at 0 dump\nservices dump\nstore 2\npid 5\nput 0 BEEF\n",
        "pid 5\nstore 2\narea 1 start 0 words 1 at 0 dump\nservices dump\nput 0 BEEF",
    ] {
        pack(unit, &dump).is_record(&record);
    }
    for put in ["put 0 00", "put", "put x", "put 0 0", "put 0 0g", "put 99999 00"] {
        bad(format!("pid 5\n{put}\nstore 128\n"), 2, PUT_BEHIND);
    }
    bad("put 0 00\n", 1, PUT_BEHIND);
}

#[test]
fn put_has_two_words_or_more_behind_it() {
    for put in ["put", "put 0", "put 0x7F", "put 128", "put 4294967295", "put 0 #00", "put # 0 00"] {
        bad_line(put, PUT);
    }
}

#[test]
fn hex_is_digits_and_two_for_each_octet() {
    for put in [
        "put 0 0g",
        "put 0 g0",
        "put 0 g",
        "put 0 0x00",
        "put 0 00,00",
        "put 0 00 00 zz",
        "put 0 -1",
        "put 0 00\0",
        "put 0 00g",
        "put 0 /:",
        "put 0 @G",
        "put 0 `g",
    ] {
        bad_line(put, HEX);
    }
    bad_line(b"put 0 \x8000", HEX);
    bad_line(b"put 0 00\xFF", HEX);
    for put in ["put 0 0", "put 0 000", "put 0 00 0", "put 0 0 0", "put 0 ABC DEF", "put 0 0 00", "put 0 00 1 00"] {
        bad_line(put, HEX_ODD);
    }
}

#[test]
fn what_is_put_lies_wholly_inside_the_store() {
    fine_line("put 127 00");
    fine_line("put 126 0000");
    fine_line("put 126 00 00");
    fine_line("put 0x7F 00");
    fine_line(format!("put 0 {}", "00".repeat(128)));
    fine_line(format!("put 1 {}", "00 ".repeat(127)));
    for put in ["put 128 00", "put 127 0000", "put 127 00 00", "put 129 00", "put 65536 00", "put 4294967295 0000"] {
        bad_line(put, PUT_INSIDE);
    }
    bad_line(format!("put 0 {}", "00".repeat(129)), PUT_INSIDE);
    bad_line(format!("put 1 {}", "00 ".repeat(128)), PUT_INSIDE);
    bad("pid 5\nstore 0\nput 0 00\n", 3, PUT_INSIDE);
    reads("pid 5\nstore 65536\nput 65535 00\n");
    bad("pid 5\nstore 65536\nput 65536 00\n", 3, PUT_INSIDE);
    bad("pid 5\nstore 65536\nput 65535 0000\n", 3, PUT_INSIDE);
}

// ---- area

#[test]
fn the_place_of_an_area_is_an_octet_of_the_store() {
    let unit = "pid 5\nservices dump\nstore 16\nput 0 00112233445566778899AABBCCDDEEFF
area 255 start 0x80000000 words 2 at 10 dump\narea 0 start 4294967292 words 4 at 2 dump\n";
    let first = packet(6, 5, "FF 01 80000000 0002");
    let second = packet(6, 5, "00 01 FFFFFFFC 0004");
    let outside = packet(6, 5, "00 01 FFFFFFFB 0001");
    let record = format!(
        "{first}{}\n{second}{}\n{outside}{}\n",
        dumped(0, 255, 0x8000_0000, "AABBCCDD"),
        dumped(1, 0, 0xFFFF_FFFC, "2233445566778899"),
        refused(0, 19, 1)
    );
    pack(unit, first + &second + &outside).is_record(&record);
}

/// The end of the area's line gives these rights to load, dump and check.
#[track_caller]
fn rights_give(rights: &str, given: [bool; 3]) {
    let unit =
        format!("pid 5\nservices load dump check connection\nstore 2\narea 1 start 0x1000 words 1 at 0 {rights}\n");
    let [load, dump, check, _] = four_requests();
    let (mut reports, mut refusals) = (0, 0);
    let mut record = String::new();
    for (place, request) in [&load, &dump, &check].into_iter().enumerate() {
        let frame = match (given[place], place) {
            (true, 0) => String::new(),
            (true, 1) => dumped(reports, 1, 0x1000, "0000"),
            (true, _) => checked(reports),
            (false, _) => refused(refusals, 18, 1),
        };
        reports += u16::from(given[place] && place > 0);
        refusals += u16::from(!given[place]);
        record.push_str(&format!("{request}{frame}\n"));
    }
    pack(unit, load + &dump + &check).is_record(&record);
}

#[test]
fn rights_in_any_order_and_left_out() {
    rights_give("", [false, false, false]);
    rights_give("load", [true, false, false]);
    rights_give("dump", [false, true, false]);
    rights_give("check", [false, false, true]);
    rights_give("check load", [true, false, true]);
    rights_give("check dump load", [true, true, true]);
    rights_give("dump check load", [true, true, true]);
    rights_give("size 2", [false, false, false]);
    rights_give("size 0x2 dump", [false, true, false]);
    rights_give("size 2 load check", [true, false, true]);
}

/// The lines of so many areas, a word each.
fn areas(count: usize) -> String {
    (0..count).map(|number| format!("area {number} start 0 words 1 at {}\n", number * 2)).collect()
}

#[test]
fn up_to_eight_areas() {
    for count in 0..=8 {
        reads(format!("pid 5\nstore 16\n{}", areas(count)));
    }
    bad(format!("pid 5\nstore 18\n{}", areas(9)), 11, AREAS_MOST);
    bad(format!("{}area\npid 5\nstore 16\n", areas(8)), 9, AREAS_MOST);
    bad(format!("{}area 256 x\npid 5\nstore 16\n", areas(8)), 9, AREAS_MOST);
    let unit = format!("pid 5\nservices dump\nstore 16\nput 14 BEEF\n{} dump\n", areas(8).trim_end());
    let dump = packet(6, 5, "07 01 00000000 0001");
    pack(unit, &dump).is_record(&format!("{dump}{}\n", dumped(0, 7, 0, "BEEF")));
}

#[test]
fn the_words_of_an_area_stand_in_their_order() {
    for area in [
        "area",
        "area 1",
        "area 1 start",
        "area 1 start 0",
        "area 1 start 0 words",
        "area 1 start 0 words 1",
        "area 1 start 0 words 1 at",
        "area 1 start 0 words 1 at #0",
        "area 1 2 start 0 words 1 at 0",
        "area 1 words 1 start 0 at 0",
        "area 1 start 0 at 0 words 1",
        "area 1 begin 0 words 1 at 0",
        "area 1 Start 0 words 1 at 0",
        "area 1 start 0 WORDS 1 at 0",
        "area 1 start 0 words 1 At 0",
        "area 1 start 0 octets 2 at 0",
        "area 1 start=0 words 1 at 0",
        "area 1 start 0 0 words 1 at 0",
        "area 1 start 0 words 1 at 0 0",
        "area 1 start 0 words 1 at 0 load 0",
        "area 1 start 0 words 1 at 0 size",
        "area 1 start 0 words 1 at 0 size 2 2",
        "area 1 start 0 words 1 at 0 size 2 size 2",
        "area 1 start 0 words 1 at 0 load size 2",
        "area 1 start 0 words 1 at 0 Size 2",
        "area 1 start 0 words 1 at 0 connection",
        "area 1 start 0 words 1 at 0 load dump check x",
        "area 1 start 0 words 1 at 0 Load",
        "area 1 start 0 words 1 at 0 loaddump",
        "area 1 start 0 words 1 at 0 foo load load",
        "area 1 size 2 start 0 words 1 at 0",
    ] {
        bad_line(area, AREA);
    }
}

#[test]
fn the_memory_id_is_at_most_255() {
    fine_line("area 0 start 0 words 1 at 0");
    fine_line("area 255 start 0 words 1 at 0");
    fine_line("area 0xff start 0 words 1 at 0");
    for id in ["256", "257", "511", "4294967295", "0x100"] {
        bad_line(format!("area {id} start 0 words 1 at 0"), ID_MOST);
        bad_line(format!("area {id}"), ID_MOST);
    }
}

#[test]
fn an_area_begins_at_an_even_octet() {
    fine_line("area 1 start 0 words 1 at 126");
    for at in ["1", "3", "127", "0x7F", "129", "4294967295"] {
        bad_line(format!("area 1 start 0 words 1 at {at}"), AT_ODD);
        bad_line(format!("area 1 start 0 words 1 at {at} size 3 foo"), AT_ODD);
    }
}

#[test]
fn a_word_has_2_octets() {
    fine_line("area 1 start 0 words 1 at 0 size 2");
    fine_line("area 1 start 0 words 1 at 0 size 0x02 load");
    for size in ["0", "1", "3", "4", "5", "6", "22", "255", "256", "258", "4294967295", "0x20002"] {
        bad_line(format!("area 1 start 0 words 1 at 0 size {size}"), SIZE);
        bad_line(format!("area 1 start 0 words 1 at 0 size {size} load load foo"), SIZE);
    }
}

#[test]
fn a_right_stands_once() {
    for rights in ["load load", "dump dump", "check check", "load dump check load", "dump load dump foo"] {
        bad_line(format!("area 1 start 0 words 1 at 0 {rights}"), RIGHT_AGAIN);
        bad_line(format!("area 1 start 0 words 1 at 0 size 2 {rights}"), RIGHT_AGAIN);
    }
}

// ---- numbers

/// Each place of a number, with what stands behind it.
const PLACES: [(&str, &str); 7] = [
    ("pid ", ""),
    ("store ", ""),
    ("area ", " start 0 words 1 at 0"),
    ("area 1 start ", " words 1 at 0"),
    ("area 1 start 0 words ", " at 0"),
    ("area 1 start 0 words 1 at ", " load"),
    ("area 1 start 0 words 1 at 0 size ", " load"),
];

#[test]
fn what_is_no_number() {
    for word in [
        "00", "01", "007", "00001000", "0x", "0X10", "0X", "x10", "+5", "-1", "5x", "5.", "1e3", "1,000", "1_0",
        "five", "0xG", "0x1g", "0x-1", "0x0x1", "0b1", "0o7", "A", "10h", "5\0", "\0", "'5'", "$5", "00x10",
    ] {
        bad(format!("pid {word}\n"), 1, NUMBER);
        bad_line(format!("put {word} 00"), NUMBER);
    }
    for word in [&b"\x80"[..], b"5\xB2", b"\xFF", b"0x1\xC3\xA9", b"\xEF\xBC\x95"] {
        bad([b"pid ", word, b"\n"].concat(), 1, NUMBER);
    }
}

#[test]
fn a_number_in_each_place() {
    for (before, behind) in PLACES {
        bad(format!("{before}0x{behind}\n"), 1, NUMBER);
        bad(format!("{before}02{behind}\n"), 1, NUMBER);
        bad(format!("{before}4294967296{behind}\n"), 1, NUMBER_MOST);
        bad(format!("{before}0x100000000{behind}\n"), 1, NUMBER_MOST);
    }
    bad_line("put 02 00", NUMBER);
    bad_line("put 4294967296 00", NUMBER_MOST);
    bad_line("put 0x100000000", NUMBER_MOST);
    bad_line("put x", NUMBER);
    bad_line("area x", NUMBER);
    bad_line("area start 0 words 1 at 0", NUMBER);
    bad_line("area 1 start words 1 at 0", NUMBER);
    bad_line("area 1 start 0 words at 0", NUMBER);
    bad_line("area 1 start 0 words 1 at load", NUMBER);
    bad_line("area 1 start 0 words 1 at 0 size load", NUMBER);
}

#[test]
fn the_largest_number() {
    for number in ["4294967295", "0xFFFFFFFF", "0xffffffff", "0xFfFfFfFf", "0x00FFFFFFFF"] {
        fine_line(format!("area 1 start {number} words 1 at 0"));
    }
    for number in [
        "4294967296",
        "4294967297",
        "4294967300",
        "9999999999",
        "10000000000",
        "18446744073709551615",
        "18446744073709551616",
        "18446744073709551621",
        "340282366920938463463374607431768211461",
        "0x100000000",
        "0x1FFFFFFFF",
        "0x10000000000000000",
        "0x0000000000100000000",
        "0xFFFFFFFFFFFFFFFFFFFFFFFFFFFFFFFFF",
    ] {
        bad_line(format!("area 1 start {number} words 1 at 0"), NUMBER_MOST);
        bad(format!("pid {number}\n"), 1, NUMBER_MOST);
    }
    bad_line(format!("area 1 start 1{} words 1 at 0", "0".repeat(4_000)), NUMBER_MOST);
    // No number at all, so not one above the largest.
    bad("pid 4294967296x\n", 1, NUMBER);
    bad("pid 0x100000000g\n", 1, NUMBER);
    bad("pid 04294967296\n", 1, NUMBER);
}

#[test]
fn leading_zeros_behind_0x() {
    let test = format!("{GOOD}\n");
    for zeros in [0, 1, 2, 7, 8, 9, 100, 4_000] {
        let unit = format!("pid 0x{}5\nservices connection\nstore 0\n", "0".repeat(zeros));
        pack(unit, &test).is_record(GOOD_RECORD);
    }
    reads(format!("pid 5\nstore 0x{}\n", "0".repeat(100)));
    fine_line(format!("area 1 start 0x{}FFFFFFFF words 1 at 0", "0".repeat(100)));
    bad(format!("pid 0x{}100000000\n", "0".repeat(100)), 1, NUMBER_MOST);
}

#[test]
fn decimal_and_hexadecimal_are_told_apart() {
    let dump = packet(6, 5, "10 01 00000010 0001");
    let record = format!("{dump}{}\n", dumped(0, 16, 16, "ABCD"));
    for (id, start) in [("16", "16"), ("0x10", "0x10"), ("16", "0x00000010"), ("0x0010", "16")] {
        let unit = format!("pid 5\nservices dump\nstore 32\nput 16 ABCD\narea {id} start {start} words 1 at 0x10 dump");
        pack(unit, &dump).is_record(&record);
    }
}

// ---- lines and words

#[test]
fn no_item() {
    for line in [
        "Pid 5",
        "PID 5",
        "pID 5",
        "Store 128",
        "SERVICES load",
        "AREA 1",
        "Put 0 00",
        "pid5",
        "pid=5",
        "pid:5",
        "5",
        "pidd 5",
        "pi 5",
        "size 2",
        "load",
        "start 0",
        "unit",
        "-",
        "0",
        "\0",
        "pid\0 5",
        "\0pid 5",
        "\x0Bpid 5",
        "pid\x0C5",
        "pi#d 5",
        "service load",
        "areas",
        "'pid' 5",
        "// comment",
        "; comment",
        "pid\u{A0}5",
        "é",
    ] {
        bad_line(line, ITEM);
    }
    bad(b"\xEF\xBB\xBFpid 5\nstore 0\n", 1, ITEM);
    bad(b"\x80\n", 1, ITEM);
    bad(b"\xFF\xFEp\0i\0d\0 \x005\0\n", 1, ITEM);
}

#[test]
fn no_other_character_separates_words() {
    for blank in ["\x0B", "\x0C", "\0", "\u{A0}", "\u{85}", ",", ";", "\x1C", "\x1F", "\x7F", "\x08"] {
        bad(format!("pid 5{blank}\nstore 0\n"), 1, NUMBER);
        bad(format!("pid{blank}5\nstore 0\n"), 1, ITEM);
        bad(format!("{blank}\npid 5\nstore 0\n"), 1, ITEM);
    }
}

#[test]
fn spaces_tabs_and_carriage_returns_separate_words() {
    let test = format!("{GOOD}\n");
    for unit in [
        "pid 5\r\nservices connection\r\nstore 0\r\n",
        "pid 5\r\n\r\nservices connection\r\n\t\r\nstore 0",
        "pid\t5\nservices\tconnection\nstore\t0\n",
        "pid\r5\nservices\rconnection\nstore\r0\n",
        "   pid   5   \n\t\tservices\t\tconnection\t\t\n\r\rstore\r\r0\r\r\n",
        " \t\r \npid \t\r5\n\r\nservices connection \n \nstore 0\t#",
        "services connection\nstore 0\npid 5\n",
    ] {
        pack(unit, &test).is_record(GOOD_RECORD);
    }
}

#[test]
fn the_example_with_the_line_ends_of_another_system() {
    pack(EXAMPLE.replace('\n', "\r\n"), format!("{GOOD}\n")).is_record(GOOD_RECORD);
    bad("# one\r\n\r\npid 5\r\nstore x\r\n", 4, NUMBER);
    // A carriage return alone ends no line.
    bad("pid 5\rservices connection\rstore 0\r", 1, PID);
}

#[test]
fn a_comment_stands_anywhere() {
    let test = format!("{GOOD}\n");
    for unit in [
        "pid 5#\nservices connection#\nstore 128#octets\n",
        "#\n##\n# pid 6\npid 5 # the PID\nservices connection#load\n#store 1\nstore 128 # # #\n   # last",
        "pid 5#6\nservices connection # load foo load\nstore 0#x 0\0\u{FF}\n",
        "pid 0x5#0\nservices connection\nstore 12#8",
    ] {
        pack(unit, &test).is_record(GOOD_RECORD);
    }
    pack(b"# \0\x80\xFF\x0B\npid 5 #\xFF\nservices connection\nstore 0\n", &test).is_record(GOOD_RECORD);
    bad("pid #5\n", 1, PID);
    bad("pid 0x#5\n", 1, NUMBER);
    bad("store#128\n", 1, STORE);
    bad_line("put 0 0#0", HEX_ODD);
    bad_line("put 0# 00", PUT);
    bad_line("area 1 start 0 words 1 at# 0", AREA);
    bad_line("services # load", SERVICES);
}

#[test]
fn the_longest_line() {
    let filled = |begin: &str, fill: &str, count: usize| begin.to_owned() + &fill.repeat(count - begin.len());
    for (begin, fill) in
        [("pid 5", " "), ("pid 5", "\t"), ("pid 5", "\r"), ("pid 5 #", "x"), ("pid 5#", "#"), ("pid 0x", "0")]
    {
        reads(format!("{}\nstore 0\n", filled(begin, fill, 4_096)));
        reads(format!("store 0\n{}", filled(begin, fill, 4_096)));
        bad(format!("{}\nstore 0\n", filled(begin, fill, 4_097)), 1, LINE);
        bad(format!("store 0\n{}", filled(begin, fill, 4_097)), 2, LINE);
        bad(format!("store 0\n{}\r\n", filled(begin, fill, 4_096)), 2, LINE);
    }
    for fill in ["#", " ", "\r"] {
        reads(format!("{}\npid 5\nstore 0\n", fill.repeat(4_096)));
        bad(format!("{}\npid 5\nstore 0\n", fill.repeat(4_097)), 1, LINE);
        bad(format!("pid 5\nstore 0\n\n{}", fill.repeat(4_097)), 4, LINE);
        bad(format!("pid 5\nstore 0\n{}\n", fill.repeat(300_000)), 3, LINE);
    }
    let put = |digits: usize| format!("pid 5\nstore 4096\nput 0 {}\n", "0".repeat(digits));
    reads(put(4_090));
    bad(put(4_089), 3, HEX_ODD);
    bad(put(4_091), 3, LINE);
    bad(put(4_092), 3, LINE);
}

#[test]
fn a_line_too_long_is_told_whatever_else_is_wrong_with_it() {
    for begin in ["foo ", "pid x ", "pid 300 ", "\0", "put 0 0 "] {
        bad(format!("{begin}{}\n", " ".repeat(4_097)), 1, LINE);
    }
    bad(format!("pid 5\npid {}\n", "6".repeat(5_000)), 2, LINE);
    bad(format!("{}x{}\n", areas(8), "x".repeat(4_096)), 9, LINE);
    bad(format!("foo\n{}\n", "#".repeat(4_097)), 1, ITEM);
    bad(format!("{}\nfoo\n", "#".repeat(4_097)), 1, LINE);
}

#[test]
fn the_last_line_needs_no_newline() {
    reads("pid 5\nstore 0");
    reads("store 0\npid 5");
    reads("pid 5\nstore 0\n");
    reads("pid 5\nstore 0\n\n\n");
    reads("pid 5\nstore 0\n ");
    bad("pid 5\nstore", 2, STORE);
    bad("pid 5\nstore 0\nx", 3, ITEM);
}

#[test]
fn a_bad_line_has_its_number_with_comments_and_empty_lines_counted() {
    bad("# a comment\n\npid 5\n\t\n#\nstore 0\n\nfoo\n", 8, ITEM);
    bad("\n\n\n\nfoo", 5, ITEM);
    bad("foo\nbar\n", 1, ITEM);
    bad("pid 5\nfoo\nstore x\n", 2, ITEM);
    bad("pid 5\nstore x\nfoo\n", 2, NUMBER);
    bad(format!("{EXAMPLE}put 0 0g\n"), 6, HEX);
    bad(format!("{EXAMPLE}{EXAMPLE}"), 7, PID_AGAIN);
    bad(format!("{}x", "\n".repeat(99_999)), 100_000, ITEM);
}

#[test]
fn what_is_missing_is_told_behind_the_last_line() {
    bad("", 1, PID_MISSING);
    bad("\n", 2, PID_MISSING);
    bad("\n\n", 3, PID_MISSING);
    bad("# only\n# comments\n", 3, PID_MISSING);
    bad("# only\n# comments", 3, PID_MISSING);
    bad(" ", 2, PID_MISSING);
    bad("store 0\n", 2, PID_MISSING);
    bad("store 0", 2, PID_MISSING);
    bad("services load\nstore 2\narea 1 start 0 words 1 at 0\n\n", 5, PID_MISSING);
    bad("pid 5\n", 2, STORE_MISSING);
    bad("pid 5", 2, STORE_MISSING);
    bad("\npid 5\n\n", 4, STORE_MISSING);
    bad("services load\n", 2, PID_MISSING);
    bad("pid 200\nservices load\narea 1 start 0 words 0 at 0\n# end", 5, STORE_MISSING);
}

#[test]
fn of_two_things_wrong_the_left_one_is_told() {
    bad("pid x y\n", 1, NUMBER);
    bad("pid 256 y\n", 1, PID_MOST);
    bad("pid 4294967296 y\n", 1, NUMBER_MOST);
    bad("store x y\n", 1, NUMBER);
    bad("store 65537 y\n", 1, STORE_MOST);
    bad_line("services load load foo", SERVICE_AGAIN);
    bad_line("services foo load load", SERVICES);
    bad_line("put x 0", NUMBER);
    bad_line("put x", NUMBER);
    bad_line("put 128 0", HEX_ODD);
    bad_line("put 128 0g", HEX);
    bad_line("put 128 00 0", HEX_ODD);
    bad_line("put 127 0000 0g", HEX);
    bad_line("put 128", PUT);
    bad_line("put 0 0g 0", HEX);
    bad_line("put 0 0 0g", HEX_ODD);
    bad_line("put 0 000 zz", HEX_ODD);
    bad_line("area 256 begin", ID_MOST);
    bad_line("area x begin", NUMBER);
    bad_line("area 1 begin x", AREA);
    bad_line("area 1 start x begin", NUMBER);
    bad_line("area 1 start 0 begin x at 1", AREA);
    bad_line("area 1 start 0 words x at 1", NUMBER);
    bad_line("area 1 start 0 words 1 at 1 size x", AT_ODD);
    bad_line("area 1 start 0 words 1 at 0 size x foo", NUMBER);
    bad_line("area 1 start 0 words 1 at 0 size 3 load load", SIZE);
    bad_line("area 1 start 0 words 1 at 0 load load foo", RIGHT_AGAIN);
    bad_line("area 1 start 0 words 1 at 0 foo load load", AREA);
}

#[test]
fn a_megabyte_of_comments() {
    let comments = format!("#{}\n", "x".repeat(4_095)).repeat(256);
    pack(format!("{comments}{EXAMPLE}"), format!("{GOOD}\n")).is_record(GOOD_RECORD);
    bad(format!("{comments}pid 5\n{comments}store\n"), 514, STORE);
}

#[test]
fn a_unit_in_pieces_through_a_pipe() {
    let packets = TestFile::new(format!("{GOOD}\n"));
    let unit = format!("{}\n{EXAMPLE}put 3 0a 0B0c # octets\n\r\n", "#".repeat(4_096));
    let bad = format!("{unit}put 3 0\n");
    for size in [1, 7, 65_536] {
        let arguments = ["-".as_ref(), packets.as_ref()];
        let mut running = start(&arguments);
        running.send(unit.as_bytes().chunks(size));
        running.close_and_wait().is_record(GOOD_RECORD);
        let mut running = start(&arguments);
        running.send(bad.as_bytes().chunks(size));
        running.close_and_wait().is_bad_unit(9, HEX_ODD);
    }
}

#[test]
fn behind_a_bad_line_nothing_is_read() {
    let packets = TestFile::new(GOOD);
    for (begin, line, words) in [
        ("pid x\n".to_owned(), 1, NUMBER),
        (format!("{EXAMPLE}pid 5\n"), 6, PID_AGAIN),
        (format!("pid 5\n{}\n", "#".repeat(4_097)), 2, LINE),
    ] {
        let mut running = start(&["-".as_ref(), packets.as_ref()]);
        running.send([begin.as_bytes()]);
        running.wait().is_bad_unit(line, words);
    }
}

#[test]
fn a_hundred_million_characters_in_a_line() {
    let packets = TestFile::new(GOOD);
    let piece = [b'#'; 1_000_000];
    let mut running = start(&["-".as_ref(), packets.as_ref()]);
    running.send([&piece[..]; 100]);
    running.close_and_wait().is_bad_unit(1, LINE);
}

// ---- soundness

#[test]
fn an_odd_store() {
    for store in ["1", "127", "65535"] {
        unsound(format!("pid 5\nstore {store}\n"), "the store has an odd number of octets");
    }
    unsound("pid 128\nstore 1\narea 1 start 0 words 0 at 0\n", "the store has an odd number of octets");
}

#[test]
fn a_pid_above_127() {
    unsound("pid 128\nstore 0\n", "the PID is above 127");
    unsound("pid 255\nstore 2\narea 1 start 0 words 0 at 0\narea 1 start 0 words 9 at 0\n", "the PID is above 127");
}

#[test]
fn an_area_without_words() {
    unsound("pid 5\nstore 128\narea 1 start 0 words 0 at 0\n", "area 1 has no words");
    unsound("pid 5\nstore 128\narea 1 start 0 words 1 at 0\narea 2 start 0 words 0x0 at 2\n", "area 2 has no words");
    unsound("pid 5\nstore 128\narea 1 start 4294967295 words 0 at 4294967294\n", "area 1 has no words");
    unsound(format!("pid 5\nstore 128\n{}area 9 start 0 words 0 at 0\n", areas(7)), "area 8 has no words");
}

#[test]
fn an_area_that_ends_above_the_last_address() {
    fine_line("area 1 start 4294967295 words 1 at 0");
    fine_line("area 1 start 0xFFFFFFC0 words 64 at 0");
    for area in [
        "area 1 start 4294967295 words 2 at 0",
        "area 1 start 0xFFFFFFC1 words 64 at 0",
        "area 1 start 4294967295 words 4294967295 at 0",
        "area 1 start 2 words 4294967295 at 0",
        "area 1 start 4294967295 words 2 at 4294967294",
    ] {
        unsound(format!("pid 5\nstore 128\n{area}\n"), "area 1 ends above address FFFFFFFF");
    }
    unsound(
        "pid 5\nstore 8\narea 1 start 0 words 1 at 0\narea 2 start 0 words 1 at 2\narea 3 start 4294967294 words 3 at 4\n",
        "area 3 ends above address FFFFFFFF",
    );
}

#[test]
fn an_area_that_ends_past_the_store() {
    fine_line("area 1 start 0 words 64 at 0");
    fine_line("area 1 start 0 words 1 at 126");
    for area in [
        "area 1 start 0 words 65 at 0",
        "area 1 start 0 words 64 at 2",
        "area 1 start 0 words 1 at 128",
        "area 1 start 0 words 2 at 126",
        "area 1 start 0 words 1 at 4294967294",
        "area 1 start 0 words 4294967295 at 0",
        "area 1 start 1 words 4294967295 at 4294967294",
        "area 1 start 0 words 2147483648 at 0",
        "area 1 start 0 words 2147483649 at 4294967294",
        "area 1 start 0 words 65 at 65536",
    ] {
        unsound(format!("pid 5\nstore 128\n{area}\n"), "area 1 ends past the store");
    }
    unsound("pid 5\nstore 8\narea 1 start 0 words 1 at 0\narea 2 start 0 words 4 at 2\n", "area 2 ends past the store");
}

#[test]
fn two_areas_of_one_memory_id() {
    unsound(
        "pid 5\nstore 8\narea 1 start 0 words 1 at 0\narea 1 start 0 words 1 at 2\n",
        "areas 1 and 2 have the same memory ID",
    );
    unsound(
        "pid 5\nstore 10\narea 1 start 0 words 1 at 0\narea 2 start 0 words 1 at 2\narea 3 start 0 words 1 at 4
area 4 start 0 words 1 at 6\narea 0x2 start 0 words 1 at 8\n",
        "areas 2 and 5 have the same memory ID",
    );
}

#[test]
fn two_areas_that_share_an_octet() {
    let five = |second: &str, fifth: &str| {
        format!(
            "pid 5\nstore 2000\narea 1 start 0 words 1 at 0\narea 2 start 0 {second}\narea 3 start 0 words 1 at 4
area 4 start 0 words 1 at 6\narea 5 start 0 {fifth}\n"
        )
    };
    for (second, fifth) in [
        ("words 200 at 1000", "words 200 at 1200"),
        ("words 101 at 1000", "words 400 at 1200"),
        ("words 300 at 1200", "words 101 at 1000"),
        ("words 1 at 1200", "words 900 at 200"),
        ("words 900 at 200", "words 1 at 1200"),
        ("words 4 at 1200", "words 4 at 1200"),
    ] {
        unsound(five(second, fifth), "areas 2 and 5 share octet 1200");
    }
    reads(five("words 100 at 1000", "words 200 at 1200"));
    reads(five("words 300 at 1200", "words 100 at 1000"));
    // P9 of document 01.
    unsound(
        "pid 5\nstore 142\narea 1 start 0 words 64 at 0\narea 2 start 0 words 8 at 126\n",
        "areas 1 and 2 share octet 126",
    );
    unsound(
        "pid 5\nstore 8\narea 1 start 0 words 4 at 0\narea 2 start 9 words 4 at 0\n",
        "areas 1 and 2 share octet 0",
    );
}

#[test]
fn the_clauses_are_asked_in_their_order() {
    let with = |areas: &str| format!("pid 5\nstore 16\n{areas}");
    // Area by area, and in each area clause by clause.
    unsound(with("area 1 start 0 words 9 at 0\narea 2 start 0 words 0 at 0\n"), "area 1 ends past the store");
    unsound(
        with("area 1 start 4294967295 words 9 at 0\narea 2 start 0 words 0 at 0\n"),
        "area 1 ends above address FFFFFFFF",
    );
    unsound(
        with("area 1 start 0 words 1 at 0\narea 2 start 0 words 0 at 98\narea 3 start 0 words 9 at 0\n"),
        "area 2 has no words",
    );
    // Those of one area before those of two.
    unsound(
        with("area 1 start 0 words 1 at 0\narea 1 start 0 words 1 at 0\narea 3 start 0 words 0 at 0\n"),
        "area 3 has no words",
    );
    unsound(
        with("area 1 start 0 words 1 at 0\narea 1 start 0 words 1 at 0\narea 3 start 0 words 9 at 0\n"),
        "area 3 ends past the store",
    );
    // Pair by pair, and in each pair clause by clause.
    unsound(
        with("area 1 start 0 words 1 at 0\narea 1 start 0 words 1 at 0\n"),
        "areas 1 and 2 have the same memory ID",
    );
    unsound(
        with("area 1 start 0 words 2 at 0\narea 2 start 0 words 1 at 4\narea 2 start 0 words 1 at 2\n"),
        "areas 1 and 3 share octet 2",
    );
    unsound(
        with("area 1 start 0 words 1 at 0\narea 2 start 0 words 2 at 2\narea 3 start 0 words 1 at 4\narea 1 start 0 words 1 at 6\n"),
        "areas 1 and 4 have the same memory ID",
    );
    unsound(
        with("area 1 start 0 words 2 at 0\narea 2 start 0 words 1 at 2\narea 1 start 0 words 1 at 4\n"),
        "areas 1 and 2 share octet 2",
    );
    unsound(
        with("area 1 start 0 words 1 at 0\narea 2 start 0 words 1 at 2\narea 3 start 0 words 1 at 2\narea 2 start 0 words 1 at 4\n"),
        "areas 2 and 3 share octet 2",
    );
}

#[test]
fn a_bad_line_comes_before_a_clause_that_fails() {
    bad("pid 200\nstore 1\nfoo\n", 3, ITEM);
    bad("pid 200\narea 1 start 0 words 0 at 0\n", 3, STORE_MISSING);
    bad("store 1\narea 1 start 0 words 0 at 0\narea 1 start 0 words 0 at 0\n", 4, PID_MISSING);
}

#[test]
fn a_unit_without_areas_is_sound() {
    let packets = format!("{}{}", packet(6, 5, "01 01 00000000 0001"), packet(17, 1, ""));
    let unit = TestFile::new("pid 5\nservices dump connection\nstore 0\n");
    let record = format!(
        "{}{}\n{}{}\n",
        packet(6, 5, "01 01 00000000 0001"),
        refused(0, 17, 1),
        packet(17, 1, ""),
        connected(0)
    );
    run(&[unit.as_ref()], packets.as_bytes()).is_record(&record);
}
