//! The rows of the tallies of frames: each cause of a refusal alone, each pair that one frame can have, and of frames that
//! read cleanly each kind and the edges of its fields.

use crate::frame_causes::{
    all, failing, pairs, Cause, Kind, CATEGORIES, CHECK, DUMP, FAILURE, KINDS, MOST_BLOCKS, SUBTYPE_PLACE, TYPE_PLACE,
};
use crate::tm::{self, HEADER_OCTETS};

/// PIDs and counts of which every bit is seen alone, with the smallest and the largest.
pub const PIDS: [u8; 9] = [0, 1, 2, 4, 8, 16, 32, 64, 127];
pub const COUNTS: [u16; 16] = [0, 1, 2, 4, 8, 16, 32, 64, 128, 256, 512, 1_024, 2_048, 4_096, 8_192, 16_383];
/// Lengths of a dump at its edges.
pub const DUMP_LENGTHS: [u16; 4] = [1, 2, 239, 240];
/// The largest code and the largest detail.
pub const LARGEST_VALUE: [u8; 2] = [0xFF, 0xFF];

/// The rows that a frame counts for in a tally: its causes, or its kind and the edges that it stands at.
pub fn rows(frame: &[u8]) -> Vec<String> {
    match failing(frame).as_slice() {
        [] => clean_rows(frame),
        [cause] => vec![alone(cause)],
        [first, second] => vec![together(first, second)],
        [first, ..] => vec![format!("refused {} for more than two causes", first.number())],
    }
}

/// Every row that has to be reached.
pub fn wanted() -> Vec<String> {
    let mut wanted: Vec<_> = KINDS.map(kind_row).into();
    wanted.extend(PIDS.map(pid_row));
    wanted.extend(COUNTS.map(count_row));
    wanted.extend(DUMP_LENGTHS.map(length_row));
    wanted.extend((1..=MOST_BLOCKS).map(blocks_row));
    wanted.extend([LARGEST_CODE, LARGEST_DETAIL, LARGEST_BOTH].map(String::from));
    wanted.extend(all().iter().map(alone));
    wanted.extend(pairs().iter().map(|[first, second]| together(first, second)));
    wanted
}

const LARGEST_CODE: &str = "clean code 65535 alone";
const LARGEST_DETAIL: &str = "clean detail 65535 alone";
const LARGEST_BOTH: &str = "clean code and detail 65535";

fn clean_rows(frame: &[u8]) -> Vec<String> {
    let kind = (frame[TYPE_PLACE], frame[SUBTYPE_PLACE]);
    let packet_id = u16::from_be_bytes([frame[0], frame[1]]);
    let count = u16::from_be_bytes([frame[2], frame[3]]) % tm::COUNTS;
    let pid = (packet_id / u16::from(CATEGORIES) % 128) as u8;
    let mut rows = vec![kind_row(kind)];
    rows.extend(PIDS.contains(&pid).then(|| pid_row(pid)));
    rows.extend(COUNTS.contains(&count).then(|| count_row(count)));
    match (kind, &frame[HEADER_OCTETS..]) {
        (FAILURE, [_, _, _, _, code_and_detail @ ..]) => rows.extend(largest_row(code_and_detail)),
        (DUMP, [_, _, _, _, _, _, upper, lower, ..]) => {
            let length = u16::from_be_bytes([*upper, *lower]);
            rows.extend(DUMP_LENGTHS.contains(&length).then(|| length_row(length)));
        }
        (CHECK, [_, n, ..]) => rows.push(blocks_row(*n)),
        _ => (),
    }
    rows
}

fn largest_row(code_and_detail: &[u8]) -> Option<String> {
    let row = match code_and_detail.split_at(2) {
        (code, detail) if code == LARGEST_VALUE && detail == LARGEST_VALUE => LARGEST_BOTH,
        (code, _) if code == LARGEST_VALUE => LARGEST_CODE,
        (_, detail) if detail == LARGEST_VALUE => LARGEST_DETAIL,
        _ => return None,
    };
    Some(row.into())
}

fn kind_row((service, subtype): Kind) -> String {
    format!("clean ({service},{subtype})")
}

fn pid_row(pid: u8) -> String {
    format!("clean pid {pid:3}")
}

fn count_row(count: u16) -> String {
    format!("clean count {count:5}")
}

fn length_row(length: u16) -> String {
    format!("clean (6,6) length {length:3}")
}

fn blocks_row(n: u8) -> String {
    format!("clean (6,10) blocks {n}")
}

fn alone(cause: &Cause) -> String {
    format!("refused {} only for {cause}", cause.number())
}

fn together(first: &Cause, second: &Cause) -> String {
    format!("refused {} for {first} and {} for {second}", first.number(), second.number())
}
