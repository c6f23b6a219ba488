//! Frames for the generators: ones that read cleanly, of every kind and at every edge, ones that the terminal wrote, and
//! ones with given causes of refusal and no others.

use crate::frame_causes::{
    category, Cause, Fault, Kind, ACCEPTANCE, CATEGORIES, CATEGORY_OF_SERVICES_6_AND_17, CATEGORY_OF_SERVICE_1, CHECK,
    CHECKED_BLOCK_OCTETS, CHECK_HEAD_OCTETS, COMPLETION, CONNECTION, DUMP, DUMP_HEAD_OCTETS, FAILURE, FAILURE_OCTETS,
    KINDS, LONGEST_DUMP, MOST_BLOCKS, PARTS, REQUEST_OCTETS, WORD_OCTETS,
};
use crate::frame_rows::{COUNTS, DUMP_LENGTHS, LARGEST_VALUE, PIDS};
use crate::hexline;
use crate::random::Random;
use crate::sample;
use crate::sample_map;
use crate::tc::apid;
use crate::terminal;
use crate::tm::{self, HEADER_OCTETS, LENGTH_FIELD_OFFSET, PACKET_ID, SEQUENCE_FLAGS};

/// How many turns `clean` has: every kind and every edge of its source data.
pub const CLEAN_TURNS: usize = 20;
/// The types that have frames.
const TYPES: [u8; 3] = [1, 6, 17];
/// How many values of a type or subtype `swept` goes through, from 0 on.
const SWEPT_VALUES: usize = 32;
/// Where the turns of `swept` are done with the categories, then with the subtypes, and where they begin again.
const SWEPT_CATEGORIES: usize = KINDS.len() * CATEGORIES as usize;
const SWEPT_KINDS: usize = SWEPT_CATEGORIES + TYPES.len() * SWEPT_VALUES;
pub const SWEPT_TURNS: usize = SWEPT_KINDS + SWEPT_VALUES;
/// Types that have no frames; some of them differ from one that has by a single bit.
const OTHER_TYPES: [u8; 14] = [0, 2, 3, 5, 7, 9, 16, 18, 22, 38, 70, 129, 145, 255];
/// Subtypes of which some belong to another type, and some differ by a single bit from one that is known.
const OTHER_SUBTYPES: [u8; 16] = [0, 1, 2, 3, 5, 6, 7, 8, 9, 10, 11, 14, 23, 130, 138, 255];

/// A frame that reads cleanly; the turns go through the kinds and their edges.
pub fn clean(random: &mut Random, turn: usize) -> Vec<u8> {
    let (kind, source_data) = match turn % CLEAN_TURNS {
        0 => (ACCEPTANCE, random.octets(REQUEST_OCTETS)),
        1 => (COMPLETION, random.octets(REQUEST_OCTETS)),
        2 => (CONNECTION, Vec::new()),
        3..=6 => (FAILURE, failure(random, turn % CLEAN_TURNS - 3)),
        place @ 7..=10 => (DUMP, dump_of(random, DUMP_LENGTHS[place - 7])),
        11 => {
            let length = random.between(1, LONGEST_DUMP.into()) as u16;
            (DUMP, dump_of(random, length))
        }
        place => (CHECK, check_of(random, (place - 11) as u8)),
    };
    let mut frame = frame(random, kind, None, &source_data);
    if turn.is_multiple_of(2) {
        let pid = PIDS[turn / 2 % PIDS.len()];
        frame[..2].copy_from_slice(&(PACKET_ID | apid(pid, category_of(kind))).to_be_bytes());
        frame[2..4].copy_from_slice(&(SEQUENCE_FLAGS | COUNTS[turn / 2 % COUNTS.len()]).to_be_bytes());
    }
    frame
}

/// A frame whose category, subtype or type takes one value after another while the rest is right: every category of each
/// kind, then the subtypes of each type and the types, as far as `SWEPT_VALUES`.
pub fn swept(random: &mut Random, turn: usize) -> Vec<u8> {
    let place = turn % SWEPT_TURNS;
    let near = random.pick(&KINDS);
    let (kind, other_category, near) = match (place.checked_sub(SWEPT_CATEGORIES), place.checked_sub(SWEPT_KINDS)) {
        (None, _) => {
            let kind = KINDS[place / usize::from(CATEGORIES)];
            (kind, Some((place % usize::from(CATEGORIES)) as u8), kind)
        }
        (Some(place), None) => {
            let service = TYPES[place / SWEPT_VALUES];
            let near: Vec<_> = KINDS.into_iter().filter(|kind| kind.0 == service).collect();
            ((service, (place % SWEPT_VALUES) as u8), None, random.pick(&near))
        }
        (_, Some(service)) => ((service as u8, near.1), None, near),
    };
    let source_data = source_data(random, near, &[]);
    frame(random, kind, other_category, &source_data)
}

/// A frame that the terminal wrote for a packet of any kind, under a profile, counts and a time of any kind.
pub fn written(random: &mut Random) -> Vec<u8> {
    let map = sample_map::sound(random, 64, 3);
    let mut store = random.octets(map.store_octets);
    let mut buffer = [0; hexline::OUTPUT_OCTETS];
    let counts = tm::Counts { category_1: any_count(random), category_9: any_count(random) };
    loop {
        let packet = sample::packet(random, &map.profile);
        let time = any_time(random);
        let answer = terminal::answer(&map.profile, counts, time, &packet, &mut store, &mut buffer);
        let frames = split(&buffer[..answer.written]);
        if !frames.is_empty() {
            return frames[random.below(frames.len() as u64) as usize].to_vec();
        }
    }
}

/// A frame that has these causes of refusal and no others: one, or two that go together.
pub fn with_causes(random: &mut Random, causes: &[Cause]) -> Vec<u8> {
    let kind = kind_for(random, causes);
    let source_data = match KINDS.contains(&kind) {
        true => source_data(random, kind, &faults_of(causes)),
        false => {
            let count = random.pick(&[0, 4, 8, 12]);
            random.octets(count)
        }
    };
    let category = category_for(random, kind, causes);
    let mut frame = frame(random, kind, category, &source_data);
    spoil_header(random, &mut frame, causes);
    if causes.contains(&Cause::FewerThan16Octets) {
        cut(random, &mut frame, causes);
    }
    spoil_length_field(random, &mut frame, causes);
    frame
}

/// The longest frame that a length field can announce, or one whose length field would fit if it wrapped: for `cases`,
/// whose lines hold more than 65,542 octets.
pub fn long(random: &mut Random, octets: usize) -> Vec<u8> {
    let words = (octets - HEADER_OCTETS - DUMP_HEAD_OCTETS) / WORD_OCTETS;
    let mut source_data = dump_of(random, words as u16);
    source_data.resize(octets - HEADER_OCTETS, 0);
    frame(random, DUMP, None, &source_data)
}

/// A frame changed without an aim: octets flipped, cut off or added; or octets that are no frame at all.
pub fn changed(random: &mut Random) -> Vec<u8> {
    let turn = random.below(CLEAN_TURNS as u64) as usize;
    let mut frame = clean(random, turn);
    let place = random.below(frame.len() as u64) as usize;
    match random.below(6) {
        0 | 1 => frame[place] ^= 1 << random.below(8),
        2 => frame[place] = random.octet(),
        3 => frame.truncate(place),
        4 => {
            let count = random.between(1, 12) as usize;
            frame.extend(random.octets(count));
        }
        _ => frame = random.octets(place),
    }
    if random.once_in(2) {
        set_length_field(&mut frame, 0);
    }
    frame
}

/// The frames of an answer.
fn split(mut frames: &[u8]) -> Vec<&[u8]> {
    let mut each = Vec::new();
    while let Some((frame, rest)) = hexline::split_frame(frames) {
        each.push(frame);
        frames = rest;
    }
    each
}

/// A frame with this source data, right but for the category where one is given.
fn frame(random: &mut Random, (service, subtype): Kind, other_category: Option<u8>, source_data: &[u8]) -> Vec<u8> {
    let category = other_category.or(category(service)).unwrap_or(random.below(CATEGORIES.into()) as u8);
    let mut octets = (PACKET_ID | apid(any_pid(random), category.into())).to_be_bytes().to_vec();
    octets.extend((SEQUENCE_FLAGS | any_count(random)).to_be_bytes());
    octets.extend([0, 0]);
    octets.extend(any_time(random));
    octets.extend([0, service, subtype, 0]);
    octets.extend(source_data);
    set_length_field(&mut octets, 0);
    octets
}

/// Makes the length field so much more than the right one, where there is one.
fn set_length_field(frame: &mut [u8], more: i64) {
    let right = frame.len() as i64 - LENGTH_FIELD_OFFSET as i64;
    if let [_, _, _, _, upper, lower, ..] = frame {
        [*upper, *lower] = ((right + more) as u16).to_be_bytes();
    }
}

/// The category of one of the six kinds.
fn category_of((service, _): Kind) -> u16 {
    category(service).map_or(0, u16::from)
}

fn any_pid(random: &mut Random) -> u8 {
    if random.once_in(2) {
        random.pick(&PIDS)
    } else {
        random.below(128) as u8
    }
}

fn any_count(random: &mut Random) -> u16 {
    if random.once_in(2) {
        random.pick(&COUNTS)
    } else {
        random.below(tm::COUNTS.into()) as u16
    }
}

fn any_time(random: &mut Random) -> [u8; 6] {
    if random.once_in(8) {
        return [0; 6];
    }
    [(); 6].map(|()| random.octet())
}

/// The TC's four octets, code and detail; of the four turns three have the largest values.
fn failure(random: &mut Random, turn: usize) -> Vec<u8> {
    let mut data = random.octets(FAILURE_OCTETS);
    if turn == 0 || turn == 1 {
        data[4..6].copy_from_slice(&LARGEST_VALUE);
    }
    if turn == 0 || turn == 2 {
        data[6..8].copy_from_slice(&LARGEST_VALUE);
    }
    data
}

fn dump_of(random: &mut Random, length: u16) -> Vec<u8> {
    let mut data = vec![random.octet(), 1];
    data.extend(random.octets(4));
    data.extend(length.to_be_bytes());
    data.extend(random.octets(usize::from(length) * WORD_OCTETS));
    data
}

fn check_of(random: &mut Random, n: u8) -> Vec<u8> {
    let mut data = vec![random.octet(), n];
    for _ in 0..n {
        data.extend(random.octets(4));
        data.extend(block_length(random).to_be_bytes());
        data.extend(random.octets(2));
    }
    data
}

/// A length in which either octet may be zero, but not both.
fn block_length(random: &mut Random) -> u16 {
    match random.below(4) {
        0 => random.pick(&[1, 255, 256, 0x0F00, 65_535]),
        _ => random.between(1, 65_535) as u16,
    }
}

/// The kind that the causes are about, or any.
fn kind_for(random: &mut Random, causes: &[Cause]) -> Kind {
    for cause in causes {
        match *cause {
            Cause::SourceData(kind, _) => return kind,
            Cause::TypeUnknown => {
                let subtypes = KINDS.map(|(_, subtype)| subtype);
                return (random.pick(&OTHER_TYPES), random.pick(&subtypes));
            }
            Cause::SubtypeUnknown(service) => {
                let unknown = OTHER_SUBTYPES.into_iter().filter(|subtype| !KINDS.contains(&(service, *subtype)));
                return (service, random.pick(&unknown.collect::<Vec<_>>()));
            }
            _ => (),
        }
    }
    random.pick(&KINDS)
}

/// A wrong category where one is a cause.
fn category_for(random: &mut Random, (service, _): Kind, causes: &[Cause]) -> Option<u8> {
    if causes.contains(&Cause::CategoryOfOtherService) {
        return Some(if service == 1 { CATEGORY_OF_SERVICES_6_AND_17 } else { CATEGORY_OF_SERVICE_1 });
    }
    let of_none = [0, 2, 3, 4, 5, 6, 7, 8, 10, 11, 12, 13, 14, 15];
    causes.contains(&Cause::CategoryOfNoService).then(|| random.pick(&of_none))
}

fn faults_of(causes: &[Cause]) -> Vec<Fault> {
    let fault = |cause: &Cause| match cause {
        Cause::SourceData(_, fault) => Some(*fault),
        _ => None,
    };
    causes.iter().filter_map(fault).collect()
}

/// Source data of the kind that has these faults and no others.
fn source_data(random: &mut Random, kind: Kind, faults: &[Fault]) -> Vec<u8> {
    match kind {
        DUMP => dump_data(random, faults),
        CHECK => check_data(random, faults),
        FAILURE => sized(random, FAILURE_OCTETS as u64, faults),
        CONNECTION => sized(random, 0, faults),
        _ => sized(random, REQUEST_OCTETS as u64, faults),
    }
}

fn sized(random: &mut Random, right: u64, faults: &[Fault]) -> Vec<u8> {
    let count = match faults {
        [Fault::TooShort] => {
            let shorter = random.below(right);
            random.pick(&[right - 1, shorter])
        }
        [Fault::TooLong] => right + random.pick(&[1, 2, 4, 8, 16]),
        _ => right,
    };
    random.octets(count as usize)
}

fn dump_data(random: &mut Random, faults: &[Fault]) -> Vec<u8> {
    let has = |fault| faults.contains(&fault);
    let length = match () {
        () if has(Fault::LengthZero) => 0,
        () if has(Fault::Length241) => LONGEST_DUMP + 1,
        () if has(Fault::LengthAbove241) => random.pick(&[242, 255, 256, 257, 496, 1_000]),
        () => random.pick(&[1, 2, 5, LONGEST_DUMP - 1, LONGEST_DUMP]),
    };
    let mut data = dump_of(random, length);
    let whole = data.len() as u64;
    if has(Fault::TooShort) {
        let shorter = random.between(DUMP_HEAD_OCTETS as u64, whole - 1);
        data.truncate(random.pick(&[whole - 1, whole - 2, shorter]) as usize);
    }
    if has(Fault::LengthAbove241) && has(Fault::TooShort) {
        as_many_words_as_the_lower_octet_says(&mut data);
    }
    if has(Fault::TooLong) {
        data.extend(more_octets(random));
    }
    if has(Fault::Octet1) {
        data[1] = random.pick(&[0, 2, 3, 8, 129, 255]);
    }
    if has(Fault::HeadCutOff) {
        let least = if has(Fault::Octet1) { 2 } else { 0 };
        data.truncate(random.between(least, DUMP_HEAD_OCTETS as u64 - 1) as usize);
    }
    data
}

/// Makes a length above 255 of which the lower octet alone would be right for the words that are left.
fn as_many_words_as_the_lower_octet_says(data: &mut Vec<u8>) {
    let words = ((data.len() - DUMP_HEAD_OCTETS) / WORD_OCTETS).min(LONGEST_DUMP.into());
    data.truncate(DUMP_HEAD_OCTETS + words * WORD_OCTETS);
    data[DUMP_HEAD_OCTETS - 2..DUMP_HEAD_OCTETS].copy_from_slice(&[1, words as u8]);
}

fn check_data(random: &mut Random, faults: &[Fault]) -> Vec<u8> {
    let has = |fault| faults.contains(&fault);
    let least = if has(Fault::LaterLengthZero) { 2 } else { 1 };
    let n = match () {
        () if has(Fault::NZero) => 0,
        () if has(Fault::NNine) => MOST_BLOCKS + 1,
        () if has(Fault::NAboveNine) => random.pick(&[10, 16, 17, 128, 136, 252]),
        () => random.between(least, u64::from(MOST_BLOCKS)) as u8,
    };
    let mut data = check_of(random, n);
    // What a cut has to leave: the start and length of the last block that has length 0.
    let mut kept = CHECK_HEAD_OCTETS;
    if has(Fault::FirstLengthZero) {
        kept = no_length(&mut data, 0);
    }
    if has(Fault::LaterLengthZero) {
        let place = random.between(1, u64::from(n) - 1) as usize;
        kept = no_length(&mut data, place);
    }
    if has(Fault::TooShort) {
        let shorter = random.between(kept as u64, data.len() as u64 - 1) as usize;
        data.truncate(random.pick(&[data.len() - 1, shorter]));
    }
    if has(Fault::TooLong) {
        data.extend(more_octets(random));
    }
    if has(Fault::HeadCutOff) {
        data.truncate(random.below(CHECK_HEAD_OCTETS as u64) as usize);
    }
    data
}

/// Gives the block at that place length 0 and returns where its length ends.
fn no_length(data: &mut [u8], place: usize) -> usize {
    let end = CHECK_HEAD_OCTETS + place * CHECKED_BLOCK_OCTETS + 6;
    data[end - 2..end].fill(0);
    end
}

fn more_octets(random: &mut Random) -> Vec<u8> {
    let count = random.pick(&[1, 2, 8]);
    random.octets(count)
}

fn spoil_header(random: &mut Random, frame: &mut [u8], causes: &[Cause]) {
    for (part, place, mask, _) in PARTS {
        if !causes.contains(&Cause::Header(part)) {
            continue;
        }
        frame[place] ^= match mask {
            0xFF => random.pick(&[1, 2, 4, 8, 16, 32, 64, 128, 255]),
            bit => bit,
        };
    }
}

/// Leaves fewer than 16 octets, but those that the other cause needs; the length field says how many.
fn cut(random: &mut Random, frame: &mut Vec<u8>, causes: &[Cause]) {
    let least = causes.iter().map(octets_needed).max().unwrap_or(0);
    let length = match random.between(least, HEADER_OCTETS as u64 - 1) {
        // No length field announces six octets.
        length if length + 1 == LENGTH_FIELD_OFFSET as u64 => length + 1,
        length => length,
    };
    frame.truncate(length as usize);
    set_length_field(frame, 0);
}

/// How many octets there have to be for a cause to be seen beside too few octets.
fn octets_needed(cause: &Cause) -> u64 {
    match cause {
        Cause::LengthFieldOneLess | Cause::LengthFieldOneMore | Cause::LengthFieldFarOff => 8,
        Cause::Header(part) => {
            PARTS.iter().filter(|(other, ..)| other == part).map(|(_, place, ..)| *place as u64 + 1).sum()
        }
        Cause::TypeUnknown | Cause::CategoryOfOtherService | Cause::CategoryOfNoService => 14,
        Cause::SubtypeUnknown(_) => 15,
        Cause::FewerThan16Octets | Cause::SourceData(..) => 0,
    }
}

fn spoil_length_field(random: &mut Random, frame: &mut [u8], causes: &[Cause]) {
    for cause in causes {
        match cause {
            Cause::LengthFieldOneLess => set_length_field(frame, -1),
            Cause::LengthFieldOneMore => set_length_field(frame, 1),
            Cause::LengthFieldFarOff => {
                let more = random.pick(&[2, 7, 16, 256, 0x8000]);
                set_length_field(frame, more);
            }
            _ => (),
        }
    }
}
