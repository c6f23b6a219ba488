//! Why a frame does not read cleanly: every cause of 60 to 63, asked for on its own whatever an earlier check says, so
//! that the generators can aim at each alone and at two at once, and the tallies can tell which were reached.

use std::fmt;

use crate::refusal;
use crate::tm::{HEADER_OCTETS, LENGTH_FIELD_OFFSET};

/// Type and subtype of a frame.
pub type Kind = (u8, u8);

pub const ACCEPTANCE: Kind = (1, 1);
pub const FAILURE: Kind = (1, 2);
pub const COMPLETION: Kind = (1, 7);
pub const DUMP: Kind = (6, 6);
pub const CHECK: Kind = (6, 10);
pub const CONNECTION: Kind = (17, 2);
/// The kinds that document 01 lays out.
pub const KINDS: [Kind; 6] = [ACCEPTANCE, FAILURE, COMPLETION, DUMP, CHECK, CONNECTION];

pub const TYPE_PLACE: usize = 13;
pub const SUBTYPE_PLACE: usize = 14;
/// An APID is the PID times this plus the category.
pub const CATEGORIES: u8 = 16;
pub const CATEGORY_OF_SERVICE_1: u8 = 1;
pub const CATEGORY_OF_SERVICES_6_AND_17: u8 = 9;
/// Packet ID and sequence control.
pub const REQUEST_OCTETS: usize = 4;
/// The same, code and detail.
pub const FAILURE_OCTETS: usize = 8;
pub const LONGEST_DUMP: u16 = 240;
pub const WORD_OCTETS: usize = 2;
pub const MOST_BLOCKS: u8 = 8;
/// Memory ID, the octet 1, start and length.
pub const DUMP_HEAD_OCTETS: usize = 8;
/// Memory ID and N.
pub const CHECK_HEAD_OCTETS: usize = 2;
/// Start, length and CRC.
pub const CHECKED_BLOCK_OCTETS: usize = 8;

/// One thing that is wrong with a frame.
#[derive(Clone, Copy, Debug, PartialEq, Eq)]
pub enum Cause {
    FewerThan16Octets,
    LengthFieldOneLess,
    LengthFieldOneMore,
    LengthFieldFarOff,
    Header(Part),
    TypeUnknown,
    /// A subtype that is none of this type's.
    SubtypeUnknown(u8),
    /// 9 for service 1, or 1 for services 6 and 17.
    CategoryOfOtherService,
    CategoryOfNoService,
    SourceData(Kind, Fault),
}

/// A part of the header that has one right value.
#[derive(Clone, Copy, Debug, PartialEq, Eq)]
pub enum Part {
    VersionBit1,
    VersionBit2,
    VersionBit3,
    TypeBit,
    HeaderFlag,
    SequenceFlag1,
    SequenceFlag2,
    Octet12,
    Octet15,
}

/// What can be wrong with source data. Octets too few or too many are those that its own numbers ask for.
#[derive(Clone, Copy, Debug, PartialEq, Eq)]
pub enum Fault {
    HeadCutOff,
    TooShort,
    TooLong,
    Octet1,
    LengthZero,
    Length241,
    LengthAbove241,
    NZero,
    NNine,
    NAboveNine,
    FirstLengthZero,
    LaterLengthZero,
}

/// Where a part of the header stands: octet, mask and the right value under it.
pub const PARTS: [(Part, usize, u8, u8); 9] = [
    (Part::VersionBit1, 0, 0x80, 0),
    (Part::VersionBit2, 0, 0x40, 0),
    (Part::VersionBit3, 0, 0x20, 0),
    (Part::TypeBit, 0, 0x10, 0),
    (Part::HeaderFlag, 0, 0x08, 0x08),
    (Part::SequenceFlag1, 2, 0x80, 0x80),
    (Part::SequenceFlag2, 2, 0x40, 0x40),
    (Part::Octet12, 12, 0xFF, 0),
    (Part::Octet15, 15, 0xFF, 0),
];

/// The faults that source data of each kind can have.
const FAULTS: [(Kind, &[Fault]); 6] = [
    (ACCEPTANCE, &[Fault::TooShort, Fault::TooLong]),
    (FAILURE, &[Fault::TooShort, Fault::TooLong]),
    (COMPLETION, &[Fault::TooShort, Fault::TooLong]),
    (
        DUMP,
        &[
            Fault::HeadCutOff,
            Fault::Octet1,
            Fault::LengthZero,
            Fault::Length241,
            Fault::LengthAbove241,
            Fault::TooShort,
            Fault::TooLong,
        ],
    ),
    (
        CHECK,
        &[
            Fault::HeadCutOff,
            Fault::NZero,
            Fault::NNine,
            Fault::NAboveNine,
            Fault::TooShort,
            Fault::TooLong,
            Fault::FirstLengthZero,
            Fault::LaterLengthZero,
        ],
    ),
    (CONNECTION, &[Fault::TooLong]),
];

/// Pairs of faults that source data of one kind can have at once, besides octet 1 of (6,6) with any other.
const FAULTS_TOGETHER: [(Fault, Fault); 19] = [
    (Fault::LengthZero, Fault::TooLong),
    (Fault::Length241, Fault::TooShort),
    (Fault::Length241, Fault::TooLong),
    (Fault::LengthAbove241, Fault::TooShort),
    (Fault::LengthAbove241, Fault::TooLong),
    (Fault::NZero, Fault::TooLong),
    (Fault::NNine, Fault::TooShort),
    (Fault::NNine, Fault::TooLong),
    (Fault::NNine, Fault::FirstLengthZero),
    (Fault::NNine, Fault::LaterLengthZero),
    (Fault::NAboveNine, Fault::TooShort),
    (Fault::NAboveNine, Fault::TooLong),
    (Fault::NAboveNine, Fault::FirstLengthZero),
    (Fault::NAboveNine, Fault::LaterLengthZero),
    (Fault::TooShort, Fault::FirstLengthZero),
    (Fault::TooShort, Fault::LaterLengthZero),
    (Fault::TooLong, Fault::FirstLengthZero),
    (Fault::TooLong, Fault::LaterLengthZero),
    (Fault::FirstLengthZero, Fault::LaterLengthZero),
];

/// Every cause, in checking order.
pub fn all() -> Vec<Cause> {
    let mut all =
        vec![Cause::FewerThan16Octets, Cause::LengthFieldOneLess, Cause::LengthFieldOneMore, Cause::LengthFieldFarOff];
    all.extend(PARTS.map(|(part, ..)| Cause::Header(part)));
    all.push(Cause::TypeUnknown);
    all.extend([1, 6, 17].map(Cause::SubtypeUnknown));
    all.extend([Cause::CategoryOfOtherService, Cause::CategoryOfNoService]);
    for (kind, faults) in FAULTS {
        all.extend(faults.iter().map(|fault| Cause::SourceData(kind, *fault)));
    }
    all
}

/// Every pair of causes that one frame can have.
pub fn pairs() -> Vec<[Cause; 2]> {
    let all = all();
    let mut pairs = Vec::new();
    for (place, first) in all.iter().enumerate() {
        pairs.extend(all[place + 1..].iter().filter(|second| first.goes_with(second)).map(|second| [*first, *second]));
    }
    pairs
}

/// What a generator aims at in turn: now a cause alone, whose values want more than one round, then two pairs.
pub struct Aims {
    alone: Vec<Cause>,
    pairs: Vec<[Cause; 2]>,
    next_alone: usize,
    next_pair: usize,
}

impl Aims {
    /// Begins with the first cause and the first pair.
    pub fn new() -> Aims {
        Aims { alone: all(), pairs: pairs(), next_alone: 0, next_pair: 0 }
    }

    /// The causes of the next frame.
    pub fn next_aim(&mut self) -> Vec<Cause> {
        if self.next_alone * 2 <= self.next_pair {
            self.next_alone += 1;
            vec![self.alone[(self.next_alone - 1) % self.alone.len()]]
        } else {
            self.next_pair += 1;
            self.pairs[(self.next_pair - 1) % self.pairs.len()].to_vec()
        }
    }
}

impl Default for Aims {
    fn default() -> Aims {
        Aims::new()
    }
}

impl Cause {
    /// The number of the check that fails for it.
    pub fn number(&self) -> u8 {
        match self {
            Cause::FewerThan16Octets
            | Cause::LengthFieldOneLess
            | Cause::LengthFieldOneMore
            | Cause::LengthFieldFarOff => refusal::FRAME_LENGTH,
            Cause::Header(_) => refusal::FRAME_HEADER,
            Cause::TypeUnknown
            | Cause::SubtypeUnknown(_)
            | Cause::CategoryOfOtherService
            | Cause::CategoryOfNoService => refusal::FRAME_TYPE,
            Cause::SourceData(..) => refusal::FRAME_SOURCE_DATA,
        }
    }

    /// Whether one frame can have both, this one the earlier in checking order.
    fn goes_with(&self, later: &Cause) -> bool {
        match (self, later) {
            // Octet 15 and the source data are not there.
            (Cause::FewerThan16Octets, Cause::Header(Part::Octet15) | Cause::SourceData(..)) => false,
            (Cause::FewerThan16Octets, _) => true,
            (_, _) if self.number() == refusal::FRAME_LENGTH => later.number() != refusal::FRAME_LENGTH,
            (Cause::Header(_), _) => true,
            // Without one of the six kinds nothing says how the source data is laid out.
            (Cause::SubtypeUnknown(_), Cause::CategoryOfOtherService | Cause::CategoryOfNoService) => true,
            (Cause::CategoryOfOtherService | Cause::CategoryOfNoService, Cause::SourceData(..)) => true,
            (Cause::SourceData(kind, first), Cause::SourceData(same, second)) => {
                kind == same && (FAULTS_TOGETHER.contains(&(*first, *second)) || octet_1_and_another(*first, *second))
            }
            _ => false,
        }
    }
}

fn octet_1_and_another(first: Fault, second: Fault) -> bool {
    first != second && (first == Fault::Octet1 || second == Fault::Octet1)
}

/// The causes that hold for a frame, in checking order; none where it reads cleanly. An octet that is not there is no
/// cause of its own.
pub fn failing(frame: &[u8]) -> Vec<Cause> {
    let mut failing = length_causes(frame);
    let wrong =
        |(_, place, mask, right): &(Part, usize, u8, u8)| frame.get(*place).is_some_and(|octet| octet & mask != *right);
    failing.extend(PARTS.iter().filter(|part| wrong(part)).map(|(part, ..)| Cause::Header(*part)));
    failing.extend(type_causes(frame));
    if let Some(source_data) = frame.get(HEADER_OCTETS..) {
        let kind = (frame[TYPE_PLACE], frame[SUBTYPE_PLACE]);
        failing.extend(faults(kind, source_data).into_iter().map(|fault| Cause::SourceData(kind, fault)));
    }
    failing
}

fn length_causes(frame: &[u8]) -> Vec<Cause> {
    let mut causes = Vec::new();
    if frame.len() < HEADER_OCTETS {
        causes.push(Cause::FewerThan16Octets);
    }
    if let [_, _, _, _, upper, lower, ..] = frame {
        let announced = usize::from(u16::from_be_bytes([*upper, *lower])) + LENGTH_FIELD_OFFSET;
        match announced as i64 - frame.len() as i64 {
            0 => (),
            -1 => causes.push(Cause::LengthFieldOneLess),
            1 => causes.push(Cause::LengthFieldOneMore),
            _ => causes.push(Cause::LengthFieldFarOff),
        }
    }
    causes
}

/// The category that goes with a type; nothing for a type that has no frames.
pub fn category(service: u8) -> Option<u8> {
    match service {
        1 => Some(CATEGORY_OF_SERVICE_1),
        6 | 17 => Some(CATEGORY_OF_SERVICES_6_AND_17),
        _ => None,
    }
}

fn type_causes(frame: &[u8]) -> Vec<Cause> {
    let Some(service) = frame.get(TYPE_PLACE).copied() else {
        return Vec::new();
    };
    let Some(right) = category(service) else {
        return vec![Cause::TypeUnknown];
    };
    let mut causes = Vec::new();
    if frame.get(SUBTYPE_PLACE).is_some_and(|subtype| !KINDS.contains(&(service, *subtype))) {
        causes.push(Cause::SubtypeUnknown(service));
    }
    match frame[1] % CATEGORIES {
        found if found == right => (),
        CATEGORY_OF_SERVICE_1 | CATEGORY_OF_SERVICES_6_AND_17 => causes.push(Cause::CategoryOfOtherService),
        _ => causes.push(Cause::CategoryOfNoService),
    }
    causes
}

fn faults(kind: Kind, source_data: &[u8]) -> Vec<Fault> {
    match kind {
        ACCEPTANCE | COMPLETION => size_faults(source_data.len(), REQUEST_OCTETS),
        FAILURE => size_faults(source_data.len(), FAILURE_OCTETS),
        DUMP => dump_faults(source_data),
        CHECK => check_faults(source_data),
        CONNECTION => size_faults(source_data.len(), 0),
        _ => Vec::new(),
    }
}

fn size_faults(octets: usize, right: usize) -> Vec<Fault> {
    match octets {
        _ if octets < right => vec![Fault::TooShort],
        _ if octets > right => vec![Fault::TooLong],
        _ => Vec::new(),
    }
}

fn dump_faults(data: &[u8]) -> Vec<Fault> {
    let mut faults = Vec::new();
    if data.len() < DUMP_HEAD_OCTETS {
        faults.push(Fault::HeadCutOff);
    }
    if data.get(1).is_some_and(|octet| *octet != 1) {
        faults.push(Fault::Octet1);
    }
    if let [_, _, _, _, _, _, upper, lower, words @ ..] = data {
        let length = u16::from_be_bytes([*upper, *lower]);
        match length {
            0 => faults.push(Fault::LengthZero),
            1..=LONGEST_DUMP => (),
            _ if length == LONGEST_DUMP + 1 => faults.push(Fault::Length241),
            _ => faults.push(Fault::LengthAbove241),
        }
        faults.extend(size_faults(words.len(), usize::from(length) * WORD_OCTETS));
    }
    faults
}

fn check_faults(data: &[u8]) -> Vec<Fault> {
    let [_, n, blocks @ ..] = data else {
        return vec![Fault::HeadCutOff];
    };
    let mut faults = match n {
        0 => vec![Fault::NZero],
        1..=MOST_BLOCKS => Vec::new(),
        _ if *n == MOST_BLOCKS + 1 => vec![Fault::NNine],
        _ => vec![Fault::NAboveNine],
    };
    faults.extend(size_faults(blocks.len(), usize::from(*n) * CHECKED_BLOCK_OCTETS));
    let no_length = |block: &[u8]| matches!(block, [_, _, _, _, 0, 0, ..]);
    let zero: Vec<_> = blocks.chunks(CHECKED_BLOCK_OCTETS).take(usize::from(*n)).map(no_length).collect();
    if zero.first() == Some(&true) {
        faults.push(Fault::FirstLengthZero);
    }
    if zero.iter().skip(1).any(|zero| *zero) {
        faults.push(Fault::LaterLengthZero);
    }
    faults
}

impl fmt::Display for Cause {
    fn fmt(&self, text: &mut fmt::Formatter) -> fmt::Result {
        match self {
            Cause::FewerThan16Octets => text.write_str("fewer than 16 octets"),
            Cause::LengthFieldOneLess => text.write_str("length field one less"),
            Cause::LengthFieldOneMore => text.write_str("length field one more"),
            Cause::LengthFieldFarOff => text.write_str("length field far off"),
            Cause::Header(part) => part.fmt(text),
            Cause::TypeUnknown => text.write_str("type unknown"),
            Cause::SubtypeUnknown(service) => write!(text, "subtype unknown of type {service}"),
            Cause::CategoryOfOtherService => text.write_str("category of another service"),
            Cause::CategoryOfNoService => text.write_str("category of no service"),
            Cause::SourceData((service, subtype), fault) => write!(text, "({service},{subtype}) {fault}"),
        }
    }
}

impl fmt::Display for Part {
    fn fmt(&self, text: &mut fmt::Formatter) -> fmt::Result {
        text.write_str(match self {
            Part::VersionBit1 => "version bit 1",
            Part::VersionBit2 => "version bit 2",
            Part::VersionBit3 => "version bit 3",
            Part::TypeBit => "type bit",
            Part::HeaderFlag => "header flag",
            Part::SequenceFlag1 => "sequence flag 1",
            Part::SequenceFlag2 => "sequence flag 2",
            Part::Octet12 => "octet 12",
            Part::Octet15 => "octet 15",
        })
    }
}

impl fmt::Display for Fault {
    fn fmt(&self, text: &mut fmt::Formatter) -> fmt::Result {
        text.write_str(match self {
            Fault::HeadCutOff => "head cut off",
            Fault::TooShort => "too short",
            Fault::TooLong => "too long",
            Fault::Octet1 => "octet 1",
            Fault::LengthZero => "length 0",
            Fault::Length241 => "length 241",
            Fault::LengthAbove241 => "length above 241",
            Fault::NZero => "N 0",
            Fault::NNine => "N 9",
            Fault::NAboveNine => "N above 9",
            Fault::FirstLengthZero => "length 0 of the first block",
            Fault::LaterLengthZero => "length 0 of a later block",
        })
    }
}
