//! The reader of TM frames. It refuses with the first of 60, 61, 62 and 63 that fails; what reads cleanly is a frame of
//! document 01, of any PID.

use crate::refusal;
use crate::tm::HEADER_OCTETS;

/// Total octets are the length field plus this.
const LENGTH_FIELD_OFFSET: usize = 7;
/// The first five bits of a frame: version 0, type 0, data field header flag 1.
const FIRST_BITS: u8 = 0b00001;
const SEQUENCE_FLAGS: u8 = 0b11;
const APID_MASK: u16 = 0x07FF;
const COUNT_MASK: u16 = 0x3FFF;
/// An APID is the PID times this plus the category.
const CATEGORIES: u16 = 16;
const CATEGORY_OF_SERVICE_1: u16 = 1;
const CATEGORY_OF_SERVICES_6_AND_17: u16 = 9;
/// A dump report has one block.
const DUMP_BLOCKS: u8 = 1;
const LONGEST_DUMP: u16 = 240;
const WORD_OCTETS: usize = 2;
const MOST_BLOCKS: u8 = 8;
/// Start, length and CRC.
const CHECKED_BLOCK_OCTETS: usize = 8;

/// What the reader hands back; the source data is a part of the frame itself.
#[derive(Clone, Debug, PartialEq, Eq)]
pub struct Telemetry<'a> {
    pub apid: u16,
    pub count: u16,
    pub time: [u8; 6],
    pub service: u8,
    pub subtype: u8,
    pub source_data: &'a [u8],
    pub contents: Contents<'a>,
}

/// The source data, taken apart.
#[derive(Clone, Debug, PartialEq, Eq)]
pub enum Contents<'a> {
    /// (1,1) and (1,7)
    Verification(Request),
    /// (1,2)
    Failure { request: Request, code: u16, detail: u16 },
    /// (6,6)
    Dump { memory_id: u8, start: u32, length: u16, words: &'a [u8] },
    /// (6,10)
    Check { memory_id: u8, blocks: Vec<CheckedBlock> },
    /// (17,2)
    Connection,
}

/// The TC that a report of service 1 is about: its first four octets, whatever they are.
#[derive(Clone, Copy, Debug, PartialEq, Eq)]
pub struct Request {
    pub packet_id: u16,
    pub sequence_control: u16,
}

/// One block of a check report.
#[derive(Clone, Copy, Debug, PartialEq, Eq)]
pub struct CheckedBlock {
    pub start: u32,
    pub length: u16,
    pub crc: u16,
}

impl Telemetry<'_> {
    pub fn pid(&self) -> u16 {
        self.apid / CATEGORIES
    }
}

/// Reads a frame, or refuses it with the number of the first check that fails.
pub fn read(frame: &[u8]) -> Result<Telemetry<'_>, u8> {
    let (header, source_data) = frame.split_first_chunk::<HEADER_OCTETS>().ok_or(refusal::FRAME_LENGTH)?;
    let announced = usize::from(u16::from_be_bytes([header[4], header[5]])) + LENGTH_FIELD_OFFSET;
    if frame.len() != announced {
        return Err(refusal::FRAME_LENGTH);
    }
    if !header_in_order(header) {
        return Err(refusal::FRAME_HEADER);
    }

    let apid = u16::from_be_bytes([header[0], header[1]]) & APID_MASK;
    let [service, subtype] = [header[13], header[14]];
    if category(service, subtype) != Some(apid % CATEGORIES) {
        return Err(refusal::FRAME_TYPE);
    }
    let contents = contents(service, subtype, source_data).ok_or(refusal::FRAME_SOURCE_DATA)?;
    Ok(Telemetry {
        apid,
        count: u16::from_be_bytes([header[2], header[3]]) & COUNT_MASK,
        time: [header[6], header[7], header[8], header[9], header[10], header[11]],
        service,
        subtype,
        source_data,
        contents,
    })
}

fn header_in_order(header: &[u8; HEADER_OCTETS]) -> bool {
    header[0] >> 3 == FIRST_BITS && header[2] >> 6 == SEQUENCE_FLAGS && header[12] == 0 && header[15] == 0
}

/// The category that goes with a type and subtype; nothing for a pair that is none of the six.
fn category(service: u8, subtype: u8) -> Option<u16> {
    match (service, subtype) {
        (1, 1 | 2 | 7) => Some(CATEGORY_OF_SERVICE_1),
        (6, 6 | 10) | (17, 2) => Some(CATEGORY_OF_SERVICES_6_AND_17),
        _ => None,
    }
}

/// Takes the source data of one of the six pairs apart; nothing where it is not as its layout says.
fn contents(service: u8, subtype: u8, source_data: &[u8]) -> Option<Contents<'_>> {
    match (service, subtype, source_data) {
        (1, 1 | 7, [a, b, c, d]) => Some(Contents::Verification(request([*a, *b, *c, *d]))),
        (1, 2, [a, b, c, d, code_upper, code_lower, detail_upper, detail_lower]) => Some(Contents::Failure {
            request: request([*a, *b, *c, *d]),
            code: u16::from_be_bytes([*code_upper, *code_lower]),
            detail: u16::from_be_bytes([*detail_upper, *detail_lower]),
        }),
        (6, 6, data) => dump(data),
        (6, 10, data) => check(data),
        (17, 2, []) => Some(Contents::Connection),
        _ => None,
    }
}

fn request([a, b, c, d]: [u8; 4]) -> Request {
    Request { packet_id: u16::from_be_bytes([a, b]), sequence_control: u16::from_be_bytes([c, d]) }
}

fn dump(data: &[u8]) -> Option<Contents<'_>> {
    let (&[memory_id, blocks, a, b, c, d, upper, lower], words) = data.split_first_chunk::<8>()?;
    let length = u16::from_be_bytes([upper, lower]);
    let well_formed = blocks == DUMP_BLOCKS
        && (1..=LONGEST_DUMP).contains(&length)
        && words.len() == usize::from(length) * WORD_OCTETS;
    well_formed.then_some(Contents::Dump { memory_id, start: u32::from_be_bytes([a, b, c, d]), length, words })
}

fn check(data: &[u8]) -> Option<Contents<'_>> {
    let (&[memory_id, n], blocks) = data.split_first_chunk::<2>()?;
    if !(1..=MOST_BLOCKS).contains(&n) || blocks.len() != usize::from(n) * CHECKED_BLOCK_OCTETS {
        return None;
    }
    let blocks: Vec<_> = blocks.chunks_exact(CHECKED_BLOCK_OCTETS).filter_map(checked_block).collect();
    blocks.iter().all(|block| block.length >= 1).then_some(Contents::Check { memory_id, blocks })
}

fn checked_block(octets: &[u8]) -> Option<CheckedBlock> {
    let &[a, b, c, d, upper, lower, crc_upper, crc_lower] = octets else {
        return None;
    };
    Some(CheckedBlock {
        start: u32::from_be_bytes([a, b, c, d]),
        length: u16::from_be_bytes([upper, lower]),
        crc: u16::from_be_bytes([crc_upper, crc_lower]),
    })
}
