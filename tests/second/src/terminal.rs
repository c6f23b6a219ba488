//! The terminal: answers one telecommand packet with its verdict, its frames, the counts after it
//! and the changed store.

use std::ops::Range;

use crate::blocks::{read_connection_data, read_memory_data, Block, MemoryRequest};
use crate::crc::{crc, START};
use crate::map::{store_in_order, Area, Flags, Profile, Rights};
use crate::refusal::{self, Refusal};
use crate::tc::{self, Telecommand};
use crate::tm::{Counts, Frames};

pub const SHORTEST_OUTPUT: usize = 4_096;
const ACK_ACCEPTANCE: u8 = 1;
const ACK_COMPLETION: u8 = 8;
const REPORTING: u8 = 1;
const MEMORY: u8 = 6;
const CONNECTION: u8 = 17;

/// Acceptance is marked apart from refusal number 0.
#[derive(Clone, Copy, Debug, PartialEq, Eq)]
pub enum Verdict {
    Accepted,
    Refused(Refusal),
}

impl Verdict {
    /// The two octets that close an answer: 00 00 accepted, 01 and the number refused.
    pub fn closing(&self) -> [u8; 2] {
        match self {
            Verdict::Accepted => [0, 0],
            Verdict::Refused(refusal) => [1, refusal.number],
        }
    }

    /// The refusal's detail, 0 for none.
    pub fn detail(&self) -> u16 {
        match self {
            Verdict::Accepted => 0,
            Verdict::Refused(refusal) => refusal.detail,
        }
    }
}

#[derive(Clone, Copy, Debug, PartialEq, Eq)]
pub struct Answer {
    pub verdict: Verdict,
    /// Octets written to the front of the output buffer.
    pub written: usize,
    /// The counts after the packet.
    pub counts: Counts,
}

/// A telecommand that every check has let through.
enum Request<'a> {
    Memory(MemoryRequest, u8, Vec<Placed<'a>>),
    Connection,
}

/// A block with the store octets it names.
struct Placed<'a> {
    block: Block<'a>,
    octets: Range<usize>,
}

/// Answers one packet.
pub fn answer(
    profile: &Profile,
    counts: Counts,
    time: [u8; 6],
    packet: &[u8],
    store: &mut [u8],
    output: &mut [u8],
) -> Answer {
    if output.len() < SHORTEST_OUTPUT {
        return without_frame(refusal::OUTPUT_BUFFER, counts);
    }
    if !store_in_order(store.len()) || !profile.sound(store.len()) || !in_range(counts) {
        return without_frame(refusal::PROFILE_STORE_OR_COUNT, counts);
    }
    let &[a, b, c, d, _, _, ..] = packet else {
        return without_frame(refusal::FEWER_THAN_SIX, counts);
    };
    // Packet ID and sequence control as they came, whatever is wrong with them.
    let echo = [a, b, c, d];

    let mut frames = Frames::new(profile.pid, counts, time, output);
    let verdict = match examine(profile, packet) {
        Ok((telecommand, request)) => {
            if telecommand.ack & ACK_ACCEPTANCE != 0 {
                frames.put(REPORTING, 1, &[&echo]);
            }
            carry_out(&request, store, &mut frames);
            if telecommand.ack & ACK_COMPLETION != 0 {
                frames.put(REPORTING, 7, &[&echo]);
            }
            Verdict::Accepted
        }
        Err(refusal) => {
            let code = u16::from(refusal.number).to_be_bytes();
            frames.put(REPORTING, 2, &[&echo, &code, &refusal.detail.to_be_bytes()]);
            Verdict::Refused(refusal)
        }
    };
    Answer { verdict, written: frames.written(), counts: frames.counts() }
}

/// 40, 41 and 42 give no frame and change nothing.
fn without_frame(number: u8, counts: Counts) -> Answer {
    Answer { verdict: Verdict::Refused(Refusal::without_detail(number)), written: 0, counts }
}

fn in_range(counts: Counts) -> bool {
    counts.category_1 <= tc::LARGEST_COUNT && counts.category_9 <= tc::LARGEST_COUNT
}

/// The first check from 42 on that a packet fails, if it fails one: its verdict under a sound profile. Nothing of what was
/// answered before matters.
pub fn refusal_of(profile: &Profile, packet: &[u8]) -> Option<Refusal> {
    examine(profile, packet).err()
}

/// Checks 42 and 1 to 19 in order.
fn examine<'a>(profile: &Profile, packet: &'a [u8]) -> Result<(Telecommand<'a>, Request<'a>), Refusal> {
    let telecommand = tc::read(packet)?;
    if telecommand.apid != tc::apid(profile.pid, tc::CATEGORY) {
        return Err(Refusal::new(refusal::APID, telecommand.apid));
    }
    let request = match service_of(profile.flags, &telecommand)? {
        Some(request) => examine_memory(profile, request, telecommand.data)?,
        None => {
            read_connection_data(telecommand.data).map_err(|detail| Refusal::new(refusal::DATA, detail))?;
            Request::Connection
        }
    };
    Ok((telecommand, request))
}

/// Checks 3 and 4: the memory request asked for, or none for a connection test.
fn service_of(flags: Flags, telecommand: &Telecommand) -> Result<Option<MemoryRequest>, Refusal> {
    let type_on = match telecommand.service {
        MEMORY => flags.load || flags.dump || flags.check,
        CONNECTION => flags.connection,
        _ => false,
    };
    if !type_on {
        return Err(Refusal::new(refusal::TYPE, u16::from(telecommand.service)));
    }
    match (telecommand.service, telecommand.subtype) {
        (MEMORY, 2) if flags.load => Ok(Some(MemoryRequest::Load)),
        (MEMORY, 5) if flags.dump => Ok(Some(MemoryRequest::Dump)),
        (MEMORY, 9) if flags.check => Ok(Some(MemoryRequest::Check)),
        (CONNECTION, 1) => Ok(None),
        (service, subtype) => {
            let detail = u16::from_be_bytes([service, subtype]);
            Err(Refusal::new(refusal::SUBTYPE, detail))
        }
    }
}

/// Checks 5, 17, 18 and 19 of service 6.
fn examine_memory<'a>(profile: &Profile, request: MemoryRequest, data: &'a [u8]) -> Result<Request<'a>, Refusal> {
    let data = read_memory_data(request, data).map_err(|detail| Refusal::new(refusal::DATA, detail))?;
    let memory_id = u16::from(data.memory_id);
    let area = profile.area_with_id(data.memory_id).ok_or(Refusal::new(refusal::MEMORY_ID, memory_id))?;
    if !has_right(area.rights, request) {
        return Err(Refusal::new(refusal::RIGHT, memory_id));
    }
    let placed = place_blocks(area, &data.blocks)?;
    Ok(Request::Memory(request, data.memory_id, placed))
}

fn has_right(rights: Rights, request: MemoryRequest) -> bool {
    match request {
        MemoryRequest::Load => rights.load,
        MemoryRequest::Dump => rights.dump,
        MemoryRequest::Check => rights.check,
    }
}

/// Check 19: all blocks with their store octets, or the first that is not wholly inside the area.
fn place_blocks<'a>(area: &Area, blocks: &[Block<'a>]) -> Result<Vec<Placed<'a>>, Refusal> {
    let mut placed = Vec::with_capacity(blocks.len());
    for (number, block) in (1..).zip(blocks) {
        let octets = area.store_octets(block.start, block.length).ok_or(Refusal::new(refusal::OUTSIDE, number))?;
        placed.push(Placed { block: *block, octets });
    }
    Ok(placed)
}

/// Changes the store and puts the service's reports. Every block lies in the store: the profile is sound.
fn carry_out(request: &Request, store: &mut [u8], frames: &mut Frames) {
    match request {
        Request::Connection => frames.put(CONNECTION, 2, &[]),
        Request::Memory(MemoryRequest::Load, _, blocks) => {
            for Placed { block, octets } in blocks {
                store[octets.clone()].copy_from_slice(block.words);
            }
        }
        Request::Memory(MemoryRequest::Dump, memory_id, blocks) => {
            for Placed { block, octets } in blocks {
                let start = block.start.to_be_bytes();
                let length = block.length.to_be_bytes();
                frames.put(MEMORY, 6, &[&[*memory_id, 1], &start, &length, &store[octets.clone()]]);
            }
        }
        Request::Memory(MemoryRequest::Check, memory_id, blocks) => {
            let mut source = vec![*memory_id, blocks.len() as u8];
            for Placed { block, octets } in blocks {
                source.extend_from_slice(&block.start.to_be_bytes());
                source.extend_from_slice(&block.length.to_be_bytes());
                source.extend_from_slice(&crc(START, &store[octets.clone()]).to_be_bytes());
            }
            frames.put(MEMORY, 10, &[&source]);
        }
    }
}
