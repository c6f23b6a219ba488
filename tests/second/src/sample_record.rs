//! Records for the generators: what the reference gives for packets, line by line, with times of the unit's own.

use crate::hexline;
use crate::judge::TIME;
use crate::map::Profile;
use crate::random::Random;
use crate::sample_line;
use crate::tc::{self, Method, Order};
use crate::terminal;
use crate::tm::Counts;
use crate::unit::Unit;

/// A line of a record, by what it stands for.
#[derive(Clone, Debug, PartialEq, Eq)]
pub enum Entry {
    Packet(Vec<u8>),
    Frame(Vec<u8>),
    /// The empty line that ends a group.
    End,
    /// Any other text.
    Text(Vec<u8>),
}

impl Entry {
    /// The octets of a frame, if it is one.
    pub fn frame(&self) -> Option<&Vec<u8>> {
        match self {
            Entry::Frame(frame) => Some(frame),
            _ => None,
        }
    }
}

/// The record of the packets, each frame with any time. A packet of no octets has no line, so it is left out.
pub fn conforming(random: &mut Random, mut unit: Unit, packets: &[Vec<u8>]) -> Vec<Entry> {
    let mut counts = Counts::default();
    let mut buffer = [0; hexline::OUTPUT_OCTETS];
    let mut record = Vec::new();
    for packet in packets.iter().filter(|packet| !packet.is_empty()) {
        let answer = terminal::answer(&unit.profile, counts, hexline::TIME, packet, &mut unit.store, &mut buffer);
        counts = answer.counts;
        record.push(Entry::Packet(packet.clone()));
        let mut frames = &buffer[..answer.written];
        while let Some((frame, rest)) = hexline::split_frame(frames) {
            let mut frame = frame.to_vec();
            frame[TIME].copy_from_slice(&random.octets(TIME.len()));
            record.push(Entry::Frame(frame));
            frames = rest;
        }
        record.push(Entry::End);
    }
    record
}

/// The text of a record, its digits in either case.
pub fn text(random: &mut Random, record: &[Entry]) -> Vec<u8> {
    let mut text = Vec::new();
    for entry in record {
        match entry {
            Entry::Packet(octets) | Entry::Frame(octets) => text.extend(sample_line::digits(random, octets)),
            Entry::End => (),
            Entry::Text(line) => text.extend_from_slice(line),
        }
        text.push(b'\n');
    }
    text
}

/// A packet with any count and either method; the data is at most what a packet holds.
pub fn packet(random: &mut Random, pid: u8, ack: u8, service: u8, subtype: u8, data: &[u8]) -> Vec<u8> {
    let count = random.between(0, tc::LARGEST_COUNT.into()) as u16;
    let method = random.pick(&[Method::Iso, Method::Crc]);
    let mut packet = vec![0; tc::LONGEST];
    let length = tc::write(&Order { pid, count, ack, method, service, subtype, data }, &mut packet);
    packet.truncate(length.unwrap_or(0));
    packet
}

/// Data of service 6 that names one block of one to three words inside an area; there is at least one area.
pub fn one_block(random: &mut Random, profile: &Profile) -> Vec<u8> {
    let area = random.pick(profile.used_areas());
    let length = random.between(1, area.length.min(3).into()) as u32;
    let start = area.start + random.below(u64::from(area.length - length) + 1) as u32;
    let mut data = vec![area.memory_id, 1];
    data.extend(start.to_be_bytes());
    data.extend((length as u16).to_be_bytes());
    data
}

/// The same data with words to load.
pub fn with_words(random: &mut Random, block: &[u8]) -> Vec<u8> {
    let words = block.last().map_or(0, |length| usize::from(*length));
    [block, &random.octets(words * 2)].concat()
}

/// The same packet with a wrong error control.
pub fn damaged(random: &mut Random, mut packet: Vec<u8>) -> Vec<u8> {
    if let Some(last) = packet.last_mut() {
        *last ^= random.between(1, 255) as u8;
    }
    packet
}
