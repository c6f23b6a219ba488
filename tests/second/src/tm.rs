//! Telemetry packets: puts frames one after the other at the front of the output buffer
//! and keeps the count of each category.

use crate::tc::apid;

pub const HEADER_OCTETS: usize = 16;
/// Counts have 14 bits: 16,383 is followed by 0.
pub const COUNTS: u16 = 16_384;
/// Version 0, type 0, data field header flag 1.
pub const PACKET_ID: u16 = 0x0800;
/// Both ones.
pub const SEQUENCE_FLAGS: u16 = 0xC000;
/// Total octets are the length field plus this.
pub const LENGTH_FIELD_OFFSET: usize = 7;

/// The next count of category 1 (service 1) and of category 9 (services 6 and 17).
#[derive(Clone, Copy, Debug, Default, PartialEq, Eq)]
pub struct Counts {
    pub category_1: u16,
    pub category_9: u16,
}

pub fn next_count(count: u16) -> u16 {
    count.wrapping_add(1) % COUNTS
}

/// The frames of one answer. The buffer is long enough for every answer: the terminal has checked it.
pub(crate) struct Frames<'a> {
    pid: u8,
    counts: Counts,
    time: [u8; 6],
    output: &'a mut [u8],
    written: usize,
}

impl<'a> Frames<'a> {
    pub(crate) fn new(pid: u8, counts: Counts, time: [u8; 6], output: &'a mut [u8]) -> Frames<'a> {
        Frames { pid, counts, time, output, written: 0 }
    }

    pub(crate) fn written(&self) -> usize {
        self.written
    }

    pub(crate) fn counts(&self) -> Counts {
        self.counts
    }

    /// Puts one frame; its source data are the given parts in order.
    pub(crate) fn put(&mut self, service: u8, subtype: u8, source: &[&[u8]]) {
        let (category, count) = self.take_count(service);
        let source_octets: usize = source.iter().map(|part| part.len()).sum();
        let length_field = (HEADER_OCTETS + source_octets - LENGTH_FIELD_OFFSET) as u16;

        self.append(&(PACKET_ID | apid(self.pid, category)).to_be_bytes());
        self.append(&(SEQUENCE_FLAGS | count).to_be_bytes());
        self.append(&length_field.to_be_bytes());
        let time = self.time;
        self.append(&time);
        self.append(&[0, service, subtype, 0]);
        for part in source {
            self.append(part);
        }
    }

    /// The category of the service and its count, which advances by one.
    fn take_count(&mut self, service: u8) -> (u16, u16) {
        let (category, next) = match service {
            1 => (1, &mut self.counts.category_1),
            _ => (9, &mut self.counts.category_9),
        };
        let count = *next;
        *next = next_count(count);
        (category, count)
    }

    fn append(&mut self, octets: &[u8]) {
        let end = self.written + octets.len();
        self.output[self.written..end].copy_from_slice(octets);
        self.written = end;
    }
}
