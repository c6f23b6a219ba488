//! Packets for the generators: telecommands made for a given profile, one kind for each way
//! the terminal can answer. A kind aims at its answer; now and then it gets another.

use crate::blocks::MemoryRequest;
use crate::map::{Area, Profile};
use crate::random::Random;
use crate::tc::Method;

/// The checksum flag in its octet.
const CHECKSUM_FLAG: u8 = 0x10;

/// A telecommand with every field free; length field and error control are right.
#[derive(Clone)]
pub(crate) struct Fields {
    pub(crate) packet_id: u16,
    pub(crate) sequence: u16,
    pub(crate) version_and_ack: u8,
    pub(crate) service: u8,
    pub(crate) subtype: u8,
    pad: u8,
    data: Vec<u8>,
}

/// Start and length of a block.
pub(crate) type Span = (u32, u16);

/// A packet of any kind; about half are served by a sound profile.
pub fn packet(random: &mut Random, profile: &Profile) -> Vec<u8> {
    match random.below(100) {
        0..=49 => served(random, profile).octets(),
        50..=52 => unknown_memory(random, profile).octets(),
        53..=55 => without_right(random, profile).octets(),
        56..=63 => outside(random, profile).octets(),
        64..=73 => not_well_formed(random, profile).octets(),
        74..=76 => other_subtype(random, profile).octets(),
        77..=78 => other_type(random, profile).octets(),
        79..=80 => other_apid(random, profile).octets(),
        81..=83 => other_header(random, profile).octets(),
        84..=87 => damaged(random, profile),
        88..=90 => other_length_field(random, profile),
        91..=93 => edge_length(random, profile),
        94..=95 => cut_or_extended(random, profile),
        96 => random_octets(random),
        _ => one_octet_replaced(random, profile),
    }
}

/// A packet far too long, with the length field that fits it if there is one.
pub fn long_packet(random: &mut Random, profile: &Profile, octets: usize) -> Vec<u8> {
    let data = random.octets(octets.saturating_sub(12));
    telecommand(random, profile, 6, 2, data).octets()
}

/// The longest answer: a dump of eight blocks of 240 words (or all there are) with both reports.
pub fn longest_dump(random: &mut Random, profile: &Profile) -> Vec<u8> {
    let areas = profile.used_areas();
    let able = areas.iter().filter(|area| area.rights.dump).max_by_key(|area| area.length);
    let area = able.copied().unwrap_or_default();
    let length = area.length.clamp(1, 240);
    let spans: Vec<Span> = (0..8)
        .map(|_| {
            (
                area.start.wrapping_add(random.below(u64::from(area.length - length.min(area.length)) + 1) as u32),
                length as u16,
            )
        })
        .collect();
    let data = memory_data(random, MemoryRequest::Dump, area.memory_id, &spans);
    let mut fields = telecommand(random, profile, 6, 5, data);
    fields.version_and_ack = fields.version_and_ack & CHECKSUM_FLAG | 0x09;
    fields.octets()
}

/// A load and a check of a block of so many words, at least 1,024, of the first area, which has as many and both
/// rights. The load leaves no zero octet at the block's ends and in its middle.
pub fn loaded_and_checked(random: &mut Random, profile: &Profile, words: u16) -> [Vec<u8>; 2] {
    let area = profile.areas[0];
    let start = area.start + random.between(0, u64::from(area.length) - u64::from(words)) as u32;
    let few = random.between(1, longest_of(MemoryRequest::Load, 3)) as u16;
    let mut loaded = vec![area.memory_id, 3];
    for later_by in [0, words / 2, words - few] {
        loaded.extend_from_slice(&(start + u32::from(later_by)).to_be_bytes());
        loaded.extend_from_slice(&few.to_be_bytes());
        loaded.extend((0..few * 2).map(|_| random.between(1, 255) as u8));
    }
    let checked = memory_data(random, MemoryRequest::Check, area.memory_id, &[(start, words)]);
    [(MemoryRequest::Load, loaded), (MemoryRequest::Check, checked)]
        .map(|(request, data)| telecommand(random, profile, 6, request.subtype(), data).octets())
}

/// A short packet with that method, its error control right: one block of at most three words, or the connection test
/// where no request is given. It is served where the profile has the flag and an area with the right.
pub fn short(random: &mut Random, profile: &Profile, request: Option<MemoryRequest>, method: Method) -> Vec<u8> {
    let mut fields = match request {
        None => telecommand(random, profile, 17, 1, Vec::new()),
        Some(request) => {
            let areas = profile.used_areas().iter().filter(|area| right_given(area, request));
            let able: Vec<Area> = areas.copied().collect();
            let area = if able.is_empty() { Area::default() } else { random.pick(&able) };
            let length = random.between(1, u64::from(area.length.clamp(1, 3)));
            let latest = u64::from(area.length).saturating_sub(length);
            let start = area.start.wrapping_add(random.between(0, latest) as u32);
            let data = memory_data(random, request, area.memory_id, &[(start, length as u16)]);
            telecommand(random, profile, 6, request.subtype(), data)
        }
    };
    let flag = if method == Method::Crc { CHECKSUM_FLAG } else { 0 };
    fields.version_and_ack = fields.version_and_ack & !CHECKSUM_FLAG | flag;
    fields.octets()
}

impl Fields {
    pub(crate) fn octets(&self) -> Vec<u8> {
        let total = self.data.len() + 12;
        let mut octets = Vec::with_capacity(total);
        octets.extend_from_slice(&self.packet_id.to_be_bytes());
        octets.extend_from_slice(&self.sequence.to_be_bytes());
        octets.extend_from_slice(&((total - 7) as u16).to_be_bytes());
        octets.extend_from_slice(&[self.version_and_ack, self.service, self.subtype, self.pad]);
        octets.extend_from_slice(&self.data);
        octets.extend_from_slice(&[0, 0]);
        seal(&mut octets);
        octets
    }
}

/// Makes the error control right by the method that the flag selects.
pub(crate) fn seal(octets: &mut [u8]) {
    if let Some((body, error_control)) = octets.split_last_chunk_mut::<2>() {
        let flagged = body.get(6).is_some_and(|octet| octet & CHECKSUM_FLAG != 0);
        let method = if flagged { Method::Crc } else { Method::Iso };
        *error_control = method.value(body).to_be_bytes();
    }
}

pub(crate) fn telecommand(random: &mut Random, profile: &Profile, service: u8, subtype: u8, data: Vec<u8>) -> Fields {
    let ack = random.below(16) as u8;
    let checksum_flag = random.pick(&[0, CHECKSUM_FLAG]);
    Fields {
        packet_id: 0x1800 | (u16::from(profile.pid & 0x7F) * 16 + 12),
        sequence: 0xC000 | random.below(0x4000) as u16,
        version_and_ack: checksum_flag | ack,
        service,
        subtype,
        pad: if random.once_in(8) { random.octet() } else { 0 },
        data,
    }
}

/// Data of service 6 with random words for a load.
pub(crate) fn memory_data(random: &mut Random, request: MemoryRequest, memory_id: u8, spans: &[Span]) -> Vec<u8> {
    let mut data = vec![memory_id, spans.len() as u8];
    for (start, length) in spans {
        data.extend_from_slice(&start.to_be_bytes());
        data.extend_from_slice(&length.to_be_bytes());
        if request == MemoryRequest::Load {
            data.extend(random.octets(usize::from(*length) * 2));
        }
    }
    data
}

fn flag_on(profile: &Profile, request: MemoryRequest) -> bool {
    match request {
        MemoryRequest::Load => profile.flags.load,
        MemoryRequest::Dump => profile.flags.dump,
        MemoryRequest::Check => profile.flags.check,
    }
}

pub(crate) fn right_given(area: &Area, request: MemoryRequest) -> bool {
    match request {
        MemoryRequest::Load => area.rights.load,
        MemoryRequest::Dump => area.rights.dump,
        MemoryRequest::Check => area.rights.check,
    }
}

/// A request whose flag is on, if there is one.
fn request_on(random: &mut Random, profile: &Profile) -> MemoryRequest {
    let on: Vec<_> = MemoryRequest::ALL.into_iter().filter(|request| flag_on(profile, *request)).collect();
    if on.is_empty() {
        random.pick(&MemoryRequest::ALL)
    } else {
        random.pick(&on)
    }
}

/// An area and a request that it has (or lacks) the right for, while the request's flag is on.
fn area_and_request(random: &mut Random, profile: &Profile, right: bool) -> Option<(Area, MemoryRequest)> {
    let mut found = Vec::new();
    for request in MemoryRequest::ALL {
        for area in profile.used_areas() {
            if flag_on(profile, request) && right_given(area, request) == right {
                found.push((*area, request));
            }
        }
    }
    (!found.is_empty()).then(|| random.pick(&found))
}

/// The longest block that lets n of them fit into one packet.
fn longest_of(request: MemoryRequest, n: usize) -> u64 {
    match request {
        MemoryRequest::Load => ((234 - 6 * n) / 2 / n) as u64,
        MemoryRequest::Dump => 240,
        MemoryRequest::Check => 65_535,
    }
}

fn inside_spans(random: &mut Random, request: MemoryRequest, area: &Area, n: usize) -> Vec<Span> {
    let longest = longest_of(request, n).min(u64::from(area.length)).max(1);
    let mut spans = Vec::with_capacity(n);
    for _ in 0..n {
        let length = match random.below(6) {
            0 => longest,
            1 => 1,
            _ => random.between(1, longest.min(20)),
        };
        let latest = u64::from(area.length).saturating_sub(length);
        let later_by = match random.below(6) {
            0 => 0,
            1 => latest,
            2 => latest.min(2),
            _ => random.between(0, latest),
        };
        spans.push((area.start.wrapping_add(later_by as u32), length as u16));
    }
    spans
}

/// 1 to 8 blocks, often one.
fn block_count(random: &mut Random) -> usize {
    match random.below(4) {
        0 => 1,
        _ => random.between(1, 8) as usize,
    }
}

fn served(random: &mut Random, profile: &Profile) -> Fields {
    let connection = profile.flags.connection && random.once_in(6);
    match area_and_request(random, profile, true) {
        Some((area, request)) if !connection => {
            let n = block_count(random);
            let spans = inside_spans(random, request, &area, n);
            let data = memory_data(random, request, area.memory_id, &spans);
            telecommand(random, profile, 6, request.subtype(), data)
        }
        _ => telecommand(random, profile, 17, 1, Vec::new()),
    }
}

fn unknown_memory(random: &mut Random, profile: &Profile) -> Fields {
    let request = request_on(random, profile);
    let used = profile.used_areas();
    let mut memory_id = random.octet();
    while used.iter().any(|area| area.memory_id == memory_id) {
        memory_id = memory_id.wrapping_add(1);
    }
    let area = used.first().copied().unwrap_or_default();
    let n = block_count(random);
    let spans = inside_spans(random, request, &area, n);
    let data = memory_data(random, request, memory_id, &spans);
    telecommand(random, profile, 6, request.subtype(), data)
}

fn without_right(random: &mut Random, profile: &Profile) -> Fields {
    let Some((area, request)) = area_and_request(random, profile, false) else {
        return outside(random, profile);
    };
    let n = block_count(random);
    let mut spans = inside_spans(random, request, &area, n);
    if random.once_in(2) {
        spans[0] = outside_span(random, &area);
    }
    let data = memory_data(random, request, area.memory_id, &spans);
    telecommand(random, profile, 6, request.subtype(), data)
}

/// One or two of the blocks lie outside, each block as likely as the others.
fn outside(random: &mut Random, profile: &Profile) -> Fields {
    let Some((area, request)) = area_and_request(random, profile, true) else {
        return unknown_memory(random, profile);
    };
    let n = if random.once_in(3) { 8 } else { random.between(1, 8) as usize };
    let mut spans = inside_spans(random, request, &area, n);
    for _ in 0..random.between(1, 2) {
        let place = random.below(n as u64) as usize;
        spans[place] = outside_span(random, &area);
    }
    let data = memory_data(random, request, area.memory_id, &spans);
    telecommand(random, profile, 6, request.subtype(), data)
}

/// A short block that is not wholly inside: it crosses an edge, touches it or is far off.
fn outside_span(random: &mut Random, area: &Area) -> Span {
    let end = area.start.wrapping_add(area.length);
    match random.below(9) {
        0 => (area.start.wrapping_sub(1), 1),
        1 => (area.start.wrapping_sub(1), 2),
        2 => (end, 1),
        3 => (end.wrapping_sub(1), 2),
        4 => (end.wrapping_sub(2), 3),
        5 => (0xFFFF_FFFF, 1),
        6 => (0xFFFF_FFFF, 2),
        7 => (area.start.wrapping_add(0x8000_0000), 1),
        _ => (random.any() as u32, random.between(1, 8) as u16),
    }
}

fn not_well_formed(random: &mut Random, profile: &Profile) -> Fields {
    if profile.flags.connection && random.once_in(12) {
        let count = random.pick(&[1, 2, 6, 8, 235, 236]);
        let data = random.octets(count);
        return telecommand(random, profile, 17, 1, data);
    }
    let request = request_on(random, profile);
    let area = match profile.used_areas() {
        [] => Area { memory_id: 1, start: 0x1000, length: 8, ..Area::default() },
        used => random.pick(used),
    };
    let n = random.between(1, 8) as usize;
    let mut spans = inside_spans(random, request, &area, n);
    let number = random.below(n as u64) as usize;
    let mut data = memory_data(random, request, area.memory_id, &spans);
    match random.below(10) {
        0 => data.truncate(random.below(2) as usize),
        1 => data[1] = 0,
        2 => data[1] = random.pick(&[9, 10, 16, 128, 255]),
        3 | 4 => {
            let before = memory_data(random, request, area.memory_id, &spans[..number]).len();
            data.truncate(before + random.below(6) as usize);
        }
        5 => {
            spans[number].1 = 0;
            data = memory_data(random, request, area.memory_id, &spans);
        }
        6 => match request {
            MemoryRequest::Dump => {
                spans[number].1 = random.pick(&[241, 242, 255, 256, 65_535]);
                data = memory_data(random, request, area.memory_id, &spans);
            }
            MemoryRequest::Load => {
                let through = memory_data(random, request, area.memory_id, &spans[..=number]).len();
                data.truncate(through - random.between(1, u64::from(spans[number].1) * 2) as usize);
            }
            MemoryRequest::Check => data.truncate(data.len() - 1),
        },
        7 if n < 8 => data[1] += 1,
        8 => {
            spans[number].1 = 0;
            spans[n - 1].1 = 0;
            data = memory_data(random, request, area.memory_id, &spans);
            data.truncate(data.len() - 1);
        }
        _ => {
            let room = 236 - data.len().min(235);
            let count = random.pick(&[1, 1, 2, 6, 8]).min(room);
            data.extend(random.octets(count));
        }
    }
    data.truncate(236);
    telecommand(random, profile, 6, request.subtype(), data)
}

fn other_subtype(random: &mut Random, profile: &Profile) -> Fields {
    let mut fields = served(random, profile);
    if random.once_in(4) {
        fields.service = 17;
        fields.subtype = random.pick(&[0, 2, 3, 5, 9, 128, 255]);
    } else {
        fields.service = 6;
        fields.subtype = random.pick(&[0, 1, 2, 3, 4, 5, 6, 8, 9, 10, 11, 12, 255]);
    }
    fields
}

fn other_type(random: &mut Random, profile: &Profile) -> Fields {
    let mut fields = served(random, profile);
    fields.service = random.pick(&[0, 1, 5, 7, 9, 16, 17, 18, 22, 38, 70, 134, 145, 255]);
    fields
}

fn other_apid(random: &mut Random, profile: &Profile) -> Fields {
    let mut fields = served(random, profile);
    let apid = fields.packet_id & 0x07FF;
    let other = match random.below(5) {
        0 => apid ^ 0x10,
        1 => apid & 0x07F0 | random.below(12) as u16,
        2 => apid & 0x07F0 | random.between(13, 15) as u16,
        3 => apid ^ (1 << random.below(11)),
        _ => random.below(0x800) as u16,
    };
    fields.packet_id = fields.packet_id & 0xF800 | other;
    fields
}

/// One or more of the five fields of check 16 are wrong.
fn other_header(random: &mut Random, profile: &Profile) -> Fields {
    let mut fields = served(random, profile);
    for _ in 0..random.between(1, 3) {
        match random.below(5) {
            0 => fields.packet_id ^= random.between(1, 7) as u16 * 0x2000,
            1 => fields.packet_id &= !0x1000,
            2 => fields.packet_id &= !0x0800,
            3 => fields.sequence &= random.pick(&[0x3FFF, 0x7FFF, 0xBFFF]),
            _ => fields.version_and_ack |= random.between(1, 7) as u8 * 0x20,
        }
    }
    if random.once_in(4) {
        fields.packet_id ^= 0x0010;
    }
    fields
}

/// Bits or octets changed after the error control was made, or the error control itself.
fn damaged(random: &mut Random, profile: &Profile) -> Vec<u8> {
    let mut octets = served(random, profile).octets();
    let last = octets.len() - 1;
    let place = random.below(octets.len() as u64) as usize;
    match random.below(6) {
        0 | 1 => octets[place] ^= 1 << random.below(8),
        2 => octets[place] = random.octet(),
        3 => octets[last] ^= random.between(1, 255) as u8,
        4 => octets[last - 1] ^= random.between(1, 255) as u8,
        _ => octets.swap(last - 1, last),
    }
    octets
}

fn other_length_field(random: &mut Random, profile: &Profile) -> Vec<u8> {
    let mut octets = served(random, profile).octets();
    let right = (octets.len() - 7) as u16;
    let wrong = match random.below(6) {
        0 => right + 1,
        1 => right - 1,
        2 => right + 7,
        3 => random.pick(&[0, 5, 241, 242, 65_535]),
        4 => right | 0x0100,
        _ => random.any() as u16,
    };
    octets[4..6].copy_from_slice(&wrong.to_be_bytes());
    seal(&mut octets);
    octets
}

/// A packet of a length at an edge, otherwise as good as it can be.
fn edge_length(random: &mut Random, profile: &Profile) -> Vec<u8> {
    let length = random.pick(&[0, 1, 2, 3, 4, 5, 6, 7, 10, 11, 12, 13, 14, 246, 247, 248, 249, 250, 251, 256, 300]);
    if length >= 12 {
        let mut data = random.octets(length - 12);
        let area = profile.used_areas().first().copied().unwrap_or_default();
        if let [id, n, a, b, c, d, upper, lower, words @ ..] = data.as_mut_slice() {
            let [start_a, start_b, start_c, start_d] = area.start.to_be_bytes();
            [*id, *n, *a, *b, *c, *d] = [area.memory_id, 1, start_a, start_b, start_c, start_d];
            [*upper, *lower] = ((words.len() / 2) as u16).to_be_bytes();
        }
        return telecommand(random, profile, 6, 2, data).octets();
    }
    let mut octets = served(random, profile).octets();
    octets.truncate(length);
    if let [_, _, _, _, upper, lower, ..] = octets.as_mut_slice() {
        [*upper, *lower] = (length as u16).wrapping_sub(7).to_be_bytes();
    }
    octets
}

fn cut_or_extended(random: &mut Random, profile: &Profile) -> Vec<u8> {
    let mut octets = served(random, profile).octets();
    if random.once_in(3) {
        let count = random.between(1, 12) as usize;
        octets.extend(random.octets(count));
    } else {
        octets.truncate(random.below(octets.len() as u64) as usize);
    }
    octets
}

fn random_octets(random: &mut Random) -> Vec<u8> {
    let count = random.below(260) as usize;
    random.octets(count)
}

/// Any octet of a served packet replaced, and the error control made right again.
fn one_octet_replaced(random: &mut Random, profile: &Profile) -> Vec<u8> {
    let mut octets = served(random, profile).octets();
    let place = random.below(octets.len() as u64) as usize;
    octets[place] = random.octet();
    seal(&mut octets);
    octets
}
