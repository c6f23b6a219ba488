//! Packets for `explaingen`: one for each check and each way in which it fails, several faults in one packet, and packets
//! that are served. They are made for a unit of `roomy`, with its services as they are or some of them off.

use crate::blocks::MemoryRequest;
use crate::control_rows::other;
use crate::map::{Area, Flags, Profile, Rights};
use crate::random::Random;
use crate::sample::{memory_data, right_given, seal, telecommand, Fields, Span};
use crate::sample_unit::Stated;
use crate::tc::{Method, LONGEST, LONGEST_DATA, SHORTEST};

/// What a packet asks for: something of service 6, or the connection test.
pub type Request = Option<MemoryRequest>;

/// Every request.
pub const REQUESTS: [Request; 4] =
    [Some(MemoryRequest::Load), Some(MemoryRequest::Dump), Some(MemoryRequest::Check), None];
const METHODS: [Method; 2] = [Method::Iso, Method::Crc];

/// What is wrong with a packet before its data is looked at.
#[derive(Clone, Copy, Debug, PartialEq, Eq)]
pub enum Head {
    FieldLarger,
    FieldSmaller,
    Control,
    /// The field of check 16 with that detail.
    Header(u16),
    OtherPid,
    OtherCategory,
    OtherApid,
    OtherType,
    OtherSubtype,
}

/// What is wrong with the data of a packet. Blocks are counted from 1.
#[derive(Clone, Copy, Debug, PartialEq, Eq)]
pub enum Data {
    Right,
    /// Data of a connection test.
    Octets(usize),
    None,
    OneOctet,
    NoBlocks,
    TooManyBlocks,
    LeftOver,
    HeadCut(usize),
    NoWords(usize),
    Above240(usize),
    WordsCut(usize),
    /// As long as a packet can be, with a block that is wholly inside.
    Longest,
    OtherMemory,
    OtherMemoryAndNoWords,
    WithoutRight,
    WithoutRightAndNoWords,
    WithoutRightAndOutside,
    Outside(usize, Way),
    /// All blocks from that one on are outside.
    OutsideFrom(usize),
    /// The second block, behind a first of so many words.
    OutsideBehind(u16),
    /// The words of the first block spell start and length of the second, which is outside.
    SpelledBefore,
    /// The second and the third block spell the same, and are outside.
    SpelledBehind,
}

/// How a block is not wholly inside its area.
#[derive(Clone, Copy, Debug, PartialEq, Eq)]
pub enum Way {
    Before,
    Across,
    Behind,
    Above32Bits,
    /// Inside another area.
    Elsewhere,
}

/// Every way.
pub const WAYS: [Way; 5] = [Way::Before, Way::Across, Way::Behind, Way::Above32Bits, Way::Elsewhere];

/// What a packet is to be.
#[derive(Clone, Debug)]
pub enum Aim {
    Packet {
        request: Request,
        method: Method,
        head: Vec<Head>,
        data: Data,
    },
    /// So many octets, fewer than a packet has or more, with the length field that goes with them or another.
    Count {
        octets: usize,
        field_right: bool,
    },
}

/// A sound unit with every service and so many areas, at least 4: each right is lacking in one of them, one has all
/// rights and room for the longest load, one begins at address 0 and one ends at the last address.
pub fn roomy(random: &mut Random, areas: usize) -> Stated {
    let mut profile = Profile { pid: random.below(128) as u8, flags: Flags::ALL, ..Profile::default() };
    let first_id = random.octet();
    let mut first_word = random.below(3) as u32;
    for (place, area) in profile.areas.iter_mut().enumerate().take(areas) {
        let length = if place == 0 { random.between(114, 150) } else { random.between(12, 60) } as u32;
        let start = match place {
            1 => 0,
            2 => u32::MAX - length + 1,
            _ => 0x1000 * (place as u32 + 1) + random.below(0x800) as u32,
        };
        let rights = match place {
            0 => Rights::ALL,
            1 => Rights { load: false, ..Rights::ALL },
            2 => Rights { dump: false, ..Rights::ALL },
            3 => Rights { check: false, ..Rights::ALL },
            _ => random.pick(&[
                Rights::ALL,
                Rights { load: false, ..Rights::ALL },
                Rights { dump: false, ..Rights::ALL },
                Rights { check: false, ..Rights::ALL },
            ]),
        };
        *area = Area { memory_id: first_id.wrapping_add(place as u8 * 29), start, length, first_word, rights };
        first_word += length + random.below(4) as u32;
    }
    profile.area_count = areas as u8;
    random.shuffle(&mut profile.areas[..areas]);
    Stated { profile, store_octets: first_word as usize * 2, puts: Vec::new() }
}

/// Everything that a unit with all its services can be sent.
pub fn aims() -> Vec<Aim> {
    let mut aims = Vec::new();
    for octets in 0..SHORTEST {
        aims.push(Aim::Count { octets, field_right: false });
        aims.push(Aim::Count { octets, field_right: true });
    }
    for octets in [LONGEST + 1, LONGEST + 2, 255, 256, 300, 2_047, 2_048] {
        aims.extend([true, false].map(|field_right| Aim::Count { octets, field_right }));
    }
    for method in METHODS {
        for request in REQUESTS {
            aims.extend(of_head(request, method));
            aims.extend(of_data(request).into_iter().map(|data| Aim::Packet {
                request,
                method,
                head: Vec::new(),
                data,
            }));
        }
        for head in [Head::FieldLarger, Head::FieldSmaller, Head::Control] {
            let request = Some(MemoryRequest::Load);
            aims.push(Aim::Packet { request, method, head: vec![head], data: Data::Longest });
        }
    }
    aims
}

/// What a unit can be sent that does not have the request's service: data that is right, and wrong in each check, and a
/// subtype that no service has.
pub fn aims_without(request: Request) -> Vec<Aim> {
    let data = match request {
        None => vec![Data::Right, Data::Octets(1), Data::Octets(7)],
        Some(_) => vec![
            Data::Right,
            Data::None,
            Data::NoWords(2),
            Data::OtherMemory,
            Data::WithoutRight,
            Data::WithoutRightAndOutside,
            Data::Outside(1, Way::Across),
            Data::Outside(3, Way::Above32Bits),
        ],
    };
    let mut aims = Vec::new();
    for method in METHODS {
        aims.extend(data.iter().map(|data| Aim::Packet { request, method, head: Vec::new(), data: *data }));
        aims.push(Aim::Packet { request, method, head: vec![Head::OtherSubtype], data: Data::Right });
    }
    aims
}

/// Each fault before the data, alone, with each later one, and with data that is wrong in each check.
fn of_head(request: Request, method: Method) -> Vec<Aim> {
    let mut heads: Vec<Vec<Head>> = vec![Vec::new()];
    let each = [
        Head::FieldLarger,
        Head::FieldSmaller,
        Head::Control,
        Head::Header(1),
        Head::Header(2),
        Head::Header(3),
        Head::Header(4),
        Head::Header(5),
        Head::OtherPid,
        Head::OtherCategory,
        Head::OtherApid,
        Head::OtherType,
        Head::OtherSubtype,
    ];
    for (place, head) in each.into_iter().enumerate() {
        heads.push(vec![head]);
        heads.extend(each[place + 1..].iter().filter(|later| goes_with(head, **later)).map(|later| vec![head, *later]));
    }
    let packet = |head: Vec<Head>, data| Aim::Packet { request, method, head, data };
    let mut aims: Vec<_> = heads.into_iter().map(|head| packet(head, Data::Right)).collect();
    let wrong: &[Data] = match request {
        None => &[Data::Octets(2)],
        Some(_) => &[
            Data::NoBlocks,
            Data::OtherMemory,
            Data::WithoutRight,
            Data::WithoutRightAndOutside,
            Data::Outside(2, Way::Behind),
        ],
    };
    for head in [Head::FieldLarger, Head::Control, Head::Header(1), Head::Header(5), Head::OtherPid] {
        aims.extend(wrong.iter().map(|data| packet(vec![head], *data)));
    }
    aims
}

/// Whether a packet can have both faults: they are not of one field.
fn goes_with(one: Head, other: Head) -> bool {
    let field = |head| match head {
        Head::FieldLarger | Head::FieldSmaller => 0,
        Head::Control => 1,
        Head::Header(detail) => 1 + detail,
        Head::OtherPid | Head::OtherCategory | Head::OtherApid => 7,
        Head::OtherType | Head::OtherSubtype => 8,
    };
    field(one) != field(other)
}

/// Each fault of a request's data.
fn of_data(request: Request) -> Vec<Data> {
    let Some(request) = request else {
        return [1, 2, 7, 235, LONGEST_DATA].map(Data::Octets).into();
    };
    let mut data = vec![Data::None, Data::OneOctet, Data::NoBlocks, Data::TooManyBlocks, Data::LeftOver];
    for block in 1..=8 {
        data.extend([Data::HeadCut(block), Data::NoWords(block)]);
        match request {
            MemoryRequest::Load => data.push(Data::WordsCut(block)),
            MemoryRequest::Dump => data.push(Data::Above240(block)),
            MemoryRequest::Check => (),
        }
    }
    data.extend([Data::OtherMemory, Data::OtherMemoryAndNoWords]);
    data.extend([Data::WithoutRight, Data::WithoutRightAndNoWords, Data::WithoutRightAndOutside]);
    for block in 1..=8 {
        data.extend(WAYS.map(|way| Data::Outside(block, way)));
        data.push(Data::OutsideFrom(block));
    }
    data.push(Data::SpelledBehind);
    if request == MemoryRequest::Load {
        data.extend([1, 2, 40, 41, 95, 107].map(Data::OutsideBehind));
        data.extend([Data::SpelledBefore, Data::Longest]);
    }
    data
}

/// The packet of an aim for a unit of `roomy`.
pub fn packet(random: &mut Random, profile: &Profile, aim: &Aim) -> Vec<u8> {
    match aim {
        Aim::Count { octets, field_right } => counted(random, profile, *octets, *field_right),
        Aim::Packet { request, method, head, data } => {
            let (service, subtype) = match request {
                Some(request) => (6, request.subtype()),
                None => (17, 1),
            };
            let data = data_of(random, profile, *request, *data);
            let mut fields = telecommand(random, profile, service, subtype, data);
            fields.version_and_ack = fields.version_and_ack & 0x0F | method.flag() << 4;
            for head in head {
                spoil_fields(random, &mut fields, *head);
            }
            let mut octets = fields.octets();
            for head in head {
                spoil_octets(random, &mut octets, *head);
            }
            octets
        }
    }
}

/// A load whose block is outside of the area at that place, or a dump or check where it lacks that right.
pub fn outside_of(random: &mut Random, profile: &Profile, place: usize) -> Vec<u8> {
    let area = profile.used_areas()[place];
    let able: Vec<_> = MemoryRequest::ALL.into_iter().filter(|request| right_given(&area, *request)).collect();
    let request = random.pick(&able);
    let mut spans = inside(random, &area, 3);
    spans[1] = (area.start.wrapping_add(area.length), 1);
    let data = memory_data(random, request, area.memory_id, &spans);
    telecommand(random, profile, 6, request.subtype(), data).octets()
}

/// Octets of a packet that are too few or too many.
fn counted(random: &mut Random, profile: &Profile, octets: usize, field_right: bool) -> Vec<u8> {
    let data = random.octets(octets.saturating_sub(SHORTEST));
    let mut packet = telecommand(random, profile, 17, 1, data).octets();
    packet.truncate(octets);
    if let [_, _, _, _, upper, lower, ..] = packet.as_mut_slice() {
        let right = (octets as u16).wrapping_sub(7);
        let wrong = right.wrapping_add(random.pick(&[1, 2, 7, 0x0100, 0xFFFF]));
        [*upper, *lower] = if field_right { right } else { wrong }.to_be_bytes();
    }
    // Of fewer octets the last two reach into the length field.
    if octets >= 8 {
        seal(&mut packet);
    }
    packet
}

/// Makes fields wrong; the error control is made afterwards.
fn spoil_fields(random: &mut Random, fields: &mut Fields, head: Head) {
    match head {
        Head::Header(1) => fields.packet_id ^= random.between(1, 7) as u16 * 0x2000,
        Head::Header(2) => fields.packet_id &= !0x1000,
        Head::Header(3) => fields.packet_id &= !0x0800,
        Head::Header(4) => fields.sequence &= random.pick(&[0x3FFF, 0x7FFF, 0xBFFF]),
        Head::Header(_) => fields.version_and_ack |= random.between(1, 7) as u8 * 0x20,
        Head::OtherPid => fields.packet_id ^= random.between(1, 127) as u16 * 16,
        Head::OtherCategory => fields.packet_id ^= random.between(1, 15) as u16,
        Head::OtherApid => fields.packet_id ^= (random.between(1, 127) * 16 + random.between(1, 15)) as u16,
        Head::OtherType => fields.service = random.pick(&[0, 1, 5, 7, 9, 16, 18, 70, 145, 255]),
        Head::OtherSubtype if fields.service == 6 => fields.subtype = random.pick(&[0, 1, 3, 4, 6, 8, 10, 130, 255]),
        Head::OtherSubtype => fields.subtype = random.pick(&[0, 2, 5, 9, 129, 255]),
        Head::FieldLarger | Head::FieldSmaller | Head::Control => (),
    }
}

/// Makes the length field wrong, with the error control that is right then, or the error control.
fn spoil_octets(random: &mut Random, octets: &mut [u8], head: Head) {
    let right = (octets.len() - 7) as u16;
    let field = match head {
        Head::FieldLarger => right + random.pick(&[1, 1, 2, 7, 256, 65_000]),
        Head::FieldSmaller => right - random.between(1, right.min(6).into()) as u16,
        Head::Control => return spoil_control(random, octets),
        _ => return,
    };
    octets[4..6].copy_from_slice(&field.to_be_bytes());
    seal(octets);
}

/// The other method's value, an octet that is off, or both exchanged; what is right is not sent.
fn spoil_control(random: &mut Random, octets: &mut [u8]) {
    if let Some((body, sent)) = octets.split_last_chunk_mut::<2>() {
        let right = *sent;
        let method = if body[6] & 0x10 == 0 { Method::Iso } else { Method::Crc };
        let off = random.between(1, 255) as u8;
        *sent = match random.below(4) {
            0 => other(method).value(body).to_be_bytes(),
            1 => [right[0] ^ off, right[1]],
            2 => [right[0], right[1] ^ off],
            _ => [right[1], right[0]],
        };
        if *sent == right {
            sent[1] ^= off;
        }
    }
}

/// The data of a packet.
fn data_of(random: &mut Random, profile: &Profile, request: Request, data: Data) -> Vec<u8> {
    let Some(request) = request else {
        return match data {
            Data::Octets(count) => random.octets(count),
            _ => Vec::new(),
        };
    };
    let area = an_area(random, profile, request, data);
    let (memory_id, n) = (area.memory_id, block_count(random, data));
    let mut spans = inside(random, &area, n);
    match data {
        Data::None => return Vec::new(),
        Data::OneOctet => return vec![memory_id],
        Data::Longest => spans = vec![(area.start, 114)],
        Data::NoWords(block) => spans[block - 1].1 = 0,
        Data::OtherMemoryAndNoWords | Data::WithoutRightAndNoWords => spans[0].1 = 0,
        Data::Above240(block) => spans[block - 1].1 = random.pick(&[241, 242, 255, 256, 65_535]),
        Data::Outside(block, way) => spans[block - 1] = outside(random, profile, &area, way),
        Data::OutsideFrom(block) => {
            for span in &mut spans[block - 1..] {
                *span = outside(random, profile, &area, Way::Across);
            }
        }
        Data::WithoutRightAndOutside => spans[0] = outside(random, profile, &area, Way::Across),
        Data::OutsideBehind(words) => {
            spans = vec![(area.start, words), outside(random, profile, &area, Way::Across)];
        }
        Data::SpelledBehind => {
            let span = outside(random, profile, &area, Way::Above32Bits);
            spans.truncate(1);
            spans.extend([span, span]);
        }
        _ => (),
    }
    let mut octets = memory_data(random, request, memory_id, &spans);
    match data {
        Data::NoBlocks => octets[1] = 0,
        Data::TooManyBlocks => octets[1] = random.pick(&[9, 10, 16, 128, 255]),
        Data::LeftOver => {
            let count = random.pick(&[1, 1, 2, 6, 8]);
            octets.extend(random.octets(count));
        }
        Data::HeadCut(block) => {
            let before = memory_data(random, request, memory_id, &spans[..block - 1]).len();
            octets.truncate(before + random.below(6) as usize);
        }
        Data::WordsCut(block) => {
            let through = memory_data(random, request, memory_id, &spans[..block]).len();
            octets.truncate(through - random.between(1, u64::from(spans[block - 1].1) * 2) as usize);
        }
        Data::OtherMemory | Data::OtherMemoryAndNoWords => octets[0] = unknown_memory(random, profile),
        Data::SpelledBefore => return spelled_before(random, profile, &area),
        _ => (),
    }
    octets
}

/// An area that the data can be about.
fn an_area(random: &mut Random, profile: &Profile, request: MemoryRequest, data: Data) -> Area {
    let right = !matches!(data, Data::WithoutRight | Data::WithoutRightAndNoWords | Data::WithoutRightAndOutside);
    let will_do = |area: &&Area| {
        let end = u64::from(area.start) + u64::from(area.length);
        right_given(area, request) == right
            && match data {
                Data::Outside(_, Way::Before) => area.start > 0,
                Data::Outside(_, Way::Behind) => end < 1 << 32,
                Data::Longest | Data::OutsideBehind(_) => area.length >= 114,
                _ => true,
            }
    };
    let able: Vec<Area> = profile.used_areas().iter().filter(will_do).copied().collect();
    if able.is_empty() {
        return Area { length: 12, ..Area::default() };
    }
    random.pick(&able)
}

/// How many blocks a packet has: as many as its fault needs, and often more.
fn block_count(random: &mut Random, data: Data) -> usize {
    let needed = match data {
        Data::HeadCut(block) | Data::NoWords(block) | Data::Above240(block) | Data::WordsCut(block) => block,
        Data::Outside(block, _) | Data::OutsideFrom(block) => block,
        _ => 1,
    };
    if random.once_in(3) {
        return needed;
    }
    random.between(needed as u64, 8) as usize
}

/// So many blocks inside the area, each with another number of words than the one before it, and none with one alone
/// where the area has more.
fn inside(random: &mut Random, area: &Area, n: usize) -> Vec<Span> {
    let turn = random.below(9) as usize;
    let mut spans = Vec::with_capacity(n);
    for place in 0..n {
        let length = (2 + (turn + 3 * place) % 9).min(area.length as usize) as u32;
        let latest = area.length - length;
        let later_by = random.between(0, latest.into()) as u32;
        let later_by = random.pick(&[0, latest, later_by]);
        spans.push((area.start + later_by, length as u16));
    }
    spans
}

/// A block of at most three words that is not wholly inside the area.
fn outside(random: &mut Random, profile: &Profile, area: &Area, way: Way) -> Span {
    let last = area.start.wrapping_add(area.length - 1);
    match way {
        Way::Before => (area.start.wrapping_sub(1), random.between(1, 3) as u16),
        Way::Across => (last, random.between(2, 3) as u16),
        Way::Behind => (last.wrapping_add(1), random.between(1, 3) as u16),
        Way::Above32Bits => (u32::MAX, random.between(2, 3) as u16),
        Way::Elsewhere => {
            let others: Vec<Area> =
                profile.used_areas().iter().filter(|other| other.memory_id != area.memory_id).copied().collect();
            let other = if others.is_empty() { Area::default() } else { random.pick(&others) };
            (other.start, random.between(1, 3) as u16)
        }
    }
}

/// A load of two blocks: the words of the first have start and length of the second in them.
fn spelled_before(random: &mut Random, profile: &Profile, area: &Area) -> Vec<u8> {
    let (start, length) = outside(random, profile, area, Way::Across);
    let head = [&start.to_be_bytes()[..], &length.to_be_bytes()].concat();
    let before = random.below(3) as usize;
    let mut words = random.octets(before);
    words.extend(&head);
    words.push(random.octet());
    words.truncate(words.len() / 2 * 2);
    let mut data = vec![area.memory_id, 2];
    data.extend(area.start.to_be_bytes());
    data.extend((words.len() as u16 / 2).to_be_bytes());
    data.extend(words);
    data.extend(head);
    data.extend(random.octets(usize::from(length) * 2));
    data
}

/// A memory ID that no area has.
fn unknown_memory(random: &mut Random, profile: &Profile) -> u8 {
    let mut memory_id = random.octet();
    while profile.area_with_id(memory_id).is_some() {
        memory_id = memory_id.wrapping_add(1);
    }
    memory_id
}
