//! Why a packet is refused, each cause on its own, for the tally of `explain`: the fields are taken from the octets as they
//! stand, and no check waits for another one where it can be asked without. Error control is worked out another way than
//! the reader's.

use crate::control_rows::{method, right_value};
use crate::map::{Area, Profile};
use crate::refusal;

/// A cause: the number of its check, the detail that is told with it, and which way of failing it is.
#[derive(Clone, Debug, PartialEq, Eq)]
pub struct Cause {
    pub number: u8,
    pub detail: u16,
    pub words: String,
}

/// A block of data that is well formed: where it begins in the packet, its start and its length.
#[derive(Clone, Copy, Debug, PartialEq, Eq)]
pub struct Found {
    pub begin: usize,
    pub start: u64,
    pub length: u64,
}

/// Octets of a packet.
const SHORTEST: usize = 12;
const LONGEST: usize = 248;
/// The application data begins there.
const DATA: usize = 10;

/// Everything that is wrong with a packet for that profile, in checking order.
pub fn causes(profile: &Profile, packet: &[u8]) -> Vec<Cause> {
    if packet.len() < 6 {
        return vec![cause(refusal::FEWER_THAN_SIX, 0, format!("{} octets", packet.len()))];
    }
    let mut causes: Vec<_> = count(packet).into_iter().collect();
    if packet.len() < SHORTEST {
        return causes;
    }
    causes.extend(control(packet));
    causes.extend(header(packet));
    causes.extend(apid(profile, packet));
    causes.extend(service(profile, packet));
    let Some(request) = request(packet) else {
        return causes;
    };
    let blocks = blocks(packet);
    if let Err(data) = &blocks {
        causes.push(data.clone());
    }
    // The memory ID is there as soon as there is data.
    if let (6, [memory_id, .., _, _]) = (packet[7], &packet[DATA..]) {
        causes.extend(memory(profile, *memory_id, &request, &blocks.unwrap_or_default()));
    }
    causes
}

/// The blocks of a packet of service 6, or what is wrong with its data; of a connection test there are none.
pub fn blocks(packet: &[u8]) -> Result<Vec<Found>, Cause> {
    let end = packet.len() - 2;
    let request = request(packet).unwrap_or_default();
    let bad = |detail: usize, words: &str| Err(cause(refusal::DATA, detail as u16, format!("{request} {words}")));
    if packet[7] == 17 {
        return match end - DATA {
            0 => Ok(Vec::new()),
            1 => bad(0, "one octet"),
            236 => bad(0, "236 octets"),
            _ => bad(0, "octets"),
        };
    }
    let n = match &packet[DATA..end] {
        [] => return bad(0, "no data"),
        [_] => return bad(0, "one octet"),
        [_, 0, ..] => return bad(0, "N is 0"),
        [_, 9..=255, ..] => return bad(0, "N is above 8"),
        [_, n, ..] => usize::from(*n),
    };
    let mut found = Vec::new();
    let mut begin = DATA + 2;
    for number in 1..=n {
        if end - begin < 6 {
            return bad(number, &format!("block {number} is cut off"));
        }
        let start = packet[begin..begin + 4].iter().fold(0, |value, octet| value * 256 + u64::from(*octet));
        let length = packet[begin + 4..begin + 6].iter().fold(0, |value, octet| value * 256 + u64::from(*octet));
        let words = if packet[8] == 2 { 2 * length as usize } else { 0 };
        if length == 0 {
            return bad(number, &format!("block {number} has no words"));
        }
        if packet[8] == 5 && length > 240 {
            return bad(number, &format!("block {number} has more than 240 words"));
        }
        if end - begin - 6 < words {
            return bad(number, &format!("block {number} lacks words"));
        }
        found.push(Found { begin, start, length });
        begin += 6 + words;
    }
    match begin < end {
        true => bad(0, "octets left over"),
        false => Ok(found),
    }
}

/// Whether a block lies outside of the area, at least in part.
pub fn is_outside(area: &Area, block: &Found) -> bool {
    let first = u64::from(area.start);
    let last = first + u64::from(area.length) - 1;
    (block.start..block.start + block.length).any(|address| address < first || address > last)
}

fn cause(number: u8, detail: u16, words: impl Into<String>) -> Cause {
    Cause { number, detail, words: words.into() }
}

/// Check 1.
fn count(packet: &[u8]) -> Option<Cause> {
    let received = packet.len();
    let announced = usize::from(packet[4]) * 256 + usize::from(packet[5]) + 7;
    let words = match (received, announced) {
        (..SHORTEST, _) if announced == received => "fewer than 12 octets, and the length field says so",
        (..SHORTEST, _) => "fewer than 12 octets, and the length field says another number",
        (SHORTEST..=LONGEST, _) if announced == received => return None,
        (SHORTEST..=LONGEST, _) if announced > received => "the length field says more",
        (SHORTEST..=LONGEST, _) => "the length field says fewer",
        _ if announced == received => "more than 248 octets, and the length field says so",
        _ => "more than 248 octets, and the length field says another number",
    };
    Some(cause(refusal::RECEIVED_COUNT, received.min(65_535) as u16, words))
}

/// Check 2.
fn control(packet: &[u8]) -> Option<Cause> {
    let (body, sent) = packet.split_at(packet.len() - 2);
    let method = method(packet)?;
    let right = right_value(method, body);
    (sent != right.to_be_bytes()).then(|| cause(refusal::ERROR_CONTROL, right, format!("flag {}", method.flag())))
}

/// Check 16: every field that is wrong.
fn header(packet: &[u8]) -> Vec<Cause> {
    let bits = [packet[0], packet[0], packet[0], packet[2], packet[6]];
    let right = [(0xE0, 0x00), (0x10, 0x10), (0x08, 0x08), (0xC0, 0xC0), (0xE0, 0x00)];
    let wrong = (1..).zip(bits).zip(right).filter(|((_, octet), (mask, right))| octet & mask != *right);
    wrong.map(|((detail, _), _)| cause(refusal::HEADER, detail, format!("detail {detail}"))).collect()
}

/// Check 0.
fn apid(profile: &Profile, packet: &[u8]) -> Option<Cause> {
    let (pid, category) = (packet[0] % 8 * 16 + packet[1] / 16, packet[1] % 16);
    let words = match (pid == profile.pid, category == 12) {
        (true, true) => return None,
        (false, true) => "the PID",
        (true, false) => "the category",
        (false, false) => "PID and category",
    };
    Some(cause(refusal::APID, u16::from(pid) * 16 + u16::from(category), words))
}

/// Checks 3 and 4: 4 has a meaning only where the type is offered.
fn service(profile: &Profile, packet: &[u8]) -> Option<Cause> {
    let flags = profile.flags;
    let offered: Vec<(u8, u8)> =
        [(6, 2, flags.load), (6, 5, flags.dump), (6, 9, flags.check), (17, 1, flags.connection)]
            .into_iter()
            .filter(|(_, _, on)| *on)
            .map(|(service, subtype, _)| (service, subtype))
            .collect();
    let asked = (packet[7], packet[8]);
    if !offered.iter().any(|(service, _)| *service == asked.0) {
        let words = match (asked.0, request(packet)) {
            (6 | 17, Some(_)) => format!("type {}", asked.0),
            (6 | 17, None) => format!("type {}, another subtype", asked.0),
            _ => "another type".into(),
        };
        return Some(cause(refusal::TYPE, asked.0.into(), words));
    }
    if offered.contains(&asked) {
        return None;
    }
    let words = request(packet).unwrap_or_else(|| format!("({},other)", asked.0));
    Some(cause(refusal::SUBTYPE, u16::from(asked.0) * 256 + u16::from(asked.1), words))
}

/// What a packet asks for, if document 01 knows it: whether it is offered does not matter.
pub fn request(packet: &[u8]) -> Option<String> {
    let asked = (packet[7], packet[8]);
    [(6, 2), (6, 5), (6, 9), (17, 1)].contains(&asked).then(|| format!("({},{})", asked.0, asked.1))
}

/// Checks 17, 18 and 19; the last only of data that is well formed.
fn memory(profile: &Profile, memory_id: u8, request: &str, blocks: &[Found]) -> Vec<Cause> {
    let of_memory = |number| cause(number, memory_id.into(), request);
    let Some(area) = profile.used_areas().iter().find(|area| area.memory_id == memory_id) else {
        return vec![of_memory(refusal::MEMORY_ID)];
    };
    let mut causes = Vec::new();
    let right = match request {
        "(6,2)" => area.rights.load,
        "(6,5)" => area.rights.dump,
        _ => area.rights.check,
    };
    if !right {
        causes.push(of_memory(refusal::RIGHT));
    }
    if let Some((number, _)) = (1..).zip(blocks).find(|(_, block)| is_outside(area, block)) {
        causes.push(cause(refusal::OUTSIDE, number, format!("{request} block {number}")));
    }
    causes
}
