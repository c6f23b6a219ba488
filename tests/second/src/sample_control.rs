//! Packets for the generators by their error control: right and wrong in each way, by either method.

use crate::blocks::MemoryRequest;
use crate::control_rows::{marked, other, Marked, FIELDS, FLAG, FLAG_OCTET, METHODS};
use crate::crc::{crc, START};
use crate::iso;
use crate::map::Profile;
use crate::random::Random;
use crate::sample;
use crate::tc::Method;

/// The services that a packet may ask for; none is the connection test.
pub const REQUESTS: [Option<MemoryRequest>; 4] =
    [Some(MemoryRequest::Load), Some(MemoryRequest::Dump), Some(MemoryRequest::Check), None];
const PAD: usize = 9;

/// What is sent as error control.
#[derive(Clone, Copy, Debug, PartialEq, Eq)]
pub enum Sent {
    Right,
    /// The other method's value.
    OtherMethod,
    /// What was right before the flag was inverted.
    OfOtherFlag,
    /// The selected method's value of the octets with the other flag.
    ForOtherFlag,
    FirstOff,
    SecondOff,
    Exchanged,
    /// 00 for FF, or FF for 00.
    FirstInverted,
    SecondInverted,
    BothInverted,
}

/// What a packet and its error control are to be.
#[derive(Clone, Copy, Debug, PartialEq, Eq)]
pub struct Way {
    pub method: Method,
    /// The field of check 16 that is wrong, by its detail.
    pub wrong_field: Option<u16>,
    /// Which octets of the right value stand for 0, where that is to be chosen.
    pub marked: Option<Marked>,
    pub sent: Sent,
}

/// The ways in turn, and for each the services in turn.
pub struct Turns {
    ways: Vec<Way>,
    next: usize,
}

impl Default for Turns {
    fn default() -> Turns {
        Turns { ways: ways(), next: 0 }
    }
}

impl Turns {
    /// How many packets have each way with each service.
    pub fn round(&self) -> usize {
        self.ways.len() * REQUESTS.len()
    }

    /// The packet that is next in turn, made for the profile.
    pub fn packet(&mut self, random: &mut Random, profile: &Profile) -> Vec<u8> {
        let way = self.ways[self.next % self.ways.len()];
        let request = REQUESTS[(self.next + self.next / self.ways.len()) % REQUESTS.len()];
        self.next += 1;
        packet(random, profile, request, way)
    }
}

/// Every way.
pub fn ways() -> Vec<Way> {
    let mut ways = Vec::new();
    for method in METHODS {
        let right = Way { method, wrong_field: None, marked: None, sent: Sent::Right };
        ways.push(right);
        let wrong = [Sent::OtherMethod, Sent::OfOtherFlag, Sent::ForOtherFlag];
        ways.extend(wrong.map(|sent| Way { sent, ..right }));
        ways.extend([Sent::FirstOff, Sent::SecondOff, Sent::Exchanged].map(|sent| Way { sent, ..right }));
        for field in FIELDS {
            ways.extend([Sent::Right, Sent::OtherMethod].map(|sent| Way { wrong_field: Some(field), sent, ..right }));
        }
        for (marked, inverted) in [
            (Marked::First, &[Sent::FirstInverted][..]),
            (Marked::Second, &[Sent::SecondInverted]),
            (Marked::Both, &[Sent::FirstInverted, Sent::SecondInverted, Sent::BothInverted]),
        ] {
            let right = Way { marked: Some(marked), ..right };
            ways.push(right);
            ways.extend(inverted.iter().map(|sent| Way { sent: *sent, ..right }));
        }
    }
    ways
}

/// A short packet of that way, which the profile serves if its error control and header are right.
pub fn packet(random: &mut Random, profile: &Profile, request: Option<MemoryRequest>, way: Way) -> Vec<u8> {
    // Only words can be chosen so that a CRC is 0000.
    let request = match way {
        Way { method: Method::Crc, marked: Some(Marked::Both), .. } => Some(MemoryRequest::Load),
        _ => request,
    };
    let mut packet = sample::short(random, profile, request, way.method);
    if let Some(field) = way.wrong_field {
        spoil(random, &mut packet, field);
    }
    if let Some((body, error_control)) = packet.split_last_chunk_mut::<2>() {
        if let Some(marked) = way.marked {
            let places = if request == Some(MemoryRequest::Load) { last_two(body) } else { [3, PAD] };
            mark(random, body, way.method, marked, places);
        }
        *error_control = sent(random, body, way.method, way.sent);
    }
    packet
}

/// The places of the last two octets.
pub fn last_two(body: &[u8]) -> [usize; 2] {
    [body.len() - 2, body.len() - 1]
}

/// Chooses two octets of a packet without its error control, and its count where they do not do, so that those octets of
/// the method's value stand for 0. For both of a CRC they are the last two.
pub fn mark(random: &mut Random, body: &mut [u8], method: Method, wanted: Marked, places: [usize; 2]) {
    loop {
        for place in places {
            body[place] = random.octet();
        }
        match (method, wanted) {
            (Method::Iso, Marked::Both) => make_sums_0(body, places),
            (Method::Crc, Marked::Both) => make_crc_0(body),
            _ => (),
        }
        if marked(method, method.value(body)) == wanted {
            return;
        }
        body[2] = 0xC0 | random.below(64) as u8;
        body[3] = random.octet();
    }
}

/// Both sums are 0 afterwards, if two octets at these places can make them so.
fn make_sums_0(body: &mut [u8], [one, other]: [usize; 2]) {
    for octet in 0..255 {
        body[one] = octet;
        body[other] = 0;
        let (plain, _) = iso::sums(body);
        body[other] = ((255 - plain) % 255) as u8;
        if iso::sums(body) == (0, 0) {
            return;
        }
    }
}

/// Octets with their CRC behind them have the CRC 0.
fn make_crc_0(body: &mut [u8]) {
    if let Some((before, last)) = body.split_last_chunk_mut::<2>() {
        *last = crc(START, before).to_be_bytes();
    }
}

/// Makes the field of check 16 with that detail wrong.
fn spoil(random: &mut Random, packet: &mut [u8], field: u16) {
    match field {
        1 => packet[0] ^= random.between(1, 7) as u8 * 0x20,
        2 => packet[0] &= !0x10,
        3 => packet[0] &= !0x08,
        4 => packet[2] &= random.pick(&[0x3F, 0x7F, 0xBF]),
        _ => packet[FLAG_OCTET] |= random.between(1, 7) as u8 * 0x20,
    }
}

/// The two octets that are sent behind these.
fn sent(random: &mut Random, body: &[u8], method: Method, sent: Sent) -> [u8; 2] {
    let right = method.value(body).to_be_bytes();
    let [first, second] = right;
    let mut inverted = body.to_vec();
    inverted[FLAG_OCTET] ^= FLAG;
    match sent {
        Sent::Right => right,
        Sent::OtherMethod => other(method).value(body).to_be_bytes(),
        Sent::OfOtherFlag => other(method).value(&inverted).to_be_bytes(),
        Sent::ForOtherFlag => method.value(&inverted).to_be_bytes(),
        Sent::FirstOff => [off(random, first), second],
        Sent::SecondOff => [first, off(random, second)],
        Sent::Exchanged => [second, first],
        Sent::FirstInverted => [!first, second],
        Sent::SecondInverted => [first, !second],
        Sent::BothInverted => [!first, !second],
    }
}

/// Another octet: the next, the one before or any.
fn off(random: &mut Random, octet: u8) -> u8 {
    let any = octet ^ random.between(1, 255) as u8;
    random.pick(&[octet.wrapping_add(1), octet.wrapping_sub(1), any])
}
