//! The rows of the tally that are about error control: which method a packet's flag selects, what is right by it and in
//! which way another value is wrong. The values are got by weights and bit by bit, another way than the reader's.

use crate::crc::{self, bit_by_bit};
use crate::iso;
use crate::refusal::{self, Refusal};
use crate::tc::Method;

/// The methods, flag 0 and flag 1.
pub const METHODS: [Method; 2] = [Method::Iso, Method::Crc];
/// The octet of a packet that has the checksum flag, and the flag in it.
pub const FLAG_OCTET: usize = 6;
pub const FLAG: u8 = 0x10;
/// The fields of check 16, by their details.
pub const FIELDS: [u16; 5] = [1, 2, 3, 4, 5];
const REQUESTS: [&str; 4] = ["(6,2)", "(6,5)", "(6,9)", "(17,1)"];
const WAYS: [&str; 6] = [
    "the other method's value",
    "a value right for the other flag",
    "its method's value for the other flag",
    "first octet wrong",
    "second octet wrong",
    "octets exchanged",
];

/// Which octets of a value stand for 0: FF of the ISO checksum, 00 of the CRC.
#[derive(Clone, Copy, Debug, PartialEq, Eq)]
pub enum Marked {
    Neither,
    First,
    Second,
    Both,
}

/// A packet with its last two octets apart.
struct Controlled<'a> {
    body: &'a [u8],
    received: [u8; 2],
    method: Method,
    right: [u8; 2],
}

/// The method that is not this one.
pub fn other(method: Method) -> Method {
    match method {
        Method::Iso => Method::Crc,
        Method::Crc => Method::Iso,
    }
}

/// The octet that stands for 0, and the one that is wrong in its place.
pub fn mark_of(method: Method) -> (u8, u8) {
    match method {
        Method::Iso => (0xFF, 0x00),
        Method::Crc => (0x00, 0xFF),
    }
}

/// Which octets of a method's value stand for 0.
pub fn marked(method: Method, value: u16) -> Marked {
    let (mark, _) = mark_of(method);
    match value.to_be_bytes().map(|octet| octet == mark) {
        [false, false] => Marked::Neither,
        [true, false] => Marked::First,
        [false, true] => Marked::Second,
        [true, true] => Marked::Both,
    }
}

/// The right error control of the octets, not got as the reader gets it.
pub fn right_value(method: Method, octets: &[u8]) -> u16 {
    match method {
        Method::Iso => iso::weighted(octets),
        Method::Crc => bit_by_bit(crc::START, octets),
    }
}

/// The method that a packet's flag selects; a packet without that octet has none.
pub fn method(packet: &[u8]) -> Option<Method> {
    let octet = packet.get(FLAG_OCTET)?;
    Some(if octet & FLAG == 0 { Method::Iso } else { Method::Crc })
}

/// The rows that a packet counts for by its error control, when the terminal accepts it or refuses it so. Nothing where
/// the answer is not one that the error control allows.
pub fn packet_rows(packet: &[u8], refused: Option<Refusal>) -> Option<Vec<String>> {
    let number = refused.map(|refusal| refusal.number);
    if number.is_some_and(comes_before) {
        return Some(Vec::new());
    }
    let controlled = Controlled::of(packet)?;
    if !controlled.allows(refused) {
        return None;
    }
    let rows = match refused {
        None => controlled.accepted_rows(packet),
        Some(Refusal { number: refusal::ERROR_CONTROL, .. }) => controlled.wrong_rows(),
        Some(Refusal { number: refusal::HEADER, detail }) => vec![format!("refused 16 detail {detail}")],
        Some(_) => Vec::new(),
    };
    Some(rows.into_iter().map(|row| flagged(controlled.method, &row)).collect())
}

/// Whether the reader's answer is one that the error control allows.
pub fn reader_may(packet: &[u8], refused: Option<Refusal>) -> bool {
    let number = refused.map(|refusal| refusal.number);
    number.is_some_and(comes_before) || Controlled::of(packet).is_some_and(|controlled| controlled.allows(refused))
}

/// Every row of packets that has to be reached.
pub fn wanted() -> Vec<String> {
    let mut wanted = Vec::new();
    for method in METHODS {
        let mut rows: Vec<String> = REQUESTS.map(|request| format!("accepted {request}")).into();
        rows.extend([Marked::First, Marked::Second, Marked::Both].map(|marked| accepted_mark(method, marked)));
        rows.extend(WAYS.map(refused_with));
        rows.extend(FIELDS.map(|field| format!("refused 16 detail {field}")));
        rows.extend(FIELDS.map(wrong_field));
        for right in [Marked::First, Marked::Second, Marked::Both] {
            let changed: &[Marked] = match right {
                Marked::Both => &[Marked::First, Marked::Second, Marked::Both],
                _ => &[right],
            };
            rows.extend(changed.iter().map(|changed| replaced(method, right, *changed)));
        }
        wanted.extend(rows.iter().map(|row| flagged(method, row)));
    }
    wanted
}

/// A row of packets with the method's flag.
pub fn flagged(method: Method, row: &str) -> String {
    format!("flag {} {row}", method.flag())
}

/// How marked octets are named.
pub fn mark_words(method: Method, marked: Marked) -> String {
    let (mark, _) = mark_of(method);
    let place = match marked {
        Marked::Neither => "neither octet",
        Marked::First => "the first octet",
        Marked::Second => "the second octet",
        Marked::Both => "both octets",
    };
    format!("{mark:02X} in {place}")
}

fn accepted_mark(method: Method, marked: Marked) -> String {
    format!("accepted, {}", mark_words(method, marked))
}

fn refused_with(way: &str) -> String {
    format!("refused  2 {way}")
}

fn wrong_field(field: u16) -> String {
    format!("refused  2 the other method's value, field {field} wrong")
}

fn replaced(method: Method, right: Marked, changed: Marked) -> String {
    let (_, wrong) = mark_of(method);
    let changed = match changed {
        Marked::First => "first",
        Marked::Second => "second",
        _ => "both",
    };
    format!("refused  2 {}, {wrong:02X} sent for {changed}", mark_words(method, right))
}

/// 40, 41, 42 and 1 are told before the error control is looked at.
fn comes_before(number: u8) -> bool {
    [refusal::OUTPUT_BUFFER, refusal::PROFILE_STORE_OR_COUNT, refusal::FEWER_THAN_SIX, refusal::RECEIVED_COUNT]
        .contains(&number)
}

impl Controlled<'_> {
    fn of(packet: &[u8]) -> Option<Controlled<'_>> {
        let (body, received) = packet.split_last_chunk::<2>()?;
        let method = method(body)?;
        Some(Controlled { body, received: *received, method, right: right_value(method, body).to_be_bytes() })
    }

    /// Refused by 2 with the right value where it is not the one received; anything else where it is.
    fn allows(&self, refused: Option<Refusal>) -> bool {
        match refused {
            Some(Refusal { number: refusal::ERROR_CONTROL, detail }) => {
                detail.to_be_bytes() == self.right && self.received != self.right
            }
            _ => self.received == self.right,
        }
    }

    fn accepted_rows(&self, packet: &[u8]) -> Vec<String> {
        let mut rows = vec![format!("accepted ({},{})", packet[7], packet[8])];
        match marked(self.method, u16::from_be_bytes(self.right)) {
            Marked::Neither => (),
            marked => rows.push(accepted_mark(self.method, marked)),
        }
        rows
    }

    /// In which ways the value received is wrong.
    fn wrong_rows(&self) -> Vec<String> {
        let mut inverted = self.body.to_vec();
        inverted[FLAG_OCTET] ^= FLAG;
        let value = |method, octets: &[u8]| right_value(method, octets).to_be_bytes();
        let others = self.received == value(other(self.method), self.body);
        let [first, second] = self.right;
        let holds = [
            others,
            self.received == value(other(self.method), &inverted),
            self.received == value(self.method, &inverted),
            self.received[0] != first && self.received[1] == second,
            self.received[0] == first && self.received[1] != second,
            self.received == [second, first],
        ];
        let mut rows: Vec<String> =
            WAYS.iter().zip(holds).filter(|(_, holds)| *holds).map(|(way, _)| refused_with(way)).collect();
        rows.extend(first_wrong_field(self.body).filter(|_| others).map(wrong_field));
        rows.extend(self.replaced_row());
        rows
    }

    /// The row of a value of which nothing but octets that stand for 0 is wrong.
    fn replaced_row(&self) -> Option<String> {
        let (mark, wrong) = mark_of(self.method);
        let pairs = || self.right.iter().zip(&self.received);
        if !pairs().all(|(right, received)| right == received || (*right == mark && *received == wrong)) {
            return None;
        }
        let changed = match [self.right[0] != self.received[0], self.right[1] != self.received[1]] {
            [true, false] => Marked::First,
            [false, true] => Marked::Second,
            _ => Marked::Both,
        };
        Some(replaced(self.method, marked(self.method, u16::from_be_bytes(self.right)), changed))
    }
}

/// The detail that check 16 has for these octets, if a field is wrong.
fn first_wrong_field(body: &[u8]) -> Option<u16> {
    let wrong = [
        body[0] & 0xE0 != 0,
        body[0] & 0x10 == 0,
        body[0] & 0x08 == 0,
        body[2] & 0xC0 != 0xC0,
        body[FLAG_OCTET] & 0xE0 != 0,
    ];
    FIELDS.into_iter().zip(wrong).find(|(_, wrong)| *wrong).map(|(field, _)| field)
}
