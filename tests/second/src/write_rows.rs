//! The rows of the tally that are about W lines, and what such a line has to print. The packet is put together here
//! octet by octet, with an error control that is not got as the writer gets it.

use crate::cases::WriteFields;
use crate::control_rows::{mark_words, marked, right_value, Marked, METHODS};
use crate::hex;
use crate::refusal;
use crate::tc::{LARGEST_ACK, LARGEST_COUNT, LARGEST_PID, LONGEST_DATA, SHORTEST};

const ROOM_FILL: u8 = 0xEE;
const MARKS: [Marked; 3] = [Marked::First, Marked::Second, Marked::Both];
const REFUSED: [&str; 7] = [
    "refused 50 for the PID alone",
    "refused 50 for the count alone",
    "refused 50 for the ack alone",
    "refused 50 before 51 and 52",
    "refused 51",
    "refused 51 before 52",
    "refused 52",
];
/// The rows of bad lines.
pub const BAD: [&str; 6] = [
    "bad line W flag 2",
    "bad line W flag 16",
    "bad line W flag 255",
    "bad line W another flag above 1",
    "bad line W flag above 1 and a field for 50",
    "bad line W of 8 octets",
];

/// Which of the writer's three checks fail.
struct Failing {
    pid: bool,
    count: bool,
    ack: bool,
    data: bool,
    room: bool,
}

/// The rows that a line counts for. Nothing where what it printed is not what it has to print.
pub fn rows(fields: &WriteFields, printed: &[u8]) -> Option<Vec<String>> {
    let failing = failing(fields);
    let due = due(fields, &failing);
    if due != printed {
        return None;
    }
    let rows = match failing.number() {
        None => written_rows(fields),
        Some(_) => failing.rows(),
    };
    Some(rows.iter().map(|row| format!("W flag {} {row}", fields.method.flag())).collect())
}

/// The packet that a line writes, if it does.
pub fn written(fields: &WriteFields) -> Option<Vec<u8>> {
    failing(fields).number().is_none().then(|| packet(fields))
}

/// What the reader has to print for the packet that a line writes.
pub fn read_back(fields: &WriteFields) -> Vec<u8> {
    let apid = u16::from(fields.pid) * 16 + 12;
    let (flag, ack) = (fields.method.flag(), fields.ack);
    let head = format!("0000 0000 {apid:04X} {:04X} {flag:02X} {ack:02X} ", fields.count);
    let mut text = format!("{head}{:02X} {:02X} 00 ", fields.service, fields.subtype).into_bytes();
    hex::write(&fields.data, &mut text);
    text
}

/// The rows that a bad line counts for.
pub fn bad_rows(line: &[u8]) -> Vec<&'static str> {
    let [flag_2, flag_16, flag_255, another, and_a_field, cut] = BAD;
    let octets = line.strip_prefix(b"W ").and_then(hex::read).unwrap_or_default();
    match octets.as_slice() {
        [_, _, _, _, 0 | 1, _, _, _] => vec![cut],
        [pid, upper, lower, ack, flag @ 2..=255, _, _, _, _, ..] => {
            let row = match flag {
                2 => flag_2,
                16 => flag_16,
                255 => flag_255,
                _ => another,
            };
            let count = u16::from_be_bytes([*upper, *lower]);
            let field = *pid > LARGEST_PID || count > LARGEST_COUNT || *ack > LARGEST_ACK;
            [row].into_iter().chain(field.then_some(and_a_field)).collect()
        }
        _ => Vec::new(),
    }
}

/// Every row of lines that are not bad.
pub fn wanted() -> Vec<String> {
    let mut wanted = Vec::new();
    for method in METHODS {
        let mut rows = vec!["written".into()];
        rows.extend(MARKS.map(|marked| format!("written, {}", mark_words(method, marked))));
        rows.extend(REFUSED.map(String::from));
        wanted.extend(rows.iter().map(|row| format!("W flag {} {row}", method.flag())));
    }
    wanted
}

fn failing(fields: &WriteFields) -> Failing {
    Failing {
        pid: fields.pid > LARGEST_PID,
        count: fields.count > LARGEST_COUNT,
        ack: fields.ack > LARGEST_ACK,
        data: fields.data.len() > LONGEST_DATA,
        room: usize::from(fields.room) < fields.data.len() + SHORTEST,
    }
}

impl Failing {
    fn field(&self) -> bool {
        self.pid || self.count || self.ack
    }

    fn number(&self) -> Option<u8> {
        match (self.field(), self.data, self.room) {
            (true, _, _) => Some(refusal::WRITE_FIELD),
            (_, true, _) => Some(refusal::WRITE_DATA),
            (_, _, true) => Some(refusal::WRITE_BUFFER),
            _ => None,
        }
    }

    fn rows(&self) -> Vec<String> {
        let Failing { pid, count, ack, data, room } = *self;
        let holds = [
            pid && !count && !ack && !data && !room,
            count && !pid && !ack && !data && !room,
            ack && !pid && !count && !data && !room,
            self.field() && data && room,
            data && !self.field() && !room,
            data && !self.field() && room,
            room && !self.field() && !data,
        ];
        REFUSED.iter().zip(holds).filter(|(_, holds)| *holds).map(|(row, _)| (*row).into()).collect()
    }
}

fn written_rows(fields: &WriteFields) -> Vec<String> {
    let packet = packet(fields);
    let value = packet.last_chunk::<2>().map_or(0, |value| u16::from_be_bytes(*value));
    let mut rows = vec!["written".into()];
    match marked(fields.method, value) {
        Marked::Neither => (),
        marked => rows.push(format!("written, {}", mark_words(fields.method, marked))),
    }
    rows
}

/// The packet of fields that are not refused.
fn packet(fields: &WriteFields) -> Vec<u8> {
    let [count_upper, count_lower] = fields.count.to_be_bytes();
    let [length_upper, length_lower] = ((fields.data.len() + 5) as u16).to_be_bytes();
    let mut packet = vec![0x18 + fields.pid / 16, fields.pid % 16 * 16 + 12, 0xC0 + count_upper, count_lower];
    packet.extend_from_slice(&[length_upper, length_lower, fields.method.flag() * 16 + fields.ack]);
    packet.extend_from_slice(&[fields.service, fields.subtype, 0]);
    packet.extend_from_slice(&fields.data);
    let error_control = right_value(fields.method, &packet);
    packet.extend_from_slice(&error_control.to_be_bytes());
    packet
}

/// What the line has to print.
fn due(fields: &WriteFields, failing: &Failing) -> Vec<u8> {
    let mut room = vec![ROOM_FILL; usize::from(fields.room)];
    let (closing, length) = match failing.number() {
        Some(number) => (0x0100 + u16::from(number), 0),
        None => {
            let packet = packet(fields);
            room[..packet.len()].copy_from_slice(&packet);
            (0, packet.len())
        }
    };
    let mut text = format!("{closing:04X} {length:04X} ").into_bytes();
    hex::write(&room, &mut text);
    text
}
