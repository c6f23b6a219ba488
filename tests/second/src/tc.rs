//! Telecommand packets: the reader, which makes checks 42, 1, 2 and 16 and no others,
//! and the writer, which refuses with 50, 51 and 52.

use crate::crc::{self, crc};
use crate::iso;
use crate::refusal::{self, Refusal};

pub const SHORTEST: usize = 12;
pub const LONGEST: usize = 248;
pub const LONGEST_DATA: usize = 236;
/// Total octets are the length field plus this.
pub const LENGTH_FIELD_OFFSET: usize = 7;
/// The category of every TC.
pub const CATEGORY: u16 = 12;
pub const LARGEST_PID: u8 = 127;
pub const LARGEST_COUNT: u16 = 16_383;
pub const LARGEST_ACK: u8 = 15;

/// Version 0, type 1, data field header flag 1.
const PACKET_ID: u16 = 0x1800;
const APID_MASK: u16 = 0x07FF;
const SEQUENCE_FLAGS: u16 = 0xC000;
const COUNT_MASK: u16 = 0x3FFF;
/// Where the checksum flag stands in its octet, above the ack.
const CHECKSUM_FLAG_PLACE: u8 = 4;
const ERROR_CONTROL_OCTETS: usize = 2;
const HEADER_OCTETS: usize = 10;

/// How the error control is made of the octets before it; the checksum flag says which.
#[derive(Clone, Copy, Debug, PartialEq, Eq)]
pub enum Method {
    /// Flag 0.
    Iso,
    /// Flag 1.
    Crc,
}

impl Method {
    /// The method of a checksum flag, which is 0 or 1.
    pub fn of_flag(flag: u8) -> Option<Method> {
        match flag {
            0 => Some(Method::Iso),
            1 => Some(Method::Crc),
            _ => None,
        }
    }

    /// The checksum flag of the method.
    pub fn flag(self) -> u8 {
        match self {
            Method::Iso => 0,
            Method::Crc => 1,
        }
    }

    /// The right error control of the octets.
    pub fn value(self, octets: &[u8]) -> u16 {
        match self {
            Method::Iso => iso::checksum(octets),
            Method::Crc => crc(crc::START, octets),
        }
    }
}

/// What the reader hands back; the data is a part of the packet itself.
#[derive(Clone, Copy, Debug, Default, PartialEq, Eq)]
pub struct Telecommand<'a> {
    pub apid: u16,
    pub count: u16,
    pub checksum_flag: u8,
    pub ack: u8,
    pub service: u8,
    pub subtype: u8,
    pub pad: u8,
    pub data: &'a [u8],
}

/// What the writer is given; category and pad are its own.
#[derive(Clone, Copy, Debug, PartialEq, Eq)]
pub struct Order<'a> {
    pub pid: u8,
    pub count: u16,
    pub ack: u8,
    pub method: Method,
    pub service: u8,
    pub subtype: u8,
    pub data: &'a [u8],
}

/// Reads a packet, or refuses it with the first of 42, 1, 2 and 16 that fails.
pub fn read(packet: &[u8]) -> Result<Telecommand<'_>, Refusal> {
    let length_field = match packet {
        [_, _, _, _, upper, lower, ..] => u16::from_be_bytes([*upper, *lower]),
        _ => return Err(Refusal::without_detail(refusal::FEWER_THAN_SIX)),
    };

    let received = packet.len();
    let announced = usize::from(length_field) + LENGTH_FIELD_OFFSET;
    let wrong_count = Refusal::new(refusal::RECEIVED_COUNT, at_most_65535(received));
    if !(SHORTEST..=LONGEST).contains(&received) || received != announced {
        return Err(wrong_count);
    }

    // The length check has made sure of both parts; the refusal only stands in for "cannot be".
    let (body, error_control) = packet.split_last_chunk::<ERROR_CONTROL_OCTETS>().ok_or(wrong_count)?;
    let (header, data) = body.split_first_chunk::<HEADER_OCTETS>().ok_or(wrong_count)?;

    // The flag selects the method whatever check 16 will say of the header.
    let method = if checksum_flag(header) == 0 { Method::Iso } else { Method::Crc };
    let right = method.value(body);
    if u16::from_be_bytes(*error_control) != right {
        return Err(Refusal::new(refusal::ERROR_CONTROL, right));
    }
    if let Some(place) = first_wrong_in_header(header) {
        return Err(Refusal::new(refusal::HEADER, place));
    }

    let packet_id = u16::from_be_bytes([header[0], header[1]]);
    let sequence = u16::from_be_bytes([header[2], header[3]]);
    Ok(Telecommand {
        apid: packet_id & APID_MASK,
        count: sequence & COUNT_MASK,
        checksum_flag: checksum_flag(header),
        ack: header[6] & 0x0F,
        service: header[7],
        subtype: header[8],
        pad: header[9],
        data,
    })
}

/// Writes a packet to the front of the buffer and returns its length, or refuses and touches nothing.
pub fn write(order: &Order, buffer: &mut [u8]) -> Result<usize, u8> {
    if order.pid > LARGEST_PID || order.count > LARGEST_COUNT || order.ack > LARGEST_ACK {
        return Err(refusal::WRITE_FIELD);
    }
    if order.data.len() > LONGEST_DATA {
        return Err(refusal::WRITE_DATA);
    }
    let length = order.data.len() + SHORTEST;
    let Some(packet) = buffer.get_mut(..length) else {
        return Err(refusal::WRITE_BUFFER);
    };

    let packet_id = PACKET_ID | apid(order.pid, CATEGORY);
    let sequence = SEQUENCE_FLAGS | order.count;
    let length_field = (length - LENGTH_FIELD_OFFSET) as u16;
    let (body, error_control) = packet.split_at_mut(length - ERROR_CONTROL_OCTETS);
    body[0..2].copy_from_slice(&packet_id.to_be_bytes());
    body[2..4].copy_from_slice(&sequence.to_be_bytes());
    body[4..6].copy_from_slice(&length_field.to_be_bytes());
    body[6] = order.method.flag() << CHECKSUM_FLAG_PLACE | order.ack;
    body[7] = order.service;
    body[8] = order.subtype;
    body[9] = 0;
    body[HEADER_OCTETS..].copy_from_slice(order.data);
    error_control.copy_from_slice(&order.method.value(body).to_be_bytes());
    Ok(length)
}

/// PID times 16 plus category.
pub fn apid(pid: u8, category: u16) -> u16 {
    u16::from(pid) * 16 + category
}

/// The bit of value 16 of octet 6.
fn checksum_flag(header: &[u8; HEADER_OCTETS]) -> u8 {
    (header[6] >> CHECKSUM_FLAG_PLACE) & 1
}

/// 1 to 5 for version, type bit, header flag, sequence flags and PUS version: the first that is wrong.
fn first_wrong_in_header(header: &[u8; HEADER_OCTETS]) -> Option<u16> {
    let right = [
        header[0] >> 5 == 0,
        (header[0] >> 4) & 1 == 1,
        (header[0] >> 3) & 1 == 1,
        header[2] >> 6 == 0b11,
        header[6] >> 5 == 0,
    ];
    (1..).zip(right).find(|(_, right)| !right).map(|(place, _)| place)
}

fn at_most_65535(received: usize) -> u16 {
    u16::try_from(received).unwrap_or(u16::MAX)
}
