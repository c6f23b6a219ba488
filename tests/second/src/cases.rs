//! The program `cases`: the whole terminal, the readers, the writer and the CRC for lines of text.

use std::io::{self, Read, Write};

use crate::crc::{crc, START};
use crate::hex;
use crate::hexline;
use crate::lines;
use crate::map::{Area, Flags, Profile, Rights, AREA_PLACES};
use crate::tc::{self, Method, Order, Telecommand};
use crate::telemetry;
use crate::terminal;
use crate::tm::Counts;

const MOST_DIGITS: usize = 140_000;
/// A letter, a space and the digits.
pub const LONGEST_LINE: usize = 2 + MOST_DIGITS;
const MOST_STORE_OCTETS: usize = 65_600;
const MOST_BUFFER_OCTETS: usize = 8_192;
const MOST_PACKET_OCTETS: usize = 69_999;
const MOST_FRAME_OCTETS: usize = 69_999;
const ROOM_FILL: u8 = 0xEE;

/// One line, read. The letters stand beside them.
#[derive(Clone, Debug, PartialEq, Eq)]
pub enum Command {
    /// P
    SetProfile(Profile),
    /// V
    AskWider(Profile),
    /// S
    SetStore(Vec<u8>),
    /// K
    SetCounts(Counts),
    /// T
    SetTime([u8; 6]),
    /// B
    SetBuffer { length: usize, octet: u8 },
    /// X
    Answer(Vec<u8>),
    /// O
    ShowBuffer,
    /// M
    ShowStore,
    /// R
    ReadPacket(Vec<u8>),
    /// W
    WritePacket(WriteFields),
    /// F
    ReadFrame(Vec<u8>),
    /// C
    Crc(Vec<u8>),
    /// D
    CrcFrom { start: u16, octets: Vec<u8> },
}

/// The octets of a W line.
#[derive(Clone, Debug, PartialEq, Eq)]
pub struct WriteFields {
    pub pid: u8,
    pub count: u16,
    pub ack: u8,
    pub method: Method,
    pub service: u8,
    pub subtype: u8,
    pub room: u16,
    pub data: Vec<u8>,
}

/// What stays from line to line.
pub struct State {
    pub profile: Profile,
    pub store: Vec<u8>,
    pub counts: Counts,
    pub time: [u8; 6],
    pub buffer: Vec<u8>,
}

/// Serves every line of the input.
pub fn run(input: &mut dyn Read, output: &mut dyn Write) -> io::Result<()> {
    let mut state = State::new();
    lines::serve(input, output, LONGEST_LINE, |line, text| match line.and_then(parse) {
        Some(command) => state.obey(command, text),
        None => text.extend_from_slice(b"0200\n"),
    })
}

/// The command of a line, or nothing for a bad line.
pub fn parse(line: &[u8]) -> Option<Command> {
    match line {
        b"O" => Some(Command::ShowBuffer),
        b"M" => Some(Command::ShowStore),
        [letter, b' ', digits @ ..] if digits.len() <= MOST_DIGITS => with_octets(*letter, hex::read(digits)?),
        _ => None,
    }
}

fn with_octets(letter: u8, octets: Vec<u8>) -> Option<Command> {
    match letter {
        b'P' => profile(&octets).map(Command::SetProfile),
        b'V' => profile(&octets).map(Command::AskWider),
        b'S' if octets.len() <= MOST_STORE_OCTETS => Some(Command::SetStore(octets)),
        b'K' => match octets[..] {
            [a, b, c, d] => Some(Command::SetCounts(Counts {
                category_1: u16::from_be_bytes([a, b]),
                category_9: u16::from_be_bytes([c, d]),
            })),
            _ => None,
        },
        b'T' => octets.try_into().ok().map(Command::SetTime),
        b'B' => match octets[..] {
            [upper, lower, octet] => buffer(u16::from_be_bytes([upper, lower]), octet),
            _ => None,
        },
        b'X' if octets.len() <= MOST_PACKET_OCTETS => Some(Command::Answer(octets)),
        b'R' => Some(Command::ReadPacket(octets)),
        b'W' => write_fields(&octets).map(Command::WritePacket),
        b'F' if octets.len() <= MOST_FRAME_OCTETS => Some(Command::ReadFrame(octets)),
        b'C' => Some(Command::Crc(octets)),
        b'D' => crc_from(&octets),
        _ => None,
    }
}

fn profile(octets: &[u8]) -> Option<Profile> {
    const AREA_OCTETS: usize = 14;
    let (&[pid, flags, area_count], given) = octets.split_first_chunk::<3>()?;
    let given = given.chunks_exact(AREA_OCTETS);
    if flags > 0x0F || !given.remainder().is_empty() || given.len() > AREA_PLACES {
        return None;
    }
    let flags = Flags { load: flags & 1 != 0, dump: flags & 2 != 0, check: flags & 4 != 0, connection: flags & 8 != 0 };
    let mut profile = Profile { pid, flags, area_count, ..Profile::default() };
    for (place, octets) in profile.areas.iter_mut().zip(given) {
        *place = area(octets)?;
    }
    Some(profile)
}

fn area(octets: &[u8]) -> Option<Area> {
    let (&[memory_id], rest) = octets.split_first_chunk::<1>()?;
    let (start, rest) = rest.split_first_chunk::<4>()?;
    let (length, rest) = rest.split_first_chunk::<4>()?;
    let (first_word, rest) = rest.split_first_chunk::<4>()?;
    let rights = match rest {
        [rights] if *rights <= 0x07 => *rights,
        _ => return None,
    };
    Some(Area {
        memory_id,
        start: u32::from_be_bytes(*start),
        length: u32::from_be_bytes(*length),
        first_word: u32::from_be_bytes(*first_word),
        rights: Rights { load: rights & 1 != 0, dump: rights & 2 != 0, check: rights & 4 != 0 },
    })
}

fn buffer(length: u16, octet: u8) -> Option<Command> {
    let length = usize::from(length);
    (length <= MOST_BUFFER_OCTETS).then_some(Command::SetBuffer { length, octet })
}

fn write_fields(octets: &[u8]) -> Option<WriteFields> {
    let (&[pid, count_upper, count_lower, ack, flag, service, subtype, room_upper, room_lower], data) =
        octets.split_first_chunk::<9>()?;
    Some(WriteFields {
        pid,
        count: u16::from_be_bytes([count_upper, count_lower]),
        ack,
        method: Method::of_flag(flag)?,
        service,
        subtype,
        room: u16::from_be_bytes([room_upper, room_lower]),
        data: data.to_vec(),
    })
}

fn crc_from(octets: &[u8]) -> Option<Command> {
    let (start, octets) = octets.split_first_chunk::<2>()?;
    Some(Command::CrcFrom { start: u16::from_be_bytes(*start), octets: octets.to_vec() })
}

impl Default for State {
    fn default() -> State {
        State::new()
    }
}

impl State {
    /// The line program's state at its start.
    pub fn new() -> State {
        State {
            profile: hexline::profile(),
            store: vec![0; hexline::STORE_OCTETS],
            counts: Counts::default(),
            time: hexline::TIME,
            buffer: vec![0; hexline::OUTPUT_OCTETS],
        }
    }

    /// Does what the command says and adds what it prints to the text.
    pub fn obey(&mut self, command: Command, text: &mut Vec<u8>) {
        match command {
            Command::SetProfile(profile) => self.profile = profile,
            Command::AskWider(profile) => {
                let wider = profile.wider(&self.profile, self.store.len());
                print(&[&[u8::from(wider)]], text);
            }
            Command::SetStore(store) => self.store = store,
            Command::SetCounts(counts) => self.counts = counts,
            Command::SetTime(time) => self.time = time,
            Command::SetBuffer { length, octet } => self.buffer = vec![octet; length],
            Command::Answer(packet) => self.answer(&packet, text),
            Command::ShowBuffer => print(&[&self.buffer], text),
            Command::ShowStore => print(&[&self.store], text),
            Command::ReadPacket(packet) => read_packet(&packet, text),
            Command::WritePacket(fields) => write_packet(&fields, text),
            Command::ReadFrame(frame) => read_frame(&frame, text),
            Command::Crc(octets) => print(&[&crc(START, &octets).to_be_bytes()], text),
            Command::CrcFrom { start, octets } => print(&[&crc(start, &octets).to_be_bytes()], text),
        }
    }

    fn answer(&mut self, packet: &[u8], text: &mut Vec<u8>) {
        let answer = terminal::answer(&self.profile, self.counts, self.time, packet, &mut self.store, &mut self.buffer);
        self.counts = answer.counts;
        print(&[&self.buffer[..answer.written]], text);
        print(
            &[
                &answer.verdict.closing(),
                &answer.verdict.detail().to_be_bytes(),
                &(answer.written as u16).to_be_bytes(),
                &answer.counts.category_1.to_be_bytes(),
                &answer.counts.category_9.to_be_bytes(),
            ],
            text,
        );
    }
}

fn read_packet(packet: &[u8], text: &mut Vec<u8>) {
    let (closing, detail, telecommand) = match tc::read(packet) {
        Ok(telecommand) => ([0, 0], 0, telecommand),
        Err(refusal) => ([1, refusal.number], refusal.detail, Telecommand::default()),
    };
    print(
        &[
            &closing,
            &detail.to_be_bytes(),
            &telecommand.apid.to_be_bytes(),
            &telecommand.count.to_be_bytes(),
            &[telecommand.checksum_flag],
            &[telecommand.ack],
            &[telecommand.service],
            &[telecommand.subtype],
            &[telecommand.pad],
            telecommand.data,
        ],
        text,
    );
}

fn write_packet(fields: &WriteFields, text: &mut Vec<u8>) {
    let mut room = vec![ROOM_FILL; usize::from(fields.room)];
    let order = Order {
        pid: fields.pid,
        count: fields.count,
        ack: fields.ack,
        method: fields.method,
        service: fields.service,
        subtype: fields.subtype,
        data: &fields.data,
    };
    let (closing, length) = match tc::write(&order, &mut room) {
        Ok(length) => ([0, 0], length),
        Err(number) => ([1, number], 0),
    };
    print(&[&closing, &(length as u16).to_be_bytes(), &room], text);
}

/// Refused, all fields are 0 and there is no source data.
fn read_frame(frame: &[u8], text: &mut Vec<u8>) {
    match telemetry::read(frame) {
        Ok(read) => print(
            &[
                &[0, 0],
                &read.apid.to_be_bytes(),
                &read.count.to_be_bytes(),
                &read.time,
                &[read.service],
                &[read.subtype],
                read.source_data,
            ],
            text,
        ),
        Err(number) => print(&[&[1, number], &[0; 2], &[0; 2], &[0; 6], &[0], &[0], &[]], text),
    }
}

/// One line: the parts in upper case with single spaces between.
fn print(parts: &[&[u8]], text: &mut Vec<u8>) {
    for (place, part) in parts.iter().enumerate() {
        if place > 0 {
            text.push(b' ');
        }
        hex::write(part, text);
    }
    text.push(b'\n');
}
