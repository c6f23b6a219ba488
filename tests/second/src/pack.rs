//! The program `pack`: the record that a faultless unit would give for packets in hexadecimal lines.

use std::fmt::{self, Display, Formatter};
use std::io::{self, Read, Write};

use crate::hex;
use crate::hexline;
use crate::line_reader::{Line, LineReader};
use crate::soundness::{self, Failing};
use crate::terminal;
use crate::tm::Counts;
use crate::unit::{self, Unit};
use crate::unit_fault::BadLine;

/// A packet line has at most this many characters.
pub(crate) const LONGEST_LINE: usize = 4_096;
/// So much text is sent before all that was read is answered.
const WRITE_OCTETS: usize = 65_536;

/// How a pack ends.
#[derive(Clone, Copy, Debug, PartialEq, Eq)]
pub enum End {
    Whole,
    BadUnit(BadLine),
    Unsound(Failing),
    BadPacket { line: u64, why: Why },
}

/// Why a line is no packet.
#[derive(Clone, Copy, Debug, PartialEq, Eq)]
pub enum Why {
    TooLong,
    Character { place: usize, octet: u8 },
    OddDigits,
}

/// Reads the unit, then answers packet after packet; what comes last is for the caller to say.
pub fn run(unit: &mut dyn Read, packets: &mut dyn Read, output: &mut dyn Write) -> io::Result<End> {
    match sound_unit(unit)? {
        Ok(unit) => record(unit, packets, output),
        Err(end) => Ok(end),
    }
}

/// The sound unit that a unit file states, or how a program ends that is given another file.
pub(crate) fn sound_unit(file: &mut dyn Read) -> io::Result<Result<Unit, End>> {
    let unit = match unit::read(file)? {
        Ok(unit) => unit,
        Err(bad) => return Ok(Err(End::BadUnit(bad))),
    };
    Ok(match soundness::first_failing(&unit) {
        Some(clause) => Err(End::Unsound(clause)),
        None => Ok(unit),
    })
}

/// The record of all packets up to a line that is none. All that is due is sent before more is read.
fn record(mut unit: Unit, packets: &mut dyn Read, output: &mut dyn Write) -> io::Result<End> {
    let mut counts = Counts::default();
    let mut buffer = [0; hexline::OUTPUT_OCTETS];
    let mut lines = LineReader::new(packets, LONGEST_LINE);
    let mut text = Vec::new();
    let mut number = 0;
    let end = loop {
        let Some(line) = lines.next(|| send(&mut text, output))? else {
            break End::Whole;
        };
        number += 1;
        if line == Line::Whole(b"") {
            continue;
        }
        let packet = match read_packet(line) {
            Ok(packet) => packet,
            Err(why) => break End::BadPacket { line: number, why },
        };
        let answer = terminal::answer(&unit.profile, counts, hexline::TIME, &packet, &mut unit.store, &mut buffer);
        counts = answer.counts;
        hex::write(&packet, &mut text);
        text.push(b'\n');
        hexline::write_frames(&buffer[..answer.written], &mut text);
        text.push(b'\n');
        if text.len() >= WRITE_OCTETS {
            send(&mut text, output)?;
        }
    };
    send(&mut text, output)?;
    Ok(end)
}

/// The octets of a packet line.
pub(crate) fn read_packet(line: Line) -> Result<Vec<u8>, Why> {
    let Line::Whole(digits) = line else {
        return Err(Why::TooLong);
    };
    if let Some((place, octet)) = (1..).zip(digits).find(|(_, character)| !character.is_ascii_hexdigit()) {
        return Err(Why::Character { place, octet: *octet });
    }
    hex::read(digits).ok_or(Why::OddDigits)
}

/// Sends the text and empties it.
fn send(text: &mut Vec<u8>, output: &mut dyn Write) -> io::Result<()> {
    output.write_all(text)?;
    text.clear();
    output.flush()
}

impl End {
    /// The last line on standard output, if there is one.
    pub fn last_line(&self) -> Option<String> {
        match self {
            End::Whole => None,
            End::BadUnit(bad) => Some(bad.to_string()),
            End::Unsound(_) => Some("refused 41".into()),
            End::BadPacket { line, .. } => Some(format!("refused 70 {line}")),
        }
    }

    /// What is said on standard error, if anything is.
    pub fn words(&self) -> Option<String> {
        match self {
            End::Whole | End::BadUnit(_) => None,
            End::Unsound(clause) => Some(clause.to_string()),
            End::BadPacket { why, .. } => Some(why.to_string()),
        }
    }
}

impl Display for Why {
    fn fmt(&self, text: &mut Formatter) -> fmt::Result {
        match self {
            Why::TooLong => write!(text, "too long"),
            Why::Character { place, octet } => write!(text, "character {place} is {octet:02X}"),
            Why::OddDigits => write!(text, "odd digits"),
        }
    }
}
