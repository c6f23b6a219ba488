//! The program `judge`: whether a unit's record is what the reference gives, and the first line that differs where it is
//! not.

use std::fmt::{self, Display, Formatter};
use std::io::{self, Read};
use std::ops::Range;

use crate::hex;
use crate::hexline;
use crate::line_reader::{Line, LineReader};
use crate::pack::{self, Why};
use crate::soundness::{self, Failing};
use crate::terminal;
use crate::tm::Counts;
use crate::unit::{self, Unit};
use crate::unit_fault::BadLine;

/// The octets of a frame that hold its time: the unit's own, so they are taken as given.
pub const TIME: Range<usize> = 6..12;

/// What is said of a unit and its record.
#[derive(Clone, Debug, PartialEq, Eq)]
pub enum Verdict {
    BadUnit(BadLine),
    Unsound(Failing),
    BadLine { line: u64, why: Why },
    NoPacket,
    Differs(Difference),
    Conforming { packets: u64, frames: u64 },
}

/// The first line that differs, the line of its TC, the frame due and the octets found.
#[derive(Clone, Debug, PartialEq, Eq)]
pub struct Difference {
    line: u64,
    packet: u64,
    due: Option<Vec<u8>>,
    found: Option<Vec<u8>>,
}

/// The reference, with the frames of its last answer.
struct Reference {
    unit: Unit,
    counts: Counts,
    buffer: [u8; hexline::OUTPUT_OCTETS],
    /// The part of the buffer that holds the frames still due.
    due: Range<usize>,
}

/// Reads the unit, then the record up to a verdict.
pub fn run(unit: &mut dyn Read, record: &mut dyn Read) -> io::Result<Verdict> {
    let unit = match unit::read(unit)? {
        Ok(unit) => unit,
        Err(bad) => return Ok(Verdict::BadUnit(bad)),
    };
    match soundness::first_failing(&unit) {
        Some(clause) => Ok(Verdict::Unsound(clause)),
        None => compare(unit, record),
    }
}

/// Sets each TM line beside the frame due. A TC begins a group, an empty line or the end of the input ends it.
fn compare(unit: Unit, record: &mut dyn Read) -> io::Result<Verdict> {
    let mut reference = Reference::new(unit);
    let mut lines = LineReader::new(record, pack::LONGEST_LINE);
    let (mut number, mut packets, mut frames) = (0, 0, 0);
    // The line of the TC, inside a group.
    let mut group = None;
    while let Some(line) = lines.next(|| Ok(()))? {
        number += 1;
        if line == Line::Whole(b"") {
            if let Some(missing) = reference.missing(group.take(), number) {
                return Ok(missing);
            }
            continue;
        }
        let octets = match pack::read_packet(line) {
            Ok(octets) => octets,
            Err(why) => return Ok(Verdict::BadLine { line: number, why }),
        };
        let Some(packet) = group else {
            reference.answer(&octets);
            group = Some(number);
            packets += 1;
            continue;
        };
        let due = reference.next_due(&octets);
        if due.as_ref().is_none_or(|due| first_difference(due, &octets).is_some()) {
            return Ok(Verdict::Differs(Difference { line: number, packet, due, found: Some(octets) }));
        }
        frames += 1;
    }
    Ok(match reference.missing(group, number + 1) {
        Some(missing) => missing,
        None if packets == 0 => Verdict::NoPacket,
        None => Verdict::Conforming { packets, frames },
    })
}

/// The first octet, the time's aside, at which they differ, or at which one of them ends.
pub fn first_difference(due: &[u8], found: &[u8]) -> Option<usize> {
    let both = due.len().min(found.len());
    let other = (0..both).find(|place| !TIME.contains(place) && due[*place] != found[*place]);
    other.or_else(|| (due.len() != found.len()).then_some(both))
}

impl Reference {
    /// Counts start at 0, the store as the unit file states it.
    fn new(unit: Unit) -> Reference {
        Reference { unit, counts: Counts::default(), buffer: [0; hexline::OUTPUT_OCTETS], due: 0..0 }
    }

    /// Answers a TC; counts and store go on from the one before.
    fn answer(&mut self, packet: &[u8]) {
        let Unit { profile, store } = &mut self.unit;
        let answer = terminal::answer(profile, self.counts, hexline::TIME, packet, store, &mut self.buffer);
        self.counts = answer.counts;
        self.due = 0..answer.written;
    }

    /// The next frame due, with the time of the line found where that is long enough to hold one.
    fn next_due(&mut self, found: &[u8]) -> Option<Vec<u8>> {
        let (frame, _) = hexline::split_frame(&self.buffer[self.due.clone()])?;
        let mut frame = frame.to_vec();
        self.due.start += frame.len();
        if let Some(time) = found.get(TIME) {
            frame[TIME].copy_from_slice(time);
        }
        Some(frame)
    }

    /// Where a group ends at that line: the first frame that is missing.
    fn missing(&mut self, group: Option<u64>, line: u64) -> Option<Verdict> {
        let packet = group?;
        let due = self.next_due(&[])?;
        Some(Verdict::Differs(Difference { line, packet, due: Some(due), found: None }))
    }
}

impl Verdict {
    /// 0 where the record conforms, 1 where it differs, 2 where something is refused or bad.
    pub fn status(&self) -> u8 {
        match self {
            Verdict::Conforming { .. } => 0,
            Verdict::Differs(_) => 1,
            _ => 2,
        }
    }
}

impl Display for Verdict {
    fn fmt(&self, text: &mut Formatter) -> fmt::Result {
        match self {
            Verdict::BadUnit(bad) => writeln!(text, "{bad}"),
            Verdict::Unsound(clause) => writeln!(text, "refused 41\n{clause}"),
            Verdict::BadLine { line, why } => writeln!(text, "refused 70 {line}\n{why}"),
            Verdict::NoPacket => writeln!(text, "refused 71"),
            Verdict::Differs(difference) => difference.fmt(text),
            Verdict::Conforming { packets, frames } => writeln!(text, "conforming\npackets {packets} frames {frames}"),
        }
    }
}

impl Display for Difference {
    fn fmt(&self, text: &mut Formatter) -> fmt::Result {
        writeln!(text, "differs {}\npacket {}", self.line, self.packet)?;
        writeln!(text, "due {}\nfound {}", shown(&self.due), shown(&self.found))?;
        match (&self.due, &self.found) {
            (Some(due), Some(found)) => {
                first_difference(due, found).map_or(Ok(()), |octet| writeln!(text, "octet {octet}"))
            }
            _ => Ok(()),
        }
    }
}

/// The digits of the octets in upper case.
fn shown(octets: &Option<Vec<u8>>) -> String {
    let Some(octets) = octets else {
        return "nothing".into();
    };
    let mut digits = Vec::new();
    hex::write(octets, &mut digits);
    String::from_utf8_lossy(&digits).into_owned()
}
