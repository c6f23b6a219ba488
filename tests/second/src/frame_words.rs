//! The other way round: the frame that a line of `frames` says, from its words alone. A tally sets it beside the frame
//! that the line answers.

use std::str::Split;

use crate::tc;
use crate::tm::{HEADER_OCTETS, LENGTH_FIELD_OFFSET, PACKET_ID, SEQUENCE_FLAGS};

/// The words of a line, one after another.
struct Words<'a>(Split<'a, char>);

/// The octets of the frame; nothing for a line that has not the form of one.
pub fn frame(line: &str) -> Option<Vec<u8>> {
    let mut words = Words(line.split(' '));
    let (service, subtype) = words.0.next()?.strip_prefix('(')?.strip_suffix(')')?.split_once(',')?;
    let kind = (decimal(service)?, decimal(subtype)?);
    let pid: u8 = words.decimal("pid")?;
    let count: u16 = words.decimal("count")?;
    let time = words.octets("time", Some(6))?;
    let source_data = words.source_data(kind)?;
    if words.0.next().is_some() {
        return None;
    }

    let category = if kind.0 == 1 { 1 } else { 9 };
    let length_field = (HEADER_OCTETS + source_data.len() - LENGTH_FIELD_OFFSET) as u16;
    let mut frame = PACKET_ID.checked_add(tc::apid(pid, category))?.to_be_bytes().to_vec();
    frame.extend(SEQUENCE_FLAGS.checked_add(count)?.to_be_bytes());
    frame.extend(length_field.to_be_bytes());
    frame.extend(time);
    frame.extend([0, kind.0, kind.1, 0]);
    frame.extend(source_data);
    Some(frame)
}

impl Words<'_> {
    fn source_data(&mut self, kind: (u8, u8)) -> Option<Vec<u8>> {
        match kind {
            (1, 1 | 7) => self.request(),
            (1, 2) => {
                let mut data = self.request()?;
                data.extend(self.decimal::<u16>("code")?.to_be_bytes());
                data.extend(self.decimal::<u16>("detail")?.to_be_bytes());
                Some(data)
            }
            (6, 6) => {
                let mut data = vec![self.decimal("memory")?, 1];
                data.extend(self.span()?);
                data.extend(self.octets("words", None)?);
                Some(data)
            }
            (6, 10) => {
                let mut data = vec![self.decimal("memory")?, self.decimal("blocks")?];
                for _ in 0..data[1] {
                    data.extend(self.span()?);
                    data.extend(self.octets("crc", Some(2))?);
                }
                Some(data)
            }
            (17, 2) => Some(Vec::new()),
            _ => None,
        }
    }

    /// Packet ID and sequence control.
    fn request(&mut self) -> Option<Vec<u8>> {
        Some([self.octets("packet", Some(2))?, self.octets("control", Some(2))?].concat())
    }

    /// Start and length.
    fn span(&mut self) -> Option<Vec<u8>> {
        let mut span = self.octets("start", Some(4))?;
        span.extend(self.decimal::<u16>("length")?.to_be_bytes());
        Some(span)
    }

    /// The word behind the name, which has to stand there.
    fn behind(&mut self, name: &str) -> Option<&str> {
        (self.0.next()? == name).then(|| self.0.next())?
    }

    fn decimal<T: TryFrom<u64>>(&mut self, name: &str) -> Option<T> {
        decimal(self.behind(name)?)
    }

    /// Octets in upper case, so many where a number is given.
    fn octets(&mut self, name: &str, count: Option<usize>) -> Option<Vec<u8>> {
        let digits = self.behind(name)?.as_bytes();
        let upper_case = digits.iter().all(|digit| matches!(digit, b'0'..=b'9' | b'A'..=b'F'));
        let octets = crate::hex::read(digits).filter(|_| upper_case)?;
        count.is_none_or(|count| count == octets.len()).then_some(octets)
    }
}

/// A decimal number without a leading zero, `0` alone aside.
fn decimal<T: TryFrom<u64>>(text: &str) -> Option<T> {
    let number: u64 = text.parse().ok()?;
    (number.to_string() == text).then(|| number.try_into().ok())?
}
