//! Takes lines from a stream one at a time in constant memory, for programs that end at a verdict:
//! what stands behind the lines they ask for stays unread.

use std::io::{self, ErrorKind, Read};
use std::ops::Range;

/// The most that is asked of the stream at a time.
const READ_OCTETS: usize = 65_536;

/// A line without its newline. One longer than the limit is not kept and not read to its end.
#[derive(Clone, Copy, Debug, PartialEq, Eq)]
pub enum Line<'a> {
    Whole(&'a [u8]),
    TooLong,
}

/// A stream that is taken line by line.
pub struct LineReader<'a> {
    input: &'a mut dyn Read,
    limit: usize,
    /// What was read last, and the part of it that is not taken yet.
    chunk: Vec<u8>,
    untaken: Range<usize>,
    /// The line that is being taken.
    line: Vec<u8>,
    ended: bool,
}

impl<'a> LineReader<'a> {
    /// Begins before the first line of the stream.
    pub fn new(input: &'a mut dyn Read, limit: usize) -> LineReader<'a> {
        LineReader { input, limit, chunk: vec![0; READ_OCTETS], untaken: 0..0, line: Vec::new(), ended: false }
    }

    /// The next line, or nothing at the end; a last line without its newline counts if it is not empty, and one too
    /// long is the last. `first` is called each time before more is read.
    pub fn next(&mut self, mut first: impl FnMut() -> io::Result<()>) -> io::Result<Option<Line<'_>>> {
        self.line.clear();
        loop {
            let rest = &self.chunk[self.untaken.clone()];
            let newline = rest.iter().position(|octet| *octet == b'\n');
            let part = &rest[..newline.unwrap_or(rest.len())];
            if part.len() > self.limit - self.line.len() {
                self.untaken = 0..0;
                self.ended = true;
                return Ok(Some(Line::TooLong));
            }
            self.line.extend_from_slice(part);
            self.untaken.start += part.len();
            if newline.is_some() {
                self.untaken.start += 1;
                return Ok(Some(Line::Whole(&self.line)));
            }
            first()?;
            if !self.fill()? {
                break;
            }
        }
        if self.line.is_empty() {
            return Ok(None);
        }
        Ok(Some(Line::Whole(&self.line)))
    }

    /// Reads more; false at the end of the stream.
    fn fill(&mut self) -> io::Result<bool> {
        while !self.ended {
            match self.input.read(&mut self.chunk) {
                Ok(0) => self.ended = true,
                Ok(count) => {
                    self.untaken = 0..count;
                    return Ok(true);
                }
                Err(error) if error.kind() == ErrorKind::Interrupted => (),
                Err(error) => return Err(error),
            }
        }
        Ok(false)
    }
}
