//! Serves a stream line by line in constant memory. All that is due has been sent
//! before it waits for more input.

use std::io::{self, ErrorKind, Read, Write};

const READ_OCTETS: usize = 65_536;
const WRITE_OCTETS: usize = 65_536;

/// The line that is being read. A line longer than the limit is not kept.
struct Begun {
    limit: usize,
    octets: Vec<u8>,
    too_long: bool,
}

/// Calls `answer` for each line, which adds its answer to the text; nothing stands for a line
/// longer than the limit. A last line without its newline counts if it is not empty.
pub fn serve(
    input: &mut dyn Read,
    output: &mut dyn Write,
    limit: usize,
    mut answer: impl FnMut(Option<&[u8]>, &mut Vec<u8>),
) -> io::Result<()> {
    let mut chunk = vec![0; READ_OCTETS];
    let mut begun = Begun { limit, octets: Vec::new(), too_long: false };
    let mut text = Vec::new();
    loop {
        let count = match input.read(&mut chunk) {
            Ok(0) => break,
            Ok(count) => count,
            Err(error) if error.kind() == ErrorKind::Interrupted => continue,
            Err(error) => return Err(error),
        };
        let mut rest = &chunk[..count];
        while let Some(end) = rest.iter().position(|octet| *octet == b'\n') {
            begun.add(&rest[..end]);
            answer(begun.line(), &mut text);
            begun.clear();
            rest = &rest[end + 1..];
            if text.len() >= WRITE_OCTETS {
                send(&mut text, output)?;
            }
        }
        begun.add(rest);
        send(&mut text, output)?;
        output.flush()?;
    }
    if !begun.is_empty() {
        answer(begun.line(), &mut text);
    }
    send(&mut text, output)?;
    output.flush()
}

fn send(text: &mut Vec<u8>, output: &mut dyn Write) -> io::Result<()> {
    output.write_all(text)?;
    text.clear();
    Ok(())
}

impl Begun {
    fn add(&mut self, part: &[u8]) {
        if part.len() > self.limit - self.octets.len() {
            self.too_long = true;
        }
        if !self.too_long {
            self.octets.extend_from_slice(part);
        }
    }

    fn line(&self) -> Option<&[u8]> {
        if self.too_long {
            None
        } else {
            Some(&self.octets)
        }
    }

    fn is_empty(&self) -> bool {
        self.octets.is_empty() && !self.too_long
    }

    fn clear(&mut self) {
        self.octets.clear();
        self.too_long = false;
    }
}
