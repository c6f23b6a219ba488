//! `judgetally FOLDER` reads what `judge` gave for each pair of files of a folder, NNNN.theirs for NNNN.record, and counts
//! how often each verdict was reached and what was told with it. It ends with 1 if one never was.

use std::env;
use std::io;
use std::path::Path;
use std::process::ExitCode;

use second::ends::{self, Tally};
use second::judge::TIME;
use second::program;

/// Verdicts that have one form.
const CONFORMING: &str = "conforming";
const NO_PACKET: &str = "refused 71";
const BAD_UNIT: &str = "unit";
/// Where a line and the frame due differ.
const IN_HEADER: &str = "differs: octet before the time";
const BEHIND_TIME: &str = "differs: octet behind the time";
const TOO_SHORT: &str = "differs: the line ends before the time does";
const LINE_ENDS: &str = "differs: the line ends first";
const FRAME_ENDS: &str = "differs: the frame due ends first";
/// A line too many, and a frame too few.
const DUE_NOTHING: &str = "differs: due nothing";
const MISSING_AT_EMPTY_LINE: &str = "differs: found nothing, at an empty line";
const MISSING_AT_THE_END: &str = "differs: found nothing, at the end of the input";

fn main() -> ExitCode {
    let arguments: Vec<_> = env::args_os().skip(1).collect();
    let [folder] = arguments.as_slice() else {
        return program::fail("usage: judgetally FOLDER");
    };
    match count(Path::new(folder)) {
        Ok((tally, files)) => tally.report(&format!("{files} records")),
        Err(error) => program::fail(&error.to_string()),
    }
}

/// Counts every answer of the folder.
fn count(folder: &Path) -> io::Result<(Tally, usize)> {
    let mut tally = Tally::of(wanted());
    let paths = ends::answers(folder)?;
    for path in &paths {
        let record = ends::octets(&path.with_extension("record"))?;
        let out = ends::text(path)?;
        let end = end(&out, &record).and_then(|end| tally.add(&end));
        end.ok_or_else(|| ends::other_form(path))?;
    }
    Ok((tally, paths.len()))
}

/// The kind of an answer; nothing where it has another form than that of `judge`.
fn end(out: &str, record: &[u8]) -> Option<String> {
    let lines: Vec<_> = out.strip_suffix('\n')?.split('\n').collect();
    match lines.as_slice() {
        ["conforming", counts] => {
            let (packets, frames) = counts.strip_prefix("packets ")?.split_once(" frames ")?;
            number(packets).and(number(frames)).map(|_| CONFORMING.into())
        }
        ["refused 41", words] => Some(ends::unsound(words)),
        ["refused 71"] => Some(NO_PACKET.into()),
        [first, words] if first.starts_with("refused 70 ") => {
            number(&first[11..])?;
            Some(ends::bad_line(words))
        }
        [unit] => {
            let (line, _) = unit.strip_prefix("unit ")?.split_once(": ")?;
            number(line).map(|_| BAD_UNIT.into())
        }
        [first, packet, told @ ..] => {
            let line = number(first.strip_prefix("differs ")?)?;
            number(packet.strip_prefix("packet ")?)?;
            difference(line, told, record).map(String::from)
        }
        _ => None,
    }
}

/// What is told of the frame due and the line found.
fn difference(line: usize, told: &[&str], record: &[u8]) -> Option<&'static str> {
    match told {
        ["due nothing", found] => found.strip_prefix("found ").and_then(octets).map(|_| DUE_NOTHING),
        [due, "found nothing"] => {
            octets(due.strip_prefix("due ")?)?;
            Some(if line > line_count(record) { MISSING_AT_THE_END } else { MISSING_AT_EMPTY_LINE })
        }
        [due, found, octet] => {
            let due = octets(due.strip_prefix("due ")?)?;
            let found = octets(found.strip_prefix("found ")?)?;
            let octet = number(octet.strip_prefix("octet ")?)?;
            Some(match octet {
                _ if octet == due => FRAME_ENDS,
                _ if octet == found && octet < TIME.end => TOO_SHORT,
                _ if octet == found => LINE_ENDS,
                _ if octet < TIME.start => IN_HEADER,
                _ => BEHIND_TIME,
            })
        }
        _ => None,
    }
}

/// How many octets these digits in upper case are.
fn octets(digits: &str) -> Option<usize> {
    let right = digits.bytes().all(|digit| matches!(digit, b'0'..=b'9' | b'A'..=b'F'));
    (right && !digits.is_empty() && digits.len().is_multiple_of(2)).then_some(digits.len() / 2)
}

/// A number in decimal digits.
fn number(text: &str) -> Option<usize> {
    text.bytes().all(|digit| digit.is_ascii_digit()).then(|| text.parse().ok())?
}

/// How many lines a record has; a last line without its newline counts if it is not empty.
fn line_count(record: &[u8]) -> usize {
    let newlines = record.iter().filter(|octet| **octet == b'\n').count();
    newlines + usize::from(record.last().is_some_and(|octet| *octet != b'\n'))
}

/// Everything that has to be reached.
fn wanted() -> Vec<String> {
    let mut wanted: Vec<_> = ends::CLAUSES.map(ends::unsound).into();
    wanted.extend(ends::BAD_LINES.map(ends::bad_line));
    wanted.extend([CONFORMING, NO_PACKET, BAD_UNIT].map(String::from));
    wanted.extend([IN_HEADER, BEHIND_TIME, TOO_SHORT, LINE_ENDS, FRAME_ENDS].map(String::from));
    wanted.extend([DUE_NOTHING, MISSING_AT_EMPTY_LINE, MISSING_AT_THE_END].map(String::from));
    wanted
}
