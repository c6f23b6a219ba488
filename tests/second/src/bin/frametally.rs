//! `frametally INPUT OUTPUT` pairs the lines of a `frames` input with their answers and counts how often each kind of
//! frame, each cause of refusal, each pair of causes and each sort of bad line was reached. It ends with 1 if one never
//! was, and with 2 if an answer is not that of the causes, or does not say the frame that it stands for.

use std::env;
use std::fs;
use std::io;
use std::path::Path;
use std::process::ExitCode;

use second::ends::{self, Tally};
use second::frame_causes::failing;
use second::frame_rows;
use second::frame_words;
use second::hex;
use second::hexline::MOST_DIGITS;
use second::program;

const EMPTY_LINE: &str = "line empty";
const LONGEST_LINE: &str = "line of 4,096 digits";
const LOWER_CASE: &str = "line with lower-case letters";
const NO_NEWLINE: &str = "line without its newline";
const OF_4097: &str = "bad line of 4,097 characters";
const OF_4098: &str = "bad line of 4,098 characters";
const LONGER: &str = "bad line of more than 4,098 characters";
const LONGEST_BAD_LINE: &str = "bad line of 4,096 characters";
const ODD_DIGITS: &str = "bad line of odd digits";
const CARRIAGE_RETURN: &str = "bad line with a carriage return";
const SPACE: &str = "bad line with a space";
const NUL: &str = "bad line with a NUL";
const ABOVE_7F: &str = "bad line with an octet above 7F";
const OTHER_CHARACTER: &str = "bad line with another character";
const TEXT_ROWS: [&str; 14] = [
    EMPTY_LINE,
    LONGEST_LINE,
    LOWER_CASE,
    NO_NEWLINE,
    OF_4097,
    OF_4098,
    LONGER,
    LONGEST_BAD_LINE,
    ODD_DIGITS,
    CARRIAGE_RETURN,
    SPACE,
    NUL,
    ABOVE_7F,
    OTHER_CHARACTER,
];

fn main() -> ExitCode {
    let arguments: Vec<_> = env::args_os().skip(1).collect();
    let [input, output] = arguments.as_slice() else {
        return program::fail("usage: frametally INPUT OUTPUT");
    };
    match count(Path::new(input), Path::new(output)) {
        Ok((tally, lines)) => tally.report(&format!("{lines} lines of frames")),
        Err(error) => program::fail(&error.to_string()),
    }
}

fn count(input: &Path, output: &Path) -> io::Result<(Tally, usize)> {
    let mut tally = Tally::of(wanted());
    let input = ends::octets(input)?;
    let output = fs::read_to_string(output)?;
    let lines = lines(&input);
    let answers: Vec<_> = output.split_terminator('\n').collect();
    if lines.len() != answers.len() || !(output.is_empty() || output.ends_with('\n')) {
        return Err(io::Error::other(format!("{} answers to {} lines", answers.len(), lines.len())));
    }
    for (number, (line, answer)) in (1..).zip(lines.iter().zip(answers)) {
        let rows = rows(line, answer).ok_or_else(|| io::Error::other(format!("line {number} is answered {answer}")))?;
        for row in rows {
            // Edges and causes that are not in the list are not asked for.
            let _ = tally.add(&row);
        }
    }
    if input.last().is_some_and(|octet| *octet != b'\n') {
        let _ = tally.add(NO_NEWLINE);
    }
    Ok((tally, lines.len()))
}

/// The lines without their newlines; a last one without its newline counts if it is not empty.
fn lines(input: &[u8]) -> Vec<&[u8]> {
    input.split_inclusive(|octet| *octet == b'\n').map(|line| line.strip_suffix(b"\n").unwrap_or(line)).collect()
}

/// The rows that a line counts for; nothing where its answer is not what its causes ask for.
fn rows(line: &[u8], answer: &str) -> Option<Vec<String>> {
    let frame = hex::read(line).filter(|_| line.len() <= MOST_DIGITS);
    let Some(frame) = frame else {
        return (answer == "bad line").then(|| bad_rows(line));
    };
    let right = match failing(&frame).first() {
        Some(cause) => answer == format!("refused {}", cause.number()),
        None => frame_words::frame(answer).is_some_and(|said| said == frame),
    };
    let mut rows = frame_rows::rows(&frame);
    rows.extend(line.is_empty().then(|| EMPTY_LINE.into()));
    rows.extend((line.len() == MOST_DIGITS).then(|| LONGEST_LINE.into()));
    rows.extend(line.iter().any(u8::is_ascii_lowercase).then(|| LOWER_CASE.into()));
    right.then_some(rows)
}

/// By its length, else by its first character that is no digit, else by the count of its digits.
fn bad_rows(line: &[u8]) -> Vec<String> {
    let longest = line.len() == MOST_DIGITS;
    let other = line.iter().find(|character| !character.is_ascii_hexdigit());
    let row = match (line.len().saturating_sub(MOST_DIGITS), other) {
        (1, _) => OF_4097,
        (2, _) => OF_4098,
        (3.., _) => LONGER,
        (0, Some(b'\r')) => CARRIAGE_RETURN,
        (0, Some(b' ')) => SPACE,
        (0, Some(0)) => NUL,
        (0, Some(0x80..)) => ABOVE_7F,
        (0, Some(_)) => OTHER_CHARACTER,
        (0, None) => ODD_DIGITS,
    };
    [row].into_iter().chain(longest.then_some(LONGEST_BAD_LINE)).map(String::from).collect()
}

/// Everything that has to be reached.
fn wanted() -> Vec<String> {
    frame_rows::wanted().into_iter().chain(TEXT_ROWS.map(String::from)).collect()
}
