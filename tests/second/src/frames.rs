//! The program `frames`: one TM frame a line in hexadecimal, and a line of words that says what it is.

use std::io::{self, Read, Write};

use crate::hex;
use crate::hexline;
use crate::lines;
use crate::telemetry::{self, CheckedBlock, Contents, Request, Telemetry};

/// Answers every line of the input.
pub fn run(input: &mut dyn Read, output: &mut dyn Write) -> io::Result<()> {
    lines::serve(input, output, hexline::MOST_DIGITS, |line, text| {
        let answer = match line.and_then(hex::read) {
            Some(frame) => frame_words(&frame),
            None => "bad line".into(),
        };
        text.extend_from_slice(answer.as_bytes());
        text.push(b'\n');
    })
}

fn frame_words(frame: &[u8]) -> String {
    match telemetry::read(frame) {
        Ok(telemetry) => stamp_words(&telemetry) + &contents_words(&telemetry.contents),
        Err(number) => format!("refused {number}"),
    }
}

/// Type, subtype, PID, count and time.
fn stamp_words(telemetry: &Telemetry) -> String {
    let Telemetry { service, subtype, count, time, .. } = telemetry;
    format!("({service},{subtype}) pid {} count {count} time {}", telemetry.pid(), digits(time))
}

/// With the space that stands before them; nothing for (17,2), which has no source data.
fn contents_words(contents: &Contents) -> String {
    match contents {
        Contents::Verification(request) => request_words(request),
        Contents::Failure { request, code, detail } => {
            request_words(request) + &format!(" code {code} detail {detail}")
        }
        Contents::Dump { memory_id, start, length, words } => {
            format!(" memory {memory_id} start {start:08X} length {length} words {}", digits(words))
        }
        Contents::Check { memory_id, blocks } => {
            let each: String = blocks.iter().map(block_words).collect();
            format!(" memory {memory_id} blocks {}{each}", blocks.len())
        }
        Contents::Connection => String::new(),
    }
}

fn request_words(request: &Request) -> String {
    format!(" packet {:04X} control {:04X}", request.packet_id, request.sequence_control)
}

fn block_words(block: &CheckedBlock) -> String {
    format!(" start {:08X} length {} crc {:04X}", block.start, block.length, block.crc)
}

fn digits(octets: &[u8]) -> String {
    octets.iter().map(|octet| format!("{octet:02X}")).collect()
}
