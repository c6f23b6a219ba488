//! The line program of document 01: one packet a line in hexadecimal, its frames and a closing
//! line of two octets out.

use std::io::{self, Read, Write};

use crate::hex;
use crate::lines;
use crate::map::{Area, Flags, Profile, Rights};
use crate::terminal;
use crate::tm::Counts;

pub const MOST_DIGITS: usize = 4_096;
pub const STORE_OCTETS: usize = 128;
pub const OUTPUT_OCTETS: usize = 4_096;
pub const TIME: [u8; 6] = [0; 6];

/// PID 5, all flags, one area: ID 1, start 1000 hex, 64 words, store word 0, all rights.
pub fn profile() -> Profile {
    let mut profile = Profile { pid: 5, flags: Flags::ALL, area_count: 1, ..Profile::default() };
    profile.areas[0] = Area { memory_id: 1, start: 0x1000, length: 64, first_word: 0, rights: Rights::ALL };
    profile
}

/// Serves every line of the input.
pub fn run(input: &mut dyn Read, output: &mut dyn Write) -> io::Result<()> {
    let profile = profile();
    let mut counts = Counts::default();
    let mut store = [0; STORE_OCTETS];
    let mut buffer = [0; OUTPUT_OCTETS];
    lines::serve(input, output, MOST_DIGITS, |line, text| {
        let Some(packet) = line.and_then(hex::read) else {
            text.extend_from_slice(b"0200\n");
            return;
        };
        let answer = terminal::answer(&profile, counts, TIME, &packet, &mut store, &mut buffer);
        counts = answer.counts;
        write_frames(&buffer[..answer.written], text);
        hex::write(&answer.verdict.closing(), text);
        text.push(b'\n');
    })
}

/// One frame a line.
pub fn write_frames(mut frames: &[u8], text: &mut Vec<u8>) {
    while let Some((frame, rest)) = split_frame(frames) {
        hex::write(frame, text);
        text.push(b'\n');
        frames = rest;
    }
}

/// The first frame and those behind it; a frame's length field says where the next begins.
pub fn split_frame(frames: &[u8]) -> Option<(&[u8], &[u8])> {
    let [_, _, _, _, upper, lower, ..] = frames else {
        return None;
    };
    let length = usize::from(u16::from_be_bytes([*upper, *lower])) + 7;
    Some(frames.split_at_checked(length).unwrap_or((frames, &[])))
}
