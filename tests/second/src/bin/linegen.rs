//! `linegen SEED LINES` writes input for the line program: packets made for its profile and
//! lines that are damaged as text. Packets are of both methods of error control, right and wrong in each way. The last
//! line has no newline.

use std::io::{self, BufWriter, Write};
use std::process::ExitCode;

use second::hex;
use second::hexline;
use second::map::Profile;
use second::program;
use second::random::Random;
use second::sample;
use second::sample_control::Turns;

fn main() -> ExitCode {
    let Some((seed, lines)) = program::seed_and_count() else {
        return program::fail("usage: linegen SEED LINES");
    };
    program::finish(write_lines(seed, lines))
}

fn write_lines(seed: u64, lines: u64) -> io::Result<()> {
    let profile = hexline::profile();
    let mut random = Random::new(seed);
    let mut controls = Turns::default();
    let mut output = BufWriter::with_capacity(1 << 16, io::stdout().lock());
    for number in 1..=lines {
        let line = match number < lines {
            true => line(&mut random, &profile, &mut controls),
            false => packet_digits(&mut random, &profile, &mut controls),
        };
        output.write_all(&line)?;
        if number < lines {
            output.write_all(b"\n")?;
        }
    }
    output.flush()
}

fn line(random: &mut Random, profile: &Profile, controls: &mut Turns) -> Vec<u8> {
    match random.below(200) {
        0..=169 => packet_digits(random, profile, controls),
        170..=172 => Vec::new(),
        173 => digits(random, 4_096),
        174 => digits(random, 4_097),
        175 => digits(random, 4_098),
        176 => {
            let count = random.pick(&[4_094, 4_095, 5_000, 8_192, 70_000]);
            digits(random, count)
        }
        177..=179 => b"185CC0000005191101000167".to_vec(),
        180..=184 => {
            let mut line = packet_digits(random, profile, controls);
            line.pop();
            line
        }
        _ => {
            let mut line = packet_digits(random, profile, controls);
            let place = random.below(line.len() as u64 + 1) as usize;
            let place = random.pick(&[0, place, line.len()]);
            let character = random.pick(&[b'\r', b' ', b'\t', 0, 0x80, 0xFF, b'G', b'g', b'/', b':', b'@', b'`', b'x']);
            match line.get_mut(place) {
                Some(there) if random.once_in(2) => *there = character,
                _ => line.insert(place, character),
            }
            line
        }
    }
}

/// A packet of any kind, now and then the next way of error control, in upper, lower or mixed case.
fn packet_digits(random: &mut Random, profile: &Profile, controls: &mut Turns) -> Vec<u8> {
    let packet = loop {
        let packet = match random.once_in(6) {
            true => controls.packet(random, profile),
            false => sample::packet(random, profile),
        };
        if !packet.is_empty() {
            break packet;
        }
    };
    let mut line = Vec::new();
    hex::write(&packet, &mut line);
    match random.below(4) {
        0 => line.make_ascii_lowercase(),
        1 => {
            for digit in &mut line {
                if random.once_in(2) {
                    digit.make_ascii_lowercase();
                }
            }
        }
        _ => (),
    }
    line
}

fn digits(random: &mut Random, count: usize) -> Vec<u8> {
    (0..count).map(|_| random.pick(b"0123456789ABCDEFabcdef")).collect()
}
