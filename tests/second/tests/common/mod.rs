//! What the tests share: programs to run, hexadecimal text, packets with their error control, a unit to
//! send them to.

#![allow(dead_code)]

pub mod explaining;
pub mod judging;
pub mod packing;

use std::env;
use std::io::{self, BufRead, BufReader, Read, Write};
use std::process::{Command, Stdio};
use std::sync::mpsc;
use std::thread;
use std::time::Duration;

use second::crc::{crc, START};
use second::hexline;
use second::iso;
use second::map::{Area, Flags, Profile, Rights};
use second::refusal::Refusal;
use second::terminal::{self, Answer, Verdict};
use second::tm::Counts;

/// The command that the variable names, one word a line: another implementation's program, which is held to
/// the same expectations. Nothing where the variable is not set.
pub fn command(variable: &str) -> Option<Command> {
    let words = env::var(variable).ok()?;
    let mut words = words.lines();
    let mut command = Command::new(words.next().expect("a command has a word"));
    command.args(words);
    Some(command)
}

/// What a program writes on the input: this implementation's, or that of the command that the variable names.
pub fn written(variable: &str, run: fn(&mut dyn Read, &mut dyn Write) -> io::Result<()>, input: &[u8]) -> String {
    let output = match command(variable) {
        None => {
            let mut output = Vec::new();
            run(&mut &input[..], &mut output).expect("a vector takes everything");
            output
        }
        Some(command) => piped(command, vec![input.to_vec()]),
    };
    String::from_utf8(output).expect("digits")
}

/// What a command writes on the parts of an input, sent through a pipe one after another.
pub fn piped(mut command: Command, parts: Vec<Vec<u8>>) -> Vec<u8> {
    command.stdin(Stdio::piped()).stdout(Stdio::piped()).stderr(Stdio::piped());
    let mut child = command.spawn().expect("the program starts");
    let mut input = child.stdin.take().expect("its input");
    let sender = thread::spawn(move || parts.iter().try_for_each(|part| input.write_all(part)));
    let done = child.wait_with_output().expect("the program ends");
    sender.join().expect("the sender ends").expect("the program reads all");
    assert!(done.status.success(), "{}", done.status);
    assert!(done.stderr.is_empty(), "{}", String::from_utf8_lossy(&done.stderr));
    done.stdout
}

/// Sends a command lines one at a time, each only when the one before is answered with one line.
pub fn answers_at_once(mut command: Command, lines: &[(&str, &str)]) {
    let mut child = command.stdin(Stdio::piped()).stdout(Stdio::piped()).spawn().expect("the program starts");
    let mut input = child.stdin.take().expect("its input");
    let output = child.stdout.take().expect("its output");
    let (sender, answers) = mpsc::channel();
    thread::spawn(move || {
        for line in BufReader::new(output).lines().map_while(Result::ok) {
            if sender.send(line).is_err() {
                break;
            }
        }
    });
    for (line, expected) in lines {
        input.write_all(line.as_bytes()).expect("it reads");
        input.flush().expect("it reads");
        let answer = answers.recv_timeout(Duration::from_secs(20));
        assert_eq!(answer.as_deref(), Ok(*expected));
    }
    drop(input);
    assert!(child.wait().expect("it ends").success());
}

/// The octets of hexadecimal text; spaces may stand anywhere.
pub fn hex(text: &str) -> Vec<u8> {
    let digits: Vec<u32> = text
        .chars()
        .filter(|character| *character != ' ')
        .map(|character| character.to_digit(16).expect("a digit"))
        .collect();
    assert!(digits.len().is_multiple_of(2), "an even count of digits");
    digits.chunks(2).map(|pair| (pair[0] * 16 + pair[1]) as u8).collect()
}

/// The octets and their CRC after them: right where the checksum flag is 1.
pub fn sealed(text: &str) -> Vec<u8> {
    let mut octets = hex(text);
    let error_control = crc(START, &octets);
    octets.extend_from_slice(&error_control.to_be_bytes());
    octets
}

/// The octets and their ISO checksum after them, which is right where the checksum flag is 0; it is got by weights.
pub fn sealed_by_iso(text: &str) -> Vec<u8> {
    let mut octets = hex(text);
    let error_control = iso::weighted(&octets);
    octets.extend_from_slice(&error_control.to_be_bytes());
    octets
}

/// A packet for PID 5 with count 0 and checksum flag 1, given ack, service, subtype and data.
pub fn packet(ack: u8, service: u8, subtype: u8, data: &[u8]) -> Vec<u8> {
    let mut text = format!("185C C000 {:04X} {:02X} {service:02X} {subtype:02X} 00", data.len() + 5, 0x10 | ack);
    for octet in data {
        text.push_str(&format!("{octet:02X}"));
    }
    sealed(&text)
}

/// The same with the data as text.
pub fn request(ack: u8, service: u8, subtype: u8, data: &str) -> Vec<u8> {
    packet(ack, service, subtype, &hex(data))
}

/// The same with checksum flag 0.
pub fn request_by_iso(ack: u8, service: u8, subtype: u8, data: &str) -> Vec<u8> {
    let length_field = hex(data).len() + 5;
    sealed_by_iso(&format!("185C C000 {length_field:04X} {ack:02X} {service:02X} {subtype:02X} 00 {data}"))
}

pub fn area(memory_id: u8, start: u32, length: u32, first_word: u32) -> Area {
    Area { memory_id, start, length, first_word, rights: Rights::ALL }
}

pub fn profile(areas: &[Area]) -> Profile {
    let mut profile = Profile { pid: 5, flags: Flags::ALL, area_count: areas.len() as u8, ..Profile::default() };
    profile.areas[..areas.len()].copy_from_slice(areas);
    profile
}

pub fn refused(number: u8, detail: u16) -> Verdict {
    Verdict::Refused(Refusal { number, detail })
}

/// A terminal with all that stays from packet to packet.
pub struct Unit {
    pub profile: Profile,
    pub counts: Counts,
    pub time: [u8; 6],
    pub store: Vec<u8>,
    pub output: Vec<u8>,
}

impl Unit {
    /// The line program's profile, store and buffer.
    pub fn new() -> Unit {
        Unit::with(hexline::profile(), 128)
    }

    pub fn with(profile: Profile, store_octets: usize) -> Unit {
        Unit { profile, counts: Counts::default(), time: [0; 6], store: vec![0; store_octets], output: vec![0; 4096] }
    }

    pub fn send(&mut self, packet: &[u8]) -> Answer {
        let answer = terminal::answer(&self.profile, self.counts, self.time, packet, &mut self.store, &mut self.output);
        self.counts = answer.counts;
        answer
    }

    /// Sends the packet and expects acceptance with these frames.
    pub fn accepts(&mut self, packet: &[u8], frames: &str) {
        let answer = self.send(packet);
        assert_eq!(answer.verdict, Verdict::Accepted);
        assert_eq!(self.output[..answer.written], hex(frames));
    }

    /// Sends the packet and expects the refusal, its one frame, the count and an untouched store.
    pub fn refuses(&mut self, packet: &[u8], number: u8, detail: u16) {
        let store = self.store.clone();
        let before = self.counts;
        self.output.fill(0xA5);
        let answer = self.send(packet);
        assert_eq!(answer.verdict, refused(number, detail));
        assert_eq!(answer.written, 24);
        assert_eq!(self.output[0..2], (0x0801 + u16::from(self.profile.pid) * 16).to_be_bytes());
        assert_eq!(self.output[2..4], (0xC000 + before.category_1).to_be_bytes());
        assert_eq!(self.output[4..6], [0x00, 0x11]);
        assert_eq!(self.output[6..12], self.time);
        assert_eq!(self.output[12..16], [0, 1, 2, 0]);
        assert_eq!(self.output[16..20], packet[0..4]);
        assert_eq!(self.output[20..22], [0, number]);
        assert_eq!(self.output[22..24], detail.to_be_bytes());
        assert!(self.output[24..].iter().all(|octet| *octet == 0xA5));
        let next = if before.category_1 == 16_383 { 0 } else { before.category_1 + 1 };
        assert_eq!(answer.counts, Counts { category_1: next, category_9: before.category_9 });
        assert_eq!(self.store, store);
    }

    /// Sends the packet and expects a refusal without a frame that changes nothing at all.
    pub fn ignores(&mut self, packet: &[u8], number: u8) {
        let before = (self.counts, self.store.clone(), self.output.clone());
        let answer = self.send(packet);
        assert_eq!(answer.verdict, refused(number, 0));
        assert_eq!(answer.written, 0);
        assert!(before == (self.counts, self.store.clone(), self.output.clone()));
    }
}
