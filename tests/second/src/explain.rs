//! The program `explain`: for each packet line the number of the check that the packet fails first, its detail, and the
//! first and the last offset of the octets that the check is about.

use std::io::{self, Read, Write};

use crate::hex;
use crate::hexline;
use crate::lines;
use crate::map::Profile;
use crate::pack::{self, End};
use crate::refusal::{self, Refusal};
use crate::terminal;

/// The first and the last offset of some octets of a packet, from 0.
type Octets = (usize, usize);

// Where the fields of a packet stand.
const PACKET_ID: Octets = (0, 1);
const VERSION_TYPE_AND_FLAG: usize = 0;
const SEQUENCE_FLAGS: usize = 2;
const LENGTH_FIELD: Octets = (4, 5);
const PUS_VERSION: usize = 6;
const TYPE: usize = 7;
const SUBTYPE: usize = 8;
const DATA: usize = 10;
const ERROR_CONTROL_OCTETS: usize = 2;

// Where the blocks of service 6 stand: behind the memory ID and N, each a start of 4 octets and a length of 2; of a load
// each has its words behind it.
const MEMORY_ID: usize = DATA;
const FIRST_BLOCK: usize = DATA + 2;
const START_OCTETS: usize = 4;
const BLOCK_OCTETS: usize = START_OCTETS + 2;
const WORD_OCTETS: usize = 2;
const LOAD: u8 = 2;

/// Answers every line of the input, under the line program's profile.
pub fn run(input: &mut dyn Read, output: &mut dyn Write) -> io::Result<()> {
    serve(&hexline::profile(), input, output)
}

/// Answers every line of the packets under the profile of a unit file, or under the line program's where none is given;
/// what comes last is for the caller to say.
pub fn run_for(unit: Option<&mut dyn Read>, packets: &mut dyn Read, output: &mut dyn Write) -> io::Result<End> {
    let Some(unit) = unit else {
        return run(packets, output).map(|()| End::Whole);
    };
    match pack::sound_unit(unit)? {
        Ok(unit) => serve(&unit.profile, packets, output).map(|()| End::Whole),
        Err(end) => Ok(end),
    }
}

/// One line for each line.
fn serve(profile: &Profile, input: &mut dyn Read, output: &mut dyn Write) -> io::Result<()> {
    lines::serve(input, output, hexline::MOST_DIGITS, |line, text| {
        let answer = match line.and_then(hex::read) {
            Some(packet) => words(terminal::refusal_of(profile, &packet), &packet),
            None => "0200".into(),
        };
        text.extend_from_slice(answer.as_bytes());
        text.push(b'\n');
    })
}

/// What is said of a packet that is refused so, or accepted.
fn words(refused: Option<Refusal>, packet: &[u8]) -> String {
    let Some(refusal) = refused else {
        return "0000".into();
    };
    let (first, last) = octets_of(refusal, packet);
    format!("{} {} {first} {last}", refusal.number, refusal.detail)
}

/// The octets that the check of a refusal is about; where there are none, the last offset stands before the first.
fn octets_of(refusal: Refusal, packet: &[u8]) -> Octets {
    let received = packet.len();
    match refusal.number {
        refusal::RECEIVED_COUNT => LENGTH_FIELD,
        refusal::ERROR_CONTROL => (received - ERROR_CONTROL_OCTETS, received - 1),
        refusal::HEADER => one(header_octet(refusal.detail)),
        refusal::APID => PACKET_ID,
        refusal::TYPE => one(TYPE),
        refusal::SUBTYPE => (TYPE, SUBTYPE),
        refusal::DATA => (DATA, received - ERROR_CONTROL_OCTETS - 1),
        refusal::MEMORY_ID => one(MEMORY_ID),
        refusal::RIGHT => one(MEMORY_ID),
        refusal::OUTSIDE => start_and_length(packet, refusal.detail),
        // 42: whatever was received, if anything was.
        _ => one(0),
    }
}

/// One octet is its own first and last.
fn one(octet: usize) -> Octets {
    (octet, octet)
}

/// The octet of the wrong bits of check 16, by its detail: version, type bit, header flag, sequence flags, PUS version.
fn header_octet(detail: u16) -> usize {
    match detail {
        4 => SEQUENCE_FLAGS,
        5 => PUS_VERSION,
        _ => VERSION_TYPE_AND_FLAG,
    }
}

/// The start and the length of the block of that number, from 1, of data that is well formed.
fn start_and_length(packet: &[u8], number: u16) -> Octets {
    let mut begin = FIRST_BLOCK;
    for _ in 1..number {
        let words = match packet[SUBTYPE] {
            LOAD => block_words(packet, begin),
            _ => 0,
        };
        begin += BLOCK_OCTETS + words * WORD_OCTETS;
    }
    (begin, begin + BLOCK_OCTETS - 1)
}

/// How many words the block has that begins there.
fn block_words(packet: &[u8], begin: usize) -> usize {
    let length = begin + START_OCTETS;
    usize::from(u16::from_be_bytes([packet[length], packet[length + 1]]))
}
