//! `explaingen SEED COUNT FOLDER` writes so many unit files, NNNN.unit, each with packets for it, NNNN.packets: packets
//! that each check refuses in each way, several faults in one packet, packets that are served, and bad lines; units with
//! services off, and now and then one that is bad or not sound.

use std::fs;
use std::io;
use std::path::Path;
use std::process::ExitCode;

use second::blocks::MemoryRequest;
use second::map::{Flags, Profile};
use second::program;
use second::random::Random;
use second::sample;
use second::sample_bad_unit::{self, AIMS};
use second::sample_control::Turns;
use second::sample_line::{self, BAD};
use second::sample_refused::{self, Aim, Request};
use second::sample_unit::{self, Stated, WAYS};

/// What a pair of files is to be.
#[derive(Clone, Copy, PartialEq, Eq)]
enum Kind {
    /// A unit with all its services.
    Able,
    /// Without that service, or without any of service 6.
    Without(Request),
    OnlyConnection,
    /// Any sound unit, with packets of any kind.
    Any,
    /// Any sound unit, without a packet.
    NoPacket,
    Unsound,
    Bad,
}

/// The kinds in turn.
const TURNS: [Kind; 18] = [
    Kind::Able,
    Kind::Without(Some(MemoryRequest::Load)),
    Kind::Able,
    Kind::Unsound,
    Kind::Able,
    Kind::OnlyConnection,
    Kind::Able,
    Kind::Any,
    Kind::Able,
    Kind::Without(Some(MemoryRequest::Dump)),
    Kind::Able,
    Kind::Bad,
    Kind::Able,
    Kind::Without(Some(MemoryRequest::Check)),
    Kind::Able,
    Kind::NoPacket,
    Kind::Unsound,
    Kind::Without(None),
];

/// A unit with all its services has at least so many areas, and at most 8.
const FEWEST_AREAS: usize = 4;
/// So many of the aims go into one file.
const AIMS_OF_A_FILE: usize = 60;

/// What comes in turn, and how much of it is there already.
struct Generator {
    aims: Vec<Aim>,
    next_aim: usize,
    able: usize,
    unsound: usize,
    bad: usize,
    controls: Turns,
}

fn main() -> ExitCode {
    let Some((seed, count, folder)) = program::seed_count_and_folder() else {
        return program::fail("usage: explaingen SEED COUNT FOLDER");
    };
    program::finish(write_files(seed, count, &folder))
}

/// Writes the pairs of files, numbered from 1.
fn write_files(seed: u64, count: u64, folder: &Path) -> io::Result<()> {
    fs::create_dir_all(folder)?;
    let mut random = Random::new(seed);
    let mut generator = Generator {
        aims: sample_refused::aims(),
        next_aim: 0,
        able: 0,
        unsound: 0,
        bad: 0,
        controls: Turns::default(),
    };
    for (number, kind) in (1..=count).zip(TURNS.into_iter().cycle()) {
        let (unit, packets) = generator.pair(&mut random, kind);
        fs::write(folder.join(format!("{number:04}.unit")), unit)?;
        fs::write(folder.join(format!("{number:04}.packets")), packets)?;
    }
    Ok(())
}

impl Generator {
    /// The texts of a unit file of that kind and of packets for it.
    fn pair(&mut self, random: &mut Random, kind: Kind) -> (Vec<u8>, Vec<u8>) {
        if kind == Kind::Bad {
            return self.bad(random);
        }
        let stated = self.unit(random, kind);
        let mut packets = self.packets(random, kind, &stated.profile);
        random.shuffle(&mut packets);
        let mut lines: Vec<_> = packets.iter().map(|packet| sample_line::digits(random, packet)).collect();
        if kind != Kind::NoPacket {
            self.add_bad_lines(random, &mut lines);
        }
        let items = sample_unit::items(random, &stated);
        (sample_unit::text(random, &items), text(random, &lines))
    }

    /// A unit of that kind.
    fn unit(&mut self, random: &mut Random, kind: Kind) -> Stated {
        let areas = FEWEST_AREAS + self.able % (9 - FEWEST_AREAS);
        match kind {
            Kind::Any | Kind::NoPacket => sample_unit::sound(random),
            Kind::Unsound => {
                // Each way alone, then each with others.
                let others = !(self.unsound / WAYS.len()).is_multiple_of(2);
                let way = WAYS[self.unsound % WAYS.len()];
                self.unsound += 1;
                sample_unit::unsound(random, way, others)
            }
            _ => {
                self.able += 1;
                let mut stated = sample_refused::roomy(random, areas);
                stated.profile.flags = flags(kind);
                stated
            }
        }
    }

    /// The packets of a file.
    fn packets(&mut self, random: &mut Random, kind: Kind, profile: &Profile) -> Vec<Vec<u8>> {
        let mut packets: Vec<_> = match kind {
            Kind::NoPacket => return Vec::new(),
            Kind::Able => {
                let from = self.next_aim;
                self.next_aim += AIMS_OF_A_FILE;
                let aims = self.aims.iter().cycle().skip(from % self.aims.len()).take(AIMS_OF_A_FILE);
                let aimed = aims.map(|aim| sample_refused::packet(random, profile, aim));
                aimed.collect::<Vec<_>>()
            }
            Kind::Without(request) => without(random, profile, &[request]),
            Kind::OnlyConnection => without(random, profile, &MemoryRequest::ALL.map(Some)),
            Kind::Any | Kind::Unsound | Kind::Bad => Vec::new(),
        };
        if kind == Kind::Able {
            packets.extend(
                (0..profile.used_areas().len()).map(|place| sample_refused::outside_of(random, profile, place)),
            );
        }
        packets.extend((0..random.between(4, 12)).map(|_| sample::packet(random, profile)));
        packets.extend((0..4).map(|_| self.controls.packet(random, profile)));
        packets
    }

    /// Puts a bad line of each sort anywhere, and one that ends with a carriage return.
    fn add_bad_lines(&mut self, random: &mut Random, lines: &mut Vec<Vec<u8>>) {
        let mut bad_lines: Vec<Vec<u8>> = Vec::new();
        for bad in BAD {
            let octets = random.between(1, 60) as usize;
            let octets = random.octets(octets);
            let mut line = sample_line::digits(random, &octets);
            sample_line::spoil(random, &mut line, bad);
            bad_lines.push(line);
        }
        bad_lines.push([lines.first().map_or(&[][..], |line| line), b"\r"].concat());
        for line in bad_lines {
            let place = random.below(lines.len() as u64 + 1) as usize;
            lines.insert(place, line);
        }
    }

    /// A bad unit file, with any lines.
    fn bad(&mut self, random: &mut Random) -> (Vec<u8>, Vec<u8>) {
        let stated = sample_unit::sound_with_everything(random);
        let mut items = sample_unit::items(random, &stated);
        sample_bad_unit::spoil(random, &stated, &mut items, &AIMS[self.bad % AIMS.len()]);
        self.bad += 1;
        let lines: Vec<_> = (0..random.below(4))
            .map(|_| {
                let packet = sample::packet(random, &stated.profile);
                sample_line::digits(random, &packet)
            })
            .collect();
        (sample_unit::text(random, &items), text(random, &lines))
    }
}

/// The services of a unit of that kind.
fn flags(kind: Kind) -> Flags {
    match kind {
        Kind::Without(None) => Flags { connection: false, ..Flags::ALL },
        Kind::Without(Some(MemoryRequest::Load)) => Flags { load: false, ..Flags::ALL },
        Kind::Without(Some(MemoryRequest::Dump)) => Flags { dump: false, ..Flags::ALL },
        Kind::Without(Some(MemoryRequest::Check)) => Flags { check: false, ..Flags::ALL },
        Kind::OnlyConnection => Flags { connection: true, ..Flags::default() },
        _ => Flags::ALL,
    }
}

/// Packets for services that a unit does not have.
fn without(random: &mut Random, profile: &Profile, requests: &[Request]) -> Vec<Vec<u8>> {
    let mut packets = Vec::new();
    for request in requests {
        for aim in sample_refused::aims_without(*request) {
            packets.push(sample_refused::packet(random, profile, &aim));
        }
    }
    packets
}

/// The lines with their newlines; the last may have none, unless it is empty.
fn text(random: &mut Random, lines: &[Vec<u8>]) -> Vec<u8> {
    let mut text = lines.join(&b'\n');
    let empty = lines.last().is_none_or(|line| line.is_empty());
    if !lines.is_empty() && (empty || random.once_in(2)) {
        text.push(b'\n');
    }
    text
}
