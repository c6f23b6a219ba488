//! `unitgen SEED COUNT FOLDER` writes so many unit files of every kind, NNNN.unit, each with packets for it,
//! NNNN.packets: sound units, ones that are not sound, bad files and files that are changed at random.

use std::fs;
use std::io;
use std::path::Path;
use std::process::ExitCode;

use second::map::Profile;
use second::program;
use second::random::Random;
use second::sample;
use second::sample_bad_unit::{self, AIMS};
use second::sample_control::Turns;
use second::sample_line::{self, Bad, BAD};
use second::sample_unit::{self, Stated, WAYS};

/// What a file is to be.
#[derive(Clone, Copy)]
enum Kind {
    Sound,
    Unsound,
    Bad,
    Changed,
}

/// The kinds in turn: nine sound, four unsound, five bad and two changed.
const TURNS: [Kind; 20] = [
    Kind::Sound,
    Kind::Unsound,
    Kind::Sound,
    Kind::Bad,
    Kind::Sound,
    Kind::Changed,
    Kind::Sound,
    Kind::Bad,
    Kind::Unsound,
    Kind::Sound,
    Kind::Bad,
    Kind::Sound,
    Kind::Unsound,
    Kind::Sound,
    Kind::Bad,
    Kind::Sound,
    Kind::Changed,
    Kind::Sound,
    Kind::Bad,
    Kind::Unsound,
];

/// One sound file in so many has a bad packet line.
const SOUND_FOR_ONE_BAD_PACKET: usize = 4;
/// One sound file in so many has no packet.
const SOUND_FOR_ONE_WITHOUT_PACKETS: usize = 15;

/// How many files of each kind there are already, and what the error control of packets is to be.
#[derive(Default)]
struct Generator {
    sound: usize,
    unsound: usize,
    bad: usize,
    controls: Turns,
}

fn main() -> ExitCode {
    let Some((seed, count, folder)) = program::seed_count_and_folder() else {
        return program::fail("usage: unitgen SEED COUNT FOLDER");
    };
    program::finish(write_files(seed, count, &folder))
}

/// Writes the pairs of files, numbered from 1.
fn write_files(seed: u64, count: u64, folder: &Path) -> io::Result<()> {
    fs::create_dir_all(folder)?;
    let mut random = Random::new(seed);
    let mut generator = Generator::default();
    for (number, kind) in (1..=count).zip(TURNS.into_iter().cycle()) {
        let (unit, packets) = generator.pair(&mut random, kind);
        fs::write(folder.join(format!("{number:04}.unit")), unit)?;
        fs::write(folder.join(format!("{number:04}.packets")), packets)?;
    }
    Ok(())
}

impl Generator {
    /// The texts of a unit file of that kind and of packets for it.
    fn pair(&mut self, random: &mut Random, kind: Kind) -> (Vec<u8>, Vec<u8>) {
        let mut bad_packet = None;
        let mut no_packet = false;
        let (stated, unit) = match kind {
            Kind::Sound => {
                self.sound += 1;
                if self.sound.is_multiple_of(SOUND_FOR_ONE_BAD_PACKET) {
                    let turn = self.sound / SOUND_FOR_ONE_BAD_PACKET;
                    bad_packet = Some(BAD[turn % BAD.len()]);
                } else {
                    no_packet = self.sound % SOUND_FOR_ONE_WITHOUT_PACKETS == 1;
                }
                let stated = sample_unit::sound(random);
                let unit = text(random, &stated);
                (stated, unit)
            }
            Kind::Unsound => {
                // Each way alone, then each with others.
                let others = !(self.unsound / WAYS.len()).is_multiple_of(2);
                let way = WAYS[self.unsound % WAYS.len()];
                self.unsound += 1;
                no_packet = random.once_in(8);
                let stated = sample_unit::unsound(random, way, others);
                let unit = text(random, &stated);
                (stated, unit)
            }
            Kind::Bad => {
                let aim = &AIMS[self.bad % AIMS.len()];
                self.bad += 1;
                let stated = sample_unit::sound_with_everything(random);
                let mut items = sample_unit::items(random, &stated);
                sample_bad_unit::spoil(random, &stated, &mut items, aim);
                let unit = sample_unit::text(random, &items);
                (stated, unit)
            }
            Kind::Changed => {
                let stated = sample_unit::sound(random);
                let mut unit = text(random, &stated);
                sample_bad_unit::mutate(random, &mut unit);
                (stated, unit)
            }
        };
        let packets = match no_packet {
            true => vec![b'\n'; random.below(3) as usize],
            false => packets(random, &stated.profile, &mut self.controls, bad_packet),
        };
        (unit, packets)
    }
}

/// The text of a unit file that states the unit.
fn text(random: &mut Random, stated: &Stated) -> Vec<u8> {
    let items = sample_unit::items(random, stated);
    sample_unit::text(random, &items)
}

/// 20 to 60 lines of packets for the profile, empty lines among them, and a bad line in the middle if there is to be
/// one.
fn packets(random: &mut Random, profile: &Profile, controls: &mut Turns, bad: Option<Bad>) -> Vec<u8> {
    let count = random.between(20, 60);
    let mut lines: Vec<Vec<u8>> = (0..count).map(|_| line(random, profile, controls)).collect();
    if let Some(bad) = bad {
        let place = random.between(count / 4, count * 3 / 4) as usize;
        lines.insert(place, bad_line(random, profile, bad));
    }
    let mut text = lines.join(&b'\n');
    if !random.once_in(4) {
        text.push(b'\n');
    }
    text
}

/// A packet of any kind, now and then the next way of error control, or an empty line.
fn line(random: &mut Random, profile: &Profile, controls: &mut Turns) -> Vec<u8> {
    let packet = match random.below(40) {
        0..=2 => Vec::new(),
        3 => sample::longest_dump(random, profile),
        4..=8 => controls.packet(random, profile),
        _ => sample::packet(random, profile),
    };
    sample_line::digits(random, &packet)
}

/// A line that is no packet in that way.
fn bad_line(random: &mut Random, profile: &Profile, bad: Bad) -> Vec<u8> {
    let packet = sample::longest_dump(random, profile);
    let mut line = sample_line::digits(random, &packet);
    sample_line::spoil(random, &mut line, bad);
    line
}
