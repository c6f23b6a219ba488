//! `generate SEED PACKETS` writes input for `cases`: maps, stores, counts, times and buffers of
//! every kind, and under them packets, frames, octets in parts, other commands and bad lines. Packets are of both
//! methods of error control, right and wrong in each way.

use std::io::{self, BufWriter, Write};
use std::process::ExitCode;

use second::control_rows::METHODS;
use second::crc::{crc, START};
use second::frame_causes::Aims;
use second::hex;
use second::map::{Area, Flags, Profile, Rights, AREA_PLACES, LONGEST_STORE};
use second::program;
use second::random::Random;
use second::sample;
use second::sample_control::{Turns, REQUESTS};
use second::sample_frame;
use second::sample_map::{self, Map, CLAUSES};
use second::sample_parts::{self, IMAGE_PART};
use second::sample_wider;
use second::sample_write::{self, BAD_FLAGS};

const LONG_PACKETS: [usize; 3] = [65_535, 65_536, 69_999];
/// The longest that a length field can announce, one whose length field would be right if it wrapped, the longest that
/// a line takes, and one that makes the line bad.
const LONG_FRAMES: [usize; 4] = [65_542, 65_543, 69_999, 70_000];
/// The most octets that a D line takes behind its start.
const LONGEST_PART: usize = 69_998;
/// Lengths about which a CRC may change its way; a long C line for each, each with another remainder modulo 8.
const LONG_WHOLES: [usize; 8] = [4_096, 4_096, 4_096, 8_192, 8_192, 16_384, 32_768, 65_536];
/// So many packets stand between the long D and C lines.
const BETWEEN_LONG_PARTS: u64 = 10_000;
/// A C or D line among the packets has fewer octets than the first, and seldom as many as up to the second.
const FEW_OCTETS: u64 = 300;
const MANY_OCTETS: u64 = 2_400;
/// Stores above this many octets are seldom shown.
const SMALL_STORE: usize = 1_024;

struct Generator<W: Write> {
    random: Random,
    output: W,
    packets: u64,
    wanted: u64,
    long_packets: usize,
    next_long_packet: u64,
    next_long_parts: u64,
    /// The profile that stands, and the octets of the store.
    standing: Profile,
    store_octets: usize,
    /// What frames are to be refused for, and how many of the others there are already.
    aims: Aims,
    clean_frames: usize,
    swept_frames: usize,
    /// What the error control of packets is to be.
    controls: Turns,
}

fn main() -> ExitCode {
    let Some((seed, wanted)) = program::seed_and_count() else {
        return program::fail("usage: generate SEED PACKETS");
    };
    let mut generator = Generator {
        random: Random::new(seed),
        output: BufWriter::with_capacity(1 << 16, io::stdout().lock()),
        packets: 0,
        wanted,
        long_packets: 0,
        next_long_packet: 200,
        next_long_parts: 300,
        standing: second::hexline::profile(),
        store_octets: 128,
        aims: Aims::new(),
        clean_frames: 0,
        swept_frames: 0,
        controls: Turns::default(),
    };
    program::finish(generator.run())
}

impl<W: Write> Generator<W> {
    /// Episodes until there are packets enough, then a frame of no octets; the last line has no newline.
    fn run(&mut self) -> io::Result<()> {
        let mut episode = 0;
        while self.packets < self.wanted {
            match episode % 20 {
                0 => self.at_the_start()?,
                4 => self.unsound_maps()?,
                6 => {
                    self.error_controls()?;
                    self.ordinary()?;
                }
                8 => self.bad_stores()?,
                9 => self.bad_counts()?,
                10 => self.unsound_narrower()?,
                11 => self.short_buffers()?,
                2 | 7 | 13 | 17 => self.wide_and_narrow()?,
                5 | 15 => self.large_dumps()?,
                18 => self.largest_store(episode)?,
                _ => self.ordinary()?,
            }
            episode += 1;
        }
        self.output.write_all(b"F \nC 0000")?;
        self.output.flush()
    }

    /// The line program's own profile, as `cases` has it before any P.
    fn at_the_start(&mut self) -> io::Result<()> {
        let map = Map { profile: second::hexline::profile(), store_octets: 128, areas_given: 1 };
        if self.packets > 0 {
            self.begin(&map)?;
        }
        self.packets_under(&map.profile, 100)
    }

    fn ordinary(&mut self) -> io::Result<()> {
        let areas = self.random.below(9) as usize;
        let words = match self.random.below(8) {
            0 => self.random.below(9),
            1 => 256,
            _ => self.random.between(8, 160),
        };
        let mut map = sample_map::sound(&mut self.random, words as u32, areas);
        if map.areas_given < AREA_PLACES && self.random.once_in(3) {
            // A place past the count that would be unsound, were it used.
            map.profile.areas[map.areas_given] = map.profile.areas[0];
            if self.random.once_in(2) {
                map.profile.areas[map.areas_given].memory_id ^= 1;
            }
            map.areas_given += 1;
        }
        self.begin(&map)?;
        self.packets_under(&map.profile, 120)
    }

    /// Each clause of soundness in turn.
    fn unsound_maps(&mut self) -> io::Result<()> {
        for clause in CLAUSES {
            let map = sample_map::unsound(&mut self.random, clause);
            self.begin(&map)?;
            self.packets_under(&map.profile, 4)?;
        }
        Ok(())
    }

    /// Each clause of soundness in turn, failed by the profile that stands; the one asked about is wider but for that.
    fn unsound_narrower(&mut self) -> io::Result<()> {
        for clause in CLAUSES {
            let (wide, narrow) = sample_wider::unsound_narrower(&mut self.random, clause);
            self.begin(&narrow)?;
            self.ask(&wide)?;
            self.packets_under(&narrow.profile, 3)?;
        }
        self.cut_at_the_end()
    }

    /// An area that ends at 2^32 stands, and the one asked about lacks its last word.
    fn cut_at_the_end(&mut self) -> io::Result<()> {
        let length = self.random.between(2, 40) as u32;
        let mut map = sample_map::sound(&mut self.random, length, 1);
        let start = 0_u32.wrapping_sub(length);
        map.profile.areas[0] = Area { start, length, first_word: 0, ..map.profile.areas[0] };
        self.begin(&map)?;
        map.profile.areas[0].length -= 1;
        self.ask(&map.profile)
    }

    fn bad_stores(&mut self) -> io::Result<()> {
        let map = sample_map::sound(&mut self.random, 40, 3);
        self.begin(&map)?;
        let odd = self.random.pick(&[1, 79, 81, 83, 127]);
        let mut stores = vec![odd, 0];
        if self.packets < 5_000 {
            stores.push(65_538);
        }
        if self.random.once_in(4) {
            stores.push(self.random.pick(&[65_535, 65_537, 65_538, 65_600]));
        }
        for octets in stores {
            self.store(octets)?;
            self.packets_under(&map.profile, 4)?;
            self.ask(&map.profile)?;
        }
        self.store(map.store_octets)?;
        self.packets_under(&map.profile, 60)?;
        // An empty one is in order where there are no areas.
        let map = sample_map::sound(&mut self.random, 0, 0);
        self.begin(&map)?;
        self.ask(&map.profile)?;
        self.packets_under(&map.profile, 6)
    }

    fn bad_counts(&mut self) -> io::Result<()> {
        let map = sample_map::sound(&mut self.random, 40, 3);
        self.begin(&map)?;
        for (category_1, category_9) in [(16_384, 0), (0, 16_384), (65_535, 16_383), (3, 65_535)] {
            self.counts(category_1, category_9)?;
            self.ask(&map.profile)?;
            self.packets_under_these_counts(&map.profile, 2)?;
        }
        for (category_1, category_9) in [(16_382, 16_383), (16_383, 16_382), (16_383, 16_383), (16_382, 16_380)] {
            self.counts(category_1, category_9)?;
            self.packets_under_these_counts(&map.profile, 12)?;
        }
        Ok(())
    }

    fn short_buffers(&mut self) -> io::Result<()> {
        let map = sample_map::sound(&mut self.random, 40, 3);
        self.begin(&map)?;
        for length in [0, 1, 4_095] {
            self.buffer(length)?;
            self.ask(&map.profile)?;
            self.packets_under_these_counts(&map.profile, 3)?;
            self.line(b"O", None)?;
        }
        for length in [4_096, 4_097, 8_192] {
            self.buffer(length)?;
            self.packets_under_these_counts(&map.profile, 20)?;
            self.line(b"O", None)?;
        }
        Ok(())
    }

    /// The same packets from the same start under a profile and under one it is wider than.
    fn wide_and_narrow(&mut self) -> io::Result<()> {
        let areas = self.random.between(1, 8) as usize;
        let words = self.random.between(8, 160) as u32;
        let wide = sample_map::sound(&mut self.random, words, areas);
        let narrow = sample_map::narrowed(&mut self.random, &wide.profile);
        let store = self.random.octets(wide.store_octets);
        let time = self.random.octets(6);
        let packets: Vec<Vec<u8>> = (0..60)
            .map(|number| {
                let maker = if number % 3 == 0 { &wide.profile } else { &narrow };
                sample::packet(&mut self.random, maker)
            })
            .collect();
        for (profile, other) in [(&narrow, &wide.profile), (&wide.profile, &narrow)] {
            self.profile(profile, usize::from(profile.area_count))?;
            self.store_octets = store.len();
            self.line(b"S", Some(&store))?;
            self.counts(16_380, 0)?;
            self.line(b"T", Some(&time))?;
            self.buffer(4_096)?;
            for (number, packet) in packets.iter().enumerate() {
                if number % 30 == 10 {
                    self.ask(other)?;
                }
                self.packet(packet)?;
            }
            self.line(b"M", None)?;
            self.line(b"O", None)?;
        }
        Ok(())
    }

    /// Beside the packets that are wanted: each way of error control with each service, each way of W, packets that are
    /// written and then served, and ones whose flag is off.
    fn error_controls(&mut self) -> io::Result<()> {
        let areas = self.random.between(1, 4) as usize;
        let words = self.random.between(8, 80) as u32;
        let mut map = sample_map::sound(&mut self.random, words, areas);
        map.profile.flags = Flags::ALL;
        for area in &mut map.profile.areas {
            area.rights = Rights::ALL;
        }
        self.begin(&map)?;
        for _ in 0..self.controls.round() {
            let packet = self.controls.packet(&mut self.random, &map.profile);
            if self.random.once_in(4) {
                self.line(b"R", Some(&packet))?;
            }
            self.line(b"X", Some(&packet))?;
        }
        for way in sample_write::ways() {
            let octets = sample_write::octets(&mut self.random, map.profile.pid, way);
            self.write(&octets)?;
        }
        self.written_and_served(&map.profile)?;
        self.flags_off(&map.profile)?;
        self.line(b"M", None)
    }

    /// For each service and method a packet that W writes, and the same packet to the terminal.
    fn written_and_served(&mut self, profile: &Profile) -> io::Result<()> {
        for method in METHODS {
            for request in REQUESTS {
                let packet = sample::short(&mut self.random, profile, request, method);
                let octets = sample_write::rewriting(&packet);
                self.write(&octets)?;
                if let Some(packet) = sample_write::written(&octets) {
                    self.line(b"X", Some(&packet))?;
                }
            }
        }
        Ok(())
    }

    /// Each flag off alone, and all of service 6: packets of each service and method.
    fn flags_off(&mut self, profile: &Profile) -> io::Result<()> {
        for flags in [
            Flags { load: false, ..Flags::ALL },
            Flags { dump: false, ..Flags::ALL },
            Flags { check: false, ..Flags::ALL },
            Flags { connection: false, ..Flags::ALL },
            Flags { connection: true, ..Flags::default() },
        ] {
            let profile = Profile { flags, ..*profile };
            self.profile(&profile, usize::from(profile.area_count))?;
            for method in METHODS {
                for request in REQUESTS {
                    let packet = sample::short(&mut self.random, &profile, request, method);
                    self.line(b"X", Some(&packet))?;
                }
            }
        }
        Ok(())
    }

    /// A W line and, where it writes a packet, the R line of that packet.
    fn write(&mut self, octets: &[u8]) -> io::Result<()> {
        self.line(b"W", Some(octets))?;
        match sample_write::written(octets) {
            Some(packet) => self.line(b"R", Some(&packet)),
            None => Ok(()),
        }
    }

    /// A store that holds blocks of 240 words.
    fn large_dumps(&mut self) -> io::Result<()> {
        let areas = self.random.between(1, 3) as usize;
        let words = self.random.between(240, 2_048) as u32;
        let mut map = sample_map::sound(&mut self.random, words, areas);
        map.profile.flags = Flags::ALL;
        map.profile.areas[0].rights = Rights::ALL;
        self.begin(&map)?;
        for _ in 0..3 {
            let packet = sample::longest_dump(&mut self.random, &map.profile);
            self.packet(&packet)?;
        }
        self.packets_under(&map.profile, 60)
    }

    /// 65,536 octets, the most there may be; the areas reach the last word. The first time, and then as often as not,
    /// one area is all of it.
    fn largest_store(&mut self, episode: u64) -> io::Result<()> {
        let first = episode < 20;
        if !first && !self.random.once_in(3) {
            return self.ordinary();
        }
        let mut map = sample_map::sound(&mut self.random, 32_768, 1);
        let all_of_it = first || self.random.once_in(2);
        if all_of_it {
            let start = self.random.pick(&[0, 0x1000, 0xFFFF_8000]);
            map.profile.flags = Flags::ALL;
            map.profile.areas[0] = Area { memory_id: 9, start, length: 32_768, first_word: 0, rights: Rights::ALL };
        }
        self.begin(&map)?;
        if all_of_it {
            self.checks_of_many_words(&map.profile)?;
        }
        self.packets_under(&map.profile, 80)
    }

    /// Checks of the whole store, and of fewer and of more thousands of words with each remainder modulo 4.
    fn checks_of_many_words(&mut self, profile: &Profile) -> io::Result<()> {
        self.check_of(profile, 32_768)?;
        for remainder in 0..4 {
            for (low, high) in [(256, 1_023), (1_024, 8_191)] {
                let words = self.random.between(low, high) * 4 + remainder;
                self.check_of(profile, words as u16)?;
            }
        }
        Ok(())
    }

    /// A check of a block of so many words, behind a load of its ends and its middle.
    fn check_of(&mut self, profile: &Profile, words: u16) -> io::Result<()> {
        for packet in sample::loaded_and_checked(&mut self.random, profile, words) {
            self.packet(&packet)?;
        }
        Ok(())
    }

    /// Profile, store, counts, time and buffer, all anew.
    fn begin(&mut self, map: &Map) -> io::Result<()> {
        self.profile(&map.profile, map.areas_given)?;
        self.store(map.store_octets)?;
        self.any_counts()?;
        self.time()?;
        let length = self.random.pick(&[4_096, 4_096, 4_096, 4_097, 4_100]);
        self.buffer(length)
    }

    /// Packets with every other command among them.
    fn packets_under(&mut self, profile: &Profile, count: u64) -> io::Result<()> {
        for _ in 0..count {
            self.any_packet(profile)?;
            self.perhaps_ask()?;
            self.perhaps_read_frame()?;
            self.perhaps_check_parts()?;
            self.among_packets(profile)?;
        }
        self.line(b"M", None)
    }

    fn packets_under_these_counts(&mut self, profile: &Profile, count: u64) -> io::Result<()> {
        for _ in 0..count {
            self.any_packet(profile)?;
            self.perhaps_ask()?;
        }
        self.line(b"M", None)
    }

    /// Asks now and then whether another profile is wider than the one that stands.
    fn perhaps_ask(&mut self) -> io::Result<()> {
        if !self.random.once_in(5) {
            return Ok(());
        }
        let profile = sample_wider::asked(&mut self.random, &self.standing, self.store_octets);
        self.ask(&profile)
    }

    /// Has a frame read now and then: mostly the causes of refusal and their pairs in turn.
    fn perhaps_read_frame(&mut self) -> io::Result<()> {
        let frame = match self.random.below(60) {
            0..=5 => sample_frame::with_causes(&mut self.random, &self.aims.next_aim()),
            6 | 7 => {
                self.clean_frames += 1;
                sample_frame::clean(&mut self.random, self.clean_frames)
            }
            8 => sample_frame::written(&mut self.random),
            9 => sample_frame::changed(&mut self.random),
            10 | 11 => {
                self.swept_frames += 1;
                sample_frame::swept(&mut self.random, self.swept_frames)
            }
            _ => return Ok(()),
        };
        self.line(b"F", Some(&frame))
    }

    /// Has octets checked in parts now and then: mostly few octets, seldom more, the longest after so many packets.
    fn perhaps_check_parts(&mut self) -> io::Result<()> {
        if self.packets >= self.next_long_parts {
            self.next_long_parts += BETWEEN_LONG_PARTS;
            return self.long_parts();
        }
        let octets = match self.random.below(1_200) {
            0..=3 => self.random.below(3),
            4..=18 => self.random.below(120),
            19 => self.random.below(9_000),
            _ => return Ok(()),
        };
        let whole = self.random.octets(octets as usize);
        let cuts = self.random.below(7) as usize;
        let parts = sample_parts::divided(&mut self.random, &whole, cuts);
        self.in_parts(&parts)
    }

    /// As many octets as the largest store has in parts, an image in parts as a harness holds them, the longest part,
    /// D lines that are too short for a start, which are bad, and long C lines.
    fn long_parts(&mut self) -> io::Result<()> {
        let whole = self.random.octets(LONGEST_STORE);
        let cuts = self.random.between(1, 12) as usize;
        let parts = sample_parts::divided(&mut self.random, &whole, cuts);
        self.in_parts(&parts)?;
        let image = sample_parts::image(&mut self.random);
        let parts: Vec<_> = image.chunks(IMAGE_PART).collect();
        self.in_parts(&parts)?;
        let longest = self.random.octets(LONGEST_PART);
        self.in_parts(&[&longest])?;
        let upper = self.random.octet();
        self.line(b"D", Some(&[upper]))?;
        self.line(b"D", Some(&[]))?;
        self.long_wholes()
    }

    /// Octets about as many as each of the lengths, of each remainder modulo 8.
    fn long_wholes(&mut self) -> io::Result<()> {
        let mut places = LONG_WHOLES;
        self.random.shuffle(&mut places);
        for (remainder, place) in places.into_iter().enumerate() {
            let length = sample_parts::length_about(&mut self.random, place, remainder);
            let octets = self.random.octets(length);
            self.line(b"C", Some(&octets))?;
        }
        Ok(())
    }

    /// A D line for each part, from the value that the one before has to give, and the C line of the whole.
    fn in_parts(&mut self, parts: &[&[u8]]) -> io::Result<()> {
        let mut value = START;
        for part in parts {
            self.part(value, part)?;
            value = crc(value, part);
        }
        self.line(b"C", Some(&parts.concat()))
    }

    fn part(&mut self, start: u16, octets: &[u8]) -> io::Result<()> {
        let octets = [&start.to_be_bytes()[..], octets].concat();
        self.line(b"D", Some(&octets))
    }

    /// A part from any start.
    fn any_part(&mut self) -> io::Result<()> {
        let any = self.random.any() as u16;
        let start = self.random.pick(&[START, 0, any, any]);
        let octets = self.any_octets();
        self.part(start, &octets)
    }

    /// Octets for a C or D line.
    fn any_octets(&mut self) -> Vec<u8> {
        let some = self.random.below(FEW_OCTETS);
        let many = self.random.between(FEW_OCTETS, MANY_OCTETS);
        let count = if self.random.once_in(20) { many } else { self.random.pick(&[0, 1, 2, some, some]) };
        self.random.octets(count as usize)
    }

    /// Places that are all zero are not given where no other follows.
    fn ask(&mut self, profile: &Profile) -> io::Result<()> {
        let last = profile.areas.iter().rposition(|area| *area != Area::default());
        let octets = profile_octets(profile, last.map_or(0, |place| place + 1));
        self.line(b"V", Some(&octets))
    }

    fn any_packet(&mut self, profile: &Profile) -> io::Result<()> {
        if self.packets < self.next_long_packet {
            let packet = self.sample(profile);
            return self.packet(&packet);
        }
        let octets = LONG_PACKETS[self.long_packets % LONG_PACKETS.len()];
        let frame = sample_frame::long(&mut self.random, LONG_FRAMES[self.long_packets % LONG_FRAMES.len()]);
        self.line(b"F", Some(&frame))?;
        self.long_packets += 1;
        self.next_long_packet += if self.long_packets < 3 { 200 } else { 6_000 };
        let packet = sample::long_packet(&mut self.random, profile, octets);
        self.line(b"R", Some(&packet))?;
        self.packet(&packet)
    }

    /// A packet of any kind, now and then the next way of error control.
    fn sample(&mut self, profile: &Profile) -> Vec<u8> {
        match self.random.once_in(12) {
            true => self.controls.packet(&mut self.random, profile),
            false => sample::packet(&mut self.random, profile),
        }
    }

    fn packet(&mut self, packet: &[u8]) -> io::Result<()> {
        self.packets += 1;
        self.line(b"X", Some(packet))
    }

    fn among_packets(&mut self, profile: &Profile) -> io::Result<()> {
        let show_store = if self.store_octets <= SMALL_STORE { 6 } else { 40 };
        if self.store_octets <= 8_192 && self.random.once_in(show_store) {
            self.line(b"M", None)?;
        }
        match self.random.below(240) {
            0..=4 => self.line(b"O", None),
            5..=28 => {
                let packet = self.sample(profile);
                self.line(b"R", Some(&packet))
            }
            29..=52 => self.write_line(),
            53..=60 => {
                let octets = self.any_octets();
                self.line(b"C", Some(&octets))
            }
            61..=72 => self.bad_line(),
            73..=78 => self.any_counts(),
            79..=84 => self.time(),
            85..=87 => {
                let length = self.random.pick(&[4_096, 4_097, 4_099, 5_000]);
                self.buffer(length)
            }
            88..=90 if self.store_octets <= SMALL_STORE => self.store(self.store_octets),
            91..=98 => self.any_part(),
            _ => Ok(()),
        }
    }

    fn profile(&mut self, profile: &Profile, areas_given: usize) -> io::Result<()> {
        self.standing = *profile;
        let octets = profile_octets(profile, areas_given);
        self.line(b"P", Some(&octets))
    }

    fn store(&mut self, octets: usize) -> io::Result<()> {
        self.store_octets = octets;
        let store = if self.random.once_in(8) { vec![0; octets] } else { self.random.octets(octets) };
        self.line(b"S", Some(&store))
    }

    fn any_counts(&mut self) -> io::Result<()> {
        let category_1 = self.any_count();
        let category_9 = self.any_count();
        self.counts(category_1, category_9)
    }

    fn any_count(&mut self) -> u16 {
        match self.random.below(4) {
            0 => 0,
            1 => self.random.pick(&[16_380, 16_381, 16_382, 16_383]),
            _ => self.random.below(16_384) as u16,
        }
    }

    fn counts(&mut self, category_1: u16, category_9: u16) -> io::Result<()> {
        let [a, b] = category_1.to_be_bytes();
        let [c, d] = category_9.to_be_bytes();
        self.line(b"K", Some(&[a, b, c, d]))
    }

    fn time(&mut self) -> io::Result<()> {
        let time = self.random.octets(6);
        self.line(b"T", Some(&time))
    }

    fn buffer(&mut self, length: u16) -> io::Result<()> {
        let [upper, lower] = length.to_be_bytes();
        let octet = self.random.octet();
        self.line(b"B", Some(&[upper, lower, octet]))
    }

    fn write_line(&mut self) -> io::Result<()> {
        let pid = self.random.pick(&[0, 5, 81, 126, 127, 127, 128, 255]);
        let count = match self.random.below(8) {
            0 => 16_384,
            1 => 65_535,
            2 => 16_383,
            _ => self.random.below(16_384) as u16,
        };
        let ack =
            if self.random.once_in(10) { self.random.pick(&[16, 17, 128, 255]) } else { self.random.below(16) as u8 };
        let flag = if self.random.once_in(12) { self.random.pick(&BAD_FLAGS) } else { self.random.below(2) as u8 };
        let data_octets = match self.random.below(3) {
            0 => self.random.pick(&[0, 1, 2, 235, 236, 237, 238, 250, 300, 1_000]),
            _ => self.random.below(237) as usize,
        };
        let exact = data_octets as u16 + 12;
        let room = match self.random.below(8) {
            0 => 0,
            1 => exact - 1,
            2 => self.random.below(u64::from(exact)) as u16,
            3 => exact + self.random.between(1, 40) as u16,
            4 => 248,
            _ => exact,
        };
        let room = if self.random.once_in(400) { 65_535 } else { room };
        let mut octets = vec![pid];
        octets.extend_from_slice(&count.to_be_bytes());
        octets.extend_from_slice(&[ack, flag, self.random.octet(), self.random.octet()]);
        octets.extend_from_slice(&room.to_be_bytes());
        octets.extend(self.random.octets(data_octets));
        self.write(&octets)
    }

    /// A line that is none of the commands.
    fn bad_line(&mut self) -> io::Result<()> {
        let text: &[u8] = match self.random.below(85) {
            0 => b"",
            1 => b" ",
            2 => b"X",
            3 => b"P",
            4 => b"S",
            5 => b"C",
            6 => b"R",
            7 => b"W",
            8 => b"K",
            9 => b"T",
            10 => b"B",
            11 => b"O ",
            12 => b"M ",
            13 => b"O 00",
            14 => b"M00",
            15 => b"x 185CC0000005191101000167",
            16 => b"m",
            17 => b"Q",
            18 => b"Z 00",
            19 => b"X  185CC0000005191101000167",
            20 => b"X\t185CC0000005191101000167",
            21 => b"X185CC0000005191101000167",
            22 => b" X 185CC0000005191101000167",
            23 => b"X 185CC0000005191101000167\r",
            24 => b"X 185CC0000005191101000167 ",
            25 => b"X 185CC000000519110100016",
            26 => b"X 185CC00000051911010001G7",
            27 => b"X 18 5C",
            28 => b"X 185C\x00000",
            29 => b"C \x80\xFF",
            30 => b"C 0x00",
            31 => b"C 0",
            32 => b"P 05",
            33 => b"P 050F",
            34 => b"P 051000",
            35 => b"P 05FF00",
            36 => b"P 050F0101",
            37 => b"P 050F0101000010000000004000000000",
            38 => b"P 050F010100001000000000400000000008",
            39 => b"P 050F0101000010000000004000000000FF",
            40 => b"P 050F010100001000000000400000000007AA",
            41 => b"K 000000",
            42 => b"K 0000000000",
            43 => b"T 0000000000",
            44 => b"T 00000000000000",
            45 => b"B 1000",
            46 => b"B 100000AA",
            47 => self.random.pick(&[b"B 200100" as &[u8], b"B FFFF00"]),
            48 => b"W 05000000110100",
            49 => b"185CC0000005191101000167",
            50 => b"V",
            51 => b"V ",
            52 => b"V 050F",
            53 => b"V 051000",
            54 => b"V 050F0101000010000000004000000000",
            55 => b"V 050F010100001000000000400000000008",
            56 => b"V 050F010100001000000000400000000007AA",
            57 => b"V050F010100001000000000400000000007",
            58 => b"v 050F010100001000000000400000000007",
            59 => b"F",
            60 => b"F 0859C000000900000000000000110200 ",
            61 => b"F0859C000000900000000000000110200",
            62 => b"f 0859C000000900000000000000110200",
            63 => b"F 0859C00000090000000000000011020",
            64 => b"D",
            65 => b"D ",
            66 => b"D FF",
            67 => b"D FFF",
            68 => b"D FFFF0",
            69 => b"D FFFG",
            70 => b"DFFFF00",
            71 => b"d FFFF00",
            72 => b"D  FFFF00",
            73 => b"D FFFF 00",
            74 => b"D FFFF00 ",
            75 => b"W 050000091101000E",
            76 => b"W 0500000901110100",
            77 => b"W 0500000900110100",
            78 => b"W 05000009021101000C",
            79 => b"W 05000009101101000C",
            80 => b"W 05000009FF1101000C",
            81 => b"W 05000009 001101000C",
            82 => return self.long_bad_line(),
            last => {
                let mut octets = profile_octets(&second::hexline::profile(), 8);
                octets.extend_from_slice(&[0; 14]);
                return self.line(if last == 83 { b"P" } else { b"V" }, Some(&octets));
            }
        };
        self.output.write_all(text)?;
        self.output.write_all(b"\n")
    }

    /// Lines that are bad by their length alone, now and then.
    fn long_bad_line(&mut self) -> io::Result<()> {
        match self.random.below(20) {
            0 => self.line(b"S", Some(&[0x5A; 65_601])),
            1 => self.line(b"X", Some(&[0x18; 70_000])),
            2 => self.line(b"C", Some(&[0x11; 70_001])),
            3 => self.line(b"D", Some(&[0x22; 70_001])),
            4 => {
                self.output.write_all(b"C ")?;
                self.output.write_all(&[b'7'; 140_001])?;
                self.output.write_all(b"\n")
            }
            _ => self.output.write_all(b"R 1\n"),
        }
    }

    /// A letter and, where the command takes octets, a space and their digits.
    fn line(&mut self, letter: &[u8], octets: Option<&[u8]>) -> io::Result<()> {
        let mut text = letter.to_vec();
        if let Some(octets) = octets {
            text.push(b' ');
            hex::write(octets, &mut text);
            if self.random.once_in(8) {
                text[2..].make_ascii_lowercase();
            }
        }
        text.push(b'\n');
        self.output.write_all(&text)
    }
}

fn profile_octets(profile: &Profile, areas_given: usize) -> Vec<u8> {
    let flags = bits(&[profile.flags.load, profile.flags.dump, profile.flags.check, profile.flags.connection]);
    let mut octets = vec![profile.pid, flags, profile.area_count];
    for area in profile.areas.iter().take(areas_given) {
        octets.push(area.memory_id);
        octets.extend_from_slice(&area.start.to_be_bytes());
        octets.extend_from_slice(&area.length.to_be_bytes());
        octets.extend_from_slice(&area.first_word.to_be_bytes());
        octets.push(bits(&[area.rights.load, area.rights.dump, area.rights.check]));
    }
    octets
}

/// The first flag is bit 1, the next 2, and so on.
fn bits(flags: &[bool]) -> u8 {
    flags.iter().rev().fold(0, |octet, flag| octet * 2 + u8::from(*flag))
}
