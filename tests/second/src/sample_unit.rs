//! Unit files for the generator: sound units and ones that are unsound in chosen ways, and the text of a unit file
//! in all the spellings that state the same.

use crate::hex;
use crate::map::{Flags, Profile, AREA_PLACES};
use crate::random::Random;
use crate::sample_map;
use crate::unit::LONGEST_LINE;

/// A unit that a file is to state.
#[derive(Clone, Debug)]
pub struct Stated {
    pub profile: Profile,
    pub store_octets: usize,
    /// Where octets are put, and which.
    pub puts: Vec<(usize, Vec<u8>)>,
}

/// A way in which a unit is not sound.
#[derive(Clone, Copy, Debug, PartialEq, Eq)]
pub enum Way {
    OddStore,
    Pid,
    NoWords,
    EndsAboveAddresses,
    EndsPastStore,
    SameMemoryId,
    SharedOctet,
}

/// Every way.
pub const WAYS: [Way; 7] = [
    Way::OddStore,
    Way::Pid,
    Way::NoWords,
    Way::EndsAboveAddresses,
    Way::EndsPastStore,
    Way::SameMemoryId,
    Way::SharedOctet,
];

/// What a line states.
#[derive(Clone, Copy, Debug, PartialEq, Eq)]
pub enum Kind {
    Pid,
    Services,
    Store,
    Put,
    Area,
    /// Nothing that a unit has.
    Other,
}

/// A line by its words.
#[derive(Clone, Debug)]
pub struct Item {
    pub kind: Kind,
    pub words: Vec<Vec<u8>>,
}

/// A sound unit of any kind.
pub fn sound(random: &mut Random) -> Stated {
    let store_words = match random.below(12) {
        0 => random.below(9),
        1 => 32_768,
        2 => random.between(300, 3_000),
        _ => random.between(8, 160),
    };
    let areas = if random.once_in(12) { 0 } else { random.between(1, 8) };
    stated(random, store_words as u32, areas as usize)
}

/// A sound unit with services, one to seven areas and room for more words.
pub fn sound_with_everything(random: &mut Random) -> Stated {
    let store_words = random.between(16, 160) as u32;
    let areas = random.between(1, AREA_PLACES as u64 - 1) as usize;
    let mut stated = stated(random, store_words, areas);
    if stated.profile.flags == Flags::default() {
        stated.profile.flags = Flags::ALL;
    }
    stated
}

/// A unit that is unsound in that way, and now and then in others too.
pub fn unsound(random: &mut Random, way: Way, others: bool) -> Stated {
    let store_words = random.between(24, 160) as u32;
    let areas = random.between(2, AREA_PLACES as u64) as usize;
    let mut stated = stated(random, store_words, areas);
    let pair = two_areas(random, areas);
    make_unsound(random, &mut stated, way, pair);
    if others {
        let the_same = random.once_in(2);
        for _ in 0..random.between(1, 3) {
            let other_way = match way {
                Way::SameMemoryId if the_same => Way::SharedOctet,
                Way::SharedOctet if the_same => Way::SameMemoryId,
                _ => random.pick(&WAYS),
            };
            let pair = if the_same { pair } else { two_areas(random, areas) };
            make_unsound(random, &mut stated, other_way, pair);
        }
    }
    stated
}

/// A sound unit over a store of so many words, with octets put anywhere in it.
fn stated(random: &mut Random, store_words: u32, areas: usize) -> Stated {
    let map = sample_map::sound(random, store_words, areas);
    let mut puts = Vec::new();
    for _ in 0..random.below(6) {
        let octets = match random.below(8) {
            0 => map.store_octets.min(1_700),
            1 => 1,
            _ => random.between(1, 24) as usize,
        };
        if octets == 0 || octets > map.store_octets {
            continue;
        }
        let last = map.store_octets - octets;
        let at = match random.below(4) {
            0 => last,
            1 => last.min(random.below(24) as usize),
            _ => random.below(last as u64 + 1) as usize,
        };
        puts.push((at, random.octets(octets)));
    }
    Stated { profile: map.profile, store_octets: map.store_octets, puts }
}

/// Two different areas of so many.
fn two_areas(random: &mut Random, areas: usize) -> (usize, usize) {
    let one = random.below(areas as u64) as usize;
    let other = one + random.between(1, areas as u64 - 1) as usize;
    (one, other % areas)
}

/// Makes a unit unsound in that way, at the first of the two areas.
fn make_unsound(random: &mut Random, stated: &mut Stated, way: Way, (one, other): (usize, usize)) {
    let store_words = (stated.store_octets / 2) as u32;
    let other_area = stated.profile.areas[other];
    let area = &mut stated.profile.areas[one];
    match way {
        Way::OddStore => stated.store_octets |= 1,
        Way::Pid => stated.profile.pid = random.pick(&[128, 129, 133, 200, 255]),
        Way::NoWords => area.length = 0,
        Way::EndsAboveAddresses => {
            area.length = area.length.max(2);
            area.start = match random.below(3) {
                0 => u32::MAX,
                _ => u32::MAX - area.length + 2,
            };
        }
        Way::EndsPastStore => match random.below(5) {
            0 => (area.start, area.length) = (random.below(2) as u32, u32::MAX),
            1 => area.first_word = random.pick(&[0x7FFF_FFFF, 0x4000_0000, 0x8000]),
            2 => area.first_word = store_words,
            _ => area.first_word = (store_words + 1).saturating_sub(area.length),
        },
        Way::SameMemoryId => area.memory_id = other_area.memory_id,
        Way::SharedOctet => {
            let first = u64::from(other_area.first_word);
            let last = (first + u64::from(other_area.length)).saturating_sub(1).min(u64::from(store_words) - 1);
            area.first_word = random.between(first.min(last), last) as u32;
            area.length = area.length.clamp(1, store_words - area.first_word);
        }
    }
}

/// The lines of the unit in any order that a unit file may have.
pub fn items(random: &mut Random, stated: &Stated) -> Vec<Item> {
    let mut items = vec![
        Item { kind: Kind::Pid, words: vec![b"pid".to_vec(), number(random, stated.profile.pid.into())] },
        Item { kind: Kind::Store, words: vec![b"store".to_vec(), number(random, stated.store_octets as u32)] },
    ];
    let flags = stated.profile.flags;
    if flags != Flags::default() {
        let mut words = named(&[
            ("load", flags.load),
            ("dump", flags.dump),
            ("check", flags.check),
            ("connection", flags.connection),
        ]);
        random.shuffle(&mut words);
        words.insert(0, b"services".to_vec());
        items.push(Item { kind: Kind::Services, words });
    }
    for place in 0..usize::from(stated.profile.area_count) {
        items.push(area_item(random, &stated.profile, place));
    }
    random.shuffle(&mut items);
    for (at, octets) in &stated.puts {
        let item = put_item(random, *at, octets);
        insert_behind(random, &mut items, Kind::Store, item);
    }
    items
}

/// Inserts a line anywhere behind the one of that kind.
pub fn insert_behind(random: &mut Random, items: &mut Vec<Item>, kind: Kind, item: Item) {
    let before = items.iter().position(|item| item.kind == kind).map_or(0, |place| place + 1);
    let place = random.between(before as u64, items.len() as u64) as usize;
    items.insert(place, item);
}

/// The names of those that are set.
fn named(names: &[(&str, bool)]) -> Vec<Vec<u8>> {
    names.iter().filter(|(_, set)| *set).map(|(name, _)| name.as_bytes().to_vec()).collect()
}

/// `area ID start N words N at N [size N] [RIGHT ..]`
fn area_item(random: &mut Random, profile: &Profile, place: usize) -> Item {
    let area = profile.areas[place];
    let mut words = vec![b"area".to_vec(), number(random, area.memory_id.into())];
    for (name, value) in [("start", area.start), ("words", area.length), ("at", area.first_word * 2)] {
        words.push(name.into());
        words.push(number(random, value));
    }
    if random.once_in(4) {
        words.push(b"size".to_vec());
        words.push(number(random, 2));
    }
    let rights = area.rights;
    let mut names = named(&[("load", rights.load), ("dump", rights.dump), ("check", rights.check)]);
    random.shuffle(&mut names);
    words.extend(names);
    Item { kind: Kind::Area, words }
}

/// `put AT HEX ..`, with the octets in one word or more.
fn put_item(random: &mut Random, at: usize, octets: &[u8]) -> Item {
    let mut words = vec![b"put".to_vec(), number(random, at as u32)];
    let most = random.pick(&[1, 2, 4, 8, 2_000]).max(octets.len() as u64 / 100);
    let mut rest = octets;
    while !rest.is_empty() {
        let (part, behind) = rest.split_at(rest.len().min(random.between(1, most) as usize));
        let mut digits = Vec::new();
        hex::write(part, &mut digits);
        mix_case(random, &mut digits);
        words.push(digits);
        rest = behind;
    }
    Item { kind: Kind::Put, words }
}

/// Upper case, lower case or both.
pub fn mix_case(random: &mut Random, digits: &mut [u8]) {
    match random.below(3) {
        0 => digits.make_ascii_lowercase(),
        1 => {
            for digit in digits {
                if random.once_in(2) {
                    digit.make_ascii_lowercase();
                }
            }
        }
        _ => (),
    }
}

/// A number in one of its spellings.
fn number(random: &mut Random, value: u32) -> Vec<u8> {
    if random.once_in(2) {
        return value.to_string().into_bytes();
    }
    let zeros = match random.below(8) {
        0 => 100,
        1 | 2 => random.between(1, 12) as usize,
        3 => 8_usize.saturating_sub(format!("{value:X}").len()),
        _ => 0,
    };
    let mut digits = format!("{}{value:X}", "0".repeat(zeros)).into_bytes();
    mix_case(random, &mut digits);
    [b"0x", digits.as_slice()].concat()
}

/// The text of the lines, with blanks, comments and empty lines; the last may have no newline.
pub fn text(random: &mut Random, items: &[Item]) -> Vec<u8> {
    let line_end: &[u8] = if random.once_in(5) { b"\r\n" } else { b"\n" };
    let plain = random.once_in(4);
    let mut text = Vec::new();
    for item in items {
        while !plain && random.once_in(5) {
            text.extend(blank_line(random));
            text.extend_from_slice(line_end);
        }
        let longest = LONGEST_LINE + 1 - line_end.len();
        text.extend(line(random, item, plain, longest));
        text.extend_from_slice(line_end);
    }
    if random.once_in(4) {
        text.pop();
    }
    text
}

/// A line without words.
fn blank_line(random: &mut Random) -> Vec<u8> {
    match random.below(5) {
        0 | 1 => Vec::new(),
        2 => blanks(random),
        3 => [blanks(random), comment(random)].concat(),
        _ => comment(random),
    }
}

/// The words of one line with blanks between them, and now and then a comment behind them or as many characters as
/// there may be.
fn line(random: &mut Random, item: &Item, plain: bool, longest: usize) -> Vec<u8> {
    if plain || item.kind == Kind::Other {
        return item.words.join(&b' ');
    }
    let mut line = if random.once_in(6) { blanks(random) } else { Vec::new() };
    for (place, word) in item.words.iter().enumerate() {
        if place > 0 {
            line.extend(if random.once_in(4) { blanks(random) } else { b" ".to_vec() });
        }
        line.extend_from_slice(word);
    }
    match random.below(10) {
        0 => line.extend(comment(random)),
        1 => line.extend([blanks(random), comment(random)].concat()),
        2 => line.extend(blanks(random)),
        3 if random.once_in(4) => {
            let fill = random.pick(b"# \t\r");
            line.resize(longest.max(line.len()), fill);
        }
        _ => (),
    }
    if line.len() > longest {
        return item.words.join(&b' ');
    }
    line
}

/// One blank or more.
fn blanks(random: &mut Random) -> Vec<u8> {
    (0..random.between(1, 4)).map(|_| random.pick(b"  \t\r")).collect()
}

/// `#` and any characters but the newline.
fn comment(random: &mut Random) -> Vec<u8> {
    let count = random.below(30);
    let mut comment = b"#".to_vec();
    comment.extend((0..count).map(|_| match random.below(6) {
        0 => random.pick(b"#\0\r\t\x0B\x7F"),
        1 => random.octet() | 0x80,
        _ => random.pick(b"abcdefghij 0123456789"),
    }));
    comment
}
