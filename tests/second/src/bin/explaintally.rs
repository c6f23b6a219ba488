//! `explaintally FOLDER` reads what `explain` gave for each pair of files of a folder, NNNN.theirs and on standard error
//! NNNN.said, for NNNN.unit and NNNN.packets, and counts how often each check was told in each way. It looks for the
//! causes in each packet itself, and whether the octets that are told spell what is wrong. It ends with 1 if a way was never
//! told, with 2 if an answer is not that of its packet.

use std::env;
use std::io;
use std::path::Path;
use std::process::ExitCode;

use second::control_rows::{self, FIELDS, METHODS};
use second::ends::{self, Tally};
use second::hex;
use second::map::Profile;
use second::packet_causes::{self, is_outside, Cause};
use second::program;
use second::refusal;
use second::soundness;
use second::unit;
use second::unit_fault::Fault;

/// A line has at most so many characters.
const LONGEST_LINE: usize = 4_096;
/// The checks in their order, as far as several can fail in one packet.
const ORDER: [u8; 10] = [
    refusal::RECEIVED_COUNT,
    refusal::ERROR_CONTROL,
    refusal::HEADER,
    refusal::APID,
    refusal::TYPE,
    refusal::SUBTYPE,
    refusal::DATA,
    refusal::MEMORY_ID,
    refusal::RIGHT,
    refusal::OUTSIDE,
];
/// Received counts that have a row of their own.
const COUNTS: [usize; 6] = [6, 11, 12, 248, 249, 2_048];
const REQUESTS: [&str; 4] = ["(6,2)", "(6,5)", "(6,9)", "(17,1)"];
const LOAD: &str = "(6,2)";
const DUMP: &str = "(6,5)";
const BAD_LINES: [&str; 4] = ["too long", "carriage return", "character", "odd digits"];
const CASES: [&str; 3] = ["line in upper case", "line in lower case", "line in both cases"];
const FILES: [&str; 3] = ["last line with its newline", "last line without its newline", "no line"];
const BAD_UNIT: &str = "unit";

/// What is told of a packet that is refused.
struct Told {
    number: u8,
    detail: u16,
    first: usize,
    last: usize,
}

fn main() -> ExitCode {
    let arguments: Vec<_> = env::args_os().skip(1).collect();
    let [folder] = arguments.as_slice() else {
        return program::fail("usage: explaintally FOLDER");
    };
    match count(Path::new(folder)) {
        Ok((tally, files, lines)) => tally.report(&format!("{files} unit files, {lines} lines of packets")),
        Err(error) => program::fail(&error.to_string()),
    }
}

/// Counts every answer of the folder.
fn count(folder: &Path) -> io::Result<(Tally, usize, usize)> {
    let mut tally = Tally::of(wanted());
    let paths = ends::answers(folder)?;
    let mut lines = 0;
    for path in &paths {
        let unit = ends::octets(&path.with_extension("unit"))?;
        let packets = ends::octets(&path.with_extension("packets"))?;
        let said = ends::text(&path.with_extension("said"))?;
        let rows = rows(&unit, &packets, &ends::text(path)?, &said);
        let rows = rows.map_err(|why| io::Error::other(format!("{}: {why}", path.display())))?;
        for row in rows {
            tally.add(&row).ok_or_else(|| io::Error::other(format!("{}: no row is {row}", path.display())))?;
        }
        lines += lines_of(&packets).len();
    }
    Ok((tally, paths.len(), lines))
}

/// The rows of an answer: those of its end, or those of each line; or why it is none that `explain` gives.
fn rows(unit: &[u8], packets: &[u8], out: &str, said: &str) -> Result<Vec<String>, String> {
    let other_form = || String::from("it has another form");
    let stated = unit::read(&mut &unit[..]).map_err(|error| error.to_string())?;
    let said = said.strip_suffix('\n').unwrap_or(said);
    if let Some(words) = out.strip_prefix("unit ") {
        let words = words.split_once(": ").and_then(|(_, words)| words.strip_suffix('\n')).ok_or_else(other_form)?;
        let known = Fault::ALL.iter().any(|fault| fault.to_string() == words);
        return (known && said.is_empty() && stated.is_err()).then(|| vec![BAD_UNIT.into()]).ok_or_else(other_form);
    }
    let unit = stated.map_err(|_| other_form())?;
    let unsound = soundness::first_failing(&unit).is_some();
    if out == "refused 41\n" && unsound {
        return Ok(vec![ends::unsound(said)]);
    }
    if unsound || !said.is_empty() || !(out.is_empty() || out.ends_with('\n')) {
        return Err(other_form());
    }
    let lines = lines_of(packets);
    let answers: Vec<_> = out.split_terminator('\n').collect();
    if answers.len() != lines.len() {
        return Err(format!("{} answers to {} lines", answers.len(), lines.len()));
    }
    let mut rows = Vec::new();
    for (number, (line, answer)) in (1..).zip(lines.iter().zip(answers)) {
        let of_line = line_rows(&unit.profile, line, answer);
        rows.extend(of_line.ok_or_else(|| format!("line {number}: {answer} is not its answer"))?);
    }
    let end = match packets.last() {
        Some(b'\n') => FILES[0],
        Some(_) => FILES[1],
        None => FILES[2],
    };
    rows.push(end.into());
    Ok(rows)
}

/// The lines of a file; a last one without its newline counts if it is not empty.
fn lines_of(packets: &[u8]) -> Vec<&[u8]> {
    let mut lines: Vec<_> = packets.split(|octet| *octet == b'\n').collect();
    lines.pop_if(|line| line.is_empty());
    lines
}

/// The rows of a line with that answer; nothing where it is not its answer.
fn line_rows(profile: &Profile, line: &[u8], answer: &str) -> Option<Vec<String>> {
    if let Some(why) = why_bad(line) {
        return (answer == "0200").then(|| vec![bad_line(why)]);
    }
    let packet = hex::read(line)?;
    let causes = packet_causes::causes(profile, &packet);
    let mut rows: Vec<String> = case(line).map(String::from).into_iter().collect();
    let Some(cause) = causes.first() else {
        let request = packet_causes::request(&packet)?;
        rows.push(accepted(&request, flag(&packet)?));
        return (answer == "0000").then_some(rows);
    };
    let told = Told::of(answer)?;
    if (told.number, told.detail) != (cause.number, cause.detail) || told.shows(profile, &packet).is_none() {
        return None;
    }
    rows.extend(refused(profile, &packet, cause, &told)?);
    rows.extend(causes[1..].iter().map(|later| pair(cause, later)));
    Some(rows)
}

/// Why a line is no packet.
fn why_bad(line: &[u8]) -> Option<&'static str> {
    let digits = |text: &[u8]| text.iter().all(u8::is_ascii_hexdigit);
    match line {
        _ if line.len() > LONGEST_LINE => Some(BAD_LINES[0]),
        [text @ .., b'\r'] if digits(text) => Some(BAD_LINES[1]),
        _ if !digits(line) => Some(BAD_LINES[2]),
        _ if !line.len().is_multiple_of(2) => Some(BAD_LINES[3]),
        _ => None,
    }
}

/// In which case the letters of a line are, if it has some.
fn case(line: &[u8]) -> Option<&'static str> {
    match (line.iter().any(u8::is_ascii_uppercase), line.iter().any(u8::is_ascii_lowercase)) {
        (true, false) => Some(CASES[0]),
        (false, true) => Some(CASES[1]),
        (true, true) => Some(CASES[2]),
        (false, false) => None,
    }
}

/// The checksum flag of a packet.
fn flag(packet: &[u8]) -> Option<u8> {
    control_rows::method(packet).map(|method| method.flag())
}

impl Told {
    /// Four numbers in decimal with single spaces, none with a leading zero.
    fn of(answer: &str) -> Option<Told> {
        let words: Vec<_> = answer.split(' ').collect();
        let [number, detail, first, last] = words.as_slice() else {
            return None;
        };
        let plain =
            |word: &str| word == "0" || (!word.starts_with('0') && word.bytes().all(|digit| digit.is_ascii_digit()));
        if !words.iter().all(|word| plain(word)) {
            return None;
        }
        Some(Told {
            number: number.parse().ok()?,
            detail: detail.parse().ok()?,
            first: first.parse().ok()?,
            last: last.parse().ok()?,
        })
    }

    /// Something where the octets told are the check's, and wrong as the check says.
    fn shows(&self, profile: &Profile, packet: &[u8]) -> Option<()> {
        let Told { number, detail, first, last } = *self;
        let places = (first, last);
        if number == refusal::FEWER_THAN_SIX {
            return (places == (0, 0)).then_some(());
        }
        let shown = packet.get(first..last.checked_add(1)?)?;
        let spelled = shown.iter().fold(0_u64, |value, octet| value << 8 | u64::from(*octet));
        let shown_right = match number {
            refusal::RECEIVED_COUNT => {
                let in_range = (12..=248).contains(&packet.len());
                places == (4, 5) && !(in_range && spelled + 7 == packet.len() as u64)
            }
            refusal::ERROR_CONTROL => shown.len() == 2 && last + 1 == packet.len() && spelled != u64::from(detail),
            refusal::HEADER => {
                let (place, mask, right) = match detail {
                    1 => (0, 0xE0, 0),
                    2 => (0, 0x10, 0x10),
                    3 => (0, 0x08, 0x08),
                    4 => (2, 0xC0, 0xC0),
                    _ => (6, 0xE0, 0),
                };
                places == (place, place) && spelled & mask != right
            }
            refusal::APID => {
                let own = u64::from(profile.pid) * 16 + 12;
                places == (0, 1) && spelled & 0x07FF == u64::from(detail) && spelled & 0x07FF != own
            }
            refusal::TYPE => places == (7, 7) && spelled == u64::from(detail),
            refusal::SUBTYPE => places == (7, 8) && spelled == u64::from(detail),
            // All that is not header or error control.
            refusal::DATA => first == 10 && shown.len() + 12 == packet.len(),
            refusal::MEMORY_ID | refusal::RIGHT => places == (10, 10) && spelled == u64::from(detail),
            refusal::OUTSIDE => {
                let area = profile.area_with_id(packet[10])?;
                let (start, length) = (spelled >> 16, spelled & 0xFFFF);
                let inside =
                    start >= area.start.into() && start + length <= u64::from(area.start) + u64::from(area.length);
                let blocks = packet_causes::blocks(packet).ok()?;
                let begin = blocks.get(usize::from(detail).checked_sub(1)?)?.begin;
                shown.len() == 6 && !inside && first == begin
            }
            _ => false,
        };
        shown_right.then_some(())
    }
}

/// The rows of the cause that is told.
fn refused(profile: &Profile, packet: &[u8], cause: &Cause, told: &Told) -> Option<Vec<String>> {
    let Cause { number, words, .. } = cause;
    Some(match *number {
        refusal::RECEIVED_COUNT => {
            let mut rows = vec![row(*number, words)];
            rows.extend(COUNTS.contains(&packet.len()).then(|| row(*number, &of_octets(packet.len()))));
            rows
        }
        refusal::ERROR_CONTROL => {
            let length = match packet.len() {
                12 => LENGTHS[0],
                248 => LENGTHS[2],
                _ => LENGTHS[1],
            };
            vec![row(*number, &format!("{words}, {length}"))]
        }
        refusal::HEADER => vec![row(*number, &format!("{words} flag {}", flag(packet)?))],
        refusal::OUTSIDE => {
            let mut rows = vec![row(*number, words)];
            rows.extend(outside_rows(profile, packet, told)?.into_iter().map(|words| row(19, &words)));
            rows
        }
        _ => vec![row(*number, words)],
    })
}

/// How long packets are whose error control is wrong.
const LENGTHS: [&str; 3] = ["12 octets", "13 to 247 octets", "248 octets"];
/// How a block is outside, and what else spells the same.
const OUTSIDE: [&str; 9] = [
    "starts before the area",
    "starts behind the area",
    "starts inside the area",
    "ends above 32 bits",
    "is inside another area",
    "first offset above 99",
    "first offset above 199",
    "the same octets stand before it",
    "the same octets stand behind it",
];

/// What else there is to say of a block that is outside.
fn outside_rows(profile: &Profile, packet: &[u8], told: &Told) -> Option<Vec<String>> {
    let blocks = packet_causes::blocks(packet).ok()?;
    let number = usize::from(told.detail);
    let block = blocks.get(number - 1)?;
    let areas = profile.used_areas();
    let place = areas.iter().position(|area| area.memory_id == packet[10])?;
    let area = areas[place];
    let end = u64::from(area.start) + u64::from(area.length);
    let six = &packet[told.first..=told.last];
    let spells = |places: &[u8]| places.windows(6).any(|window| window == six);
    let before = block.start < area.start.into();
    let holds = [
        before,
        block.start >= end,
        !before && block.start < end,
        block.start + block.length > 1 << 32,
        areas.iter().any(|other| !is_outside(other, block)),
        told.first > 99,
        told.first > 199,
        spells(&packet[..told.last]),
        spells(&packet[told.first + 1..]),
    ];
    let mut rows: Vec<String> =
        OUTSIDE.iter().zip(holds).filter(|(_, holds)| *holds).map(|(words, _)| (*words).into()).collect();
    rows.push(of_area(place + 1));
    let mut lengths: Vec<_> = blocks[..number - 1].iter().map(|block| block.length).collect();
    lengths.dedup();
    let differ = match number {
        1 => false,
        2 => lengths != [1],
        _ => lengths.len() > 1,
    };
    if packet[8] == 2 && differ {
        rows.push(behind_words(number));
    }
    Some(rows)
}

/// Two causes in one packet, the first of which is told.
fn pair(told: &Cause, later: &Cause) -> String {
    match (told.number, later.number) {
        (refusal::HEADER, refusal::HEADER) => format!("16 {} and {}", told.words, later.words),
        (first, second) => format!("{first:2} and {second:2}"),
    }
}

fn row(number: u8, words: &str) -> String {
    format!("{number:2} {words}")
}

fn accepted(request: &str, flag: u8) -> String {
    format!("0000 {request} flag {flag}")
}

fn bad_line(why: &str) -> String {
    format!("0200 {why}")
}

fn of_octets(count: usize) -> String {
    format!("of {count} octets")
}

fn of_area(number: usize) -> String {
    format!("area {number}")
}

/// A block of a load that stands at another place than it would behind blocks of one word each, or of one length.
fn behind_words(number: usize) -> String {
    format!("{LOAD} block {number} behind other numbers of words")
}

/// Everything that has to be reached.
fn wanted() -> Vec<String> {
    let mut wanted: Vec<String> = vec![BAD_UNIT.into()];
    wanted.extend(ends::CLAUSES.map(ends::unsound));
    wanted.extend(FILES.map(String::from));
    wanted.extend(CASES.map(String::from));
    wanted.extend(BAD_LINES.map(bad_line));
    for method in METHODS {
        wanted.extend(REQUESTS.map(|request| accepted(request, method.flag())));
        wanted.extend(LENGTHS.map(|length| row(2, &format!("flag {}, {length}", method.flag()))));
        wanted.extend(FIELDS.map(|field| row(16, &format!("detail {field} flag {}", method.flag()))));
    }
    wanted.extend((0..6).map(|count| row(42, &format!("{count} octets"))));
    wanted.extend(COUNTS.map(|count| row(1, &of_octets(count))));
    for words in [
        "fewer than 12 octets, and the length field says so",
        "fewer than 12 octets, and the length field says another number",
        "the length field says more",
        "the length field says fewer",
        "more than 248 octets, and the length field says so",
        "more than 248 octets, and the length field says another number",
    ] {
        wanted.push(row(1, words));
    }
    wanted.extend(["the PID", "the category", "PID and category"].map(|words| row(0, words)));
    wanted.extend(["another type", "type 6", "type 17"].map(|words| row(3, words)));
    wanted.extend([6, 17].map(|service| row(3, &format!("type {service}, another subtype"))));
    wanted.extend(["(6,2)", "(6,5)", "(6,9)", "(6,other)", "(17,other)"].map(|words| row(4, words)));
    wanted.extend(["one octet", "octets", "236 octets"].map(|words| row(5, &format!("(17,1) {words}"))));
    for request in &REQUESTS[..3] {
        let mut data: Vec<String> =
            ["no data", "one octet", "N is 0", "N is above 8", "octets left over"].map(String::from).into();
        for block in 1..=8 {
            data.extend(["is cut off", "has no words"].map(|words| format!("block {block} {words}")));
            match *request {
                LOAD => data.push(format!("block {block} lacks words")),
                DUMP => data.push(format!("block {block} has more than 240 words")),
                _ => (),
            }
            wanted.push(row(19, &format!("{request} block {block}")));
        }
        wanted.extend(data.iter().map(|words| row(5, &format!("{request} {words}"))));
        wanted.extend([17, 18].map(|number| row(number, request)));
    }
    wanted.extend(OUTSIDE.map(|words| row(19, words)));
    wanted.extend((1..=8).map(|number| row(19, &of_area(number))));
    wanted.extend((2..=8).map(|number| row(19, &behind_words(number))));
    wanted.extend(wanted_pairs());
    wanted
}

/// The pairs of checks that can both fail in one packet.
fn wanted_pairs() -> Vec<String> {
    let of = |number| Cause { number, detail: 0, words: String::new() };
    let mut wanted = Vec::new();
    for (place, first) in ORDER.into_iter().enumerate() {
        for second in &ORDER[place + 1..] {
            // 4 is asked where the type is offered, 18 and 19 of a memory that is there, 19 of data that is well formed.
            let never = matches!(
                (first, *second),
                (refusal::TYPE, refusal::SUBTYPE) | (refusal::DATA, refusal::OUTSIDE) | (refusal::MEMORY_ID, _)
            );
            wanted.extend((!never).then(|| pair(&of(first), &of(*second))));
        }
    }
    for (place, first) in FIELDS.into_iter().enumerate() {
        for second in &FIELDS[place + 1..] {
            wanted.push(format!("16 detail {first} and detail {second}"));
        }
    }
    wanted
}
