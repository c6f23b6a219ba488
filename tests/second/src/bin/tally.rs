//! `tally INPUT OUTPUT` pairs the X, V, F, R, W, C and D lines of a `cases` input with their answers and counts how
//! often each verdict and kind of detail was reached, each clause of wider, each cause of a frame's refusal, each way of
//! error control by either method and each kind of parts, and how often checks of many words and long C lines were. It
//! ends with 1 if one of the fixed list never was.
//!
//! A packet whose error control is not right by its flag's method has to be refused by 2 with the right value, and no
//! other packet; a W line has to print the packet that is put together here, and an R line of that packet its fields; a
//! check report has the CRC of what the store holds. Else the tally ends with 2.
//!
//! A check of many words counts where the block holds something at both its ends and in its middle, so the store is
//! followed through the accepted loads.
//!
//! Parts of a whole are known by the input alone: D lines directly one behind another, the first from FFFF, and
//! directly behind them the C line of all their octets. Then each start has to be the value printed before it, and
//! the last value the whole's, or the tally ends with 2.

use std::collections::BTreeMap;
use std::env;
use std::fs::File;
use std::io::{self, BufRead, BufReader, Write};
use std::mem;
use std::ops::Range;
use std::process::ExitCode;

use second::blocks::{read_memory_data, Block, MemoryRequest};
use second::cases::{self, Command, State, WriteFields, LONGEST_LINE};
use second::clauses::{self, Clause};
use second::control_rows;
use second::crc::{bit_by_bit, START};
use second::frame_causes;
use second::frame_rows;
use second::hex;
use second::hexline;
use second::iso;
use second::map::{store_in_order, Area, Profile, Unsound, LONGEST_STORE};
use second::program;
use second::refusal::{self, Refusal};
use second::tc::Method;
use second::tm::{HEADER_OCTETS, LENGTH_FIELD_OFFSET, PACKET_ID, SEQUENCE_FLAGS};
use second::write_rows;

const ADDRESSES: u64 = 1 << 32;
/// The octets of a frame whose length field is FFFF.
const LONGEST_ANNOUNCED: usize = 65_542;
/// The characters of an F line of 70,000 octets.
const TOO_LONG_FOR_F: usize = 2 + 140_000;
const TOO_LONG: &str = "bad line F of 70,000 octets";
const NO_OCTETS: &str = "no octets";
const ANNOUNCED_FFFF: &str = "65,542 octets";
const ABOVE_ANNOUNCED: &str = "above 65,542 octets";
/// The octets that a harness holds at a time, and those of the longest D line without its start.
const IMAGE_PART: usize = 4_096;
const LONGEST_PART: usize = 69_998;
const FROM_START: &str = "D from FFFF";
const FROM_ZERO: &str = "D from 0000";
const FROM_ANOTHER: &str = "D from another start";
const PART_OF_NONE: &str = "D of no octets";
const PART_OF_ONE: &str = "D of one octet";
const BAD_OF_NONE: &str = "bad line D of no octets";
const BAD_OF_ONE: &str = "bad line D of one octet";
const IN_ONE: &str = "D: a whole in one part";
const LONGEST_IN_ONE: &str = "D: a whole of 69,998 octets in one part";
const EMPTY_FIRST: &str = "D: parts with an empty one first";
const EMPTY_BETWEEN: &str = "D: parts with an empty one in the middle";
const EMPTY_LAST: &str = "D: parts with an empty one last";
const ALL_EMPTY: &str = "D: parts that are all empty";
const STORE_IN_PARTS: &str = "D: a whole of 64 KiB in parts";
const IMAGE_IN_PARTS: &str = "D: parts of 4,096, the last one short";
const THOUSANDS: &str = "1,024 to 4,095";
const MORE_THOUSANDS: &str = "4,096 to 32,767";
const CHECK_OF_ALL: &str = "accepted (6,9) of 32,768 words";
/// A C line of more octets than these is a long one.
const SHORT_WHOLE: usize = 2_048;
const REPORTED: &str = "accepted (6,9), reported by the CRC, which is not the ISO checksum";
const READ: [&str; 4] = ["read", "refused  2", "refused 16", "read, which W wrote"];
const SERVED: &str = "accepted, which W wrote";

/// How often each kind was reached; and the packets, the maps, the V lines, the F lines, the D lines, and the wholes
/// of which D lines were the parts.
#[derive(Default)]
struct Tally {
    kinds: BTreeMap<String, u64>,
    packets: u64,
    maps: u64,
    questions: u64,
    frames: u64,
    parts: u64,
    wholes: u64,
}

/// A D line and the value printed for it.
struct Part {
    start: u16,
    octets: Vec<u8>,
    value: u16,
}

/// The second line of an answer.
struct Verdict {
    refused: bool,
    number: u8,
    detail: u16,
}

impl Verdict {
    fn refusal(&self) -> Option<Refusal> {
        self.refused.then_some(Refusal { number: self.number, detail: self.detail })
    }
}

fn main() -> ExitCode {
    let arguments: Vec<_> = env::args_os().skip(1).collect();
    let [input, output] = arguments.as_slice() else {
        return program::fail("usage: tally INPUT OUTPUT");
    };
    let tally = match (File::open(input), File::open(output)) {
        (Ok(input), Ok(output)) => count(BufReader::new(input), BufReader::new(output)),
        (Err(error), _) | (_, Err(error)) => Err(error),
    };
    match tally {
        Ok(tally) => report(&tally),
        Err(error) => program::fail(&error.to_string()),
    }
}

fn report(tally: &Tally) -> ExitCode {
    let missing: Vec<_> = wanted().into_iter().filter(|kind| !tally.kinds.contains_key(kind)).collect();
    let Tally { packets, maps, questions, frames, parts, wholes, .. } = tally;
    let mut text = format!("{packets} packets, {maps} maps, {questions} questions, {frames} frames, ");
    text.push_str(&format!("{parts} parts, {wholes} wholes in parts\n"));
    for (kind, times) in &tally.kinds {
        text.push_str(&format!("{times:9}  {kind}\n"));
    }
    for kind in &missing {
        text.push_str(&format!("NEVER REACHED: {kind}\n"));
    }
    text.push_str(&format!("{} of {} wanted kinds reached\n", wanted().len() - missing.len(), wanted().len()));
    match io::stdout().write_all(text.as_bytes()) {
        Ok(()) if missing.is_empty() => ExitCode::SUCCESS,
        _ => ExitCode::FAILURE,
    }
}

fn count(mut input: impl BufRead, mut output: impl BufRead) -> io::Result<Tally> {
    let mut tally = Tally::default();
    let mut state = State::new();
    let mut parts = Vec::new();
    let mut written = None;
    while let Some(line) = next_line(&mut input)? {
        let command = if line.len() <= LONGEST_LINE { cases::parse(&line) } else { None };
        let mut parts_before = mem::take(&mut parts);
        match command {
            Some(Command::SetProfile(profile)) => {
                state.profile = profile;
                tally.maps += 1;
            }
            Some(Command::SetStore(store)) => state.store = store,
            Some(Command::SetCounts(counts)) => state.counts = counts,
            Some(Command::SetTime(_)) => (),
            Some(Command::SetBuffer { length, octet }) => state.buffer = vec![octet; length],
            Some(Command::AskWider(profile)) => {
                let answer = wanted_line(&mut output)?;
                tally.questions += 1;
                for kind in question_kinds(&state, &profile, &answer)? {
                    *tally.kinds.entry(kind).or_default() += 1;
                }
            }
            Some(Command::ReadFrame(frame)) => {
                let answer = wanted_line(&mut output)?;
                tally.frames += 1;
                for kind in frame_kinds(&frame, &answer)? {
                    *tally.kinds.entry(kind).or_default() += 1;
                }
            }
            Some(Command::Answer(packet)) => {
                let frames = wanted_line(&mut output)?;
                reads_cleanly(&frames)?;
                let verdict = verdict(&wanted_line(&mut output)?)?;
                tally.packets += 1;
                let mut rows = kinds(&state, &packet, &verdict);
                rows.extend(control_kinds(&packet, verdict.refusal())?);
                if !verdict.refused {
                    rows.extend(report_kind(&state, &packet, &frames)?);
                    rows.extend(served_kind(&packet, written.as_ref()));
                    follow(&mut state, &packet);
                }
                for kind in rows {
                    *tally.kinds.entry(kind).or_default() += 1;
                }
            }
            Some(Command::ReadPacket(packet)) => {
                let answer = wanted_line(&mut output)?;
                for kind in read_kinds(&packet, &answer, written.as_ref())? {
                    *tally.kinds.entry(kind).or_default() += 1;
                }
            }
            Some(Command::WritePacket(fields)) => {
                let answer = wanted_line(&mut output)?;
                for kind in write_kinds(&fields, &answer)? {
                    *tally.kinds.entry(kind).or_default() += 1;
                }
                written = Some(fields);
            }
            Some(Command::CrcFrom { start, octets }) => {
                let value = check_value(&wanted_line(&mut output)?)?;
                tally.parts += 1;
                for kind in part_kinds(start, &octets) {
                    *tally.kinds.entry(kind.into()).or_default() += 1;
                }
                parts_before.push(Part { start, octets, value });
                parts = parts_before;
            }
            Some(Command::Crc(octets)) => {
                let value = check_value(&wanted_line(&mut output)?)?;
                if octets.len() > SHORT_WHOLE {
                    *tally.kinds.entry(long_whole(octets.len() % 8)).or_default() += 1;
                }
                if is_whole(&parts_before, &octets) {
                    tally.wholes += 1;
                    for kind in whole_kinds(&parts_before, value)? {
                        *tally.kinds.entry(kind.into()).or_default() += 1;
                    }
                }
            }
            Some(_) => {
                wanted_line(&mut output)?;
            }
            None => {
                if wanted_line(&mut output)? != b"0200" {
                    return Err(io::Error::other("a bad line was not answered 0200"));
                }
                *tally.kinds.entry("bad line".into()).or_default() += 1;
                for kind in bad_kind(&line).into_iter().chain(write_rows::bad_rows(&line)) {
                    *tally.kinds.entry(kind.into()).or_default() += 1;
                }
            }
        }
    }
    match next_line(&mut output)? {
        None => Ok(tally),
        Some(_) => Err(io::Error::other("the output has lines left over")),
    }
}

fn next_line(stream: &mut impl BufRead) -> io::Result<Option<Vec<u8>>> {
    let mut line = Vec::new();
    if stream.read_until(b'\n', &mut line)? == 0 {
        return Ok(None);
    }
    if line.last() == Some(&b'\n') {
        line.pop();
    }
    Ok(Some(line))
}

fn wanted_line(stream: &mut impl BufRead) -> io::Result<Vec<u8>> {
    next_line(stream)?.ok_or_else(|| io::Error::other("the output ends too early"))
}

/// The kind of a bad line that is wanted apart.
fn bad_kind(line: &[u8]) -> Option<&'static str> {
    match line {
        [b'F', b' ', ..] if line.len() == TOO_LONG_FOR_F => Some(TOO_LONG),
        b"D " => Some(BAD_OF_NONE),
        [b'D', b' ', upper, lower] if hex::read(&[*upper, *lower]).is_some() => Some(BAD_OF_ONE),
        _ => None,
    }
}

/// Reads the four digits of a CRC, which are in upper case.
fn check_value(line: &[u8]) -> io::Result<u16> {
    match hex::read(line).as_deref() {
        Some([upper, lower]) if !line.iter().any(u8::is_ascii_lowercase) => Ok(u16::from_be_bytes([*upper, *lower])),
        _ => Err(io::Error::other("the answer of a C or D line has another form")),
    }
}

/// The kinds that one D line counts for.
fn part_kinds(start: u16, octets: &[u8]) -> Vec<&'static str> {
    let from = match start {
        START => FROM_START,
        0 => FROM_ZERO,
        _ => FROM_ANOTHER,
    };
    let size = match octets.len() {
        0 => Some(PART_OF_NONE),
        1 => Some(PART_OF_ONE),
        _ => None,
    };
    [from].into_iter().chain(size).collect()
}

/// Whether the octets of a C line are those of the D lines directly before it, of which the first is from FFFF.
fn is_whole(parts: &[Part], octets: &[u8]) -> bool {
    let joined = parts.iter().flat_map(|part| &part.octets);
    parts.first().is_some_and(|part| part.start == START) && joined.eq(octets)
}

/// The kinds that the parts of a whole count for. Each has to go on from the value of the one before it, and the last
/// has to give the value of the whole.
fn whole_kinds(parts: &[Part], value: u16) -> io::Result<Vec<&'static str>> {
    if parts.windows(2).any(|pair| pair[1].start != pair[0].value) {
        return Err(io::Error::other("a part of a whole does not go on from the value of the part before it"));
    }
    if parts.last().map(|part| part.value) != Some(value) {
        return Err(io::Error::other("the parts taken in turn do not give the CRC of the whole"));
    }
    let lengths: Vec<usize> = parts.iter().map(|part| part.octets.len()).collect();
    let whole: usize = lengths.iter().sum();
    let held = |length: &usize| *length > 0;
    let (first, last) = (lengths.iter().position(held), lengths.iter().rposition(held));
    let between = first.zip(last).is_some_and(|(first, last)| lengths[first..last].contains(&0));
    let checks = [
        (lengths.len() == 1, IN_ONE),
        (lengths == [LONGEST_PART], LONGEST_IN_ONE),
        (first > Some(0), EMPTY_FIRST),
        (between, EMPTY_BETWEEN),
        (whole > 0 && lengths.last() == Some(&0), EMPTY_LAST),
        (whole == 0 && lengths.len() > 1, ALL_EMPTY),
        (first < last && whole == LONGEST_STORE, STORE_IN_PARTS),
        (is_image(&lengths), IMAGE_IN_PARTS),
    ];
    Ok(checks.iter().filter(|(holds, _)| *holds).map(|(_, kind)| *kind).collect())
}

/// Parts as a harness holds them: all full but the last, which is short.
fn is_image(lengths: &[usize]) -> bool {
    match lengths {
        [full @ .., last] if !full.is_empty() => {
            full.iter().all(|length| *length == IMAGE_PART) && (1..IMAGE_PART).contains(last)
        }
        _ => false,
    }
}

/// Reads `0000 0000 0038 0002 0001` or `0102 0167 0018 0003 0001`.
fn verdict(line: &[u8]) -> io::Result<Verdict> {
    let parts: Option<Vec<Vec<u8>>> = line.split(|octet| *octet == b' ').map(hex::read).collect();
    match parts.as_deref() {
        Some([closing, detail, written, count_1, count_9])
            if [closing, detail, written, count_1, count_9].iter().all(|part| part.len() == 2) =>
        {
            Ok(Verdict {
                refused: closing[0] == 1,
                number: closing[1],
                detail: u16::from_be_bytes([detail[0], detail[1]]),
            })
        }
        _ => Err(io::Error::other("an answer's second line has another form")),
    }
}

/// The kinds that one answer counts for.
fn kinds(state: &State, packet: &[u8], verdict: &Verdict) -> Vec<String> {
    let octet = |place: usize| packet.get(place).copied().unwrap_or(0);
    let request = format!("({},{})", octet(7), octet(8));
    let detail = verdict.detail;
    if !verdict.refused {
        let accepted = format!("accepted {request} ack {:2}", octet(6) & 0x0F);
        return [accepted].into_iter().chain(check_kinds(state, packet)).collect();
    }
    let about = match verdict.number {
        41 => unsound_clause(state),
        42 => format!("{} octets received", packet.len()),
        1 => received_kind(packet.len(), detail).into(),
        2 => wrong_octets(packet, detail).into(),
        16 => format!("detail {detail}"),
        0 if detail % 16 != 12 => "other category".into(),
        0 => "other PID".into(),
        3 if octet(7) == 6 || octet(7) == 17 => format!("type {} without a flag", octet(7)),
        3 => "type unknown".into(),
        4 if matches!((octet(7), octet(8)), (6, 2 | 5 | 9)) => format!("{request} flag off"),
        4 => format!("type {} subtype unknown", octet(7)),
        5 if detail == 0 => format!("{request} detail 0, {}", data_kind(packet)),
        5 | 19 => format!("{request} detail {detail}"),
        17 | 18 => request,
        _ => String::new(),
    };
    vec![format!("refused {:2} {about}", verdict.number)]
}

/// The kinds that a packet counts for by its error control, which has to allow the verdict.
fn control_kinds(packet: &[u8], refused: Option<Refusal>) -> io::Result<Vec<String>> {
    control_rows::packet_rows(packet, refused)
        .ok_or_else(|| io::Error::other("the answer of a packet is not that of its error control"))
}

/// The kind of an accepted check, whose report has to give the CRC of what the store holds.
fn report_kind(state: &State, packet: &[u8], frames: &[u8]) -> io::Result<Option<String>> {
    let blocks = named_blocks(state, packet, MemoryRequest::Check);
    let (Some(method), false) = (control_rows::method(packet), blocks.is_empty()) else {
        return Ok(None);
    };
    let mut due = application_data(packet)[..2].to_vec();
    let mut differs = false;
    for (block, octets) in blocks {
        let held = state.store.get(octets).unwrap_or_default();
        let value = bit_by_bit(START, held);
        differs |= value != iso::weighted(held);
        due.extend_from_slice(&block.start.to_be_bytes());
        due.extend_from_slice(&block.length.to_be_bytes());
        due.extend_from_slice(&value.to_be_bytes());
    }
    let written = hex::read(frames).unwrap_or_default();
    let mut rest = written.as_slice();
    while let Some((frame, behind)) = hexline::split_frame(rest) {
        if frame.get(13..15) == Some(&[6, 10]) && frame.get(HEADER_OCTETS..) == Some(&due) {
            return Ok(differs.then(|| control_rows::flagged(method, REPORTED)));
        }
        rest = behind;
    }
    Err(io::Error::other("a check report does not have the CRC of what the store holds"))
}

/// The kind of an accepted packet that the last W line wrote.
fn served_kind(packet: &[u8], fields: Option<&WriteFields>) -> Option<String> {
    let fields = fields.filter(|fields| write_rows::written(fields).is_some_and(|written| written == packet))?;
    Some(control_rows::flagged(fields.method, SERVED))
}

/// The kinds that one R line counts for. Where it reads what the last W line wrote, it has to print the same fields.
fn read_kinds(packet: &[u8], answer: &[u8], fields: Option<&WriteFields>) -> io::Result<Vec<String>> {
    let [read, refused_by_2, refused_by_16, read_back] = READ;
    let refused = read_refusal(answer).ok_or_else(|| io::Error::other("the answer of an R line has another form"))?;
    if !control_rows::reader_may(packet, refused) {
        return Err(io::Error::other("the answer of an R line is not that of the error control"));
    }
    let mut rows = match refused.map(|refusal| refusal.number) {
        None => vec![read],
        Some(refusal::ERROR_CONTROL) => vec![refused_by_2],
        Some(refusal::HEADER) => vec![refused_by_16],
        Some(_) => Vec::new(),
    };
    if let Some(fields) = fields.filter(|fields| write_rows::written(fields).is_some_and(|written| written == packet)) {
        if answer != write_rows::read_back(fields) {
            return Err(io::Error::other("what a W line wrote does not read back as its fields"));
        }
        rows.push(read_back);
    }
    let method = control_rows::method(packet).unwrap_or(Method::Crc);
    Ok(rows.into_iter().map(|row| read_kind(method, row)).collect())
}

fn read_kind(method: Method, row: &str) -> String {
    format!("R {}", control_rows::flagged(method, row))
}

/// The number and detail at the front of an R line's answer; of an accepted packet none.
fn read_refusal(answer: &[u8]) -> Option<Option<Refusal>> {
    let parts: Option<Vec<Vec<u8>>> = answer.split(|octet| *octet == b' ').map(hex::read).collect();
    let parts = parts?;
    let lengths: Vec<usize> = parts.iter().take(9).map(Vec::len).collect();
    match parts.as_slice() {
        [closing, detail, _, _, _, _, _, _, _, _] if lengths == [2, 2, 2, 2, 1, 1, 1, 1, 1] => match closing[..] {
            [0, 0] if detail[..] == [0, 0] => Some(None),
            [1, number] => Some(Some(Refusal { number, detail: u16::from_be_bytes([detail[0], detail[1]]) })),
            _ => None,
        },
        _ => None,
    }
}

/// The kinds that one W line counts for.
fn write_kinds(fields: &WriteFields, answer: &[u8]) -> io::Result<Vec<String>> {
    write_rows::rows(fields, answer).ok_or_else(|| io::Error::other("a W line does not print what it has to write"))
}

/// The kinds that the blocks of an accepted check count for.
fn check_kinds(state: &State, packet: &[u8]) -> Vec<String> {
    let blocks = named_blocks(state, packet, MemoryRequest::Check);
    let held = blocks.into_iter().filter(|(_, octets)| state.store.get(octets.clone()).is_some_and(holds_something));
    held.filter_map(|(block, _)| check_kind(block.length)).collect()
}

/// Whether octets are not zero at both ends and in the middle.
fn holds_something(octets: &[u8]) -> bool {
    [octets.first(), octets.get(octets.len() / 2), octets.last()]
        .iter()
        .all(|octet| octet.is_some_and(|held| *held != 0))
}

/// The kind of a checked block, if it has many words.
fn check_kind(words: u16) -> Option<String> {
    match words {
        1_024..=4_095 => Some(many_words(THOUSANDS, words % 4)),
        4_096..=32_767 => Some(many_words(MORE_THOUSANDS, words % 4)),
        32_768 => Some(CHECK_OF_ALL.into()),
        _ => None,
    }
}

fn many_words(about: &str, remainder: u16) -> String {
    format!("accepted (6,9) of {about} words, {remainder} modulo 4")
}

fn long_whole(remainder: usize) -> String {
    format!("C of more than 2,048 octets, {remainder} modulo 8")
}

/// The store holds the words of an accepted load; any other packet leaves it.
fn follow(state: &mut State, packet: &[u8]) {
    for (block, octets) in named_blocks(state, packet, MemoryRequest::Load) {
        if let Some(place) = state.store.get_mut(octets) {
            place.copy_from_slice(block.words);
        }
    }
}

/// The blocks of an accepted packet with the store octets that each names; none if it is not that request.
fn named_blocks<'a>(state: &State, packet: &'a [u8], request: MemoryRequest) -> Vec<(Block<'a>, Range<usize>)> {
    if packet.get(7..9).is_none_or(|asked| asked != [6, request.subtype()]) {
        return Vec::new();
    }
    let Ok(data) = read_memory_data(request, application_data(packet)) else {
        return Vec::new();
    };
    let area = state.profile.area_with_id(data.memory_id).copied().unwrap_or_default();
    let named = |block: Block<'a>| Some((block, area.store_octets(block.start, block.length)?));
    data.blocks.into_iter().filter_map(named).collect()
}

fn application_data(packet: &[u8]) -> &[u8] {
    packet.get(10..packet.len().saturating_sub(2)).unwrap_or(&[])
}

fn unsound_clause(state: &State) -> String {
    let octets = state.store.len();
    if !octets.is_multiple_of(2) {
        return "store odd".into();
    }
    if !store_in_order(octets) {
        return "store too long".into();
    }
    match state.profile.unsound(octets) {
        Some(clause) => clause.to_string(),
        None if state.counts.category_1 > 16_383 => "count of category 1".into(),
        None => "count of category 9".into(),
    }
}

/// The kinds that one V line counts for. Its answer has to be 01 where no clause fails, and 00 else.
fn question_kinds(state: &State, asked: &Profile, answer: &[u8]) -> io::Result<Vec<String>> {
    let failing = clauses::failing(asked, &state.profile, state.store.len());
    let about = match (answer, failing.as_slice()) {
        (b"01", []) => {
            let kinds = wider_kinds(state, asked).into_iter().map(|kind| format!("V 01 {kind}"));
            return Ok([String::from("V 01")].into_iter().chain(kinds).collect());
        }
        (b"00", [Clause::WiderUnsound(clause), Clause::NarrowerUnsound(same)]) if clause == same => both(*clause),
        (b"00", [clause]) => only(*clause),
        (b"00", [_, _, ..]) => "V 00 more than one clause".into(),
        _ => return Err(io::Error::other("the answer of a V line is not that of the clauses")),
    };
    let mut kinds = vec!["V 00".into(), about];
    if failing == [Clause::EndsEarlier] && state.profile.used_areas().iter().any(|area| cut_at_the_end(asked, area)) {
        kinds.push("V 00 only area ends earlier than 2^32".into());
    }
    Ok(kinds)
}

/// Every frame that the terminal writes is one that reads cleanly.
fn reads_cleanly(digits: &[u8]) -> io::Result<()> {
    let written = hex::read(digits).ok_or_else(|| io::Error::other("an answer's first line has another form"))?;
    let mut frames = written.as_slice();
    while let Some((frame, rest)) = hexline::split_frame(frames) {
        if !frame_causes::failing(frame).is_empty() {
            return Err(io::Error::other("a frame that was written does not read cleanly"));
        }
        frames = rest;
    }
    Ok(())
}

/// The kinds that one F line counts for. Its answer has to be the number of the first cause, or the frame's own fields.
fn frame_kinds(frame: &[u8], answer: &[u8]) -> io::Result<Vec<String>> {
    let right = match frame_causes::failing(frame).first() {
        Some(cause) => {
            let refused = format!("01{:02X} 0000 0000 000000000000 00 00 ", cause.number());
            answer == refused.as_bytes()
        }
        None => frame_of(answer).is_some_and(|read| read == frame),
    };
    if !right {
        return Err(io::Error::other("the answer of an F line is not that of the causes"));
    }
    let mut kinds = frame_rows::rows(frame);
    kinds.extend((frame.len() == LONGEST_ANNOUNCED).then(|| ANNOUNCED_FFFF.into()));
    kinds.extend((frame.len() > LONGEST_ANNOUNCED).then(|| ABOVE_ANNOUNCED.into()));
    kinds.extend(frame.is_empty().then(|| NO_OCTETS.into()));
    Ok(kinds.into_iter().map(frame_kind).collect())
}

fn frame_kind(row: String) -> String {
    format!("F {row}")
}

/// The frame whose fields an F line's answer prints.
fn frame_of(answer: &[u8]) -> Option<Vec<u8>> {
    let parts: Option<Vec<Vec<u8>>> = answer.split(|octet| *octet == b' ').map(hex::read).collect();
    let parts = parts?;
    let [closing, apid, count, time, service, subtype, source_data] = parts.as_slice() else {
        return None;
    };
    let length_field = u16::try_from(HEADER_OCTETS + source_data.len() - LENGTH_FIELD_OFFSET).ok()?;
    let right = [closing.len(), apid.len(), count.len(), time.len()] == [2, 2, 2, 6] && *closing == [0, 0];
    let packet_id = u16::from_be_bytes([*apid.first()?, *apid.last()?]) | PACKET_ID;
    let sequence = u16::from_be_bytes([*count.first()?, *count.last()?]) | SEQUENCE_FLAGS;
    let stamp = [packet_id, sequence, length_field].map(u16::to_be_bytes).concat();
    right.then(|| {
        [&stamp, time, &vec![0], service, subtype, &vec![0], source_data].into_iter().flatten().copied().collect()
    })
}

fn only(clause: Clause) -> String {
    format!("V 00 only {clause}")
}

fn both(clause: Unsound) -> String {
    format!("V 00 only both are not sound: {clause}")
}

fn address_end(area: &Area) -> u64 {
    u64::from(area.start) + u64::from(area.length)
}

/// The area ends at 2^32, and that of its memory ID in the profile asked about does not.
fn cut_at_the_end(asked: &Profile, area: &Area) -> bool {
    let wide = asked.area_with_id(area.memory_id);
    address_end(area) == ADDRESSES && wide.is_some_and(|wide| address_end(wide) < ADDRESSES)
}

/// By what a profile is wider than the one that stands, and over what.
fn wider_kinds(state: &State, wide: &Profile) -> Vec<&'static str> {
    let narrow = &state.profile;
    let areas = narrow.used_areas().iter();
    let pairs: Vec<_> = areas.filter_map(|area| wide.area_with_id(area.memory_id).map(|wide| (*wide, *area))).collect();
    let any = |holds: fn(&Area, &Area) -> bool| pairs.iter().any(|(wide, narrow)| holds(wide, narrow));
    let past =
        |profile: &Profile| profile.areas.get(profile.used_areas().len()).filter(|area| area.length > 0).copied();
    let not_in_the_wider = |area: Area| !clauses::failing_for(wide, &area).is_empty();
    let octets = state.store.len();
    let checks = [
        (wide.flags == narrow.flags && wide.used_areas() == narrow.used_areas(), "the same"),
        (wide.flags != narrow.flags, "more flags"),
        (any(|wide, narrow| wide.rights != narrow.rights), "more rights"),
        (any(|wide, narrow| wide.start < narrow.start), "area starts lower"),
        (any(|wide, narrow| address_end(wide) > address_end(narrow)), "area ends later"),
        (any(|_, narrow| address_end(narrow) == ADDRESSES), "area ends at 2^32"),
        (any(|wide, narrow| address_end(wide) == ADDRESSES && address_end(narrow) < ADDRESSES), "later, at 2^32"),
        (wide.area_count > narrow.area_count, "more areas"),
        (pairs.iter().zip(&wide.areas).any(|((pair, _), place)| pair != place), "areas at other places"),
        (narrow.area_count == 0, "no areas"),
        (past(wide).is_some(), "place past the wider's count"),
        (past(narrow).is_some_and(not_in_the_wider), "place past the narrower's count"),
        (octets == 0, "store empty"),
        (!octets.is_multiple_of(2), "store odd"),
        (octets > LONGEST_STORE, "store too long"),
        (state.counts.category_1.max(state.counts.category_9) > 16_383, "count above 16,383"),
        (state.buffer.len() < 4_096, "buffer below 4,096"),
    ];
    checks.iter().filter(|(holds, _)| *holds).map(|(_, kind)| *kind).collect()
}

fn received_kind(received: usize, detail: u16) -> &'static str {
    match (received, detail) {
        (6..=11, _) => "6 to 11 received",
        (12..=248, _) => "12 to 248 received",
        (249, 249) => "249 received",
        (250, 250) => "250 received",
        (65_535, 65_535) => "65,535 received",
        (65_536.., 65_535) => "above 65,535 received",
        _ => "251 to 65,534 received",
    }
}

fn wrong_octets(packet: &[u8], right: u16) -> &'static str {
    let received = packet.last_chunk::<2>().copied().unwrap_or_default();
    let right = right.to_be_bytes();
    match (received[0] == right[0], received[1] == right[1]) {
        (true, _) => "lower octet wrong",
        (false, true) => "upper octet wrong",
        (false, false) => "both octets wrong",
    }
}

fn data_kind(packet: &[u8]) -> &'static str {
    match (packet.get(7), application_data(packet)) {
        (Some(17), _) => "connection",
        (_, [] | [_]) => "fewer than 2 octets",
        (_, [_, 0, ..]) => "N is 0",
        (_, [_, 9..=255, ..]) => "N above 8",
        _ => "octets left over",
    }
}

/// Everything that has to be reached.
fn wanted() -> Vec<String> {
    let requests = ["(6,2)", "(6,5)", "(6,9)"];
    let mut wanted = Vec::new();
    for request in requests.iter().chain(&["(17,1)"]) {
        wanted.extend((0..16).map(|ack| format!("accepted {request} ack {ack:2}")));
    }
    for request in requests {
        for about in ["fewer than 2 octets", "N is 0", "N above 8", "octets left over"] {
            wanted.push(format!("refused  5 {request} detail 0, {about}"));
        }
        for detail in 1..=8 {
            wanted.push(format!("refused  5 {request} detail {detail}"));
            wanted.push(format!("refused 19 {request} detail {detail}"));
        }
        wanted.push(format!("refused 17 {request}"));
        wanted.push(format!("refused 18 {request}"));
        wanted.push(format!("refused  4 {request} flag off"));
    }
    wanted.push("refused  5 (17,1) detail 0, connection".into());
    wanted.extend((0..6).map(|received| format!("refused 42 {received} octets received")));
    wanted.extend((1..6).map(|detail| format!("refused 16 detail {detail}")));
    let others = [
        "bad line",
        TOO_LONG,
        BAD_OF_NONE,
        BAD_OF_ONE,
        "refused 40 ",
        "refused 41 PID",
        "refused 41 area count",
        "refused 41 same memory ID",
        "refused 41 no length",
        "refused 41 end above 32 bits",
        "refused 41 outside the store",
        "refused 41 shared word",
        "refused 41 store odd",
        "refused 41 store too long",
        "refused 41 count of category 1",
        "refused 41 count of category 9",
        "refused  1 6 to 11 received",
        "refused  1 12 to 248 received",
        "refused  1 249 received",
        "refused  1 250 received",
        "refused  1 65,535 received",
        "refused  1 above 65,535 received",
        "refused  2 lower octet wrong",
        "refused  2 upper octet wrong",
        "refused  2 both octets wrong",
        "refused  0 other PID",
        "refused  0 other category",
        "refused  3 type unknown",
        "refused  3 type 6 without a flag",
        "refused  3 type 17 without a flag",
        "refused  4 type 6 subtype unknown",
        "refused  4 type 17 subtype unknown",
    ];
    wanted.extend(others.map(String::from));
    wanted.extend(write_rows::BAD.map(String::from));
    wanted.extend(control_rows::wanted());
    wanted.extend(write_rows::wanted());
    for method in control_rows::METHODS {
        wanted.extend([REPORTED, SERVED].map(|row| control_rows::flagged(method, row)));
        wanted.extend(READ.map(|row| read_kind(method, row)));
    }
    wanted.extend(clauses::ALONE.map(only));
    wanted.extend(clauses::BOTH.map(both));
    wanted.push("V 00 more than one clause".into());
    wanted.push("V 00 only area ends earlier than 2^32".into());
    let wider = [
        "the same",
        "more flags",
        "more rights",
        "area starts lower",
        "area ends later",
        "area ends at 2^32",
        "later, at 2^32",
        "more areas",
        "areas at other places",
        "no areas",
        "place past the wider's count",
        "place past the narrower's count",
        "store empty",
        "store odd",
        "store too long",
        "count above 16,383",
        "buffer below 4,096",
    ];
    wanted.extend(wider.map(|kind| format!("V 01 {kind}")));
    wanted.extend(frame_rows::wanted().into_iter().map(frame_kind));
    wanted.extend([NO_OCTETS, ANNOUNCED_FFFF, ABOVE_ANNOUNCED].map(|row| frame_kind(row.into())));
    wanted.extend([FROM_START, FROM_ZERO, FROM_ANOTHER, PART_OF_NONE, PART_OF_ONE].map(String::from));
    wanted.extend([IN_ONE, LONGEST_IN_ONE, STORE_IN_PARTS, IMAGE_IN_PARTS].map(String::from));
    wanted.extend([EMPTY_FIRST, EMPTY_BETWEEN, EMPTY_LAST, ALL_EMPTY].map(String::from));
    for about in [THOUSANDS, MORE_THOUSANDS] {
        wanted.extend((0..4).map(|remainder| many_words(about, remainder)));
    }
    wanted.push(CHECK_OF_ALL.into());
    wanted.extend((0..8).map(long_whole));
    wanted
}
