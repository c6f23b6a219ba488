//! `packtally FOLDER` reads what `pack` gave for each pair of files of a folder, NNNN.theirs and on standard error
//! NNNN.said, and counts how often each end and each kind of frame was reached. It ends with 1 if one never was.

use std::env;
use std::io;
use std::path::Path;
use std::process::ExitCode;

use second::ends::{self, Tally};
use second::program;
use second::unit_fault::Fault;

/// The frames of a record but for (1,2).
const FRAMES: [&str; 5] = ["(1,1)", "(1,7)", "(6,6)", "(6,10)", "(17,2)"];
/// The codes of (1,2).
const CODES: [u32; 10] = [0, 1, 2, 3, 4, 5, 16, 17, 18, 19];

/// What was reached, and over how much.
struct Counted {
    tally: Tally,
    files: u64,
    packets: u64,
}

fn main() -> ExitCode {
    let arguments: Vec<_> = env::args_os().skip(1).collect();
    let [folder] = arguments.as_slice() else {
        return program::fail("usage: packtally FOLDER");
    };
    match count(Path::new(folder)) {
        Ok(counted) => {
            let headline = format!("{} unit files, {} packets", counted.files, counted.packets);
            counted.tally.report(&headline)
        }
        Err(error) => program::fail(&error.to_string()),
    }
}

/// Counts every answer of the folder.
fn count(folder: &Path) -> io::Result<Counted> {
    let mut counted = Counted { tally: Tally::of(wanted()), files: 0, packets: 0 };
    for path in ends::answers(folder)? {
        let said = path.with_extension("said");
        counted.files += 1;
        take(&mut counted, &ends::text(&path)?, &ends::text(&said)?).ok_or_else(|| ends::other_form(&path))?;
    }
    Ok(counted)
}

/// Counts one answer; nothing where it has another form than that of `pack`.
fn take(counted: &mut Counted, out: &str, said: &str) -> Option<()> {
    let (record, last) = split_last_line(out);
    let said = said.strip_suffix('\n').unwrap_or(said);
    let end = if let Some(words) = last.strip_prefix("unit ") {
        let (_, words) = words.split_once(": ")?;
        (record.is_empty() && said.is_empty()).then(|| bad_unit(words))?
    } else if last == "refused 41" {
        record.is_empty().then(|| ends::unsound(said))?
    } else if last.starts_with("refused 70 ") {
        ends::bad_line(said)
    } else {
        (last.is_empty() && said.is_empty()).then(|| clean(record))?
    };
    counted.tally.add(&end)?;
    for group in record.split_terminator("\n\n") {
        counted.packets += 1;
        for frame in group.lines().skip(1) {
            counted.tally.add(&frame_kind(frame)?)?;
        }
    }
    Some(())
}

/// The last line if it is a verdict, and what comes before it.
fn split_last_line(out: &str) -> (&str, &str) {
    let lines = out.strip_suffix('\n').unwrap_or(out);
    let begin = lines.rfind('\n').map_or(0, |newline| newline + 1);
    match &lines[begin..] {
        last if last.starts_with("unit ") || last.starts_with("refused ") => (&out[..begin], last),
        _ => (out, ""),
    }
}

/// Type and subtype of a frame, and the code of (1,2).
fn frame_kind(frame: &str) -> Option<String> {
    let field = |from: usize, to: usize| u32::from_str_radix(frame.get(from..to)?, 16).ok();
    Some(match (field(26, 28)?, field(28, 30)?) {
        (1, 2) => refusal(field(40, 44)?),
        (service, subtype) => format!("frame ({service},{subtype})"),
    })
}

/// A bad unit file.
fn bad_unit(words: &str) -> String {
    format!("unit: {words}")
}

/// The report of a refusal.
fn refusal(code: u32) -> String {
    format!("frame (1,2) code {code:2}")
}

/// A clean end.
fn clean(record: &str) -> String {
    if record.is_empty() {
        "clean, no packet".into()
    } else {
        "clean".into()
    }
}

/// Everything that has to be reached: each row of the tables of docs/UNITS.md, and each kind of frame.
fn wanted() -> Vec<String> {
    let mut wanted: Vec<_> = Fault::ALL.iter().map(|fault| bad_unit(&fault.to_string())).collect();
    wanted.extend(ends::CLAUSES.map(ends::unsound));
    wanted.extend(ends::BAD_LINES.map(ends::bad_line));
    wanted.extend(["clean", "clean, no packet"].map(String::from));
    wanted.extend(FRAMES.map(|frame| format!("frame {frame}")));
    wanted.extend(CODES.map(refusal));
    wanted
}
