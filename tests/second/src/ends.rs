//! What the tallies of `pack`, `judge` and `explain` share: which ends were wanted, how often each was reached, and the
//! words that these programs say.

use std::collections::BTreeMap;
use std::fs;
use std::io::{self, Write};
use std::path::{Path, PathBuf};
use std::process::ExitCode;

/// The clauses of soundness as they are said, with N for each number.
pub const CLAUSES: [&str; 7] = [
    "the store has an odd number of octets",
    "the PID is above N",
    "area N has no words",
    "area N ends above address FFFFFFFF",
    "area N ends past the store",
    "areas N and N have the same memory ID",
    "areas N and N share octet N",
];
/// Why a line is bad.
pub const BAD_LINES: [&str; 3] = ["too long", "character K is XX", "odd digits"];

/// How often each kind was reached, of those that are wanted.
pub struct Tally {
    kinds: BTreeMap<String, u64>,
}

impl Tally {
    /// None is reached yet.
    pub fn of(wanted: Vec<String>) -> Tally {
        Tally { kinds: wanted.into_iter().map(|kind| (kind, 0)).collect() }
    }

    /// Counts one more of the kind, if there is such a kind.
    pub fn add(&mut self, kind: &str) -> Option<()> {
        *self.kinds.get_mut(kind)? += 1;
        Some(())
    }

    /// Prints the counts below the headline, and what was never reached.
    pub fn report(&self, headline: &str) -> ExitCode {
        let (reached, missing): (Vec<_>, Vec<_>) = self.kinds.iter().partition(|(_, times)| **times > 0);
        let mut text = format!("{headline}\n");
        for (kind, times) in &reached {
            text.push_str(&format!("{times:9}  {kind}\n"));
        }
        for (kind, _) in &missing {
            text.push_str(&format!("NEVER REACHED: {kind}\n"));
        }
        text.push_str(&format!("{} of {} wanted kinds reached\n", reached.len(), self.kinds.len()));
        match io::stdout().write_all(text.as_bytes()) {
            Ok(()) if missing.is_empty() => ExitCode::SUCCESS,
            _ => ExitCode::FAILURE,
        }
    }
}

/// The answers of a folder, NNNN.theirs, in order.
pub fn answers(folder: &Path) -> io::Result<Vec<PathBuf>> {
    let mut paths = Vec::new();
    for entry in fs::read_dir(folder)? {
        paths.push(entry?.path());
    }
    paths.retain(|path| path.extension().is_some_and(|extension| extension == "theirs"));
    paths.sort();
    Ok(paths)
}

/// The octets of a file, which is named where it cannot be read.
pub fn octets(path: &Path) -> io::Result<Vec<u8>> {
    fs::read(path).map_err(|error| io::Error::new(error.kind(), format!("{}: {error}", path.display())))
}

/// The text of a file, which is named where it cannot be read.
pub fn text(path: &Path) -> io::Result<String> {
    fs::read_to_string(path).map_err(|error| io::Error::new(error.kind(), format!("{}: {error}", path.display())))
}

/// An answer that is none of the program's.
pub fn other_form(path: &Path) -> io::Error {
    io::Error::other(format!("{}: it has another form", path.display()))
}

/// A unit that is not sound, with N for each number of the words.
pub fn unsound(words: &str) -> String {
    let number = |word: &str| word.bytes().all(|digit| digit.is_ascii_digit());
    let words: Vec<_> = words.split(' ').map(|word| if number(word) { "N" } else { word }).collect();
    format!("refused 41: {}", words.join(" "))
}

/// A bad line; which character of it is bad, and where, does not matter.
pub fn bad_line(words: &str) -> String {
    let words = if words.starts_with("character ") { BAD_LINES[1] } else { words };
    format!("refused 70: {words}")
}
