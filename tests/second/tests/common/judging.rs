//! Runs `judge` as a process and holds what it gives to what is expected. Where JUDGE_COMMAND names another
//! program, one word a line, it is held to the same.

use std::ffi::OsStr;
use std::process::Command;

use super::packing::{start_command, Packed, Running, TestFile};

/// The program under test.
pub fn command() -> Command {
    super::command("JUDGE_COMMAND").unwrap_or_else(|| Command::new(env!("CARGO_BIN_EXE_judge")))
}

/// Starts `judge` with these arguments.
pub fn start(arguments: &[&OsStr]) -> Running {
    start_command(command(), arguments)
}

/// Runs `judge` with these arguments on this input.
pub fn run(arguments: &[&OsStr], input: &[u8]) -> Packed {
    let mut running = start(arguments);
    running.send([input]);
    running.close_and_wait()
}

/// Runs `judge` with a unit file; the record is standard input.
pub fn judge(unit: impl AsRef<[u8]>, record: impl AsRef<[u8]>) -> Packed {
    run(&[TestFile::new(unit).as_ref()], record.as_ref())
}

/// What `judge` says; all of it is on standard output.
pub trait Judged {
    /// So many packets with so many frames conform.
    fn conforms(&self, packets: u64, frames: u64);
    /// That line differs; these are the lines behind it.
    fn differs(&self, line: u64, told: &str);
    /// That line is bad.
    fn is_70(&self, line: u64, words: &str);
    /// There is no TC.
    fn is_71(&self);
    /// The unit is not sound.
    fn is_41(&self, words: &str);
}

impl Judged for Packed {
    #[track_caller]
    fn conforms(&self, packets: u64, frames: u64) {
        self.is(&format!("conforming\npackets {packets} frames {frames}\n"), "", 0);
    }

    #[track_caller]
    fn differs(&self, line: u64, told: &str) {
        self.is(&format!("differs {line}\n{told}"), "", 1);
    }

    #[track_caller]
    fn is_70(&self, line: u64, words: &str) {
        self.is(&format!("refused 70 {line}\n{words}\n"), "", 2);
    }

    #[track_caller]
    fn is_71(&self) {
        self.is("refused 71\n", "", 2);
    }

    #[track_caller]
    fn is_41(&self, words: &str) {
        self.is(&format!("refused 41\n{words}\n"), "", 2);
    }
}
