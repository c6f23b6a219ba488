//! Runs `explain` as a process and holds what it gives to what is expected. Where EXPLAIN_COMMAND names another
//! program, one word a line, it is held to the same.

use std::ffi::OsStr;
use std::process::Command;

use super::packing::{start_command, Packed, Running, TestFile};

/// The program under test.
pub fn command() -> Command {
    super::command("EXPLAIN_COMMAND").unwrap_or_else(|| Command::new(env!("CARGO_BIN_EXE_explain")))
}

/// Starts `explain` with these arguments.
pub fn start(arguments: &[&OsStr]) -> Running {
    start_command(command(), arguments)
}

/// Runs `explain` with these arguments on this input.
pub fn run(arguments: &[&OsStr], input: &[u8]) -> Packed {
    let mut running = start(arguments);
    running.send([input]);
    running.close_and_wait()
}

/// Runs `explain` without a unit; the packets are standard input.
pub fn explain(packets: impl AsRef<[u8]>) -> Packed {
    run(&[], packets.as_ref())
}

/// Runs `explain` with a unit file; the packets are standard input.
pub fn explain_for(unit: impl AsRef<[u8]>, packets: impl AsRef<[u8]>) -> Packed {
    run(&["--unit".as_ref(), TestFile::new(unit).as_ref()], packets.as_ref())
}

impl Packed {
    /// All went well: these are the answers, a line each.
    #[track_caller]
    pub fn answers<T: AsRef<str>>(&self, answers: &[T]) {
        let answers: String = answers.iter().map(|answer| format!("{}\n", answer.as_ref())).collect();
        self.is(&answers, "", 0);
    }

    /// All went well: the answer of each row's line is that of the row.
    #[track_caller]
    pub fn answers_rows(&self, rows: &[(String, String)]) {
        let out = String::from_utf8_lossy(&self.out);
        let answers: Vec<_> = out.split_terminator('\n').collect();
        for ((line, expected), answer) in rows.iter().zip(&answers) {
            assert_eq!(answer, expected, "{line}");
        }
        // No line too many or too few, and the last with its newline.
        let all: Vec<_> = rows.iter().map(|(_, expected)| expected).collect();
        self.answers(&all);
    }
}

/// Lines of packets with the answers that are expected for them.
#[derive(Default)]
pub struct Rows {
    rows: Vec<(String, String)>,
}

impl Rows {
    /// None yet.
    pub fn new() -> Rows {
        Rows::default()
    }

    /// One more line.
    pub fn add(&mut self, line: impl Into<String>, answer: impl Into<String>) -> &mut Rows {
        self.rows.push((line.into(), answer.into()));
        self
    }

    /// The text of all lines.
    pub fn text(&self) -> String {
        self.rows.iter().map(|(line, _)| format!("{line}\n")).collect()
    }

    /// Without a unit each line has its answer; one run for all of them.
    #[track_caller]
    pub fn hold(&self) {
        explain(self.text()).answers_rows(&self.rows);
    }

    /// With a unit each line has its answer.
    #[track_caller]
    pub fn hold_for(&self, unit: impl AsRef<[u8]>) {
        explain_for(unit, self.text()).answers_rows(&self.rows);
    }
}
