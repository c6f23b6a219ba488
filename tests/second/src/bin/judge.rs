//! `judge UNIT [RECORD]` says whether a unit's record is what the reference gives, or the first line that differs.

use std::env;
use std::ffi::OsString;
use std::io::{self, ErrorKind, Write};
use std::process::ExitCode;

use second::judge::{self, Verdict};
use second::program::{self, Input};

/// How the program is called.
const USAGE: &str = "usage: judge UNIT [RECORD]";

fn main() -> ExitCode {
    let arguments: Vec<OsString> = env::args_os().skip(1).collect();
    let (mut unit, mut record) = match Input::unit_and(&arguments, "record", USAGE) {
        Ok(files) => files,
        Err(message) => return program::fail(&format!("judge: {message}")),
    };
    match judge::run(&mut unit, &mut record) {
        Ok(verdict) => say(&verdict),
        Err(error) => program::finish(Err(error)),
    }
}

/// Prints the verdict, which keeps its status where nobody reads any more.
fn say(verdict: &Verdict) -> ExitCode {
    let mut output = io::stdout().lock();
    match write!(output, "{verdict}").and_then(|()| output.flush()) {
        Err(error) if error.kind() != ErrorKind::BrokenPipe => program::fail(&error.to_string()),
        _ => ExitCode::from(verdict.status()),
    }
}
