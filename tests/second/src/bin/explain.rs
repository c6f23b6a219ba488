//! `explain [--unit UNIT] [FILE]` says of each packet line by which check the packet is refused, and which octets the
//! check is about.

use std::env;
use std::ffi::OsString;
use std::io::{self, Read};
use std::process::ExitCode;

use second::explain;
use second::program::{self, Input};

/// How the program is called.
const USAGE: &str = "usage: explain [--unit UNIT] [FILE]";

fn main() -> ExitCode {
    let arguments: Vec<OsString> = env::args_os().skip(1).collect();
    let (mut unit, mut packets) = match Input::perhaps_unit_and(&arguments, "packets", USAGE) {
        Ok(files) => files,
        Err(message) => return program::fail(&format!("explain: {message}")),
    };
    let mut output = io::stdout().lock();
    match explain::run_for(unit.as_mut().map(|unit| unit as &mut dyn Read), &mut packets, &mut output) {
        Ok(end) => program::say_end(end.last_line(), end.words(), &mut output),
        Err(error) => program::finish(Err(error)),
    }
}
