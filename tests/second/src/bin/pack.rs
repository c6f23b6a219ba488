//! `pack UNIT [PACKETS]` prints the record that a faultless unit would give for the packets.

use std::env;
use std::ffi::OsString;
use std::io;
use std::process::ExitCode;

use second::pack;
use second::program::{self, Input};

/// How the program is called.
const USAGE: &str = "usage: pack UNIT [PACKETS]";

fn main() -> ExitCode {
    let arguments: Vec<OsString> = env::args_os().skip(1).collect();
    let (mut unit, mut packets) = match Input::unit_and(&arguments, "packets", USAGE) {
        Ok(files) => files,
        Err(message) => return program::fail(&format!("pack: {message}")),
    };
    let mut output = io::stdout().lock();
    match pack::run(&mut unit, &mut packets, &mut output) {
        Ok(end) => program::say_end(end.last_line(), end.words(), &mut output),
        Err(error) => program::finish(Err(error)),
    }
}
