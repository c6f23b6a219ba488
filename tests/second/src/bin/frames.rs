//! The program `frames`: TM frames in hexadecimal lines in, what they are in words out.

use std::process::ExitCode;

fn main() -> ExitCode {
    second::program::run(second::frames::run)
}
