//! The program `cases`: the terminal, reader and writer driven by command lines.

use std::process::ExitCode;

fn main() -> ExitCode {
    second::program::run(second::cases::run)
}
