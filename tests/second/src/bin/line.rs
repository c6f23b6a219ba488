//! The line program: packets in hexadecimal lines in, frames and verdicts out.

use std::process::ExitCode;

fn main() -> ExitCode {
    second::program::run(second::hexline::run)
}
