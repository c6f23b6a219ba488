//! What the programs share: input from standard input or the one file named, output to
//! standard output, and a quiet end when the output is closed.

use std::env;
use std::ffi::{OsStr, OsString};
use std::fs::File;
use std::io::{self, ErrorKind, Read, Write};
use std::path::PathBuf;
use std::process::ExitCode;

/// Stands for standard input where a file is named.
pub const STANDARD_INPUT: &str = "-";
/// Names a unit file where one may be left out.
const UNIT_OPTION: &str = "--unit";

/// A file or standard input, which says its name where it cannot be read.
pub struct Input {
    name: String,
    stream: Box<dyn Read>,
}

impl Input {
    /// Opens the file of that name; a directory is no file.
    pub fn open(path: &OsStr) -> Result<Input, String> {
        if path == STANDARD_INPUT {
            return Ok(Input { name: "standard input".into(), stream: Box::new(io::stdin().lock()) });
        }
        let name = path.to_string_lossy().into_owned();
        let opened = File::open(path).and_then(|file| Ok((file.metadata()?.is_dir(), file)));
        match opened {
            Ok((false, file)) => Ok(Input { name, stream: Box::new(file) }),
            Ok((true, _)) => Err(format!("{name}: it is a directory")),
            Err(error) => Err(format!("{name}: {error}")),
        }
    }

    /// A unit file and a file for it, both opened before anything is read; the second is standard input where it is
    /// left out.
    pub fn unit_and(arguments: &[OsString], second: &str, usage: &str) -> Result<(Input, Input), String> {
        if let Some(option) = arguments.iter().find(|argument| is_option(argument)) {
            return Err(format!("unknown option {}; {usage}", option.to_string_lossy()));
        }
        let standard = OsString::from(STANDARD_INPUT);
        let (unit, file) = match arguments {
            [unit] => (unit, &standard),
            [unit, file] => (unit, file),
            _ => return Err(usage.into()),
        };
        if *unit == standard && *file == standard {
            return Err(format!("standard input cannot be both the unit and the {second}; {usage}"));
        }
        Ok((Input::open(unit)?, Input::open(file)?))
    }

    /// The unit file that the option `--unit` names, where it is given, and a file behind it, which is standard input
    /// where it is left out; both are opened before anything is read.
    pub fn perhaps_unit_and(
        arguments: &[OsString],
        second: &str,
        usage: &str,
    ) -> Result<(Option<Input>, Input), String> {
        let (unit, files) = match arguments {
            [option] if option == UNIT_OPTION => return Err(format!("{UNIT_OPTION} names a unit file; {usage}")),
            [option, unit, files @ ..] if option == UNIT_OPTION => (Some(unit), files),
            files => (None, files),
        };
        if let Some(option) = unit.into_iter().chain(files).find(|argument| is_option(argument)) {
            let what = if option == UNIT_OPTION { "option out of its place" } else { "unknown option" };
            return Err(format!("{what} {}; {usage}", option.to_string_lossy()));
        }
        let standard = OsString::from(STANDARD_INPUT);
        let file = match files {
            [] => &standard,
            [file] => file,
            _ => return Err(usage.into()),
        };
        if unit == Some(&standard) && *file == standard {
            return Err(format!("standard input cannot be both the unit and the {second}; {usage}"));
        }
        Ok((unit.map(|unit| Input::open(unit)).transpose()?, Input::open(file)?))
    }
}

impl Read for Input {
    fn read(&mut self, buffer: &mut [u8]) -> io::Result<usize> {
        self.stream.read(buffer).map_err(|error| io::Error::new(error.kind(), format!("{}: {error}", self.name)))
    }
}

/// Whether an argument is written as an option.
pub fn is_option(argument: &OsStr) -> bool {
    argument != STANDARD_INPUT && argument.as_encoded_bytes().starts_with(b"-")
}

/// Runs a stream program over the input its arguments name.
pub fn run(serve: fn(&mut dyn Read, &mut dyn Write) -> io::Result<()>) -> ExitCode {
    let arguments: Vec<_> = env::args_os().skip(1).collect();
    let opened = match arguments.as_slice() {
        [] => Input::open(OsStr::new(STANDARD_INPUT)),
        [option] if is_option(option) => Err(format!("unknown option {}", option.to_string_lossy())),
        [path] => Input::open(path),
        _ => Err("give no argument or one file".into()),
    };
    match opened {
        Ok(mut input) => finish(serve(&mut input, &mut io::stdout().lock())),
        Err(message) => fail(&message),
    }
}

/// A closed output ends a program quietly; any other trouble is said.
pub fn finish(result: io::Result<()>) -> ExitCode {
    match result {
        Ok(()) => ExitCode::SUCCESS,
        Err(error) if error.kind() == ErrorKind::BrokenPipe => ExitCode::SUCCESS,
        Err(error) => fail(&error.to_string()),
    }
}

/// Says what comes last, a line on standard output and words on standard error: a verdict, which keeps its status where
/// nobody reads any more. Without a line all went well.
pub fn say_end(line: Option<String>, words: Option<String>, output: &mut dyn Write) -> ExitCode {
    let Some(line) = line else {
        return ExitCode::SUCCESS;
    };
    let written = writeln!(output, "{line}").and_then(|()| output.flush());
    if let Some(words) = words {
        fail(&words);
    }
    finish(written);
    ExitCode::from(2)
}

/// Says what is wrong on standard error.
pub fn fail(message: &str) -> ExitCode {
    // Where standard error is closed as well there is nobody left to tell.
    let _ = writeln!(io::stderr(), "{message}");
    ExitCode::from(2)
}

/// The two numbers of a generator: a seed, decimal or 0x and hexadecimal, and how many to make.
pub fn seed_and_count() -> Option<(u64, u64)> {
    let arguments: Vec<String> =
        env::args_os().skip(1).map(|argument| argument.to_string_lossy().into_owned()).collect();
    match arguments.as_slice() {
        [seed, count] => Some((number(seed)?, number(count)?)),
        _ => None,
    }
}

/// A seed, how many to make, and the folder that they go to.
pub fn seed_count_and_folder() -> Option<(u64, u64, PathBuf)> {
    let arguments: Vec<_> = env::args_os().skip(1).collect();
    match arguments.as_slice() {
        [seed, count, folder] => {
            Some((number(&seed.to_string_lossy())?, number(&count.to_string_lossy())?, folder.into()))
        }
        _ => None,
    }
}

/// A number, decimal or 0x and hexadecimal.
pub fn number(text: &str) -> Option<u64> {
    match text.strip_prefix("0x") {
        Some(digits) => u64::from_str_radix(digits, 16).ok(),
        None => text.parse().ok(),
    }
}
