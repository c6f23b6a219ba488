//! `race same ROUNDS INPUT NAME NAME COMMAND.. -- COMMAND..` runs two commands in turn on the same
//! input and prints the median time of each and their ratio. What they write has to be the same;
//! with `beside` in place of `same` it need not be. `race apart ROUNDS INPUT INPUT NAME NAME ..` gives
//! each command an input of its own.
//! `race peak OCTETS COMMAND..` feeds a command that many digits without a newline and prints the
//! most memory it had. `race fed FILE TIMES COMMAND..` feeds it what is in the file that many times over.

use std::env;
use std::fs::{self, File};
use std::io::{self, BufRead, BufReader, ErrorKind, Read, Write};
use std::process::{Child, Command, ExitCode, Stdio};
use std::thread;
use std::time::{Duration, Instant};

use second::program;

const USAGE: &str = "usage: race same|beside ROUNDS INPUT NAME NAME COMMAND.. -- COMMAND..
       race apart ROUNDS INPUT INPUT NAME NAME COMMAND.. -- COMMAND..
       race peak OCTETS COMMAND..
       race fed FILE TIMES COMMAND..";

/// A command, what it is called where its time is printed, and its input.
struct Runner<'a> {
    name: &'a str,
    words: &'a [String],
    input: &'a str,
}

fn main() -> ExitCode {
    let arguments: Vec<String> = env::args().skip(1).collect();
    match run(&arguments) {
        Some(Ok(())) => ExitCode::SUCCESS,
        Some(Err(error)) => program::fail(&error.to_string()),
        None => program::fail(USAGE),
    }
}

/// What the arguments ask for, or nothing where they ask for nothing that there is.
fn run(arguments: &[String]) -> Option<io::Result<()>> {
    match arguments {
        [first, octets, command @ ..] if first == "peak" && !command.is_empty() => {
            Some(peak(octets.parse().ok()?, command))
        }
        [first, file, times, command @ ..] if first == "fed" && !command.is_empty() => {
            Some(fed(file, times.parse().ok()?, command))
        }
        [how, rounds, one, other, first, second, commands @ ..] if how == "apart" => {
            start(false, rounds, [one, other], [first, second], commands)
        }
        [how, rounds, input, first, second, commands @ ..] => {
            let same = match how.as_str() {
                "same" => true,
                "beside" => false,
                _ => return None,
            };
            start(same, rounds, [input, input], [first, second], commands)
        }
        _ => None,
    }
}

/// Races the two commands that stand before and behind `--`.
fn start(same: bool, rounds: &str, inputs: [&str; 2], names: [&str; 2], commands: &[String]) -> Option<io::Result<()>> {
    let rounds = rounds.parse().ok().filter(|&rounds| rounds > 0)?;
    let between = commands.iter().position(|word| word == "--")?;
    let [first, second] = [&commands[..between], &commands[between + 1..]];
    if first.is_empty() || second.is_empty() {
        return None;
    }
    let runners = [
        Runner { name: names[0], words: first, input: inputs[0] },
        Runner { name: names[1], words: second, input: inputs[1] },
    ];
    Some(race(same, rounds, &runners))
}

fn race(same: bool, rounds: usize, runners: &[Runner; 2]) -> io::Result<()> {
    // The first run of each warms up, and shows that both work, and do the same where they are to.
    let [first, second] = [output(&runners[0])?, output(&runners[1])?];
    if same && first != second {
        return Err(io::Error::other("the two commands do not write the same"));
    }
    let mut times = [Vec::new(), Vec::new()];
    for round in 0..rounds {
        // Neither always goes first.
        for turn in [round % 2, 1 - round % 2] {
            times[turn].push(time(&runners[turn])?);
        }
    }
    let times = times.map(sorted);
    for (runner, times) in runners.iter().zip(&times) {
        println!("  {:<21}  {}", runner.name, shown(times));
    }
    println!("  ratio of the medians   {:.2}", median(&times[0]) / median(&times[1]));
    Ok(())
}

fn command(runner: &Runner) -> io::Result<Command> {
    let mut command = Command::new(&runner.words[0]);
    command.args(&runner.words[1..]).stdin(File::open(runner.input)?);
    Ok(command)
}

fn output(runner: &Runner) -> io::Result<Vec<u8>> {
    let done = command(runner)?.stderr(Stdio::inherit()).output()?;
    if !done.status.success() {
        return Err(io::Error::other(format!("{}: {}", runner.words.join(" "), done.status)));
    }
    Ok(done.stdout)
}

fn time(runner: &Runner) -> io::Result<f64> {
    let mut command = command(runner)?;
    command.stdout(Stdio::null());
    let start = Instant::now();
    let status = command.status()?;
    let took = start.elapsed().as_secs_f64();
    if !status.success() {
        return Err(io::Error::other(format!("{}: {status}", runner.words.join(" "))));
    }
    Ok(took)
}

fn sorted(mut times: Vec<f64>) -> Vec<f64> {
    times.sort_by(f64::total_cmp);
    times
}

fn median(sorted: &[f64]) -> f64 {
    let middle = sorted.len() / 2;
    if sorted.len() % 2 == 1 {
        sorted[middle]
    } else {
        (sorted[middle - 1] + sorted[middle]) / 2.0
    }
}

fn shown(sorted: &[f64]) -> String {
    format!("median {:.3} s, {:.3} to {:.3} s", median(sorted), sorted[0], sorted[sorted.len() - 1])
}

/// The high water mark is read while the command waits for more input: after that it only ends.
fn peak(octets: usize, words: &[String]) -> io::Result<()> {
    let mut child = Command::new(&words[0]).args(&words[1..]).stdin(Stdio::piped()).stdout(Stdio::piped()).spawn()?;
    let mut input = child.stdin.take().expect("it is piped");
    let part = [b'0'; 65_536];
    let mut left = octets;
    while left > 0 {
        let count = left.min(part.len());
        input.write_all(&part[..count])?;
        left -= count;
    }
    let most = most_memory(&child)?;
    drop(input);
    let done = child.wait_with_output()?;
    println!(
        "  {octets} digits without a newline: {most}, answer {}",
        String::from_utf8_lossy(&done.stdout).trim_end()
    );
    Ok(())
}

/// The same for a whole input; a command that has its answer earlier need not read it all.
fn fed(file: &str, times: usize, words: &[String]) -> io::Result<()> {
    let part = fs::read(file)?;
    let mut child = Command::new(&words[0]).args(&words[1..]).stdin(Stdio::piped()).stdout(Stdio::piped()).spawn()?;
    let mut input = child.stdin.take().expect("it is piped");
    let output = child.stdout.take().expect("it is piped");
    let answer = thread::spawn(move || first_line(output));
    let mut octets = 0;
    for _ in 0..times {
        match input.write_all(&part) {
            Err(error) if error.kind() == ErrorKind::BrokenPipe => break,
            result => result?,
        }
        octets += part.len();
    }
    let most = most_memory(&child)?;
    drop(input);
    child.wait()?;
    let line = answer.join().expect("the reader ends")?;
    println!("  {octets} octets: {most}, answer {line}");
    Ok(())
}

/// The first line of a stream, which is read to its end.
fn first_line(stream: impl Read) -> io::Result<String> {
    let mut stream = BufReader::new(stream);
    let mut line = String::new();
    stream.read_line(&mut line)?;
    io::copy(&mut stream, &mut io::sink())?;
    Ok(line.trim_end().into())
}

/// The most memory that a command had until now.
fn most_memory(child: &Child) -> io::Result<String> {
    // What is still in the pipe is read meanwhile.
    thread::sleep(Duration::from_millis(500));
    let status = fs::read_to_string(format!("/proc/{}/status", child.id()))?;
    let most = status.lines().find_map(|line| line.strip_prefix("VmHWM:")).unwrap_or("unknown");
    Ok(most.trim().into())
}
