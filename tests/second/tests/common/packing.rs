//! Runs `pack` as a process and holds what it gives to what is expected. Where PACK_COMMAND names another
//! program, one word a line, it is held to the same.

use std::ffi::OsStr;
use std::fs;
use std::io::{Read, Write};
use std::path::{Path, PathBuf};
use std::process::{self, Child, Command, Stdio};
use std::sync::atomic::{AtomicUsize, Ordering};
use std::thread::{self, JoinHandle};
use std::time::{Duration, Instant};

/// A program that goes on for longer hangs.
const PATIENCE: Duration = Duration::from_secs(60);

/// Document 01's first packet, and its record.
pub const GOOD: &str = "185CC0000005191101000167";
pub const GOOD_RECORD: &str = "185CC0000005191101000167
0851C000000D00000000000000010100185CC000
0859C000000900000000000000110200
0851C001000D00000000000000010700185CC000

";

/// The unit of document 01's line program.
pub const EXAMPLE: &str = "# The unit of document 01's line program
pid 5
services load dump check connection
store 128
area 1 start 0x1000 words 64 at 0 load dump check
";

/// A file of one test, removed at its end.
pub struct TestFile {
    path: PathBuf,
}

impl TestFile {
    /// Writes a file that no other test has.
    pub fn new(octets: impl AsRef<[u8]>) -> TestFile {
        static NEXT: AtomicUsize = AtomicUsize::new(0);
        let name = format!("pack-{}-{}", process::id(), NEXT.fetch_add(1, Ordering::Relaxed));
        let path = Path::new(env!("CARGO_TARGET_TMPDIR")).join(name);
        fs::write(&path, octets).expect("the file can be written");
        TestFile { path }
    }
}

impl AsRef<OsStr> for TestFile {
    fn as_ref(&self) -> &OsStr {
        self.path.as_os_str()
    }
}

impl Drop for TestFile {
    fn drop(&mut self) {
        // One that stays behind disturbs nobody.
        let _ = fs::remove_file(&self.path);
    }
}

/// The program under test.
pub fn command() -> Command {
    super::command("PACK_COMMAND").unwrap_or_else(|| Command::new(env!("CARGO_BIN_EXE_pack")))
}

/// What a run of a program gave.
#[derive(Debug)]
pub struct Packed {
    pub out: Vec<u8>,
    pub said: Vec<u8>,
    pub status: Option<i32>,
}

/// A run that is under way; its input is open.
pub struct Running {
    child: Child,
    out: JoinHandle<Vec<u8>>,
    said: JoinHandle<Vec<u8>>,
}

/// Starts `pack` with these arguments.
pub fn start(arguments: &[&OsStr]) -> Running {
    start_command(command(), arguments)
}

/// Starts a command with these arguments behind its own.
pub fn start_command(mut command: Command, arguments: &[&OsStr]) -> Running {
    let mut child = command
        .args(arguments)
        .stdin(Stdio::piped())
        .stdout(Stdio::piped())
        .stderr(Stdio::piped())
        .spawn()
        .expect("the program starts");
    let out = all_of(child.stdout.take().expect("its output"));
    let said = all_of(child.stderr.take().expect("its standard error"));
    Running { child, out, said }
}

/// Reads a stream to its end, meanwhile.
fn all_of(mut stream: impl Read + Send + 'static) -> JoinHandle<Vec<u8>> {
    thread::spawn(move || {
        let mut octets = Vec::new();
        stream.read_to_end(&mut octets).expect("it can be read");
        octets
    })
}

impl Running {
    /// Sends the pieces one after another; a program that has ended need not take them.
    pub fn send<'a>(&mut self, pieces: impl IntoIterator<Item = &'a [u8]>) {
        let input = self.child.stdin.as_mut().expect("its input is open");
        for piece in pieces {
            if input.write_all(piece).and_then(|()| input.flush()).is_err() {
                break;
            }
        }
    }

    /// Waits for the end; the input stays open.
    pub fn wait(mut self) -> Packed {
        let input = self.child.stdin.take();
        let status = end_of(&mut self.child);
        drop(input);
        let out = self.out.join().expect("its output");
        let said = self.said.join().expect("its standard error");
        Packed { out, said, status }
    }

    /// Closes the input, and waits for the end.
    pub fn close_and_wait(mut self) -> Packed {
        drop(self.child.stdin.take());
        self.wait()
    }
}

/// The status with which a program ends.
pub fn end_of(child: &mut Child) -> Option<i32> {
    let begun = Instant::now();
    loop {
        if let Some(status) = child.try_wait().expect("its state") {
            return status.code();
        }
        if begun.elapsed() > PATIENCE {
            child.kill().expect("it is there");
            panic!("it does not end");
        }
        thread::sleep(Duration::from_millis(1));
    }
}

/// Runs `pack` with these arguments on this input.
pub fn run(arguments: &[&OsStr], input: &[u8]) -> Packed {
    let mut running = start(arguments);
    running.send([input]);
    running.close_and_wait()
}

/// Runs `pack` with a unit file; the packets are standard input.
pub fn pack(unit: impl AsRef<[u8]>, packets: impl AsRef<[u8]>) -> Packed {
    run(&[TestFile::new(unit).as_ref()], packets.as_ref())
}

impl Packed {
    /// All went well, and this is the record.
    #[track_caller]
    pub fn is_record(&self, record: &str) {
        self.is(record, "", 0);
    }

    /// The unit file is bad at that line.
    #[track_caller]
    pub fn is_bad_unit(&self, line: u64, words: &str) {
        self.is(&format!("unit {line}: {words}\n"), "", 2);
    }

    /// The unit is not sound.
    #[track_caller]
    pub fn is_unsound(&self, words: &str) {
        self.is("refused 41\n", &format!("{words}\n"), 2);
    }

    /// After this record comes a line that is no packet.
    #[track_caller]
    pub fn is_bad_packet(&self, record: &str, line: u64, words: &str) {
        self.is(&format!("{record}refused 70 {line}\n"), &format!("{words}\n"), 2);
    }

    /// The program was used wrongly: it says something, and prints nothing.
    #[track_caller]
    pub fn is_wrong_use(&self) {
        assert_eq!(String::from_utf8_lossy(&self.out), "");
        assert!(!self.said.is_empty(), "it says nothing");
        assert_eq!(self.status, Some(2));
    }

    /// Standard output, standard error and the status are exactly these.
    #[track_caller]
    pub fn is(&self, out: &str, said: &str, status: i32) {
        assert_eq!(String::from_utf8_lossy(&self.out), out);
        assert_eq!(String::from_utf8_lossy(&self.said), said);
        assert_eq!(self.status, Some(status));
    }
}

/// A line of hexadecimal digits.
pub fn line(octets: &[u8]) -> String {
    octets.iter().map(|octet| format!("{octet:02X}")).collect::<String>() + "\n"
}

/// The line of a packet for PID 5 without acks, with count 0.
pub fn packet(service: u8, subtype: u8, data: &str) -> String {
    line(&super::request(0, service, subtype, data))
}

/// The line of the report (1,2) of PID 5 for such a packet.
pub fn refused(count: u16, code: u16, detail: u16) -> String {
    format!("0851{:04X}001100000000000000010200185CC000{code:04X}{detail:04X}\n", 0xC000 + count)
}

/// The line of the report (6,6) of PID 5 with these words, in hexadecimal.
pub fn dumped(count: u16, memory: u8, start: u32, words: &str) -> String {
    let octets = words.len() / 2;
    let head = format!("0859{:04X}{:04X}00000000000000060600", 0xC000 + count, 16 + 8 + octets - 7);
    format!("{head}{memory:02X}01{start:08X}{:04X}{words}\n", octets / 2)
}
