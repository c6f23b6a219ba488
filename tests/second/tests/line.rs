//! The line program: 01's example and its special cases, over a stream and as a process. Where LINE_COMMAND
//! names another program, one word a line, it is held to the same.

mod common;

use std::fs;
use std::io::Write;
use std::path::Path;
use std::process::{Child, Command, Stdio};
use std::thread;
use std::time::{Duration, Instant};

use second::hexline;

const GOOD: &str = "185CC0000005191101000167";
const GOOD_ANSWER: &str = "0851C000000D00000000000000010100185CC000
0859C000000900000000000000110200
0851C001000D00000000000000010700185CC000
0000
";

fn run(input: impl AsRef<[u8]>) -> String {
    common::written("LINE_COMMAND", hexline::run, input.as_ref())
}

#[test]
fn the_example_of_01() {
    let expected = "0851C000000D00000000000000010100185CC000
0859C000000900000000000000110200
0851C001000D00000000000000010700185CC000
0000
0851C002001100000000000000010200185CC00000020167
0102
";
    assert_eq!(run("185CC0000005191101000167\n185CC0000005191101000168\n"), expected);
    assert_eq!(run("185CC0000005191101000167\n185CC0000005191101000168"), expected);
}

/// The report (1,2) of code 2 for a packet with this sequence control, and the closing line.
fn refused_by_2(count: u16, control: &str, detail: &str) -> String {
    format!("0851{:04X}001100000000000000010200185C{control}0002{detail}\n0102\n", 0xC000 + count)
}

/// Flag 0 selects the ISO checksum. 1AC0 is the CRC of the same octets.
#[test]
fn the_checksum_flag_selects_the_method() {
    let accepted = "0851C000000D00000000000000010100185CC000
0859C000000900000000000000110200
0851C001000D00000000000000010700185CC000
0000
";
    let refused = "0851C002001100000000000000010200185CC000000202A8\n0102\n";
    assert_eq!(run("185CC00000050911010002A8\n"), accepted);
    assert_eq!(run("185CC00000050911010002A8\n185CC0000005091101001AC0\n"), format!("{accepted}{refused}"));
    assert_eq!(run("185CC0000005091101001AC0"), refused.replace("C002", "C000"));
    // Flag 1 is as before: B1E8 is the ISO checksum of document 01's first packet.
    assert_eq!(run("185CC000000519110100B1E8"), refused_by_2(0, "C000", "0167"));
    // A packet right for one flag whose bit was inverted behind its back.
    assert_eq!(run("185CC0000005091101000167"), refused_by_2(0, "C000", "02A8"));
    assert_eq!(run("185CC00000051911010002A8"), refused_by_2(0, "C000", "0167"));
    // The right method, made for the other flag.
    assert_eq!(run("185CC000000509110100B1E8"), refused_by_2(0, "C000", "02A8"));
    assert_eq!(run("185CC0000005191101001AC0"), refused_by_2(0, "C000", "0167"));
    // One octet off, the octets exchanged.
    for wrong in ["03A8", "02A9", "01A8", "02A7", "A802", "0000", "FFFF", "00A8", "0200", "FFA8", "02FF"] {
        assert_eq!(run(format!("185CC000000509110100{wrong}")), refused_by_2(0, "C000", "02A8"), "{wrong}");
    }
}

/// A 0 is sent as FF, and 00 in its place is wrong, although both sums are 0 with it as well.
#[test]
fn ff_is_sent_for_0_and_00_is_wrong() {
    let rows: [(&str, &str, &str, &[&str]); 3] = [
        ("185CC040000509110100", "C040", "FF6A", &["006A", "FE6A", "016A", "FF6B"]),
        ("185CC0E7000509110100", "C0E7", "C2FF", &["C200", "C2FE", "C201", "C3FF"]),
        ("185CC19B00050911010E", "C19B", "FFFF", &["00FF", "FF00", "0000", "FEFF", "FFFE"]),
    ];
    for (body, control, right, wrong) in rows {
        let accepted = GOOD_ANSWER.replace("185CC000", &format!("185C{control}"));
        assert_eq!(run(format!("{body}{right}\n")), accepted, "{body}");
        for value in wrong {
            assert_eq!(run(format!("{body}{value}\n")), refused_by_2(0, control, right), "{body}{value}");
        }
    }
    // A load whose two octets are FF: it is served, and with 00 for one of them it is not.
    let load = "185CC000000F090602000101000010000001E0B6";
    let dump = "185CC000000D100605000101000010000001DB8B";
    let dumped = |word: &str| format!("0859C0000013000000000000000606000101000010000001{word}\n0000\n");
    let loaded = "0851C000000D00000000000000010100185CC000\n0851C001000D00000000000000010700185CC000\n0000\n";
    assert_eq!(run(format!("{load}FFFF\n{dump}\n")), format!("{loaded}{}", dumped("E0B6")));
    for wrong in ["00FF", "FF00", "0000"] {
        let expected = refused_by_2(0, "C000", "FFFF") + &dumped("0000");
        assert_eq!(run(format!("{load}{wrong}\n{dump}\n")), expected, "{wrong}");
    }
}

/// The CRC is sent as it is: of these three it has 00 in the first octet, in the second and in both.
#[test]
fn with_flag_1_a_0_is_sent_as_0() {
    for (body, control, right, wrong) in [
        ("185CC0BA000519110100", "C0BA", "005D", "FF5D"),
        ("185CC40D000519110100", "C40D", "E400", "E4FF"),
        ("185CC087000519110193", "C087", "0000", "FFFF"),
    ] {
        let accepted = GOOD_ANSWER.replace("185CC000", &format!("185C{control}"));
        assert_eq!(run(format!("{body}{right}\n")), accepted, "{body}");
        assert_eq!(run(format!("{body}{wrong}\n")), refused_by_2(0, control, right), "{body}");
    }
}

/// The flag selects the method before check 16 is made: each field of it is wrong in turn.
#[test]
fn error_control_comes_before_the_header_by_either_method() {
    for (body, by_iso, by_crc, place) in [
        ("385CC000000509110100", "A0E9", "23CD", 1),
        ("085CC000000509110100", "B208", "8E56", 2),
        ("105CC000000509110100", "5A58", "508B", 3),
        ("185C8000000509110100", "44A6", "EC10", 4),
        ("185CC000000529110100", "6129", "2D8E", 5),
        ("185CC0000005E9110100", "9D2C", "9E2A", 5),
    ] {
        let echo = &body[..8];
        let report = |code: &str| format!("0851C000001100000000000000010200{echo}{code}\n");
        assert_eq!(run(format!("{body}{by_iso}")), report(&format!("0010{place:04X}")) + "0110\n", "{body}");
        assert_eq!(run(format!("{body}{by_crc}")), report(&format!("0002{by_iso}")) + "0102\n", "{body}");
    }
    for (body, by_crc, by_iso, place) in [
        ("385CC000000519110100", "386A", "502A", 1),
        ("185CC000000539110100", "3629", "1169", 5),
        ("185CC0000005F9110100", "858D", "4D6C", 5),
    ] {
        let echo = &body[..8];
        let report = |code: &str| format!("0851C000001100000000000000010200{echo}{code}\n");
        assert_eq!(run(format!("{body}{by_crc}")), report(&format!("0010{place:04X}")) + "0110\n", "{body}");
        assert_eq!(run(format!("{body}{by_iso}")), report(&format!("0002{by_crc}")) + "0102\n", "{body}");
    }
}

/// Load, dump, check and connection test, all with flag 0 and both reports. The values of the check report are CRCs, E18B
/// and 1D0F: by the ISO checksum they would be 8596 and FFFF.
#[test]
fn every_service_with_flag_0() {
    let input = "185CC00000110906020001010000103E0002ABCD1456A8C9
185CC001000D0906050001010000103E0002D085
185CC00200130906090001020000103E0002000010000001A395
185CC003000509110100E9BD
";
    let expected = "0851C000000D00000000000000010100185CC000
0851C001000D00000000000000010700185CC000
0000
0851C002000D00000000000000010100185CC001
0859C00000150000000000000006060001010000103E0002ABCD1456
0851C003000D00000000000000010700185CC001
0000
0851C004000D00000000000000010100185CC002
0859C001001B00000000000000060A0001020000103E0002E18B0000100000011D0F
0851C005000D00000000000000010700185CC002
0000
0851C006000D00000000000000010100185CC003
0859C002000900000000000000110200
0851C007000D00000000000000010700185CC003
0000
";
    assert_eq!(run(input), expected);
    assert_eq!(run(input.to_lowercase()), expected);
}

/// Each packet is taken by its own flag, whatever the one before had.
#[test]
fn methods_in_turn() {
    let (iso, crc) = ("185CC0000005001101002F84\n", "185CC000000510110100F210\n");
    let answer = |count: u16| format!("0859{:04X}000900000000000000110200\n0000\n", 0xC000 + count);
    assert_eq!(run([iso, crc, crc, iso, iso, crc].concat()), (0..6).map(answer).collect::<String>());
}

#[test]
fn empty_input_and_empty_lines() {
    assert_eq!(run(""), "");
    assert_eq!(run("\n"), "012A\n");
    assert_eq!(run("\n\n"), "012A\n012A\n");
    assert_eq!(run(format!("\n{GOOD}")), format!("012A\n{GOOD_ANSWER}"));
}

#[test]
fn characters_that_are_no_digits() {
    for bad in [
        format!("{GOOD}\r\n"),
        format!(" {GOOD}\n"),
        format!("{GOOD} \n"),
        format!("\0{GOOD}\n"),
        format!("{GOOD}\0\n"),
        format!("\t{GOOD}\n"),
        format!("{GOOD}\x7F\n"),
        format!("{GOOD}x\n"),
        "G0\n".into(),
        "0g\n".into(),
        "/:\n".into(),
        "@`\n".into(),
        "\r\n".into(),
        " \n".into(),
        "1\n".into(),
        "185\n".into(),
        "é\n".into(),
    ] {
        assert_eq!(run(&bad), "0200\n", "{bad:?}");
    }
    assert_eq!(run(b"\x80\x80\n"), "0200\n");
    assert_eq!(run(b"\xFF\xFF\n"), "0200\n");
    assert_eq!(run(b"\xB1\xB1"), "0200\n");
}

#[test]
fn a_line_answered_0200_changes_nothing() {
    assert_eq!(run(format!("{GOOD}x\n{GOOD}\n")), format!("0200\n{GOOD_ANSWER}"));
}

#[test]
fn the_longest_line() {
    let digits = |count: usize| "0".repeat(count);
    // 2,048 octets, 0800, are received: refused with 1, and the answer echoes their first four.
    let served = "0851C0000011000000000000000102000000000000010800\n0101\n";
    assert_eq!(run(digits(4_096) + "\n"), served);
    assert_eq!(run(digits(4_096)), served);
    for count in [4_095, 4_097, 4_098, 8_192, 65_536, 131_072, 300_001] {
        assert_eq!(run(digits(count) + "\n"), "0200\n", "{count}");
        assert_eq!(run(digits(count)), "0200\n", "{count}");
        assert_eq!(run(format!("{}\n{GOOD}\n", digits(count))), format!("0200\n{GOOD_ANSWER}"), "{count}");
    }
}

#[test]
fn both_letter_cases_agree() {
    assert_eq!(run("185cc0000005191101000167\n"), GOOD_ANSWER);
    assert_eq!(run("185Cc0000005191101000167\n"), GOOD_ANSWER);
    assert_eq!(run("185cC0000005191101000167"), GOOD_ANSWER);
}

#[test]
fn refusal_0_is_0100() {
    assert_eq!(run("1D1CC001000510110100D7D8\n"), "0851C0000011000000000000000102001D1CC0010000051C\n0100\n");
}

#[test]
fn the_store_stays_from_line_to_line() {
    let line = |packet: Vec<u8>| packet.iter().map(|octet| format!("{octet:02x}")).collect::<String>() + "\n";
    let load = line(common::request(0, 6, 2, "01 01 0000103F 0001 BEEF"));
    let dump = line(common::request(0, 6, 5, "01 01 0000103F 0001"));
    assert_eq!(run(load + &dump), "0000\n0859C000001300000000000000060600".to_owned() + "01010000103F0001BEEF\n0000\n");
}

#[test]
fn a_stream_that_gives_one_octet_at_a_time() {
    struct Slow<'a>(&'a [u8]);
    impl std::io::Read for Slow<'_> {
        fn read(&mut self, buffer: &mut [u8]) -> std::io::Result<usize> {
            let count = self.0.len().min(buffer.len()).min(1);
            buffer[..count].copy_from_slice(&self.0[..count]);
            self.0 = &self.0[count..];
            Ok(count)
        }
    }
    let input = format!("{GOOD}\n\n{}\nzz", "0".repeat(4_098));
    let mut output = Vec::new();
    hexline::run(&mut Slow(input.as_bytes()), &mut output).expect("a vector takes everything");
    assert_eq!(output, format!("{GOOD_ANSWER}012A\n0200\n0200\n").into_bytes());
}

fn command() -> Command {
    common::command("LINE_COMMAND").unwrap_or_else(|| Command::new(env!("CARGO_BIN_EXE_line")))
}

fn start() -> Child {
    command().stdin(Stdio::piped()).stdout(Stdio::piped()).spawn().expect("the line program starts")
}

#[test]
fn input_in_pieces_through_a_pipe() {
    let folder = Path::new(env!("CARGO_MANIFEST_DIR")).join("../../crates/line");
    let input = fs::read(folder.join("stdin")).expect("its input is stored");
    let output = fs::read(folder.join("stdout")).expect("its output is stored");
    for size in [1, 7, 65_536] {
        let pieces = input.chunks(size).map(<[u8]>::to_vec).collect();
        assert!(common::piped(command(), pieces) == output, "pieces of {size}");
    }
}

#[test]
fn a_hundred_million_digits_without_a_newline() {
    let pieces = vec![vec![b'0'; 1_000_000]; 100];
    assert_eq!(common::piped(command(), pieces), b"0200\n");
}

#[test]
fn one_line_is_answered_before_more_is_read() {
    common::answers_at_once(command(), &[("\n", "012A"), ("\n", "012A")]);
}

#[test]
fn a_closed_output_ends_it() {
    let mut child = start();
    drop(child.stdout.take());
    let mut input = child.stdin.take().expect("its input");
    thread::spawn(move || while input.write_all(b"\n\n\n\n\n\n\n\n").is_ok() {});
    let begun = Instant::now();
    loop {
        if child.try_wait().expect("its state").is_some() {
            break;
        }
        if begun.elapsed() > Duration::from_secs(20) {
            child.kill().expect("it is there");
            panic!("it goes on although nobody reads");
        }
        thread::sleep(Duration::from_millis(10));
    }
}
