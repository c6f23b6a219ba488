//! The input and output that are stored beside the first implementation's programs: the output is
//! what this implementation writes today.

use std::collections::BTreeSet;
use std::fs;
use std::io::{self, Read, Write};
use std::path::{Path, PathBuf};

use second::{cases, explain, frames, hexline};

/// Where a program's input and output are stored.
fn folder(program: &str) -> PathBuf {
    Path::new(env!("CARGO_MANIFEST_DIR")).join("../../crates").join(program)
}

fn check(program: &str, run: fn(&mut dyn Read, &mut dyn Write) -> io::Result<()>, lines: usize) {
    let folder = folder(program);
    let input = fs::read(folder.join("stdin")).expect("its input is stored");
    let stored = fs::read(folder.join("stdout")).expect("its output is stored");
    assert!(input.split(|octet| *octet == b'\n').count() >= lines, "{program}: too few lines are stored");
    let mut output = Vec::new();
    run(&mut input.as_slice(), &mut output).expect("a vector takes everything");
    assert!(output == stored, "{program}: the stored output is not what is written today");
}

#[test]
fn of_line() {
    check("line", hexline::run, 1_000);
}

#[test]
fn of_cases() {
    check("cases", cases::run, 1_000);
}

#[test]
fn of_frames() {
    check("frames", frames::run, 1_000);
}

#[test]
fn of_explain() {
    check("explain", explain::run, 290);
    // Every check of the line program's profile is told, and both other answers are there.
    let stored = fs::read_to_string(folder("explain").join("stdout")).expect("its output is stored");
    let told: BTreeSet<_> = stored.lines().filter_map(|line| line.split(' ').next()).collect();
    assert_eq!(told, BTreeSet::from(["0", "0000", "0200", "1", "16", "17", "19", "2", "3", "4", "42", "5"]));
}
