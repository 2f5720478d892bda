//! What the listing program says of a tape, and what an assembler says of its source. Both work in the
//! current folder.

use crate::source::Assembler;
use std::collections::BTreeSet;
use std::fs;
use std::io::{self, Write};
use std::process::{Command, Output, Stdio};

/// The place and the bytes of a record that writes.
pub type Written = (usize, Vec<u8>);

/// The listing: what is written in source order, or the refusal.
pub enum Ours {
    Lines(Vec<Written>),
    Refused { number: u8, at: usize },
}

/// The assembler's: what is written in source order, or the lines at which it finds an error; or it does
/// not end.
pub enum Theirs {
    Lines(Vec<Written>),
    Refused(BTreeSet<usize>),
    Endless,
}

// The files of an assembler.
const SOURCE: &str = "tape.s";
const OBJECT: &str = "tape.o";
const BYTES: &str = "tape.bin";
const LISTING: &str = "tape.lst";

// Seconds after which an assembler is stopped, and the status that says so: ca65 does not end where
// constants that name each other are used.
const PATIENCE: &str = "3";
const STOPPED: i32 = 124;

// How many lines stand before those of ca65's listing, and where a line has its bytes.
const CA65_HEAD: usize = 4;
const CA65_BYTES: std::ops::Range<usize> = 11..23;

// Puts a tape to the listing program.
pub fn ours(program: &str, tape: &[u8]) -> io::Result<(Ours, String)> {
    let mut child = Command::new(program)
        .stdin(Stdio::piped())
        .stdout(Stdio::piped())
        .spawn()?;
    child.stdin.take().unwrap().write_all(tape)?;
    let text = String::from_utf8(child.wait_with_output()?.stdout).unwrap();
    Ok((read_listing(&text), text))
}

// Reads the text of a listing.
fn read_listing(text: &str) -> Ours {
    let lines: Vec<Vec<&str>> = text.lines().map(|line| line.split(' ').collect()).collect();
    let (last, records) = lines.split_last().expect("a listing has a line");
    if let ["refused", number, "at", offset] = last[..] {
        return Ours::Refused {
            number: number.parse().unwrap(),
            at: offset.parse().unwrap(),
        };
    }
    let written = |words: &Vec<&str>| (from_hex(words[0]), bytes_of(&words[1..words.len() - 1]));
    Ours::Lines(records.iter().map(written).collect())
}

// The number of hexadecimal digits.
fn from_hex(digits: &str) -> usize {
    usize::from_str_radix(digits, 16).expect("hexadecimal digits")
}

// The bytes of some words.
fn bytes_of(words: &[&str]) -> Vec<u8> {
    words.iter().map(|word| from_hex(word) as u8).collect()
}

// Assembles a source.
pub fn theirs(assembler: Assembler, source: &str) -> io::Result<Theirs> {
    fs::write(SOURCE, source)?;
    match assembler {
        Assembler::Ca65 => ca65(),
        Assembler::Tass => tass(),
    }
}

// Runs a program that does not run for long.
fn run(words: &[&str]) -> io::Result<Output> {
    Command::new("timeout").arg(PATIENCE).args(words).output()
}

// ca65 and its linker: the places and lengths from the listing, the bytes from the linked file.
fn ca65() -> io::Result<Theirs> {
    let assemble = [
        "ca65", "--cpu", "6502", "-t", "none", "-l", LISTING, "-o", OBJECT, SOURCE,
    ];
    let link = ["ld65", "-t", "none", "-o", BYTES, OBJECT];
    for words in [&assemble[..], &link[..]] {
        let output = run(words)?;
        if !output.status.success() {
            return Ok(refused(&output, "tape.s(", ")"));
        }
    }
    ca65_lines()
}

// What ca65 and its linker wrote.
fn ca65_lines() -> io::Result<Theirs> {
    let bytes = fs::read(BYTES)?;
    let (mut written, mut at) = (vec![], 0);
    for line in fs::read_to_string(LISTING)?.lines().skip(CA65_HEAD) {
        let column = line.get(CA65_BYTES).unwrap_or("");
        let length = column.split_whitespace().count();
        if length > 0 {
            written.push((from_hex(&line[..6]), bytes[at..at + length].to_vec()));
        }
        at += length;
    }
    assert_eq!(
        at,
        bytes.len(),
        "ca65's listing has as many bytes as its file"
    );
    Ok(Theirs::Lines(written))
}

// 64tass: its listing. A place that goes round behind 65,535 is an error.
fn tass() -> io::Result<Theirs> {
    let output = run(&[
        "64tass",
        "--m65xx",
        "--quiet",
        "--nostart",
        "--no-monitor",
        "-Werror=wrap-mem",
        "-Werror=wrap-pc",
        "-Werror=wrap-addr",
        "-L",
        LISTING,
        "-o",
        BYTES,
        SOURCE,
    ])?;
    if !output.status.success() {
        return Ok(refused(&output, "tape.s:", ":"));
    }
    let mut written = vec![];
    for line in fs::read_to_string(LISTING)?.lines() {
        let columns: Vec<&str> = line.split('\t').collect();
        if line.starts_with(['.', '>']) && !columns[1].is_empty() {
            let words: Vec<&str> = columns[1].split(' ').collect();
            written.push((from_hex(&columns[0][1..]), bytes_of(&words)));
        }
    }
    Ok(Theirs::Lines(written))
}

// The lines of the source at which there are errors. A failure that names none is not the source's.
fn refused(output: &Output, before: &str, behind: &str) -> Theirs {
    if output.status.code() == Some(STOPPED) {
        return Theirs::Endless;
    }
    let said = [&output.stdout[..], &output.stderr[..]].concat();
    let said = String::from_utf8_lossy(&said);
    let is_error = |line: &&str| line.to_lowercase().contains("error");
    let number = |line: &str| {
        line.split_once(before)?
            .1
            .split_once(behind)?
            .0
            .parse()
            .ok()
    };
    let lines: BTreeSet<usize> = said.lines().filter(is_error).filter_map(number).collect();
    assert!(!lines.is_empty(), "an assembler failed: {said}");
    Theirs::Refused(lines)
}
