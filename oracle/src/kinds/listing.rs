//! Listings: the text of what a tape writes.
//!
//! The files of mos here list nothing. What is expected is a second reading of document 01: the
//! lines and writes of `build/`, and the letters of mnemonics from their names in mos.
//!
//! A question is one of `build`, and 1 lists the tape. Document 01's example, and tapes whose words
//! stand over each other, come before the tapes of `build`. An answer is `done`; or the lines of the
//! text with `; ` between two; or, where the text is long, its length, its checksum and its last
//! line, with ` : ` between two.

use super::build::program::{Program, What};
use super::build::walks::{writes, Numbers, Write};
use super::build::{answerer_by, build, checksum, scripts, WIDTH};
use super::expressions::records::{number, END, SET_PLACE, WORD};
use super::form::{Fault, Rows};
use super::{hex, opcodes, Answerer, Kind};

// The most bytes of a text that is told whole.
const SHORT: usize = 200;

// What stands where a line has no mnemonic.
const DATA: &str = "---";

// Where the listing program builds a tape.
const LISTED_AT: usize = 0x2000;

// Document 01's example.
#[rustfmt::skip]
const EXAMPLE: [u8; 33] = [
    0x44, 0x01, 0x00,
    0x40, 0x1d, 0x01, 0x00, 0x01, 0x05, 0x00, 0x00, 0x00, 0x00, 0x00, 0x00, 0x00,
    0x40, 0x2f, 0x02, 0x00, 0x11, 0x00, 0x01, 0x00,
    0x40, 0x08, 0x02, 0x00, 0x11, 0x00, 0x01, 0x00,
    0x4f,
];

// What the driver knows of this kind.
pub fn kind() -> Kind {
    Kind {
        name: "listing",
        width: WIDTH,
        ask,
        sample,
        answerer,
    }
}

// Everything.
fn ask() -> Vec<u8> {
    [own(), scripts::ask()].concat()
}

// A part of it.
fn sample() -> Vec<u8> {
    [own(), scripts::sample()].concat()
}

// What `build` does not ask.
fn own() -> Vec<u8> {
    let mut tapes = vec![(LISTED_AT, EXAMPLE.to_vec())];
    tapes.extend((-2..=2).map(|bytes| (LISTED_AT, over(bytes))));
    scripts::these(&tapes)
}

// A word, and another that begins so many bytes behind the first one's beginning.
fn over(bytes: i64) -> Vec<u8> {
    let place = number(LISTED_AT as i64 + bytes);
    let first = [vec![WORD], number(0x1234)].concat();
    let second = [vec![SET_PLACE], place, vec![WORD], number(0x5678)].concat();
    [first, second, vec![END]].concat()
}

// The line of a listing.
fn answerer() -> Answerer {
    answerer_by(|rows, tape, initial| told(&listed(rows, tape, initial)))
}

// "prints each writing record's place, bytes, mnemonic as three capital letters (--- for data), then
// start, end and passes; or `refused N at OFFSET`"
fn listed(rows: &Rows, tape: &[u8], initial: usize) -> Vec<String> {
    list(rows, tape, initial).unwrap_or_else(|fault| vec![fault.to_string()])
}

// The lines of a tape that is built.
fn list(rows: &Rows, tape: &[u8], initial: usize) -> Result<Vec<String>, Fault> {
    let built = build(rows, tape, initial)?;
    let program = Program::read(tape)?;
    let numbers: Numbers = built.numbers.into_iter().map(Some).collect();
    let writes = writes(&program, &numbers, initial)?;
    let mut lines: Vec<String> = writes.iter().map(line).collect();
    let (start, end) = (built.range.start, built.range.end);
    lines.push(format!("{start:04X} {end:04X} {}", built.passes));
    Ok(lines)
}

// The line of a record that writes.
fn line(write: &Write) -> String {
    let mnemonic = match write.line.what {
        What::Instruction(row, _) => opcodes::letters(row[0]),
        _ => DATA.into(),
    };
    format!("{:04X} {} {mnemonic}", write.place, hex(&write.bytes))
}

// The answer's line.
fn told(lines: &[String]) -> String {
    let text: String = lines.iter().map(|line| format!("{line}\n")).collect();
    let last = lines.last().map_or("", String::as_str);
    match text.len() {
        0..=SHORT => lines.join("; "),
        length => format!("{length} : {} : {last}", checksum(text.as_bytes())),
    }
}
