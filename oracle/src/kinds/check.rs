//! Checks: whether numbers, a start and bytes fit a tape.
//!
//! mos has no checker. What is expected is a second reading of document 01, in `check/reading.rs`,
//! over the lines and trees of `build/program.rs`.
//!
//! A question is the number of an operation, a byte; a byte; a number, a u32; and 58 bytes. Tape,
//! list of numbers and covered bytes are kept from question to question.
//!
//! - 0 begin: the tape is so many of the 58 bytes, as the byte says, so often as the number says;
//!   list and covered bytes are empty.
//! - 1 more: so many of the 58 bytes go behind the tape, so often.
//! - 2 numbers: so many i64, of seven in the 58 bytes, go behind the list, so often.
//! - 3 bytes: so many of the 58 bytes go behind the covered bytes, so often.
//! - 4 check: from the initial place that the number is, with the start that the first four of the
//!   58 bytes are. List and covered bytes are empty then; the tape stays.
//!
//! An answer is `done`, `accepted` or `refused N at OFFSET`.

mod reading;
mod scripts;

use super::form::{self, Fault, Rows};
use super::{number_at, short_at, Answerer, Kind};
use reading::Claim;

const BEGIN: u8 = 0;
const MORE: u8 = 1;
const NUMBERS: u8 = 2;
const BYTES: u8 = 3;
const CHECK: u8 = 4;

// The bytes of a question, those of a tape in it, and the numbers that have room there.
const WIDTH: usize = 64;
const PART: usize = 58;
const PART_NUMBERS: usize = PART / 8;

/// A question: how often, and what; or an initial place and a start.
#[derive(Clone, Copy)]
enum Question<'a> {
    Begin(u32, &'a [u8]),
    More(u32, &'a [u8]),
    Numbers(u32, &'a [i64]),
    Bytes(u32, &'a [u8]),
    Check(u32, u32),
}

/// What is kept.
#[derive(Default)]
struct Desk {
    tape: Vec<u8>,
    numbers: Vec<i64>,
    bytes: Vec<u8>,
}

// What the driver knows of this kind.
pub fn kind() -> Kind {
    Kind {
        name: "check",
        width: WIDTH,
        ask: scripts::ask,
        sample: scripts::sample,
        answerer,
    }
}

// The bytes of a question.
fn bytes_of(question: Question) -> Vec<u8> {
    match question {
        Question::Begin(times, part) => packed(BEGIN, part.len(), times, part),
        Question::More(times, part) => packed(MORE, part.len(), times, part),
        Question::Numbers(times, part) => {
            let words: Vec<u8> = part.iter().flat_map(|z| z.to_le_bytes()).collect();
            packed(NUMBERS, part.len(), times, &words)
        }
        Question::Bytes(times, part) => packed(BYTES, part.len(), times, part),
        Question::Check(initial, start) => packed(CHECK, 0, initial, &start.to_le_bytes()),
    }
}

// The parts of a question, and zero behind them.
fn packed(operation: u8, count: usize, number: u32, rest: &[u8]) -> Vec<u8> {
    let mut out = vec![operation, count as u8];
    out.extend(number.to_le_bytes());
    out.extend(rest);
    out.resize(WIDTH, 0);
    out
}

// Tape, list and covered bytes are kept.
fn answerer() -> Answerer {
    let rows = form::rows();
    let mut desk = Desk::default();
    Box::new(move |question| answer(&rows, &mut desk, question))
}

// The answer's line.
fn answer(rows: &Rows, desk: &mut Desk, question: &[u8]) -> String {
    let count = usize::from(question[1]);
    let number = short_at(question, 2) as usize;
    let rest = &question[WIDTH - PART..];
    let part = &rest[..PART.min(count)];
    match question[0] {
        BEGIN => {
            *desk = Desk::default();
            desk.tape = part.repeat(number);
        }
        MORE => desk.tape.extend(part.repeat(number)),
        NUMBERS => {
            let numbers = (0..PART_NUMBERS.min(count)).map(|i| number_at(rest, 8 * i) as i64);
            let numbers: Vec<i64> = numbers.collect();
            desk.numbers.extend(numbers.repeat(number));
        }
        BYTES => desk.bytes.extend(part.repeat(number)),
        _ => {
            let claim = Claim {
                initial: number,
                numbers: std::mem::take(&mut desk.numbers),
                start: short_at(rest, 0) as usize,
                bytes: std::mem::take(&mut desk.bytes),
            };
            return line(reading::check(rows, &desk.tape, &claim));
        }
    }
    "done".into()
}

// The line of a check.
fn line(checked: Result<(), Fault>) -> String {
    match checked {
        Ok(()) => "accepted".into(),
        Err(fault) => fault.to_string(),
    }
}
