//! Whole builds: from a tape to an image.
//!
//! The pass driver of mos stands in codegen/mod.rs, which cannot be compiled here. What is expected
//! is a second reading of document 01: the tape as a list of lines with trees of expressions
//! (`build/program.rs`), and passes and tries over vectors (`build/walks.rs`). The form of a tape is
//! that of `form.rs`; the bytes of an instruction are the Rust's.
//!
//! A question is the number of an operation, a byte; a byte; a number, a u32; and 58 bytes. The tape
//! is kept from question to question.
//!
//! - 0 more: so many of the 58 bytes, as the byte says, go behind the tape, so often as the number
//!   says.
//! - 1 build: so many of the 58 bytes go behind the tape, once, and it is built from the place that
//!   the number is. The next tape begins with no bytes.
//!
//! An answer is `done`; or `refused N at OFFSET`; or `finished`, start, end and passes, the numbers
//! behind `:`, and behind another `:` a checksum of the whole image.

pub(crate) mod program;
pub(super) mod scripts;
pub(crate) mod walks;

use super::form::{self, Fault, Rows};
use super::{short_at, Answerer, Kind};
use crate::refusal::ARGUMENT;
use program::Program;
use walks::Built;

const MORE: u8 = 0;
const BUILD: u8 = 1;

// The bytes of a question, and those of a tape in it.
pub(super) const WIDTH: usize = 64;
const PART: usize = 58;

/// How many bytes an image has; also the last place.
pub(crate) const SIZE: usize = 65_536;

// The divisor of the checksum, a prime, and its factor.
const DIVISOR: u64 = 4_294_967_291;
const FACTOR: u64 = 257;

/// A question: bytes and how often, or an initial place and bytes.
#[derive(Clone, Copy)]
enum Question<'a> {
    More(u32, &'a [u8]),
    Build(u32, &'a [u8]),
}

use Question::*;

// What the driver knows of this kind.
pub fn kind() -> Kind {
    Kind {
        name: "build",
        width: WIDTH,
        ask: scripts::ask,
        sample: scripts::sample,
        answerer,
    }
}

// The bytes of a question.
fn bytes_of(question: Question) -> Vec<u8> {
    let (operation, number, part) = match question {
        More(times, part) => (MORE, times, part),
        Build(initial, part) => (BUILD, initial, part),
    };
    let mut out = vec![operation, part.len() as u8];
    out.extend(number.to_le_bytes());
    out.extend(part);
    out.resize(WIDTH, 0);
    out
}

// The question that bytes are.
fn read(question: &[u8]) -> Question<'_> {
    let number = short_at(question, 2);
    let part = &question[6..6 + PART.min(question[1].into())];
    match question[0] {
        MORE => More(number, part),
        _ => Build(number, part),
    }
}

// The line of a build.
fn answerer() -> Answerer {
    answerer_by(|rows, tape, initial| line(build(rows, tape, initial)))
}

// The tape is kept, and answered by a line of its own.
pub(super) fn answerer_by(line: fn(&Rows, &[u8], usize) -> String) -> Answerer {
    let rows = form::rows();
    let mut tape = vec![];
    Box::new(move |question| match read(question) {
        More(times, part) => {
            tape.extend(part.repeat(times as usize));
            "done".into()
        }
        Build(initial, part) => {
            tape.extend(part);
            let tape = std::mem::take(&mut tape);
            line(&rows, &tape, initial as usize)
        }
    })
}

// Arguments, form, names, passes, tries: in that order.
pub(super) fn build(rows: &Rows, tape: &[u8], initial: usize) -> Result<Built, Fault> {
    if initial > SIZE {
        return Err(Fault::new(ARGUMENT, 0));
    }
    form::form(rows, tape)?;
    walks::build(&Program::read(tape)?, initial)
}

// The tapes that are built, with so many random ones among them, and the initial place of each.
pub(super) fn tapes(random: usize) -> Vec<(usize, Vec<u8>)> {
    let mut tapes = vec![];
    let mut tape = vec![];
    for question in scripts::some(random).chunks_exact(WIDTH) {
        match read(question) {
            More(times, part) => tape.extend(part.repeat(times as usize)),
            Build(initial, part) => {
                tape.extend(part);
                tapes.push((initial as usize, std::mem::take(&mut tape)));
            }
        }
    }
    tapes
}

// The line of a build.
fn line(built: Result<Built, Fault>) -> String {
    match built {
        Err(fault) => fault.to_string(),
        Ok(built) => {
            let numbers: String = built.numbers.iter().map(|z| format!(" {z}")).collect();
            let (start, end) = (built.range.start, built.range.end);
            let sum = checksum(&built.image);
            format!("finished {start} {end} {} :{numbers} : {sum}", built.passes)
        }
    }
}

// A number that depends on every byte and on their order.
pub(super) fn checksum(bytes: &[u8]) -> u64 {
    let mixed = |sum: u64, byte: &u8| FACTOR * (sum % DIVISOR) + u64::from(*byte) + 1;
    bytes.iter().fold(0, mixed)
}
