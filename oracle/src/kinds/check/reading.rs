//! The second reading of the checker: one walk over the lines of a tape with the numbers that were
//! handed in. Every byte that is written stands in a map by its place, so that start and end are the
//! map's first and last places, and what lies between two writes is not there and is zero.

use super::super::build::program::{Line, Program, What};
use super::super::build::walks::{instruction, screen_byte, Numbers};
use super::super::build::SIZE;
use super::super::expressions::records::LONGEST;
use super::super::form::{self, Fault, Rows};
use crate::refusal::{ARGUMENT, BYTES_DIFFER, NUMBER_DIFFERS, OUTSIDE};
use std::collections::BTreeMap;

/// What is handed in beside a tape.
#[derive(Clone, PartialEq)]
pub struct Claim {
    pub initial: usize,
    pub numbers: Vec<i64>,
    pub start: usize,
    pub bytes: Vec<u8>,
}

// "After form and names the checker refuses a list of the wrong length (17 at 0), then tries records
// the same way, with 17, for a constant's number too, in place of 13, then compares start, length and
// bytes (18 at 0)."
pub fn check(rows: &Rows, tape: &[u8], claim: &Claim) -> Result<(), Fault> {
    if tape.len() > LONGEST || claim.bytes.len() > SIZE || claim.initial.max(claim.start) > SIZE {
        return Err(Fault::new(ARGUMENT, 0));
    }
    form::form(rows, tape)?;
    let program = Program::read(tape)?;
    if program.numbers != claim.numbers.len() {
        return Err(Fault::new(NUMBER_DIFFERS, 0));
    }
    let mut walk = Walk {
        numbers: claim.numbers.iter().copied().map(Some).collect(),
        place: claim.initial as i64,
        written: BTreeMap::new(),
    };
    for line in &program.lines {
        let walked = walk.line(&program, line);
        walked.map_err(|number| Fault::new(number, line.at))?;
    }
    if walk.start(claim.initial) == claim.start && walk.bytes() == claim.bytes {
        return Ok(());
    }
    Err(Fault::new(BYTES_DIFFER, 0))
}

/// A walk that has come to a place: the numbers it goes by, and what it wrote.
struct Walk {
    numbers: Numbers,
    place: i64,
    written: BTreeMap<i64, u8>,
}

impl Walk {
    // Goes over a line, or gives document 01's number of its refusal.
    fn line(&mut self, program: &Program, line: &Line) -> Result<(), u8> {
        let value = |tree| program.evaluate(&self.numbers, line, self.place, tree);
        let bytes = match &line.what {
            What::Label(slot) => return self.compare(*slot, self.place),
            What::Constant(slot, tree) => return self.compare(*slot, value(tree)?),
            What::SetPlace(tree) => {
                let to = value(tree)?;
                return self.go(to);
            }
            What::Byte(tree) => vec![value(tree)? as u8],
            What::Word(tree) => (value(tree)? as u16).to_le_bytes().to_vec(),
            What::ScreenByte(byte) => vec![screen_byte(*byte)],
            What::Instruction(row, None) => instruction(*row, self.place, 0)?,
            What::Instruction(row, Some(tree)) => instruction(*row, self.place, value(tree)?)?,
        };
        self.write(&bytes)
    }

    // A number of the list against the one that belongs there.
    fn compare(&self, slot: usize, z: i64) -> Result<(), u8> {
        match self.numbers[slot] == Some(z) {
            true => Ok(()),
            false => Err(NUMBER_DIFFERS),
        }
    }

    // Goes on from another place.
    fn go(&mut self, to: i64) -> Result<(), u8> {
        if !(0..=SIZE as i64).contains(&to) {
            return Err(OUTSIDE);
        }
        self.place = to;
        Ok(())
    }

    // Writes bytes, if the last of them has a place. A later byte takes the place of an earlier one.
    fn write(&mut self, bytes: &[u8]) -> Result<(), u8> {
        let end = self.place + bytes.len() as i64;
        if end > SIZE as i64 {
            return Err(OUTSIDE);
        }
        self.written
            .extend((self.place..).zip(bytes.iter().copied()));
        self.place = end;
        Ok(())
    }

    // Where the first written byte stands; with none, the initial place.
    fn start(&self, initial: usize) -> usize {
        let first = self.written.first_key_value();
        first.map_or(initial, |(place, _)| *place as usize)
    }

    // The bytes from the first to the last that was written.
    fn bytes(&self) -> Vec<u8> {
        let ends = (
            self.written.first_key_value(),
            self.written.last_key_value(),
        );
        let (Some((first, _)), Some((last, _))) = ends else {
            return vec![];
        };
        let byte = |place| self.written.get(&place).copied().unwrap_or(0);
        (*first..=*last).map(byte).collect()
    }
}
