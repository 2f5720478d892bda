//! The form of a tape, and of an expression alone.
//!
//! The Rust has no tape. What is expected here is a second reading of document 01, by recursive
//! descent, as its table of records says it: a statement, then its expression, then the expressions
//! in that. Which mnemonic, mode and suffix are a row the Rust's opcodes.rs says.
//!
//! A question is the number of an operation, a byte; a byte; a number, a u32; and ten bytes.
//! Questions are asked in scripts: `begin` begins one, and the tape is kept from question to
//! question.
//!
//! - 0 begin: a tape without bytes.
//! - 1 append: so many of the ten bytes, as the byte says, go behind the tape, so often as the
//!   number says.
//! - 2 form: that of the tape cut to so many bytes, as the number says, and with the byte at the
//!   offset that the first four of the ten bytes are. An offset behind the tape changes nothing.
//!   The kept tape stays as it is.
//! - 3 expression_form: the same of an expression.
//!
//! An answer is `done`, or `refused N at OFFSET`.

mod scripts;

use super::expressions::records::*;
use super::{opcodes, short_at, Answerer, Kind};
use crate::refusal::{ARGUMENT, BAD_RECORD, CUT_SHORT, NO_ROW, TOO_DEEP, UNPAIRED};
use std::collections::BTreeSet;
use std::fmt;

const BEGIN: u8 = 0;
const APPEND: u8 = 1;
const FORM: u8 = 2;
const EXPRESSION_FORM: u8 = 3;

// The bytes of a question, and those of a tape in it.
const WIDTH: usize = 16;
const PART: usize = 10;

// The last mnemonic, mode and suffix, and the mode without an operand.
const LAST_MNEMONIC: u8 = 55;
const LAST_MODE: u8 = 4;
const LAST_SUFFIX: u8 = 2;
const IMPLIED: u8 = 0;

// How many rows the 6502 has.
const ROWS: usize = 114;

/// A question. An answer is asked for by a length, an offset and the byte that stands there.
#[derive(Clone, Copy)]
enum Question<'a> {
    Begin,
    Append(u32, &'a [u8]),
    Form(u32, u32, u8),
    ExpressionForm(u32, u32, u8),
}

use Question::*;

/// A refusal: its number, and the offset of the record at fault.
pub(crate) struct Fault {
    number: u8,
    at: usize,
}

impl Fault {
    // This number at this offset.
    pub(super) fn new(number: u8, at: usize) -> Self {
        Self { number, at }
    }
}

impl fmt::Display for Fault {
    // The line of a refusal.
    fn fmt(&self, line: &mut fmt::Formatter) -> fmt::Result {
        write!(line, "refused {} at {}", self.number, self.at)
    }
}

/// The offset behind what was read, or what is wrong with it.
pub(super) type Behind = Result<usize, Fault>;

/// The numbers of mnemonic, mode and suffix of every row.
pub(crate) type Rows = BTreeSet<[u8; 3]>;

// What the driver knows of this kind.
pub fn kind() -> Kind {
    Kind {
        name: "form",
        width: WIDTH,
        ask: scripts::ask,
        sample: scripts::sample,
        answerer,
    }
}

// The bytes of a question.
fn bytes_of(question: Question) -> Vec<u8> {
    match question {
        Begin => packed(BEGIN, 0, 0, &[]),
        Append(times, part) => packed(APPEND, part.len() as u8, times, part),
        Form(length, at, byte) => packed(FORM, byte, length, &at.to_le_bytes()),
        ExpressionForm(length, at, byte) => {
            packed(EXPRESSION_FORM, byte, length, &at.to_le_bytes())
        }
    }
}

// The parts of a question, and zero behind them.
fn packed(operation: u8, byte: u8, number: u32, rest: &[u8]) -> Vec<u8> {
    let mut out = vec![operation, byte];
    out.extend(number.to_le_bytes());
    out.extend(rest);
    out.resize(WIDTH, 0);
    out
}

// The question that bytes are.
fn read(question: &[u8]) -> Question<'_> {
    let byte = question[1];
    let number = short_at(question, 2);
    match question[0] {
        BEGIN => Begin,
        APPEND => Append(number, &question[6..6 + PART.min(byte.into())]),
        FORM => Form(number, short_at(question, 6), byte),
        _ => ExpressionForm(number, short_at(question, 6), byte),
    }
}

// The tape is kept.
fn answerer() -> Answerer {
    let rows = rows();
    let mut tape = vec![];
    Box::new(move |question| answer(&rows, &mut tape, read(question)))
}

// The rows: what the Rust has bytes for.
pub(crate) fn rows() -> Rows {
    let is_row = |row: &[u8; 3]| opcodes::encode(*row, 0).is_some();
    let rows: Rows = opcodes::rows().into_iter().filter(is_row).collect();
    assert_eq!(rows.len(), ROWS, "rows");
    rows
}

// The answer's line.
fn answer(rows: &Rows, tape: &mut Vec<u8>, question: Question) -> String {
    let checked = match question {
        Begin => {
            tape.clear();
            Ok(0)
        }
        Append(times, part) => {
            tape.extend(part.repeat(times as usize));
            Ok(0)
        }
        Form(length, at, byte) => form(rows, &damaged(tape, length, at, byte)),
        ExpressionForm(length, at, byte) => expression_form(rows, &damaged(tape, length, at, byte)),
    };
    match checked {
        Ok(_) => "done".into(),
        Err(fault) => fault.to_string(),
    }
}

// A tape cut to a length, and with a byte at an offset, if it has that offset.
fn damaged(tape: &[u8], length: u32, at: u32, byte: u8) -> Vec<u8> {
    let mut damaged = tape.to_vec();
    if let Some(place) = damaged.get_mut(at as usize) {
        *place = byte;
    }
    damaged.truncate(length as usize);
    damaged
}

// "Up to 65,536 bytes of records", and all of them read.
pub(super) fn form(rows: &Rows, bytes: &[u8]) -> Behind {
    let reader = Reader { rows, bytes };
    reader.limited()?;
    reader.ended(reader.statements()?)
}

// The same of one expression.
fn expression_form(rows: &Rows, bytes: &[u8]) -> Behind {
    let reader = Reader { rows, bytes };
    reader.limited()?;
    reader.ended(reader.expression(0, 1)?)
}

// Whether something is so, or else a fault.
fn need(holds: bool, number: u8, at: usize) -> Result<(), Fault> {
    if holds {
        Ok(())
    } else {
        Err(Fault { number, at })
    }
}

/// Bytes that are read.
struct Reader<'a> {
    rows: &'a Rows,
    bytes: &'a [u8],
}

impl Reader<'_> {
    // "tape and covered bytes are at most 65,536 long"
    fn limited(&self) -> Result<(), Fault> {
        need(self.bytes.len() <= LONGEST, ARGUMENT, 0)
    }

    // "bytes after it: 7 at the first"
    fn ended(&self, behind: usize) -> Behind {
        need(behind == self.bytes.len(), CUT_SHORT, behind)?;
        Ok(behind)
    }

    // Statements, up to the end record.
    fn statements(&self) -> Behind {
        let (mut at, mut open) = (0, 0);
        loop {
            let behind = self.statement(at, &mut open)?;
            if self.bytes[at] == END {
                return Ok(behind);
            }
            at = behind;
        }
    }

    // A statement and its expression; how many scopes are open is counted.
    fn statement(&self, at: usize, open: &mut usize) -> Behind {
        let kind = self.kind(at, statement_size)?;
        let body = self.body(at, statement_size)?;
        let behind = at + 1 + body.len();
        match kind {
            INSTRUCTION => return self.instruction(at, body),
            OPEN_SCOPE => {
                self.declared(at, body)?;
                *open += 1;
            }
            CLOSE_SCOPE => {
                need(*open > 0, UNPAIRED, at)?;
                *open -= 1;
            }
            LABEL => self.declared(at, body)?,
            CONSTANT => {
                self.declared(at, body)?;
                return self.expression(behind, 1);
            }
            SET_PLACE | BYTE | WORD => return self.expression(behind, 1),
            END => need(*open == 0, UNPAIRED, at)?,
            _ => {}
        }
        Ok(behind)
    }

    // "expression unless Implied"
    fn instruction(&self, at: usize, body: &[u8]) -> Behind {
        let in_range = body[0] <= LAST_MNEMONIC && body[1] <= LAST_MODE && body[2] <= LAST_SUFFIX;
        need(in_range, BAD_RECORD, at)?;
        need(self.rows.contains(body), NO_ROW, at)?;
        let behind = at + 1 + body.len();
        match body[1] {
            IMPLIED => Ok(behind),
            _ => self.expression(behind, 1),
        }
    }

    // "id 0 in a declaration a bad body"
    fn declared(&self, at: usize, id: &[u8]) -> Result<(), Fault> {
        need(id != [0, 0], BAD_RECORD, at)
    }

    // An expression, of which the first record is nested so deep.
    fn expression(&self, at: usize, depth: usize) -> Behind {
        let kind = self.kind(at, expression_size)?;
        need(depth <= DEEPEST, TOO_DEEP, at)?;
        let body = self.body(at, expression_size)?;
        let behind = at + 1 + body.len();
        match kind {
            NAME_1..=NAME_4 => need(body[0] <= HIGH, BAD_RECORD, at)?,
            FLAGS => {
                need((NOT..=BOTH).contains(&body[0]), BAD_RECORD, at)?;
                return self.expression(behind, depth + 1);
            }
            BINARY => {
                need(body[0] <= LAST_OPERATOR, BAD_RECORD, at)?;
                let middle = self.expression(behind, depth + 1)?;
                return self.expression(middle, depth + 1);
            }
            _ => {}
        }
        Ok(behind)
    }

    // The kind of a record. "A missing record: 7 at the tape's length. A kind out of its position
    // is a bad kind"
    fn kind(&self, at: usize, size: Size) -> Result<u8, Fault> {
        need(at < self.bytes.len(), CUT_SHORT, self.bytes.len())?;
        let kind = self.bytes[at];
        need(size(kind).is_some(), BAD_RECORD, at)?;
        Ok(kind)
    }

    // The body of a record, which may be cut short.
    fn body(&self, at: usize, size: Size) -> Result<&[u8], Fault> {
        let behind = at + 1 + size(self.bytes[at]).unwrap_or(0);
        need(behind <= self.bytes.len(), CUT_SHORT, at)?;
        Ok(&self.bytes[at + 1..behind])
    }
}

/// How long the body of a record is, if there is one of this kind.
type Size = fn(u8) -> Option<usize>;

// The records that may stand where a statement begins.
fn statement_size(kind: u8) -> Option<usize> {
    match kind {
        CLOSE_SCOPE | SET_PLACE | BYTE | WORD | END => Some(0),
        SCREEN_BYTE => Some(1),
        OPEN_SCOPE | LABEL | CONSTANT => Some(2),
        INSTRUCTION => Some(3),
        _ => None,
    }
}

// The records that may stand where an expression begins.
fn expression_size(kind: u8) -> Option<usize> {
    match kind {
        CURRENT_PLACE => Some(0),
        FLAGS | BINARY => Some(1),
        NUMBER => Some(8),
        NAME_1..=NAME_4 => Some(1 + 2 * usize::from(kind - NAME_1 + 1)),
        _ => None,
    }
}
