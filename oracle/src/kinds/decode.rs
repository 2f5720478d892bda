//! The way back: the instruction at the start of some bytes.
//!
//! The Rust has only the way there, opcodes.rs. It is asked for the bytes of every row, and what
//! it answers is turned round. A question is how many bytes there are, 0 to 3, and three bytes,
//! zero behind those. An answer is mnemonic, mode, suffix, operand length and operand, or
//! `refused` with document 01's number.

use super::{opcodes, Answerer, Kind};
use crate::fail;
use crate::refusal::{CUT_SHORT, NO_ROW, REFUSED};
use std::collections::BTreeSet;

// How many opcodes the 6502 has.
const OPCODES: usize = 151;

// The operands at which each row is asked for its bytes: together they reach every form.
const OPERANDS: [i64; 2] = [0x12, 0x1234];

// The two bytes behind an opcode.
#[rustfmt::skip]
const PATTERNS: [[u8; 2]; 12] = [
    [0x12, 0x34], [0x00, 0x00], [0xff, 0xff], [0x80, 0x7f], [0x7f, 0x80], [0x00, 0xff],
    [0xff, 0x00], [0x01, 0x00], [0x00, 0x01], [0xfe, 0x01], [0xea, 0x60], [0x02, 0x02],
];

// The opcodes at which the sample has every count and pattern.
const SAMPLE_OPCODES: [u8; 14] = [
    0x00, // BRK: no operand, and the smallest byte
    0x0a, // ASL: no operand
    0xa9, // LDA #
    0xa5, // LDA, a one-byte operand
    0xad, // LDA, a two-byte operand
    0xa1, // LDA (n,x)
    0xb6, // LDX n,y: a one-byte operand with a suffix
    0xfe, // INC n,x: the greatest opcode
    0x4c, // JMP
    0x6c, // JMP (n)
    0x20, // JSR
    0xd0, // BNE
    0x02, // none
    0xff, // none, and the greatest byte
];

// A row, and how many operand bytes stand behind its opcode.
type Entry = ([u8; 3], usize);

// The entry of each byte that is an opcode.
type Inverse = [Option<Entry>; 256];

// What the driver knows of this kind.
pub fn kind() -> Kind {
    Kind {
        name: "decode",
        width: 4,
        ask,
        sample,
        answerer,
    }
}

// Every first byte with every pattern behind it, at every count.
fn ask() -> Vec<u8> {
    let mut questions = BTreeSet::new();
    for first in 0..=255 {
        every_count(&mut questions, first);
    }
    written(questions)
}

// Every first byte with one pattern at the whole count, and some at every count and pattern.
fn sample() -> Vec<u8> {
    let mut questions = BTreeSet::new();
    for first in 0..=255 {
        questions.insert(question(3, first, PATTERNS[0]));
    }
    for first in SAMPLE_OPCODES {
        every_count(&mut questions, first);
    }
    written(questions)
}

// Adds the questions of a first byte: every pattern at every count. Equal ones are asked once.
fn every_count(questions: &mut BTreeSet<[u8; 4]>, first: u8) {
    for count in 0..=3 {
        for pattern in PATTERNS {
            questions.insert(question(count, first, pattern));
        }
    }
}

// One question.
fn question(count: u8, first: u8, pattern: [u8; 2]) -> [u8; 4] {
    let mut question = [count, first, pattern[0], pattern[1]];
    question[1 + count as usize..].fill(0);
    question
}

// The questions one behind the other.
fn written(questions: BTreeSet<[u8; 4]>) -> Vec<u8> {
    questions.into_iter().flatten().collect()
}

// Asks the Rust once, and answers from that.
fn answerer() -> Answerer {
    let inverse = inverse();
    Box::new(move |question| {
        let count = question[0] as usize;
        match decoded(&inverse, &question[1..1 + count]) {
            Ok(answer) => answer,
            Err(number) => format!("{REFUSED} {number}"),
        }
    })
}

// The Rust's table turned round.
fn inverse() -> Inverse {
    let mut inverse = [None; 256];
    for row in opcodes::rows() {
        for operand in OPERANDS {
            if let Some(bytes) = opcodes::encode(row, operand) {
                enter(&mut inverse, row, &bytes);
                check_operand(&bytes[1..], operand);
            }
        }
    }
    if inverse.iter().flatten().count() != OPCODES {
        fail("the Rust does not have the opcodes of the 6502");
    }
    inverse
}

// Enters the row of an opcode, which no other row or form may have.
fn enter(inverse: &mut Inverse, row: [u8; 3], bytes: &[u8]) {
    let entry = (row, bytes.len() - 1);
    let opcode = bytes[0];
    match inverse[opcode as usize].replace(entry) {
        Some(other) if other != entry => fail(&format!("the Rust has opcode {opcode:02X} twice")),
        _ => {}
    }
}

// Tests that operand bytes are read as the Rust writes them.
fn check_operand(bytes: &[u8], operand: i64) {
    if operand_of(bytes) != operand % (1 << (8 * bytes.len())) {
        fail("the Rust writes operands in another way");
    }
}

// The number of an operand's bytes, the low one first.
fn operand_of(bytes: &[u8]) -> i64 {
    bytes
        .iter()
        .rev()
        .fold(0, |high, low| 256 * high + i64::from(*low))
}

// The answer for some bytes, or the number of a refusal.
fn decoded(inverse: &Inverse, bytes: &[u8]) -> Result<String, u8> {
    let (first, rest) = bytes.split_first().ok_or(CUT_SHORT)?;
    let ([mnemonic, mode, suffix], len) = inverse[*first as usize].ok_or(NO_ROW)?;
    let operand = operand_of(rest.get(..len).ok_or(CUT_SHORT)?);
    Ok(format!("{mnemonic} {mode} {suffix} {len} {operand}"))
}
