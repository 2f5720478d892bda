//! opcodes.rs: the bytes of an instruction.
//!
//! A question is the numbers of mnemonic, mode and suffix, a byte each, and the operand, an i64.

use super::{hex, number_at, Answerer, Kind};
use crate::refusal::or_refused;
use mos::codegen::opcodes::get_opcode_bytes;
use mos::parser::{AddressingMode, IndexRegister, Mnemonic};

#[rustfmt::skip]
const MNEMONICS: [Mnemonic; 56] = {
    use Mnemonic::*;
    [
        Adc, And, Asl, Bcc, Bcs, Beq, Bit, Bmi, Bne, Bpl, Brk, Bvc, Bvs, Clc,
        Cld, Cli, Clv, Cmp, Cpx, Cpy, Dec, Dex, Dey, Eor, Inc, Inx, Iny, Jmp,
        Jsr, Lda, Ldx, Ldy, Lsr, Nop, Ora, Pha, Php, Pla, Plp, Rol, Ror, Rti,
        Rts, Sbc, Sec, Sed, Sei, Sta, Stx, Sty, Tax, Tay, Tsx, Txa, Txs, Tya,
    ]
};

const MODES: [AddressingMode; 5] = [
    AddressingMode::Implied,
    AddressingMode::Immediate,
    AddressingMode::AbsoluteOrZp,
    AddressingMode::Indirect,
    AddressingMode::OuterIndirect,
];

const SUFFIXES: [Option<IndexRegister>; 3] = [None, Some(IndexRegister::X), Some(IndexRegister::Y)];

#[rustfmt::skip]
const OPERANDS: [i64; 24] = [
    i64::MIN, -65536, -32769, -32768, -257, -256, -255, -129, -128, -1, 0, 1,
    127, 128, 254, 255, 256, 257, 32767, 32768, 65535, 65536, 65541, i64::MAX,
];

// The operands at which the sample has every row: the last short one and the first long one.
const SAMPLE_OPERANDS: [i64; 2] = [255, 256];

// The rows at which the sample has every operand.
#[rustfmt::skip]
const SAMPLE_ROWS: [(Mnemonic, u8, u8); 8] = [
    (Mnemonic::Lda, 2, 0), // a one-byte and a two-byte form
    (Mnemonic::Ldx, 2, 2), // the same, with a suffix
    (Mnemonic::Lda, 1, 0), // a one-byte form only
    (Mnemonic::Stx, 2, 2), // the same, with a suffix
    (Mnemonic::Adc, 2, 2), // a two-byte form only
    (Mnemonic::Bne, 2, 0), // a branch
    (Mnemonic::Nop, 0, 0), // no operand
    (Mnemonic::Nop, 1, 0), // no row
];

// What the driver knows of this kind.
pub fn kind() -> Kind {
    Kind {
        name: "opcodes",
        width: 11,
        ask,
        sample,
        answerer,
    }
}

// Every row at every operand.
fn ask() -> Vec<u8> {
    every_row(&OPERANDS)
}

// Every row at two operands, and some rows at every operand.
fn sample() -> Vec<u8> {
    let mut out = every_row(&SAMPLE_OPERANDS);
    for (mnemonic, mode, suffix) in SAMPLE_ROWS {
        for operand in OPERANDS {
            put(&mut out, [mnemonic as u8, mode, suffix], operand);
        }
    }
    out
}

// Every row at each of some operands.
fn every_row(operands: &[i64]) -> Vec<u8> {
    let mut out = vec![];
    for row in rows() {
        for operand in operands {
            put(&mut out, row, *operand);
        }
    }
    out
}

// The numbers of every mnemonic, mode and suffix.
pub fn rows() -> Vec<[u8; 3]> {
    let mut rows = vec![];
    for mnemonic in 0..MNEMONICS.len() as u8 {
        for mode in 0..MODES.len() as u8 {
            for suffix in 0..SUFFIXES.len() as u8 {
                rows.push([mnemonic, mode, suffix]);
            }
        }
    }
    rows
}

// Adds one question.
fn put(out: &mut Vec<u8>, row: [u8; 3], operand: i64) {
    out.extend(row);
    out.extend(operand.to_le_bytes());
}

// Nothing is kept from one question to the next.
fn answerer() -> Answerer {
    Box::new(answer)
}

// The instruction's bytes.
fn answer(question: &[u8]) -> String {
    let row = [question[0], question[1], question[2]];
    let bytes = encode(row, number_at(question, 3) as i64);
    or_refused(bytes.map(|bytes| hex(&bytes)))
}

// The letters of a mnemonic, from its name in mos.
pub fn letters(mnemonic: u8) -> String {
    format!("{:?}", MNEMONICS[mnemonic as usize]).to_uppercase()
}

// Asks the Rust; nothing is returned if it refuses.
pub fn encode(row: [u8; 3], operand: i64) -> Option<Vec<u8>> {
    let bytes = get_opcode_bytes(
        MNEMONICS[row[0] as usize],
        MODES[row[1] as usize],
        SUFFIXES[row[2] as usize],
        operand,
    );
    bytes.ok().map(|bytes| bytes.to_vec())
}
