//! What both sides are asked. Neither refuses any of it.

use crate::random::Random;
use mos::parser::AddressingMode::{
    self, AbsoluteOrZp, Immediate, Implied, Indirect, OuterIndirect,
};
use mos::parser::IndexRegister::{self, X, Y};
use mos::parser::{BinaryOp, Mnemonic};

/// How many times a call is made at a time: of all calls but insert, and of insert.
pub const CALLS: usize = 4_000;
pub const INSERTS: usize = 1_000;

/// What is written, and from which place on.
pub const BYTES: [u8; 3] = [0x4c, 0x00, 0x20];
pub const START: usize = 0x2000;

/// How many bytes an image has, and how many words a source map.
pub const IMAGE: usize = 65_536;
pub const MAP: usize = 16_385;

const SEED: u64 = 6_502;

#[rustfmt::skip]
const INSTRUCTIONS: [Instruction; 10] = [
    instruction(Mnemonic::Lda, Immediate, None, 5),
    instruction(Mnemonic::Sta, AbsoluteOrZp, None, 0x2000),
    instruction(Mnemonic::Ldx, AbsoluteOrZp, None, 0x12),
    instruction(Mnemonic::Adc, AbsoluteOrZp, Some(Y), 0x12),
    instruction(Mnemonic::Stx, AbsoluteOrZp, Some(Y), 0x12),
    instruction(Mnemonic::Lda, OuterIndirect, Some(Y), 0x12),
    instruction(Mnemonic::Eor, Indirect, Some(X), 0x12),
    instruction(Mnemonic::Jmp, OuterIndirect, None, 0x2000),
    instruction(Mnemonic::Nop, Implied, None, 0),
    instruction(Mnemonic::Txs, Implied, None, 0),
];

#[rustfmt::skip]
const OPERATORS: [BinaryOp; 16] = {
    use BinaryOp::*;
    [Add, Sub, Mul, Div, Mod, Shl, Shr, Xor, Eq, Ne, Gt, GtEq, Lt, LtEq, And, Or]
};

// The levels of a table: the first id, and how many there are below each node of the level above.
const LEVELS: [(u16, u16); 4] = [(1, 5), (11, 2), (21, 2), (101, 49)];

// The scopes of the third level, which labels stand in.
const FIRST_SCOPE: i64 = 16;
const LAST_SCOPE: i64 = 35;

/// An instruction as the Rust has it.
#[derive(Clone, Copy)]
pub struct Instruction {
    pub mnemonic: Mnemonic,
    pub mode: AddressingMode,
    pub suffix: Option<IndexRegister>,
    pub operand: i64,
}

/// An operator and its sides.
pub struct Operation {
    pub op: BinaryOp,
    pub lhs: i64,
    pub rhs: i64,
}

/// Where a node of a table stands: the number of the node above, and its name there.
pub struct Place {
    pub above: u16,
    pub id: u16,
}

/// A path, and the scope that it is asked in.
pub struct Query {
    pub nx: u16,
    pub path: [u16; 4],
}

/// An entry of a source map.
pub struct Entry {
    pub scope: u32,
    pub pc: u32,
    pub len: u32,
}

// An instruction of these parts.
const fn instruction(
    mnemonic: Mnemonic,
    mode: AddressingMode,
    suffix: Option<IndexRegister>,
    operand: i64,
) -> Instruction {
    Instruction {
        mnemonic,
        mode,
        suffix,
        operand,
    }
}

impl Instruction {
    // The numbers of mnemonic, mode and suffix on a tape.
    pub fn numbers(&self) -> [u8; 3] {
        let mode = match self.mode {
            Implied => 0,
            Immediate => 1,
            AbsoluteOrZp => 2,
            Indirect => 3,
            OuterIndirect => 4,
        };
        let suffix = self.suffix.map_or(0, |register| register as u8 + 1);
        [self.mnemonic as u8, mode, suffix]
    }
}

// Instructions in any order.
pub fn instructions() -> Vec<Instruction> {
    let mut source = Random::new(SEED);
    let any = |_| INSTRUCTIONS[source.between(0, INSTRUCTIONS.len() as i64 - 1) as usize];
    (0..CALLS).map(any).collect()
}

// Any operators on numbers for which all of them are defined.
pub fn operations() -> Vec<Operation> {
    let mut source = Random::new(SEED);
    let any = |_| Operation {
        op: OPERATORS[source.between(0, 15) as usize],
        lhs: source.between(-1_000_000, 1_000_000),
        rhs: source.between(0, 63),
    };
    (0..CALLS).map(any).collect()
}

// The names of nodes below the root.
pub fn ids() -> Vec<u16> {
    (1..=INSERTS as u16).collect()
}

// The nodes of a table with labels in scopes inside each other, in the order of their numbers.
pub fn nodes() -> Vec<Place> {
    let mut nodes = vec![];
    let mut level = vec![0];
    for (first, count) in LEVELS {
        let mut next = vec![];
        for above in level {
            for id in first..first + count {
                nodes.push(Place { above, id });
                next.push(nodes.len() as u16);
            }
        }
        level = next;
    }
    nodes
}

// Any labels of that table by their paths from the root, in any of the innermost scopes.
pub fn queries() -> Vec<Query> {
    let mut source = Random::new(SEED);
    let any = |_| Query {
        nx: source.between(FIRST_SCOPE, LAST_SCOPE) as u16,
        path: LEVELS.map(|(first, count)| {
            let last = first + count - 1;
            source.between(first.into(), last.into()) as u16
        }),
    };
    (0..CALLS).map(any).collect()
}

// Entries of as many bytes as an instruction has, one behind the other.
pub fn entries() -> Vec<Entry> {
    let len = BYTES.len() as u32;
    let entry = |i| Entry {
        scope: i % 1_024,
        pc: START as u32 + len * i,
        len,
    };
    (0..CALLS as u32).map(entry).collect()
}

// Any addresses of those.
pub fn addresses() -> Vec<u32> {
    let mut source = Random::new(SEED);
    let last = START + BYTES.len() * CALLS - 1;
    let any = |_| source.between(START as i64, last as i64) as u32;
    (0..CALLS).map(any).collect()
}
