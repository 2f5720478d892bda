//! Stands in for parser/ast.rs and parser/mnemonic.rs: the types that the compiled files name, with
//! the fields they read. Spaces, comments and brackets of the source text are left out.

#[path = "../mos/mos-core/src/parser/code_map.rs"]
pub mod code_map;
#[path = "identifier.rs"]
mod identifier;

pub use identifier::{Identifier, IdentifierPath};

use code_map::Span;
use std::fmt::{Display, Formatter, Result};

/// A piece of the tree, with its place in the source text.
#[derive(Clone, Debug)]
pub struct Located<T> {
    pub span: Span,
    pub data: T,
}

impl<T: Display> Display for Located<T> {
    fn fmt(&self, f: &mut Formatter) -> Result {
        write!(f, "{}", self.data)
    }
}

/// A factor, or two expressions with an operation between them.
#[derive(Clone, Debug)]
pub enum Expression {
    BinaryExpression(BinaryExpression),
    Factor {
        factor: Box<Located<ExpressionFactor>>,
        flags: ExpressionFactorFlags,
    },
}

#[derive(Clone, Debug)]
pub struct BinaryExpression {
    pub op: Located<BinaryOp>,
    pub lhs: Box<Located<Expression>>,
    pub rhs: Box<Located<Expression>>,
}

#[derive(Clone, Copy, Debug, PartialEq, Eq)]
pub enum BinaryOp {
    Add,
    Sub,
    Mul,
    Div,
    Mod,
    Shl,
    Shr,
    Xor,
    Eq,
    Ne,
    Gt,
    GtEq,
    Lt,
    LtEq,
    And,
    Or,
}

// Used in the text of an error only.
impl Display for BinaryOp {
    fn fmt(&self, f: &mut Formatter) -> Result {
        write!(f, "{:?}", self)
    }
}

/// The signs before a factor, as a set of bits.
#[derive(Clone, Copy, Debug, PartialEq, Eq)]
pub struct ExpressionFactorFlags(u8);

impl ExpressionFactorFlags {
    pub const EMPTY: Self = Self(0);
    pub const NOT: Self = Self(1);
    pub const NEG: Self = Self(2);
    pub const BOTH: Self = Self(3);

    // Whether all bits of the other are in this set.
    pub fn contains(self, other: Self) -> bool {
        self.0 & other.0 == other.0
    }
}

#[derive(Clone, Debug)]
pub enum ExpressionFactor {
    CurrentProgramCounter(Located<char>),
    ExprParens {
        inner: Box<Located<Expression>>,
    },
    FunctionCall {
        name: Located<Identifier>,
        args: Vec<ArgItem<Expression>>,
    },
    IdentifierValue {
        path: Located<IdentifierPath>,
        modifier: Option<Located<AddressModifier>>,
    },
    InterpolatedString(InterpolatedString),
    Number {
        value: Located<Number>,
    },
}

/// An argument, and the comma behind it.
pub type ArgItem<T> = (Located<T>, Option<Located<char>>);

#[derive(Clone, Copy, Debug, PartialEq, Eq)]
pub enum AddressModifier {
    HighByte,
    LowByte,
}

/// A number that was read.
#[derive(Clone, Debug)]
pub struct Number(pub i64);

impl Number {
    // Its value.
    pub fn value(&self) -> i64 {
        self.0
    }
}

/// A string with names in it.
#[derive(Clone, Debug)]
pub struct InterpolatedString {
    pub items: Vec<InterpolatedStringItem>,
}

#[derive(Clone, Debug)]
pub enum InterpolatedStringItem {
    String(Located<String>),
    IdentifierPath(Located<IdentifierPath>),
}

// Used in the text of an error only.
impl Display for InterpolatedString {
    fn fmt(&self, f: &mut Formatter) -> Result {
        write!(f, "{:?}", self.items)
    }
}

#[derive(Clone, Copy, Debug, PartialEq, Eq)]
pub enum TextEncoding {
    Ascii,
    Petscii,
    Petscreen,
    Unspecified,
}

#[derive(Clone, Copy, Debug, PartialEq, Eq)]
pub enum AddressingMode {
    AbsoluteOrZp,
    Immediate,
    Implied,
    Indirect,
    OuterIndirect,
}

#[derive(Clone, Copy, Debug, PartialEq, Eq)]
pub enum IndexRegister {
    X,
    Y,
}

#[rustfmt::skip]
#[derive(Clone, Copy, Debug, PartialEq, Eq)]
pub enum Mnemonic {
    Adc, And, Asl, Bcc, Bcs, Beq, Bit, Bmi, Bne, Bpl, Brk, Bvc, Bvs, Clc,
    Cld, Cli, Clv, Cmp, Cpx, Cpy, Dec, Dex, Dey, Eor, Inc, Inx, Iny, Jmp,
    Jsr, Lda, Ldx, Ldy, Lsr, Nop, Ora, Pha, Php, Pla, Plp, Rol, Ror, Rti,
    Rts, Sbc, Sec, Sed, Sei, Sta, Stx, Sty, Tax, Tay, Tsx, Txa, Txs, Tya,
}
