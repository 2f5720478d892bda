//! evaluator.rs: the number of an expression.
//!
//! A question is the number of an operation, a byte, and its left and right side, an i64 each.
//! Operations 0 to 15 stand between two numbers; the others have a left side only, and 0 at the
//! right: 16 NOT, 17 NEG, 18 both, 19 and 20 the low and high byte of a name with that number.

use super::{number_at, Answerer, Kind};
use crate::random::Random;
use crate::refusal::{or_refused, tried};
use mos::codegen::{Evaluator, FunctionMap, Symbol, SymbolData, SymbolTable, SymbolType};
use mos::parser::code_map::{CodeMap, Span};
use mos::parser::{
    AddressModifier, BinaryExpression, BinaryOp, Expression, ExpressionFactor,
    ExpressionFactorFlags, Located, Number,
};

#[rustfmt::skip]
pub(super) const BINARY: [BinaryOp; 16] = {
    use BinaryOp::*;
    [Add, Sub, Mul, Div, Mod, Shl, Shr, Xor, Eq, Ne, Gt, GtEq, Lt, LtEq, And, Or]
};

const MUL: u8 = BinaryOp::Mul as u8;
const SHL: u8 = BinaryOp::Shl as u8;
const SHR: u8 = BinaryOp::Shr as u8;
const NOT: u8 = 16;
const NEG: u8 = 17;
const NOT_NEG: u8 = 18;
const LOW_BYTE: u8 = 19;
const HIGH_BYTE: u8 = 20;
const LAST: u8 = HIGH_BYTE;

// The largest number whose square is an i64.
const ROOT: i64 = 3_037_000_499;

#[rustfmt::skip]
const EDGES: [i64; 48] = [
    0, 1, -1, 2, -2, 3, -3, 5, -5, 7, -7, 31, 32, 33, 62, 63, 64, 65, -63, -64,
    127, 128, 255, 256, 257, -128, -255, -256, -257, 32767, 65535, 65536,
    1 << 31, -(1 << 31), (1 << 32) - 1, 1 << 32, -(1 << 32),
    ROOT, ROOT + 1, -ROOT, -ROOT - 1, 1 << 62, -(1 << 62), (1 << 62) - 1,
    i64::MAX - 1, i64::MAX, i64::MIN + 1, i64::MIN,
];

const SAMPLE_EDGES: [i64; 7] = [0, 1, -1, 7, -7, i64::MAX, i64::MIN];
const SAMPLE_SHIFTED: [i64; 6] = [1, -1, -5, 255, i64::MAX, i64::MIN];
const SAMPLE_COUNTS: [i64; 11] = [-64, -1, 0, 1, 8, 62, 63, 64, 65, 1 << 32, i64::MIN];
const SAMPLE_ROOTS: [i64; 6] = [2, 1 << 62, ROOT, ROOT + 1, -ROOT, -ROOT - 1];

// Random questions of each operation.
const RANDOM: usize = 1_200;
const SAMPLE_RANDOM: usize = 20;
const SEED: u64 = 6502;

// What the driver knows of this kind.
pub fn kind() -> Kind {
    Kind {
        name: "evaluator",
        width: 17,
        ask,
        sample,
        answerer,
    }
}

// Every operation on every edge or pair of edges, then random ones.
fn ask() -> Vec<u8> {
    let mut out = vec![];
    every_pair(&mut out, 0..=LAST, &EDGES, &EDGES);
    random(&mut out, RANDOM);
    out
}

// Every operation on few edges; one-sided ones on all, shifts and products on their own edges.
fn sample() -> Vec<u8> {
    let mut out = vec![];
    every_pair(&mut out, 0..=NOT - 1, &SAMPLE_EDGES, &SAMPLE_EDGES);
    every_pair(&mut out, NOT..=LAST, &EDGES, &[]);
    every_pair(&mut out, SHL..=SHR, &SAMPLE_SHIFTED, &SAMPLE_COUNTS);
    every_pair(&mut out, MUL..=MUL, &SAMPLE_ROOTS, &SAMPLE_ROOTS);
    random(&mut out, SAMPLE_RANDOM);
    out
}

// Some operations on all pairs of a left and a right side, or on all left sides.
fn every_pair(
    out: &mut Vec<u8>,
    operations: std::ops::RangeInclusive<u8>,
    left: &[i64],
    right: &[i64],
) {
    for operation in operations {
        let right = if operation < NOT { right } else { &[0] };
        for lhs in left {
            for rhs in right {
                put(out, operation, *lhs, *rhs);
            }
        }
    }
}

// So many random questions of each operation.
fn random(out: &mut Vec<u8>, count: usize) {
    let mut source = Random::new(SEED);
    for operation in 0..=LAST {
        for _ in 0..count {
            let lhs = any_width(&mut source);
            let rhs = match operation {
                SHL | SHR => any_count(&mut source),
                NOT..=LAST => 0,
                _ => any_width(&mut source),
            };
            put(out, operation, lhs, rhs);
        }
    }
}

// A small number, one of 32 bits or one of 64 bits.
fn any_width(source: &mut Random) -> i64 {
    match source.between(0, 3) {
        0 => source.between(-9, 9),
        1 => source.between(-300, 300),
        2 => source.next() as i32 as i64,
        _ => source.next() as i64,
    }
}

// Mostly a number from 0 to 65.
fn any_count(source: &mut Random) -> i64 {
    match source.between(0, 9) {
        0 => any_width(source),
        _ => source.between(0, 65),
    }
}

// Adds one question.
fn put(out: &mut Vec<u8>, operation: u8, lhs: i64, rhs: i64) {
    out.push(operation);
    out.extend(lhs.to_le_bytes());
    out.extend(rhs.to_le_bytes());
}

// Nothing is kept from one question to the next.
fn answerer() -> Answerer {
    Box::new(answer)
}

// The number of the expression that the question stands for.
fn answer(question: &[u8]) -> String {
    let lhs = number_at(question, 1) as i64;
    let rhs = number_at(question, 9) as i64;
    let (table, expression) = match question[0] {
        NOT => (no_symbols(), number(lhs, ExpressionFactorFlags::NOT)),
        NEG => (no_symbols(), number(lhs, ExpressionFactorFlags::NEG)),
        NOT_NEG => (no_symbols(), number(lhs, ExpressionFactorFlags::BOTH)),
        LOW_BYTE => (one_symbol(lhs), name(AddressModifier::LowByte)),
        HIGH_BYTE => (one_symbol(lhs), name(AddressModifier::HighByte)),
        operation => (no_symbols(), binary(BINARY[operation as usize], lhs, rhs)),
    };
    or_refused(tried(|| evaluate(&table, &expression)))
}

// Asks the Rust; an answer that is no number would be a fault of this driver.
fn evaluate(table: &SymbolTable<Symbol>, expression: &Located<Expression>) -> String {
    let functions = FunctionMap::new();
    let evaluator = Evaluator::new(table.root, table, &functions, None);
    match evaluator.evaluate_expression(expression, false) {
        Ok(Some(data)) => data
            .try_as_i64()
            .map_or("no number".into(), |n| n.to_string()),
        Ok(None) => "unresolved".into(),
        Err(error) => error.message,
    }
}

// A table with the root alone.
fn no_symbols() -> SymbolTable<Symbol> {
    SymbolTable::default()
}

// A table in which the name `a` has a number.
fn one_symbol(number: i64) -> SymbolTable<Symbol> {
    let mut table = no_symbols();
    table.insert(table.root, "a", symbol(number.into()));
    table
}

// A symbol with this data.
pub(super) fn symbol(data: SymbolData) -> Symbol {
    Symbol {
        pass_idx: 0,
        span: None,
        segment: None,
        data,
        ty: SymbolType::Constant,
    }
}

// Two numbers with an operation between them.
fn binary(op: BinaryOp, lhs: i64, rhs: i64) -> Located<Expression> {
    located(Expression::BinaryExpression(BinaryExpression {
        op: located(op),
        lhs: Box::new(number(lhs, ExpressionFactorFlags::EMPTY)),
        rhs: Box::new(number(rhs, ExpressionFactorFlags::EMPTY)),
    }))
}

// A number with signs before it.
fn number(value: i64, flags: ExpressionFactorFlags) -> Located<Expression> {
    let value = located(Number(value));
    factor(ExpressionFactor::Number { value }, flags)
}

// The name `a` with a modifier.
fn name(modifier: AddressModifier) -> Located<Expression> {
    let path = located("a".into());
    let modifier = Some(located(modifier));
    factor(
        ExpressionFactor::IdentifierValue { path, modifier },
        ExpressionFactorFlags::EMPTY,
    )
}

// A factor as an expression.
pub(super) fn factor(
    factor: ExpressionFactor,
    flags: ExpressionFactorFlags,
) -> Located<Expression> {
    let factor = Box::new(located(factor));
    located(Expression::Factor { factor, flags })
}

// A piece of the tree at no place in particular.
pub(super) fn located<T>(data: T) -> Located<T> {
    Located {
        span: some_span(),
        data,
    }
}

// The span of an empty file; a span cannot be had without a file.
fn some_span() -> Span {
    CodeMap::default()
        .add_file(String::new(), String::new())
        .span
}
