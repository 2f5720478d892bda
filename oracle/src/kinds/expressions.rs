//! evaluator.rs: the number of an expression as it stands on document 01's tape, names included.
//!
//! A question is the number of an operation, a byte; a node, a u16; a number, an i64; a byte, and
//! twenty bytes. All are 0 where the operation has less. Questions are asked in scripts: `new`
//! begins one, and the table and the bytes of an unfinished expression are kept from question to
//! question, the bytes until the table changes.
//!
//! - 0 new: a table with the root alone.
//! - 1 insert: below the node, a node with the number, or with none if the byte is 0; its id is the
//!   first two of the twenty bytes. The answer is the new node.
//! - 2 more: so many of the twenty bytes, as the byte says, go behind the expression.
//! - 3 evaluate: the same, and then the expression's number, seen from the node, the number being
//!   the current place. The next expression begins with no bytes.
//!
//! An expression's answer is the Rust's: a number, `refused 11 at 0` where it has none, and
//! `refused 10 at 0` where it panics; so the order of refusals is the Rust's as well. The current
//! place is any i64, for a place of the Rust is made from one and read as one. A node without a
//! number is one without data there, or with a placeholder. Not asked of the Rust, but worked out
//! from document 01's text, is `refused 1 at 0`: a scope that is not there, an expression of more
//! than 65,536 bytes. All expressions are sound in form.

pub mod records;
mod scripts;

use super::evaluator::{factor, located, symbol, BINARY as OPERATORS};
use super::symbols::{id_of, index, word_at};
use super::{number_at, Answerer, Kind};
use crate::refusal::{tried, ARGUMENT, ARITHMETIC, UNRESOLVED};
use mos::codegen::{
    EvaluationResult, Evaluator, FunctionMap, ProgramCounter, Symbol, SymbolData, SymbolTable,
};
use mos::parser::{
    AddressModifier, BinaryExpression, Expression, ExpressionFactor, ExpressionFactorFlags,
    IdentifierPath, Located, Number,
};
use records::*;

const NEW: u8 = 0;
const INSERT: u8 = 1;
const MORE: u8 = 2;
const EVALUATE: u8 = 3;

// The bytes of a question, and those of an expression in it.
const WIDTH: usize = 32;
const PART: usize = 20;

/// A question.
#[derive(Clone, Copy)]
enum Question<'a> {
    New,
    Insert(u16, u16, Option<i64>),
    More(&'a [u8]),
    Evaluate(u16, i64, &'a [u8]),
}

use Question::*;

/// What an expression gives: a number, or document 01's number of a refusal.
#[derive(Clone, Copy, PartialEq)]
enum Outcome {
    Is(i64),
    Refused(u8),
}

// What the driver knows of this kind.
pub fn kind() -> Kind {
    Kind {
        name: "expressions",
        width: WIDTH,
        ask: scripts::ask,
        sample: scripts::sample,
        answerer,
    }
}

// The bytes of a question.
fn bytes_of(question: Question) -> Vec<u8> {
    match question {
        New => packed(NEW, 0, 0, 0, &[]),
        Insert(parent, id, value) => {
            let number = value.unwrap_or(0);
            packed(
                INSERT,
                parent,
                number,
                value.is_some().into(),
                &id.to_le_bytes(),
            )
        }
        More(part) => packed(MORE, 0, 0, part.len() as u8, part),
        Evaluate(scope, place, part) => packed(EVALUATE, scope, place, part.len() as u8, part),
    }
}

// The parts of a question, and zero behind them.
fn packed(operation: u8, node: u16, number: i64, byte: u8, rest: &[u8]) -> Vec<u8> {
    let mut out = vec![operation];
    out.extend(node.to_le_bytes());
    out.extend(number.to_le_bytes());
    out.push(byte);
    out.extend(rest);
    out.resize(WIDTH, 0);
    out
}

// The question that bytes are.
fn read(question: &[u8]) -> Question<'_> {
    let node = word_at(question, 1);
    let number = number_at(question, 3) as i64;
    let part = &question[12..12 + PART.min(question[11].into())];
    match question[0] {
        NEW => New,
        INSERT => {
            let value = (question[11] != 0).then_some(number);
            Insert(node, word_at(question, 12), value)
        }
        MORE => More(part),
        _ => Evaluate(node, number, part),
    }
}

// The table and the unfinished expression are kept.
fn answerer() -> Answerer {
    let mut kept = Kept::default();
    Box::new(move |question| kept.answer(read(question)))
}

/// The Rust's table, how many nodes it has, and the bytes of an unfinished expression.
struct Kept {
    table: SymbolTable<Symbol>,
    nodes: u16,
    expression: Vec<u8>,
}

impl Default for Kept {
    // The root alone, and no bytes.
    fn default() -> Self {
        Self {
            table: SymbolTable::default(),
            nodes: 1,
            expression: vec![],
        }
    }
}

impl Kept {
    // The answer's line.
    fn answer(&mut self, question: Question) -> String {
        match question {
            New => {
                *self = Self::default();
                "done".into()
            }
            Insert(parent, id, value) => self.insert(parent, id, value).to_string(),
            More(part) => {
                self.expression.extend(part);
                "done".into()
            }
            Evaluate(scope, place, part) => {
                let mut bytes = std::mem::take(&mut self.expression);
                bytes.extend(part);
                line(self.outcome(scope, place, &bytes))
            }
        }
    }

    // Adds a node to the Rust's table.
    fn insert(&mut self, parent: u16, id: u16, value: Option<i64>) -> usize {
        self.expression.clear();
        let data = match value {
            Some(number) => Some(symbol(number.into())),
            None if self.nodes % 2 == 0 => Some(symbol(SymbolData::Placeholder)),
            None => None,
        };
        self.nodes += 1;
        self.table.insert(index(parent), id_of(id), data).index()
    }

    // What an expression gives, seen from a scope and with a current place.
    fn outcome(&self, scope: u16, place: i64, bytes: &[u8]) -> Outcome {
        if LONGEST < bytes.len() || self.nodes <= scope {
            return Outcome::Refused(ARGUMENT);
        }
        let (tree, behind) = expression_at(bytes, 0);
        assert_eq!(behind, bytes.len(), "bytes behind an expression");
        match tried(|| self.evaluate(scope, place, &tree)) {
            Some(Ok(Some(SymbolData::Number(number)))) => Outcome::Is(number),
            Some(Ok(None)) => Outcome::Refused(UNRESOLVED),
            Some(other) => panic!("no answer of an expression without strings: {other:?}"),
            None => Outcome::Refused(ARITHMETIC),
        }
    }

    // Asks the Rust.
    fn evaluate(
        &self,
        scope: u16,
        place: i64,
        tree: &Located<Expression>,
    ) -> EvaluationResult<Option<SymbolData>> {
        let functions = FunctionMap::new();
        let place = ProgramCounter::from(place);
        let evaluator = Evaluator::new(index(scope), &self.table, &functions, Some(place));
        evaluator.evaluate_expression(tree, false)
    }

    // What the Rust's child says.
    fn child(&self, node: u16, id: u16) -> Option<u16> {
        let child = self.table.child(index(node), &id_of(id));
        child.map(|node| node.index() as u16)
    }

    // What the Rust's parent says.
    fn parent(&self, node: u16) -> Option<u16> {
        let parent = self.table.parent(index(node));
        parent.map(|node| node.index() as u16)
    }
}

// The answer's line of an expression.
fn line(outcome: Outcome) -> String {
    match outcome {
        Outcome::Is(number) => number.to_string(),
        Outcome::Refused(number) => format!("refused {number} at 0"),
    }
}

// The Rust's tree of the expression that begins at an offset, and the offset behind it.
fn expression_at(bytes: &[u8], at: usize) -> (Located<Expression>, usize) {
    match bytes[at] {
        FLAGS => {
            let (inner, behind) = expression_at(bytes, at + 2);
            (with_flags(flags_of(bytes[at + 1]), inner), behind)
        }
        BINARY => {
            let op = located(OPERATORS[bytes[at + 1] as usize]);
            let (lhs, middle) = expression_at(bytes, at + 2);
            let (rhs, behind) = expression_at(bytes, middle);
            let (lhs, rhs) = (Box::new(lhs), Box::new(rhs));
            let both = BinaryExpression { op, lhs, rhs };
            (located(Expression::BinaryExpression(both)), behind)
        }
        _ => {
            let (leaf, behind) = leaf_at(bytes, at);
            (factor(leaf, ExpressionFactorFlags::EMPTY), behind)
        }
    }
}

// The number, current place or name at an offset, and the offset behind it.
fn leaf_at(bytes: &[u8], at: usize) -> (ExpressionFactor, usize) {
    match bytes[at] {
        NUMBER => {
            let value = located(Number(number_at(bytes, at + 1) as i64));
            (ExpressionFactor::Number { value }, at + 9)
        }
        CURRENT_PLACE => (
            ExpressionFactor::CurrentProgramCounter(located('*')),
            at + 1,
        ),
        kind @ NAME_1..=NAME_4 => {
            let count = usize::from(kind - NAME_1) + 1;
            let ids = (0..count).map(|i| id_of(word_at(bytes, at + 2 + 2 * i)));
            let path = located(IdentifierPath::new(&ids.collect::<Vec<_>>()));
            let modifier = modifier_of(bytes[at + 1]).map(located);
            let name = ExpressionFactor::IdentifierValue { path, modifier };
            (name, at + 2 + 2 * count)
        }
        kind => panic!("no expression record has the kind {kind}"),
    }
}

// The Rust's flags before an expression: before a factor without any they are its own, before
// anything else they stand before brackets.
fn with_flags(flags: ExpressionFactorFlags, inner: Located<Expression>) -> Located<Expression> {
    match inner.data {
        Expression::Factor {
            factor: leaf,
            flags: ExpressionFactorFlags::EMPTY,
        } => factor(leaf.data, flags),
        _ => {
            let inner = Box::new(inner);
            factor(ExpressionFactor::ExprParens { inner }, flags)
        }
    }
}

// The Rust's flags.
fn flags_of(byte: u8) -> ExpressionFactorFlags {
    match byte {
        NOT => ExpressionFactorFlags::NOT,
        NEG => ExpressionFactorFlags::NEG,
        BOTH => ExpressionFactorFlags::BOTH,
        _ => panic!("no flags are {byte}"),
    }
}

// The Rust's modifier.
fn modifier_of(byte: u8) -> Option<AddressModifier> {
    match byte {
        WHOLE => None,
        LOW => Some(AddressModifier::LowByte),
        HIGH => Some(AddressModifier::HighByte),
        _ => panic!("no modifier is {byte}"),
    }
}
