//! Stands in for codegen/mod.rs: its list of modules, and its symbol types as far as the modules
//! use them. The rest of that file needs the parser.

#[path = "../mos/mos-core/src/codegen/evaluator.rs"]
pub mod evaluator;
#[path = "../mos/mos-core/src/codegen/opcodes.rs"]
pub mod opcodes;
#[path = "../mos/mos-core/src/codegen/program_counter.rs"]
pub mod program_counter;
#[path = "../mos/mos-core/src/codegen/segment.rs"]
pub mod segment;
#[path = "../mos/mos-core/src/codegen/source_map.rs"]
pub mod source_map;
#[path = "../mos/mos-core/src/codegen/symbols.rs"]
pub mod symbols;
#[path = "../mos/mos-core/src/codegen/text_encoding.rs"]
pub mod text_encoding;

pub use evaluator::*;
pub use program_counter::*;
pub use segment::*;
pub use source_map::*;
pub use symbols::*;

use crate::parser::code_map::Span;
use crate::parser::Identifier;

/// What a symbol holds.
#[derive(Clone, Debug, PartialEq)]
pub enum SymbolData {
    MacroDefinition(MacroDefinition),
    Number(i64),
    Placeholder,
    String(String),
}

/// A macro; nothing here makes one.
#[derive(Clone, Debug, PartialEq)]
pub struct MacroDefinition;

impl From<i64> for SymbolData {
    fn from(val: i64) -> Self {
        Self::Number(val)
    }
}

impl From<bool> for SymbolData {
    fn from(val: bool) -> Self {
        Self::Number(if val { 1 } else { 0 })
    }
}

impl From<String> for SymbolData {
    fn from(val: String) -> Self {
        Self::String(val)
    }
}

impl SymbolData {
    // The number, if it is one.
    pub fn try_as_i64(&self) -> Option<i64> {
        match &self {
            SymbolData::Number(val) => Some(*val),
            _ => None,
        }
    }

    // The text of a number or a string.
    pub fn try_as_string(&self) -> Option<String> {
        match &self {
            SymbolData::Number(val) => Some(val.to_string()),
            SymbolData::String(val) => Some(val.clone()),
            _ => None,
        }
    }
}

/// What a symbol is.
#[derive(Clone, Debug, PartialEq, Eq, Hash)]
pub enum SymbolType {
    Label,
    TestCase,
    MacroArgument,
    Constant,
    Variable,
}

/// What a node of the symbol table holds.
#[derive(Clone, Debug, PartialEq)]
pub struct Symbol {
    pub pass_idx: usize,
    pub span: Option<Span>,
    pub segment: Option<Identifier>,
    pub data: SymbolData,
    pub ty: SymbolType,
}
