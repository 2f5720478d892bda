//! The same calls of the Rust.

use crate::questions::{Entry, Instruction, Operation, Place, Query, BYTES, START};
use mos::codegen::opcodes::get_opcode_bytes;
use mos::codegen::{Segment, SegmentOptions, SourceMap, SymbolIndex, SymbolTable};
use mos::parser::code_map::{CodeMap, Span};
use mos::parser::{Identifier, IdentifierPath};

// The bytes of an instruction, the first of them lowest.
pub fn encode(instruction: &Instruction) -> u64 {
    let Instruction {
        mnemonic,
        mode,
        suffix,
        operand,
    } = *instruction;
    let bytes = get_opcode_bytes(mnemonic, mode, suffix, operand).unwrap_or_default();
    bytes
        .iter()
        .rev()
        .fold(0, |all, byte| all * 256 + u64::from(*byte))
}

// An operator on two numbers.
pub fn apply_i64(operation: &Operation) -> u64 {
    operation.op.apply_i64(operation.lhs, operation.rhs) as u64
}

// The name that an id stands for.
pub fn name(id: u16) -> Identifier {
    Identifier::new(id.to_string())
}

// Nodes below the root of a new table.
pub fn insert(names: Vec<Identifier>) -> SymbolTable<i64> {
    let mut table = SymbolTable::default();
    for name in names {
        table.insert(table.root, name, None);
    }
    table
}

// The table with these nodes.
pub fn table(nodes: &[Place]) -> SymbolTable<i64> {
    let mut table = SymbolTable::default();
    for place in nodes {
        table.insert(SymbolIndex::new(place.above.into()), name(place.id), None);
    }
    table
}

// A question as the Rust has it.
pub fn asked(query: &Query) -> (SymbolIndex, IdentifierPath) {
    let path = query.path.map(name);
    (
        SymbolIndex::new(query.nx.into()),
        IdentifierPath::new(&path),
    )
}

// The node that a path means in a scope.
pub fn query(table: &SymbolTable<i64>, (nx, path): (SymbolIndex, IdentifierPath)) -> u64 {
    table.query(nx, path).map_or(0, |node| node.index() as u64)
}

// A segment with nothing in it.
pub fn segment() -> Segment {
    Segment::new(SegmentOptions {
        initial_pc: START.into(),
        target_address: START.into(),
        ..SegmentOptions::default()
    })
}

// Writes bytes again and again, one behind the other; the place then.
pub fn emit(segment: &mut Segment, count: usize) -> usize {
    for _ in 0..count {
        segment.emit(&BYTES);
    }
    segment.pc().as_usize()
}

// Some span; one cannot be had without a file.
pub fn some_span() -> Span {
    let text = String::new();
    CodeMap::default().add_file(String::new(), text).span
}

// Adds an entry to a map: 1, for there is always room.
pub fn add(map: &mut SourceMap, span: Span, entry: &Entry) -> u64 {
    let scope = SymbolIndex::new(entry.scope as usize);
    map.add(scope, span, (entry.pc as usize).into(), entry.len as usize);
    1
}

// The scope of the entry that holds an address.
pub fn address_to_offset(map: &SourceMap, pc: u32) -> u64 {
    let found = map.address_to_offset(pc as usize);
    found.map_or(0, |offset| offset.scope.index() as u64)
}
