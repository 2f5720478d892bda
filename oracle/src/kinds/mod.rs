//! The kinds of question: one for each module of mos that is asked, and for its evaluator a second,
//! expressions; and decode, branch, form, build, check and listing, which the port adds.

mod branch;
pub(crate) mod build;
mod check;
mod decode;
mod evaluator;
pub(crate) mod expressions;
pub(crate) mod form;
mod listing;
pub(crate) mod opcodes;
mod program_counter;
mod segment;
mod source_map;
mod symbols;
mod text_encoding;

use crate::random::Random;

/// Answers one question with the text of a line. It may keep what earlier questions left behind.
pub type Answerer = Box<dyn FnMut(&[u8]) -> String>;

/// A kind of question.
pub struct Kind {
    pub name: &'static str,
    /// The bytes of one question.
    pub width: usize,
    /// All questions, one behind the other.
    pub ask: fn() -> Vec<u8>,
    /// The questions that are stored.
    pub sample: fn() -> Vec<u8>,
    /// Begins to answer.
    pub answerer: fn() -> Answerer,
}

// Every kind.
pub fn all() -> Vec<Kind> {
    vec![
        opcodes::kind(),
        decode::kind(),
        branch::kind(),
        evaluator::kind(),
        program_counter::kind(),
        segment::kind(),
        source_map::kind(),
        symbols::kind(),
        expressions::kind(),
        form::kind(),
        build::kind(),
        check::kind(),
        listing::kind(),
        text_encoding::kind(),
    ]
}

// So many tapes for the storm, each behind its length and its initial place.
pub fn tapes(count: usize) -> Vec<u8> {
    build::scripts::storm::framed(count)
}

// Every short tape of sound form, in the same way.
pub fn short_tapes() -> Vec<u8> {
    build::scripts::short::framed()
}

// The little-endian number in the eight bytes from an offset on.
fn number_at(question: &[u8], offset: usize) -> u64 {
    u64::from_le_bytes(question[offset..offset + 8].try_into().unwrap())
}

// The little-endian number in the four bytes from an offset on.
fn short_at(question: &[u8], offset: usize) -> u32 {
    u32::from_le_bytes(question[offset..offset + 4].try_into().unwrap())
}

// Bytes as capital hexadecimal digits, with a space between two bytes.
pub(crate) fn hex(bytes: &[u8]) -> String {
    let digits: Vec<String> = bytes.iter().map(|byte| format!("{byte:02X}")).collect();
    digits.join(" ")
}

// A random number from low to high, both among them.
pub(crate) fn any(source: &mut Random, low: u32, high: u32) -> u32 {
    source.between(low.into(), high.into()) as u32
}

// A random one of some things.
pub(crate) fn one_of<T: Copy>(source: &mut Random, things: &[T]) -> T {
    things[any(source, 0, things.len() as u32 - 1) as usize]
}
