//! source_map.rs: which scope and span of the source the bytes at a place came from.
//!
//! A question is the number of an operation, a byte, and four u32, 0 where the operation has less.
//! Questions are asked in scripts: `new` begins one, and the map is kept from question to question.
//! Only scopes of 0 to 1,023, places and lengths of 0 to 65,536 and up to 4,096 entries are asked.

use super::{any, one_of, short_at, Answerer, Kind};
use crate::random::Random;
use crate::refusal::{or_refused, tried};
use mos::codegen::{SourceMap, SourceMapOffset, SymbolIndex};
use mos::parser::code_map::{CodeMap, Span};

const NEW: u8 = 0;
const ADD: u8 = 1;
const CLEAR: u8 = 2;
const MOVE_OFFSETS: u8 = 3;
const ADDRESS_TO_OFFSET: u8 = 4;
const LEN: u8 = 5;
const ENTRY: u8 = 6;

// The greatest place and the greatest length.
const TOP: u32 = 65_536;

// The greatest scope.
const LAST_SCOPE: u32 = 1_023;

// The most entries.
const CAPACITY: u32 = 4_096;

// The greatest address, span and entry number.
const MAX: u32 = u32::MAX;

const SCOPES: [u32; 6] = [0, 1, 2, 3, LAST_SCOPE - 1, LAST_SCOPE];
const SPANS: [u32; 6] = [0, 1, TOP - 1, TOP, MAX - 1, MAX];
#[rustfmt::skip]
const EDGES: [u32; 9] = [0, 1, TOP - 1, TOP, TOP + 1, 2 * TOP - 1, 2 * TOP, MAX - 1, MAX];

/// A question: the operation and its numbers.
type Question = (u8, [u32; 4]);

// Scripts written by hand, each for one rule of the map.
#[rustfmt::skip]
const WRITTEN: [&[Question]; 8] = [
    // an empty map
    &[asks(LEN, 0), asks(ENTRY, 0), asks(ENTRY, MAX), asks(ADDRESS_TO_OFFSET, 0),
      asks(ADDRESS_TO_OFFSET, MAX), moves(0, 1, 2), asks(CLEAR, 0), asks(LEN, 0)],
    // one entry, and the addresses round it
    &[adds(1, 7, 10, 3), asks(ADDRESS_TO_OFFSET, 9), asks(ADDRESS_TO_OFFSET, 10),
      asks(ADDRESS_TO_OFFSET, 12), asks(ADDRESS_TO_OFFSET, 13)],
    // an entry of length 0 holds nothing, not even in front of another
    &[adds(1, 7, 10, 0), asks(ADDRESS_TO_OFFSET, 9), asks(ADDRESS_TO_OFFSET, 10),
      asks(ADDRESS_TO_OFFSET, 11), adds(2, 8, 10, 1), asks(ADDRESS_TO_OFFSET, 10),
      adds(3, 9, 0, 0), asks(ADDRESS_TO_OFFSET, 0)],
    // of several the first added one, whether it starts before the others or behind them
    &[adds(1, 7, 10, 4), adds(2, 8, 8, 8), adds(3, 9, 0, 100), adds(4, 9, 10, 4),
      asks(ADDRESS_TO_OFFSET, 7), asks(ADDRESS_TO_OFFSET, 8), asks(ADDRESS_TO_OFFSET, 9),
      asks(ADDRESS_TO_OFFSET, 10), asks(ADDRESS_TO_OFFSET, 13), asks(ADDRESS_TO_OFFSET, 14),
      asks(ADDRESS_TO_OFFSET, 15), asks(ADDRESS_TO_OFFSET, 16), asks(ADDRESS_TO_OFFSET, 100)],
    // the greatest place, length, scope and span
    &[adds(0, 0, TOP, 0), adds(LAST_SCOPE, MAX, TOP, TOP), adds(0, MAX, 0, TOP),
      asks(ADDRESS_TO_OFFSET, 0), asks(ADDRESS_TO_OFFSET, TOP - 1), asks(ADDRESS_TO_OFFSET, TOP),
      asks(ADDRESS_TO_OFFSET, 2 * TOP - 1), asks(ADDRESS_TO_OFFSET, 2 * TOP),
      asks(ADDRESS_TO_OFFSET, MAX)],
    // a move takes every entry of the scope, and a later one those that came to it
    &[adds(5, 1, 10, 2), adds(6, 2, 20, 2), adds(5, 3, 30, 2), moves(5, 6, 4), asks(ENTRY, 0),
      asks(ENTRY, 1), asks(ENTRY, 2), asks(ADDRESS_TO_OFFSET, 30), moves(6, 7, 5), asks(ENTRY, 1)],
    // a move of a scope that is not there, and one to the same scope, which changes the span
    &[adds(5, 1, 10, 2), adds(6, 2, 20, 2), moves(7, 5, 4), moves(5, 5, 8), asks(ENTRY, 0),
      moves(0, LAST_SCOPE, MAX), moves(6, LAST_SCOPE, MAX), moves(LAST_SCOPE, 0, 0)],
    // what a clear forgets
    &[adds(1, 1, 10, 2), adds(2, 2, 20, 2), adds(3, 3, 30, 2), asks(CLEAR, 0), asks(LEN, 0),
      asks(ENTRY, 0), asks(ADDRESS_TO_OFFSET, 20), moves(2, 4, 4), adds(5, 5, 50, 2),
      asks(ADDRESS_TO_OFFSET, 20), asks(ADDRESS_TO_OFFSET, 50)],
];

// Random scripts.
const RANDOM: usize = 1_000;
const SAMPLE_RANDOM: usize = 30;
const SEED: u64 = 6502;

// What the driver knows of this kind.
pub fn kind() -> Kind {
    Kind {
        name: "source_map",
        width: 17,
        ask,
        sample,
        answerer,
    }
}

// The scripts written by hand, a full map, then random scripts.
fn ask() -> Vec<u8> {
    let mut script = written();
    full(&mut script);
    random(&mut script, RANDOM);
    script.out
}

// The scripts written by hand, and few random ones.
fn sample() -> Vec<u8> {
    let mut script = written();
    random(&mut script, SAMPLE_RANDOM);
    script.out
}

/// Questions, and the places and lengths of the entries that the map has behind them.
#[derive(Default)]
struct Script {
    out: Vec<u8>,
    entries: Vec<(u32, u32)>,
}

impl Script {
    // Adds one question.
    fn put(&mut self, (operation, numbers): Question) {
        match operation {
            NEW | CLEAR => self.entries.clear(),
            ADD => self.entries.push((numbers[2], numbers[3])),
            _ => {}
        }
        self.out.push(operation);
        for number in numbers {
            self.out.extend(number.to_le_bytes());
        }
    }

    // Adds what every script ends with: all entries, and one that is not there.
    fn put_end(&mut self) {
        self.put(asks(LEN, 0));
        for index in 0..=self.entries.len() {
            self.put(asks(ENTRY, index as u32));
        }
    }
}

// A question of an operation with one number, or none.
const fn asks(operation: u8, number: u32) -> Question {
    (operation, [number, 0, 0, 0])
}

// An entry to add.
const fn adds(scope: u32, span: u32, pc: u32, len: u32) -> Question {
    (ADD, [scope, span, pc, len])
}

// A move from one scope to another.
const fn moves(from: u32, to: u32, span: u32) -> Question {
    (MOVE_OFFSETS, [from, to, span, 0])
}

// The scripts written by hand.
fn written() -> Script {
    let mut script = Script::default();
    for questions in WRITTEN {
        script.put(asks(NEW, 0));
        for question in questions {
            script.put(*question);
        }
        script.put_end();
    }
    script
}

// A map with as many entries as it holds, and the addresses round some of them.
fn full(script: &mut Script) {
    script.put(asks(NEW, 0));
    for i in 0..CAPACITY {
        script.put(adds(i % (LAST_SCOPE + 1), MAX - i, 16 * i, 17 - i % 3));
    }
    for i in (0..CAPACITY).step_by(63) {
        put_round(script, (16 * i, 17));
    }
    script.put(moves(7, 8, 9));
    script.put(asks(ENTRY, MAX));
    script.put_end();
    script.put(asks(CLEAR, 0));
    script.put_end();
}

// The addresses at, before and behind both ends of an entry.
fn put_round(script: &mut Script, (pc, len): (u32, u32)) {
    for address in [pc.saturating_sub(1), pc, pc + len - 1, pc + len] {
        script.put(asks(ADDRESS_TO_OFFSET, address));
    }
}

// So many random scripts.
fn random(script: &mut Script, count: usize) {
    let mut source = Random::new(SEED);
    for _ in 0..count {
        let near = any(&mut source, 0, TOP);
        script.put(asks(NEW, 0));
        for _ in 0..source.between(18, 48) {
            let question = any_question(&mut source, near, &script.entries);
            script.put(question);
        }
        script.put_end();
    }
}

// One random question.
fn any_question(source: &mut Random, near: u32, entries: &[(u32, u32)]) -> Question {
    match source.between(0, 29) {
        0..=8 => adds(
            scope(source),
            span(source),
            place(source, near),
            length(source),
        ),
        9..=12 => moves(scope(source), scope(source), span(source)),
        13..=25 => asks(ADDRESS_TO_OFFSET, address(source, entries)),
        26 => asks(LEN, 0),
        27 | 28 => asks(ENTRY, index(source, entries)),
        _ if source.between(0, 3) == 0 => asks(CLEAR, 0),
        _ => asks(ADDRESS_TO_OFFSET, place(source, near)),
    }
}

// Mostly one of few scopes.
fn scope(source: &mut Random) -> u32 {
    match source.between(0, 9) {
        0 => any(source, 0, LAST_SCOPE),
        _ => one_of(source, &SCOPES),
    }
}

// An edge or any span.
fn span(source: &mut Random) -> u32 {
    match source.between(0, 3) {
        0 => one_of(source, &SPANS),
        1 => any(source, 0, 999),
        _ => any(source, 0, MAX),
    }
}

// An edge, any place, or mostly one near another.
fn place(source: &mut Random, near: u32) -> u32 {
    match source.between(0, 9) {
        0 => one_of(source, &EDGES[..4]),
        1 => any(source, 0, TOP),
        _ => (near + any(source, 0, 40)).saturating_sub(20).min(TOP),
    }
}

// None, few, some hundred, or any length.
fn length(source: &mut Random) -> u32 {
    match source.between(0, 19) {
        0..=3 => 0,
        4..=13 => any(source, 1, 8),
        14..=17 => any(source, 9, 300),
        18 => any(source, 0, TOP),
        _ => TOP,
    }
}

// Mostly an address at an end of an entry, or beside it.
fn address(source: &mut Random, entries: &[(u32, u32)]) -> u32 {
    let kind = source.between(0, 9);
    if kind == 0 {
        return any(source, 0, MAX);
    }
    if kind == 1 || entries.is_empty() {
        return one_of(source, &EDGES);
    }
    let (pc, len) = one_of(source, entries);
    let end = [pc, pc + len][any(source, 0, 1) as usize];
    (end + any(source, 0, 2)).saturating_sub(1)
}

// Mostly the number of an entry, or the one behind the last.
fn index(source: &mut Random, entries: &[(u32, u32)]) -> u32 {
    match source.between(0, 9) {
        0 => one_of(source, &[CAPACITY - 1, CAPACITY, 1 << 30, MAX]),
        _ => any(source, 0, entries.len() as u32),
    }
}

// The map is kept, and so is the file that every span is a part of.
fn answerer() -> Answerer {
    let mut map = SourceMap::default();
    let file = whole_file();
    Box::new(move |question| answer(&mut map, file, question))
}

// The span of a file in which every start and every length of 16 bits is to be had.
fn whole_file() -> Span {
    let text = " ".repeat(2 * 65_535);
    CodeMap::default().add_file(String::new(), text).span
}

// The span that carries a number: its low half is the start and its high half the length.
fn span_of(file: Span, number: u32) -> Span {
    let start = u64::from(number % TOP);
    file.subspan(start, start + u64::from(number / TOP))
}

// The number that a span carries.
fn number_of(file: Span, span: Span) -> u64 {
    (span.low() - file.low()) + u64::from(TOP) * span.len()
}

// The operation's result.
fn answer(map: &mut SourceMap, file: Span, question: &[u8]) -> String {
    let numbers = [1, 5, 9, 13].map(|offset| short_at(question, offset));
    or_refused(tried(|| apply(map, file, question[0], numbers)))
}

// Asks the Rust.
fn apply(map: &mut SourceMap, file: Span, operation: u8, numbers: [u32; 4]) -> String {
    let [a, b, c, d] = numbers.map(|number| number as usize);
    match operation {
        NEW => *map = SourceMap::default(),
        ADD => map.add(SymbolIndex::new(a), span_of(file, numbers[1]), c.into(), d),
        CLEAR => map.clear(),
        MOVE_OFFSETS => {
            let span = span_of(file, numbers[2]);
            map.move_offsets(SymbolIndex::new(a), SymbolIndex::new(b), span)
        }
        ADDRESS_TO_OFFSET => return found(file, map.address_to_offset(a)),
        LEN => return map.offsets().len().to_string(),
        ENTRY => return entry(file, &map.offsets()[a]),
        _ => return "no such operation".into(),
    }
    "done".into()
}

// An entry, if there is one.
fn found(file: Span, offset: Option<&SourceMapOffset>) -> String {
    offset.map_or("nothing".into(), |offset| entry(file, offset))
}

// Scope, span, place and length.
fn entry(file: Span, offset: &SourceMapOffset) -> String {
    let scope = offset.scope.index();
    let span = number_of(file, offset.span);
    let pc = &offset.pc;
    format!("{scope} {span} {} {}", pc.start, pc.end - pc.start)
}
