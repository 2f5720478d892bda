//! segment.rs: the place where the next byte goes, the bytes, and the range that they cover.
//!
//! A question is the number of an operation, a byte, and two u32, 0 where the operation has none.
//! Questions are asked in scripts: `new` begins one, and the segment is kept from question to
//! question. Only places of 0 to 65,536 are asked.

use super::{any, one_of, short_at, Answerer, Kind};
use crate::random::Random;
use crate::refusal::{or_refused, tried};
use mos::codegen::{Segment, SegmentOptions};

const NEW: u8 = 0;
const RESET: u8 = 1;
const SET_PC: u8 = 2;
const EMIT: u8 = 3;
const PC: u8 = 4;
const TARGET_PC: u8 = 5;
const TARGET_OFFSET: u8 = 6;
const RANGE: u8 = 7;
const RANGE_DATA: u8 = 8;

// The greatest place.
const TOP: u32 = 65_536;

const EDGES: [u32; 9] = [0, 1, 2, 255, 256, 32768, TOP - 2, TOP - 1, TOP];

// Scripts written by hand, each for one rule of the segment.
#[rustfmt::skip]
const WRITTEN: [&[(u8, u32, u32)]; 12] = [
    // nothing emitted
    &[(NEW, 8192, 49152), (PC, 0, 0), (TARGET_PC, 0, 0), (TARGET_OFFSET, 0, 0), (SET_PC, 8200, 0),
      (TARGET_PC, 0, 0), (RESET, 0, 0)],
    // the first emit above the initial place, then one at it
    &[(NEW, 8192, 8192), (SET_PC, 12288, 0), (EMIT, 3, 1), (RANGE_DATA, 0, 0), (SET_PC, 8192, 0),
      (EMIT, 1, 9)],
    // the first emit below the initial place, then one above it
    &[(NEW, 8192, 8192), (SET_PC, 4096, 0), (EMIT, 3, 1), (RANGE_DATA, 0, 0), (SET_PC, 8193, 0),
      (EMIT, 1, 9)],
    // empty emits: the first sets the range, a later one widens it
    &[(NEW, 100, 0), (SET_PC, 200, 0), (EMIT, 0, 0), (RANGE_DATA, 0, 0), (SET_PC, 150, 0),
      (EMIT, 0, 0), (RANGE_DATA, 0, 0), (SET_PC, 300, 0), (EMIT, 0, 0), (RANGE_DATA, 0, 0)],
    // an empty emit at each end of memory
    &[(NEW, 0, 0), (EMIT, 0, 0), (RANGE_DATA, 0, 0), (SET_PC, TOP - 1, 0), (EMIT, 0, 0),
      (RANGE_DATA, 0, 0), (SET_PC, TOP, 0), (EMIT, 0, 0), (PC, 0, 0)],
    // all of memory, twice, and a byte too many
    &[(NEW, 0, TOP), (EMIT, TOP + 1, 5), (RANGE_DATA, 0, 0), (EMIT, TOP, 5), (RANGE_DATA, 0, 0),
      (EMIT, 0, 0), (EMIT, 1, 0), (TARGET_PC, 0, 0), (SET_PC, 0, 0), (EMIT, TOP + 1, 6),
      (EMIT, TOP, 6), (SET_PC, 1, 0), (EMIT, TOP, 7), (EMIT, TOP - 1, 7)],
    // behind the last byte nothing can be emitted
    &[(NEW, TOP, 0), (EMIT, 0, 0), (EMIT, 1, 0), (RANGE_DATA, 0, 0), (TARGET_PC, 0, 0),
      (SET_PC, TOP - 1, 0), (EMIT, 2, 3), (EMIT, 1, 3), (EMIT, 0, 0)],
    // target places below 0 and above 65,536
    &[(NEW, TOP, 0), (TARGET_OFFSET, 0, 0), (SET_PC, 0, 0), (TARGET_PC, 0, 0), (SET_PC, 1, 0),
      (TARGET_PC, 0, 0), (NEW, 0, TOP), (SET_PC, TOP, 0), (TARGET_PC, 0, 0), (NEW, 1, 0),
      (SET_PC, 0, 0), (TARGET_PC, 0, 0)],
    // what a reset forgets: the first emit after it is over zeros
    &[(NEW, 10, 20), (EMIT, 30, 1), (RESET, 0, 0), (RANGE_DATA, 0, 0), (SET_PC, 12, 0),
      (EMIT, 1, 2), (SET_PC, 30, 0), (EMIT, 1, 3), (RANGE_DATA, 0, 0), (TARGET_PC, 0, 0)],
    // what a new segment forgets, where the first emit is refused and the second empty
    &[(NEW, 0, 0), (EMIT, 50, 1), (NEW, TOP, 0), (EMIT, 1, 2), (SET_PC, 5, 0), (EMIT, 0, 3),
      (SET_PC, 45, 0), (EMIT, 1, 4)],
    // a refused emit leaves everything
    &[(NEW, TOP - 6, 0), (EMIT, 7, 1), (EMIT, 6, 1), (RANGE_DATA, 0, 0), (SET_PC, TOP - 3, 0),
      (EMIT, 4, 2), (RANGE_DATA, 0, 0), (EMIT, 3, 2), (RANGE_DATA, 0, 0)],
    // inside the range, over its start, over its end, and across a gap
    &[(NEW, 1000, 2000), (EMIT, 20, 1), (SET_PC, 1005, 0), (EMIT, 4, 2), (RANGE_DATA, 0, 0),
      (SET_PC, 995, 0), (EMIT, 10, 3), (RANGE_DATA, 0, 0), (SET_PC, 1015, 0), (EMIT, 10, 4),
      (RANGE_DATA, 0, 0), (SET_PC, 1040, 0), (EMIT, 2, 5)],
];

// Random scripts.
const RANDOM: usize = 2_000;
const SAMPLE_RANDOM: usize = 40;
const SEED: u64 = 6502;

// What the driver knows of this kind.
pub fn kind() -> Kind {
    Kind {
        name: "segment",
        width: 9,
        ask,
        sample,
        answerer,
    }
}

// The scripts written by hand, then random ones.
fn ask() -> Vec<u8> {
    let mut out = written();
    random(&mut out, RANDOM);
    out
}

// The same with few random ones.
fn sample() -> Vec<u8> {
    let mut out = written();
    random(&mut out, SAMPLE_RANDOM);
    out
}

// The scripts written by hand.
fn written() -> Vec<u8> {
    let mut out = vec![];
    for script in WRITTEN {
        for (operation, a, b) in script {
            put(&mut out, *operation, *a, *b);
        }
        put_end(&mut out);
    }
    out
}

// So many random scripts.
fn random(out: &mut Vec<u8>, count: usize) {
    let mut source = Random::new(SEED);
    for _ in 0..count {
        let near = any_place(&mut source);
        let initial = place(&mut source, near);
        let target = place(&mut source, near);
        put(out, NEW, initial, target);
        for _ in 0..source.between(7, 27) {
            put_random(out, &mut source, near);
        }
        put_end(out);
    }
}

// Adds one random question, or the two of a write up to the end of memory.
fn put_random(out: &mut Vec<u8>, source: &mut Random, near: u32) {
    match source.between(0, 19) {
        0..=6 => {
            let count = any_count(source);
            put(out, EMIT, count, any(source, 0, 255));
        }
        7..=10 => put(out, SET_PC, place(source, near), 0),
        11 => put_to_the_end(out, source),
        12 => put(out, RESET, 0, 0),
        13..=15 => put(out, RANGE_DATA, 0, 0),
        other => put(out, other as u8 - 16 + PC, 0, 0),
    }
}

// Adds an emit that ends at the end of memory, or a byte before it, or would end behind it.
fn put_to_the_end(out: &mut Vec<u8>, source: &mut Random) {
    let room = match source.between(0, 4) {
        0 => any(source, 0, TOP),
        1 => TOP,
        _ => any(source, 0, 40),
    };
    put(out, SET_PC, TOP - room, 0);
    let count = (room + any(source, 0, 2)).saturating_sub(1);
    put(out, EMIT, count, any(source, 0, 255));
}

// How many bytes to emit: none, few, some hundred or, seldom, up to one too many.
fn any_count(source: &mut Random) -> u32 {
    match source.between(0, 39) {
        0..=5 => 0,
        6..=27 => any(source, 1, 12),
        28..=37 => any(source, 13, 400),
        38 => any(source, 0, TOP + 1),
        _ => TOP + 1 - any(source, 0, 2),
    }
}

// An edge or any place.
fn any_place(source: &mut Random) -> u32 {
    match source.between(0, 2) {
        0 => one_of(source, &EDGES),
        _ => any(source, 0, TOP),
    }
}

// Mostly a place near another.
fn place(source: &mut Random, near: u32) -> u32 {
    match source.between(0, 4) {
        0 => any_place(source),
        _ => (near + any(source, 0, 40)).saturating_sub(20).min(TOP),
    }
}

// Adds what every script ends with.
fn put_end(out: &mut Vec<u8>) {
    put(out, RANGE, 0, 0);
    put(out, RANGE_DATA, 0, 0);
}

// Adds one question.
fn put(out: &mut Vec<u8>, operation: u8, a: u32, b: u32) {
    out.push(operation);
    out.extend(a.to_le_bytes());
    out.extend(b.to_le_bytes());
}

// The segment is kept.
fn answerer() -> Answerer {
    let mut segment = begun(0, 0);
    Box::new(move |question| answer(&mut segment, question))
}

// A segment with these two places.
fn begun(initial: u32, target: u32) -> Segment {
    Segment::new(SegmentOptions {
        initial_pc: (initial as usize).into(),
        target_address: (target as usize).into(),
        ..SegmentOptions::default()
    })
}

// The operation's result.
fn answer(segment: &mut Segment, question: &[u8]) -> String {
    let a = short_at(question, 1);
    let b = short_at(question, 5);
    or_refused(tried(|| apply(segment, question[0], a, b)))
}

// Asks the Rust. A target place below 0 is a usize that has gone round: it is read as an i64.
fn apply(segment: &mut Segment, operation: u8, a: u32, b: u32) -> String {
    match operation {
        NEW => {
            *segment = begun(a, b);
            after(segment, true)
        }
        RESET => {
            segment.reset();
            after(segment, true)
        }
        SET_PC => {
            segment.set_pc(a as usize);
            after(segment, true)
        }
        EMIT => {
            let done = segment.emit(&bytes(a, b));
            after(segment, done)
        }
        PC => segment.pc().as_usize().to_string(),
        TARGET_PC => segment.target_pc().as_i64().to_string(),
        TARGET_OFFSET => segment.target_offset().to_string(),
        RANGE => range(segment),
        RANGE_DATA => {
            let data = segment.range_data();
            format!("{} {}", data.len(), checksum(data))
        }
        _ => "no such operation".into(),
    }
}

// Whether it was done, and the place and the range afterwards.
fn after(segment: &Segment, done: bool) -> String {
    let word = if done { "done" } else { "refused" };
    format!("{word} {} {}", segment.pc().as_usize(), range(segment))
}

// The range's start and end.
fn range(segment: &Segment) -> String {
    let range = segment.range();
    format!("{} {}", range.start, range.end)
}

// So many bytes, each 7 above the one before; the seed says where they begin.
fn bytes(count: u32, seed: u32) -> Vec<u8> {
    (seed..seed + count).map(|i| (7 * i) as u8).collect()
}

// A number that depends on every byte and on their order. The divisor is prime.
fn checksum(data: &[u8]) -> u64 {
    let step = |sum: u64, byte: &u8| 257 * (sum % 4_294_967_291) + u64::from(*byte) + 1;
    data.iter().fold(0, step)
}
