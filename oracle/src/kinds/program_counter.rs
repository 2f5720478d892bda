//! program_counter.rs: places.
//!
//! A question is the number of an operation, a byte, and two u64; the second is 0 where the
//! operation has one side. Only places of 0 to 65,536 are asked, and sums in that range; a
//! difference may lie below it.

use super::{number_at, Answerer, Kind};
use crate::random::Random;
use crate::refusal::{or_refused, tried};
use mos::codegen::ProgramCounter;

const NEW: u8 = 0;
const ADD: u8 = 1;
const SUB: u8 = 2;
const AS_U16: u8 = 3;
const TO_LE_BYTES: u8 = 4;
const AS_I64: u8 = 5;
const AS_EMPTY_RANGE: u8 = 6;
const LAST: u8 = AS_EMPTY_RANGE;

// The greatest place.
const TOP: u64 = 65_536;

const EDGES: [u64; 12] = [
    0, 1, 2, 255, 256, 257, 32767, 32768, 32769, 65534, 65535, TOP,
];

// Random questions of each operation.
const RANDOM: usize = 1_000;
const SAMPLE_RANDOM: usize = 20;
const SEED: u64 = 6502;

// What the driver knows of this kind.
pub fn kind() -> Kind {
    Kind {
        name: "program_counter",
        width: 17,
        ask,
        sample,
        answerer,
    }
}

// Every operation on the edges, then random ones.
fn ask() -> Vec<u8> {
    let mut out = edges();
    random(&mut out, RANDOM);
    out
}

// The same with few random ones.
fn sample() -> Vec<u8> {
    let mut out = edges();
    random(&mut out, SAMPLE_RANDOM);
    out
}

// Every operation on every edge, or pair of edges, that it may be asked.
fn edges() -> Vec<u8> {
    let mut out = vec![];
    for operation in 0..=LAST {
        for a in EDGES {
            for b in EDGES {
                put(&mut out, operation, a, b);
            }
        }
    }
    out
}

// So many random questions of each operation.
fn random(out: &mut Vec<u8>, count: usize) {
    let mut source = Random::new(SEED);
    for operation in 0..=LAST {
        for _ in 0..count {
            let a = place(&mut source, TOP);
            let b = match operation {
                ADD => place(&mut source, TOP - a),
                SUB => place(&mut source, TOP),
                _ => 0,
            };
            put(out, operation, a, b);
        }
    }
}

// A place up to a greatest one.
fn place(source: &mut Random, top: u64) -> u64 {
    source.between(0, top as i64) as u64
}

// Adds one question, unless it is not to be asked.
fn put(out: &mut Vec<u8>, operation: u8, a: u64, b: u64) {
    let asked = match operation {
        ADD => a + b <= TOP,
        SUB => true,
        _ => b == 0,
    };
    if asked {
        out.push(operation);
        out.extend(a.to_le_bytes());
        out.extend(b.to_le_bytes());
    }
}

// Nothing is kept from one question to the next.
fn answerer() -> Answerer {
    Box::new(answer)
}

// The operation's result.
fn answer(question: &[u8]) -> String {
    let a = number_at(question, 1) as usize;
    let b = number_at(question, 9) as usize;
    or_refused(tried(|| apply(question[0], a, b)))
}

// Asks the Rust.
fn apply(operation: u8, a: usize, b: usize) -> String {
    let place = ProgramCounter::new(a);
    match operation {
        NEW => place.as_usize().to_string(),
        ADD => sum(place, b),
        SUB => (place - ProgramCounter::new(b)).as_usize().to_string(),
        AS_U16 => place.as_u16().to_string(),
        TO_LE_BYTES => {
            let [low, high] = place.to_le_bytes();
            format!("{low} {high}")
        }
        AS_I64 => place.as_i64().to_string(),
        AS_EMPTY_RANGE => {
            let range = place.as_empty_range();
            format!("{} {}", range.start, range.end)
        }
        _ => "no such operation".into(),
    }
}

// The sum; the Rust adds a number and a place by two functions, which have to agree.
fn sum(place: ProgramCounter, b: usize) -> String {
    let with_number = (place + b).as_usize();
    let with_place = (place + ProgramCounter::new(b)).as_usize();
    if with_number == with_place {
        with_number.to_string()
    } else {
        format!("{with_number} or {with_place}")
    }
}
