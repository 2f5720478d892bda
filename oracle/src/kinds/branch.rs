//! The operand byte of a branch.
//!
//! This kind compares with exact arithmetic and not with mos: the Rust's own code for branches
//! stands in codegen/mod.rs, which cannot be compiled here. The answers are document 01's formula
//! in i128, where nothing overflows. `assemblers` compares the same program with ca65 and 64tass.
//! A question is the branch's place and its target, an i64 each.

use super::{hex, number_at, Answerer, Kind};
use crate::random::Random;
use crate::refusal::or_refused;
use std::collections::BTreeSet;

#[rustfmt::skip]
const EDGES: [i64; 30] = [
    i64::MIN, i64::MIN + 1, i64::MIN + 2, i64::MIN + 128, -32769, -129, -128, -2, -1, 0, 1, 2,
    126, 127, 128, 129, 130, 255, 256, 257, 4096, 32767, 65535, 65536, 65537,
    i64::MAX - 129, i64::MAX - 128, i64::MAX - 2, i64::MAX - 1, i64::MAX,
];

// The farthest target from each place.
const FARTHEST: i64 = 140;

// How far the sample's targets are from each edge: round the ends of the reach, and round 0.
const SAMPLE_DISTANCES: [i64; 10] = [-127, -126, -125, 0, 1, 2, 3, 128, 129, 130];

// The place from which the sample has every target, and so every operand byte.
const SAMPLE_PLACE: i64 = 4096;

// Random questions, near ones and far ones.
const RANDOM: usize = 4_000;
const SAMPLE_RANDOM: usize = 20;
const SEED: u64 = 6502;

// Questions, each a place and a target, none twice.
type Questions = BTreeSet<(i64, i64)>;

// What the driver knows of this kind.
pub fn kind() -> Kind {
    Kind {
        name: "branch",
        width: 16,
        ask,
        sample,
        answerer,
    }
}

// From every edge to all targets near it and to every edge, then random ones.
fn ask() -> Vec<u8> {
    let mut questions = Questions::new();
    near(&mut questions, &EDGES, -FARTHEST..=FARTHEST);
    between_edges(&mut questions);
    random(&mut questions, RANDOM);
    written(questions)
}

// From every edge to few targets near it and to every edge, from one place to all near it, and few
// random ones.
fn sample() -> Vec<u8> {
    let mut questions = Questions::new();
    near(&mut questions, &EDGES, SAMPLE_DISTANCES);
    near(&mut questions, &[SAMPLE_PLACE], -FARTHEST..=FARTHEST);
    between_edges(&mut questions);
    random(&mut questions, SAMPLE_RANDOM);
    written(questions)
}

// Every place with the targets at these distances from it, where they are an i64.
fn near(questions: &mut Questions, places: &[i64], distances: impl IntoIterator<Item = i64>) {
    for distance in distances {
        for place in places {
            let target = place.checked_add(distance);
            questions.extend(target.map(|target| (*place, target)));
        }
    }
}

// Every edge with every edge.
fn between_edges(questions: &mut Questions) {
    for place in EDGES {
        for target in EDGES {
            questions.insert((place, target));
        }
    }
}

// So many random questions: half to a target near the place, half between any two numbers.
fn random(questions: &mut Questions, count: usize) {
    let mut source = Random::new(SEED);
    for _ in 0..count / 2 {
        let place = source.next() as i64;
        let target = place.saturating_add(source.between(-FARTHEST, FARTHEST));
        questions.insert((place, target));
        questions.insert((source.next() as i64, source.next() as i64));
    }
}

// The questions one behind the other.
fn written(questions: Questions) -> Vec<u8> {
    let mut out = vec![];
    for (place, target) in questions {
        out.extend(place.to_le_bytes());
        out.extend(target.to_le_bytes());
    }
    out
}

// Nothing is kept from one question to the next.
fn answerer() -> Answerer {
    Box::new(answer)
}

// Document 01: "target - (place + 2), exact, and must lie in -128..127".
fn answer(question: &[u8]) -> String {
    let place = i128::from(number_at(question, 0) as i64);
    let target = i128::from(number_at(question, 8) as i64);
    let offset = i8::try_from(target - (place + 2));
    or_refused(offset.ok().map(|offset| hex(&[offset as u8])))
}
