//! The scripts of questions about expressions: every operator, flag and modifier on edge numbers,
//! every order of refusals, every path in a table, deep and long expressions, and random ones.

use super::super::{any, one_of};
use super::Question::{self, *};
use super::{bytes_of, records::*, Kept, Outcome, PART};
use crate::random::Random;
use crate::refusal::{ARITHMETIC, UNRESOLVED};
use itertools::iproduct;

const ROOT: u16 = 0;

// The operator that stands between deep expressions, for its sides cannot be exchanged.
const SUB: u8 = 1;

#[rustfmt::skip]
const EDGES: [i64; 48] = [
    0, 1, -1, 2, -2, 3, -3, 5, -5, 7, -7, 32, 62, 63, 64, 65, -63, -64, 127, 128, 255, 256, 257,
    -128, -255, -256, -257, 32767, 65535, 65536, (1 << 31) - 1, 1 << 31, -(1 << 31), (1 << 32) - 1,
    1 << 32, -(1 << 32), 3_037_000_499, 3_037_000_500, -3_037_000_500, 1 << 62, -(1 << 62),
    (1 << 62) - 1, i64::MAX - 1, i64::MAX, i64::MIN + 1, i64::MIN, i64::MIN + 255, i64::MIN + 256,
];

const SAMPLE_EDGES: [i64; 6] = [2, -1, -7, 63, 64, i64::MIN];
const SAMPLE_SIGNED: [i64; 6] = [0, 1, -257, 65535, i64::MAX, i64::MIN];

// The nodes of a table, each by its parent, id and number: a name that a later one hides, names
// without a number that hide one further out, and names below names.
const NODES: [(u16, u16, Option<i64>); 8] = [
    (0, 1, Some(10)),
    (1, 2, Some(20)),
    (2, 3, Some(30)),
    (0, 2, Some(40)),
    (4, 3, None),
    (1, 2, None),
    (3, 1, None),
    (4, 1, Some(50)),
];

// The ids of the paths that are asked in it; the last is nowhere.
const IDS: [u16; 5] = [SUPER, 1, 2, 3, 4];

// How many ids a path has at most.
const LONGEST_PATH: usize = 4;

// The scopes from which the sample asks for paths.
const SAMPLE_SCOPES: [u16; 3] = [2, 3, 7];

// How deep the expressions of one form are.
const DEPTHS: [usize; 6] = [1, 2, 3, 32, DEEPEST - 1, DEEPEST];

// As many numbers as an expression of the greatest length holds.
const NUMBERS: usize = 5_958;

// Random tables, and expressions for each.
const RANDOM: usize = 2_400;
const SAMPLE_RANDOM: usize = 50;
const EACH: usize = 10;
const SAMPLE_EACH: usize = 4;

const SEED: u64 = 6502;

// Everything, with all edge numbers.
pub fn ask() -> Vec<u8> {
    let mut script = Script::new();
    script.put_pairs(&EDGES);
    script.put_signs(&EDGES);
    script.put_orders(&leaves());
    script.put_paths(LONGEST_PATH, &[0, 1, 2, 3, 4, 5, 6, 7, 8]);
    script.put_no_scopes();
    script.put_forms(&DEPTHS, &bottoms());
    script.put_longest();
    script.put_random(RANDOM, EACH);
    script.out
}

// The same with few edge numbers, short paths and few random tables.
pub fn sample() -> Vec<u8> {
    let mut script = Script::new();
    script.put_pairs(&SAMPLE_EDGES);
    script.put_signs(&SAMPLE_SIGNED);
    script.put_orders(&leaves()[3..]);
    script.put_paths(2, &SAMPLE_SCOPES);
    script.put_no_scopes();
    script.put_forms(&[DEEPEST], &bottoms()[..1]);
    script.put_random(SAMPLE_RANDOM, SAMPLE_EACH);
    script.out
}

// Sides of an operator: numbers at which some refuse, one that overflows, a name without a number
// and one that is nowhere, in a table where node 1 has the id 1.
fn leaves() -> Vec<Vec<u8>> {
    vec![
        number(6),
        number(-1),
        number(i64::MIN),
        number(64),
        overflowing(),
        name(WHOLE, &[1]),
        nowhere(),
    ]
}

// What stands at the bottom of a deep expression.
fn bottoms() -> Vec<Vec<u8>> {
    vec![number(7), current_place(), number(i64::MIN), nowhere()]
}

// An expression that overflows.
fn overflowing() -> Vec<u8> {
    flagged(NEG, &number(i64::MIN))
}

// A name that no table has in its root.
fn nowhere() -> Vec<u8> {
    name(WHOLE, &[SUPER])
}

// How an expression grows by one level: the number of the level, and what is inside.
type Step = fn(usize, &[u8]) -> Vec<u8>;

// The ways to grow straight: by flags, at the left, at the right, at both by turns, and by all.
const STEPS: [Step; 8] = [
    |_, inner| flagged(NOT, inner),
    |_, inner| flagged(NEG, inner),
    |_, inner| flagged(BOTH, inner),
    |level, inner| flagged(NOT + level as u8 % 3, inner),
    left,
    right,
    |level, inner| {
        if level % 2 == 0 {
            left(level, inner)
        } else {
            right(level, inner)
        }
    },
    |level, inner| match level % 3 {
        0 => left(level, inner),
        1 => right(level, inner),
        _ => flagged(NEG, inner),
    },
];

// An expression with the level's number taken from it.
fn left(level: usize, inner: &[u8]) -> Vec<u8> {
    binary(SUB, inner, &number(level as i64))
}

// An expression taken from the level's number.
fn right(level: usize, inner: &[u8]) -> Vec<u8> {
    binary(SUB, &number(level as i64), inner)
}

// Some expressions as the leaves of one with the least depth.
fn balanced(leaves: &[Vec<u8>]) -> Vec<u8> {
    match leaves {
        [leaf] => leaf.clone(),
        _ => {
            let (left, right) = leaves.split_at(leaves.len() / 2);
            binary(SUB, &balanced(left), &balanced(right))
        }
    }
}

// Every path of one to so many ids.
fn paths(longest: usize) -> Vec<Vec<u16>> {
    let mut all = vec![vec![]];
    let mut last: Vec<Vec<u16>> = all.clone();
    for _ in 0..longest {
        let longer = |path: &Vec<u16>| IDS.map(|id| [&path[..], &[id]].concat());
        last = last.iter().flat_map(longer).collect();
        all.extend(last.clone());
    }
    all.split_off(1)
}

/// An expression that was made, and what it gives.
struct Made {
    bytes: Vec<u8>,
    outcome: Outcome,
}

/// Questions, the table that they leave, and the scope and the place that are asked from.
struct Script {
    out: Vec<u8>,
    kept: Kept,
    source: Random,
    scope: u16,
    place: i64,
    /// The names that a random table draws from.
    names: Vec<u16>,
    /// How often a random choice is made again that leads to a refusal.
    patience: i64,
}

impl Script {
    // No questions.
    fn new() -> Self {
        Self {
            out: vec![],
            kept: Kept::default(),
            source: Random::new(SEED),
            scope: ROOT,
            place: 0,
            names: vec![],
            patience: 0,
        }
    }

    // Adds a question that changes the table.
    fn change(&mut self, question: Question) {
        self.out.extend(bytes_of(question));
        self.kept.answer(question);
    }

    // Begins a new table, seen from its root.
    fn begin(&mut self) {
        self.change(New);
        self.scope = ROOT;
        self.place = 0;
    }

    // Asks for the number of an expression.
    fn put(&mut self, bytes: &[u8]) {
        let (parts, last) = bytes.split_at((bytes.len() - 1) / PART * PART);
        for part in parts.chunks(PART) {
            self.out.extend(bytes_of(More(part)));
        }
        let question = Evaluate(self.scope, self.place, last);
        self.out.extend(bytes_of(question));
    }

    // Every operator between each two of some expressions.
    fn put_operators(&mut self, sides: &[Vec<u8>]) {
        for (operator, left, right) in iproduct!(0..=LAST_OPERATOR, sides, sides) {
            self.put(&binary(operator, left, right));
        }
    }

    // Every operator between each two of some numbers.
    fn put_pairs(&mut self, edges: &[i64]) {
        self.begin();
        let numbers: Vec<Vec<u8>> = edges.iter().map(|edge| number(*edge)).collect();
        self.put_operators(&numbers);
    }

    // Every operator between each two of some expressions, of which some are refused.
    fn put_orders(&mut self, sides: &[Vec<u8>]) {
        self.begin();
        self.change(Insert(ROOT, 1, None));
        self.put_operators(sides);
    }

    // Each of some numbers in every way.
    fn put_signs(&mut self, edges: &[i64]) {
        for edge in edges {
            self.put_signed(*edge);
        }
    }

    // A number, as itself, as the current place and as a name with each modifier, and flags before it.
    fn put_signed(&mut self, edge: i64) {
        self.begin();
        self.place = edge;
        self.change(Insert(ROOT, LAST_ID, Some(edge)));
        self.put_flagged(&number(edge));
        self.put_flagged(&current_place());
        self.put_flagged(&name(WHOLE, &[LAST_ID]));
        self.put_flagged(&name(LOW, &[LAST_ID]));
        self.put_flagged(&name(HIGH, &[LAST_ID]));
    }

    // An expression without flags, with each, and with every two.
    fn put_flagged(&mut self, inner: &[u8]) {
        let with = |inner: &Vec<u8>| [NOT, NEG, BOTH].map(|flags| flagged(flags, inner));
        let none = vec![inner.to_vec()];
        let one: Vec<Vec<u8>> = none.iter().flat_map(with).collect();
        let two: Vec<Vec<u8>> = one.iter().flat_map(with).collect();
        for bytes in [none, one, two].concat() {
            self.put(&bytes);
        }
    }

    // The nodes of the table in which every path is asked.
    fn put_nodes(&mut self) {
        for (parent, id, value) in NODES {
            self.change(Insert(parent, id, value));
        }
    }

    // Every path of up to so many ids, as a name seen from some scopes.
    fn put_paths(&mut self, longest: usize, scopes: &[u16]) {
        self.begin();
        self.put_nodes();
        for (scope, path) in iproduct!(scopes, paths(longest)) {
            self.scope = *scope;
            self.put(&name(WHOLE, &path));
        }
    }

    // Scopes that the last table does not have.
    fn put_no_scopes(&mut self) {
        for scope in [self.kept.nodes, 1_023, 1_024, u16::MAX] {
            self.scope = scope;
            self.put(&number(1));
        }
    }

    // Straight expressions of some depths.
    fn put_forms(&mut self, depths: &[usize], bottoms: &[Vec<u8>]) {
        self.begin();
        self.place = i64::MAX;
        for (depth, step, bottom) in iproduct!(depths, STEPS, bottoms) {
            let grown = |inner: Vec<u8>, level| step(level, &inner);
            self.put(&(1..*depth).fold(bottom.clone(), grown));
        }
    }

    // An expression as long as it may be, and one that is a byte longer.
    fn put_longest(&mut self) {
        self.begin();
        let mut leaves: Vec<Vec<u8>> = (0..NUMBERS as i64).map(number).collect();
        let longest = balanced(&leaves);
        assert_eq!(longest.len(), LONGEST);
        self.put(&longest);
        leaves[0] = name(WHOLE, &[1, 1, 1, 1]);
        let longer = balanced(&leaves);
        assert_eq!(longer.len(), LONGEST + 1);
        self.put(&longer);
    }

    // Random tables, and so many random expressions for each.
    fn put_random(&mut self, tables: usize, each: usize) {
        for i in 0..tables * each {
            if i % each == 0 {
                self.begin();
                self.fill();
            }
            self.put_any();
        }
    }

    // Adds random nodes.
    fn fill(&mut self) {
        let count = self.source.between(2, 5);
        self.names = (0..count).map(|_| any_id(&mut self.source)).collect();
        for _ in 0..self.source.between(2, 14) {
            let parent = self.node();
            let id = one_of(&mut self.source, &self.names);
            let value = match self.source.between(0, 4) {
                0 => None,
                _ => Some(any_number(&mut self.source)),
            };
            self.change(Insert(parent, id, value));
        }
    }

    // A node that is there, mostly one made late.
    fn node(&mut self) -> u16 {
        let last = u32::from(self.kept.nodes) - 1;
        let first = one_of(&mut self.source, &[0, last.saturating_sub(2)]);
        any(&mut self.source, first, last) as u16
    }

    // A random expression, seldom from a scope that is not there.
    fn put_any(&mut self) {
        self.scope = self.node();
        self.place = any_number(&mut self.source);
        self.patience = one_of(&mut self.source, &[0, 1, 9, 9, 9]);
        let made = match self.source.between(0, 9) {
            0..=5 => {
                let records = self.source.between(1, 30);
                self.bushy(records, DEEPEST)
            }
            6 => self.straight(DEEPEST),
            7 => {
                let records = self.source.between(30, 150);
                self.bushy(records, DEEPEST)
            }
            _ => {
                let depth = self.source.between(2, DEEPEST as i64 - 1);
                self.straight(depth as usize)
            }
        };
        if self.source.between(0, 99) == 0 {
            self.scope = self.kept.nodes;
        }
        self.put(&made.bytes);
    }

    // An expression of about so many records and at most so deep.
    fn bushy(&mut self, records: i64, depth: usize) -> Made {
        if records < 2 || depth < 2 {
            return self.leaf();
        }
        if records == 2 || self.source.between(0, 4) == 0 {
            let inner = self.bushy(records - 1, depth - 1);
            return self.signed(inner);
        }
        let at_left = self.source.between(1, records - 2);
        let left = self.bushy(at_left, depth - 1);
        let right = self.bushy(records - 1 - at_left, depth - 1);
        self.joined(left, right)
    }

    // An expression exactly so deep, with little at its sides.
    fn straight(&mut self, depth: usize) -> Made {
        let mut made = self.leaf();
        for level in 1..depth {
            let records = one_of(&mut self.source, &[1, 1, 1, 1, 2, 3, 4]);
            made = match self.source.between(0, 2) {
                0 => self.signed(made),
                1 => {
                    let right = self.bushy(records, level);
                    self.joined(made, right)
                }
                _ => {
                    let left = self.bushy(records, level);
                    self.joined(left, made)
                }
            };
        }
        made
    }

    // A number, the current place or a name; with patience one that has a number.
    fn leaf(&mut self) -> Made {
        let mut made = self.any_leaf();
        for _ in 0..self.patience {
            if made.outcome != Outcome::Refused(UNRESOLVED) {
                break;
            }
            made = self.any_leaf();
        }
        made
    }

    // A number, the current place or a name.
    fn any_leaf(&mut self) -> Made {
        let bytes = match self.source.between(0, 9) {
            0..=3 => number(any_number(&mut self.source)),
            4 => current_place(),
            _ => {
                let path = self.path();
                name(one_of(&mut self.source, &[WHOLE, WHOLE, LOW, HIGH]), &path)
            }
        };
        let outcome = self.kept.outcome(self.scope, self.place, &bytes);
        Made { bytes, outcome }
    }

    // A path from the scope or from one above it, each id mostly one that leads on.
    fn path(&mut self) -> Vec<u16> {
        let parent = |node: &u16| self.kept.parent(*node);
        let chain: Vec<u16> = std::iter::successors(Some(self.scope), parent).collect();
        let mut at = Some(one_of(&mut self.source, &chain));
        let mut path = vec![];
        for _ in 0..one_of(&mut self.source, &[1, 1, 1, 2, 2, 3, LONGEST_PATH]) {
            let id = match self.source.between(0, 6) {
                0 => SUPER,
                _ => self.leading(at),
            };
            at = at.and_then(|node| self.step(node, id));
            path.push(id);
        }
        path
    }

    // Where one id of a path leads.
    fn step(&self, node: u16, id: u16) -> Option<u16> {
        match id {
            SUPER => self.kept.parent(node),
            _ => self.kept.child(node, id),
        }
    }

    // A name, of three tries one that leads on.
    fn leading(&mut self, at: Option<u16>) -> u16 {
        let tries = [0; 3].map(|_| one_of(&mut self.source, &self.names));
        let leads = |id: &&u16| at.is_some_and(|node| self.kept.child(node, **id).is_some());
        *tries.iter().find(leads).unwrap_or(&tries[0])
    }

    // Flags before an expression.
    fn signed(&mut self, inner: Made) -> Made {
        let short = stand_in(inner.outcome);
        let (flags, outcome) = self.chosen(NOT, BOTH, |flags| flagged(flags, &short));
        let bytes = flagged(flags, &inner.bytes);
        Made { bytes, outcome }
    }

    // An operator between two expressions.
    fn joined(&mut self, left: Made, right: Made) -> Made {
        let shorts = [stand_in(left.outcome), stand_in(right.outcome)];
        let make = |operator| binary(operator, &shorts[0], &shorts[1]);
        let (operator, outcome) = self.chosen(0, LAST_OPERATOR, make);
        let bytes = binary(operator, &left.bytes, &right.bytes);
        Made { bytes, outcome }
    }

    // A byte from first to last, with patience one that leads to no overflow, and what it gives.
    fn chosen(&mut self, first: u8, last: u8, make: impl Fn(u8) -> Vec<u8>) -> (u8, Outcome) {
        let mut left = self.patience;
        loop {
            let byte = any(&mut self.source, first.into(), last.into()) as u8;
            let outcome = self.kept.outcome(ROOT, 0, &make(byte));
            if left == 0 || outcome != Outcome::Refused(ARITHMETIC) {
                return (byte, outcome);
            }
            left -= 1;
        }
    }
}

// A short expression that gives the same in the root.
fn stand_in(outcome: Outcome) -> Vec<u8> {
    match outcome {
        Outcome::Is(value) => number(value),
        Outcome::Refused(ARITHMETIC) => overflowing(),
        Outcome::Refused(_) => nowhere(),
    }
}

// An edge, a small number, one of 16 bits, of 32 or of 64.
fn any_number(source: &mut Random) -> i64 {
    match source.between(0, 7) {
        0 | 1 => one_of(source, &EDGES),
        2 => source.between(-9, 9),
        3 => source.between(0, 65),
        4 => source.between(0, 65_535),
        5 => source.between(-300, 300),
        6 => source.next() as i32 as i64,
        _ => source.next() as i64,
    }
}

// Any id of a name, mostly a small one.
fn any_id(source: &mut Random) -> u16 {
    match source.between(0, 4) {
        0 => any(source, 1, LAST_ID.into()) as u16,
        1 => one_of(source, &[255, 256, LAST_ID - 1, LAST_ID]),
        _ => any(source, 1, 9) as u16,
    }
}
