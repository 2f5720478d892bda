//! The tapes that are built: cases by hand, full tables, the longest tapes, and random ones with few
//! names and small places, some of them damaged.

pub mod short;
pub mod storm;

use super::super::expressions::records::*;
use super::super::{any, form, one_of};
use super::program::{shared, Path};
use super::Question::{self, *};
use super::{bytes_of, PART, SIZE};
use crate::random::Random;
use itertools::iproduct;

// The mode without an operand, and the mnemonics LDA, NOP and BNE.
const IMPLIED: u8 = 0;
const ABSOLUTE_OR_ZP: u8 = 2;
const LDA: u8 = 29;
const NOP: u8 = 33;
const BNE: u8 = 8;
const BRANCHES: [u8; 8] = [3, 4, 5, 7, BNE, 9, 11, 12];

// How many random tapes there are.
const RANDOM: usize = 200_000;
const SAMPLE_RANDOM: usize = 400;

// One in so many random tapes is a chain of constants, one is damaged, and one stands inside about
// as many scopes as there can be; and one expression has about as many flags as there can be.
const CHAINED: i64 = 10;
const DAMAGED: i64 = 8;
const FILLED: i64 = 250;
const NESTED: i64 = 150;

// How many constants a random chain has at most.
const LONGEST_CHAIN: i64 = 17;

const SEED: u64 = 6502;

// Everything.
pub fn ask() -> Vec<u8> {
    some(RANDOM)
}

// Everything, with so many random tapes.
pub fn some(random: usize) -> Vec<u8> {
    let mut script = Script::new();
    script.put_cases();
    script.put_full();
    script.put_longest();
    script.put_random(random);
    script.out
}

// A part of it.
pub fn sample() -> Vec<u8> {
    let mut script = Script::new();
    script.put_cases();
    script.put_full();
    script.put_random(SAMPLE_RANDOM);
    script.out
}

// Some tapes, each with its initial place.
pub fn these(tapes: &[(usize, Vec<u8>)]) -> Vec<u8> {
    let mut script = Script::new();
    for (initial, tape) in tapes {
        script.tell(*initial, tape);
    }
    script.out
}

// A record that declares an id.
fn declaration(kind: u8, id: u16) -> Vec<u8> {
    [&[kind], &id.to_le_bytes()[..]].concat()
}

// A name of one id.
fn short_name(id: u16) -> Vec<u8> {
    name(WHOLE, &[id])
}

// An instruction of AbsoluteOrZp, without its expression.
fn absolute(mnemonic: u8) -> Vec<u8> {
    vec![INSTRUCTION, mnemonic, ABSOLUTE_OR_ZP, 0]
}

// So many constants, of which each but the first names the one before it.
fn chain(count: u16) -> Vec<u8> {
    let first = [declaration(CONSTANT, 1), number(7)].concat();
    let next = |id| [declaration(CONSTANT, id), short_name(id - 1)].concat();
    [first, (2..=count).flat_map(next).collect(), vec![END]].concat()
}

// A load of a label that stands so many bytes behind it.
fn forward(bytes: usize) -> Vec<u8> {
    let load = [absolute(LDA), short_name(1)].concat();
    let between = vec![INSTRUCTION, NOP, IMPLIED, 0].repeat(bytes);
    [load, between, declaration(LABEL, 1), vec![END]].concat()
}

// A branch to a label that stands so many bytes before it.
fn backward(bytes: usize) -> Vec<u8> {
    let between = vec![SCREEN_BYTE, 0].repeat(bytes);
    let branch = [absolute(BNE), short_name(1)].concat();
    [declaration(LABEL, 1), between, branch, vec![END]].concat()
}

// Set place to a label and so many bytes, and the label behind that.
fn running(bytes: i64) -> Vec<u8> {
    let place = binary(0, &short_name(1), &number(bytes));
    [vec![SET_PLACE], place, declaration(LABEL, 1), vec![END]].concat()
}

/// What a random tape declares or is about to say, in its order.
#[derive(Clone)]
enum Step {
    Open(u16),
    Close,
    Label(u16),
    Constant(u16),
    Other,
}

/// Questions, and where they come from.
struct Script {
    out: Vec<u8>,
    source: Random,
    rows: Vec<[u8; 3]>,
    /// The whole paths of all that a random tape declares, and the scope of the line that is made.
    names: Vec<Path>,
    scope: Path,
}

impl Script {
    // No questions.
    fn new() -> Self {
        Self {
            out: vec![],
            source: Random::new(SEED),
            rows: form::rows().into_iter().collect(),
            names: vec![],
            scope: vec![],
        }
    }

    // Adds a question.
    fn put(&mut self, question: Question) {
        self.out.extend(bytes_of(question));
    }

    // Adds bytes to a tape.
    fn more(&mut self, bytes: &[u8]) {
        for part in bytes.chunks(PART) {
            self.put(More(1, part));
        }
    }

    // Asks for a tape.
    fn tell(&mut self, initial: usize, tape: &[u8]) {
        let last = tape.len().saturating_sub(1) / PART * PART;
        self.more(&tape[..last]);
        self.put(Build(initial as u32, &tape[last..]));
    }

    // Whether something happens that does once in so many times.
    fn once_in(&mut self, times: i64) -> bool {
        self.source.between(1, times) == 1
    }

    // Cases by hand: at the edges of passes, forms, branches, places, names and values.
    fn put_cases(&mut self) {
        self.put_ends();
        self.put_passes();
        self.put_branches();
        self.put_places();
        self.put_names();
        self.put_values();
    }

    // Tapes without statements.
    fn put_ends(&mut self) {
        self.tell(0, &[]);
        self.tell(SIZE + 1, &[]);
        self.tell(SIZE + 1, &[END]);
        for initial in [0, 1, 0x2000, SIZE] {
            self.tell(initial, &[END]);
        }
    }

    // Chains of constants, operands near 256, and places that run on.
    fn put_passes(&mut self) {
        for count in 1..=20 {
            self.tell(0, &chain(count));
        }
        for initial in 240..=260 {
            self.tell(initial, &forward(0));
            self.tell(initial - 7, &forward(7));
        }
        for bytes in [-1, 0, 1, 256, 4_096, 4_400, 5_000] {
            self.tell(0, &running(bytes));
            self.tell(60_000, &running(bytes));
        }
    }

    // Branches as far as they go, and further.
    fn put_branches(&mut self) {
        for bytes in [0, 1, 125, 126, 127, 128, 129] {
            self.tell(0, &backward(bytes));
            self.tell(SIZE - bytes - 2, &backward(bytes));
            self.tell(SIZE - bytes - 1, &backward(bytes));
        }
        for distance in [-127, -126, -1, 0, 1, 129, 130] {
            let target = binary(0, &current_place(), &number(distance));
            self.tell(300, &[absolute(BNE), target, vec![END]].concat());
        }
    }

    // Places and room near the end, by the initial place and by set place.
    fn put_places(&mut self) {
        let moved = [declaration(CONSTANT, 2), current_place()].concat();
        for place in [-1, 0, 65_533, 65_534, 65_535, 65_536, 65_537] {
            let set = [vec![SET_PLACE], number(place), declaration(LABEL, 1)].concat();
            for line in [
                &moved[..],
                &[BYTE, 2],
                &[WORD, 2],
                &[SCREEN_BYTE, 0, SCREEN_BYTE, 1],
            ] {
                self.tell(0, &[&set, line, &[END]].concat());
                self.tell(place.clamp(0, 65_537) as usize, &[line, &[END]].concat());
            }
        }
        let both = [vec![BYTE, 2, SET_PLACE], number(9), vec![BYTE, 2, END]].concat();
        self.tell(3, &both);
        self.tell(30, &both);
    }

    // Names from inside two scopes, 8 and 9, with the labels 1, 2 and 3 in different ones of them.
    fn put_names(&mut self) {
        let paths: [&[u16]; 12] = [
            &[1],
            &[2],
            &[3],
            &[9],
            &[9, 3],
            &[8, 9, 3],
            &[0, 1],
            &[0, 0, 1],
            &[0, 0, 0, 1],
            &[0, 3],
            &[3, 0, 3],
            &[9, 1],
        ];
        for (path, inner, outer, root) in iproduct!(paths, 0..4, 0..4, 0..4) {
            let label = |id| match id {
                0 => vec![],
                _ => declaration(LABEL, id),
            };
            let word = [vec![WORD], name(WHOLE, path)].concat();
            let inside = [
                declaration(OPEN_SCOPE, 9),
                word,
                label(inner),
                vec![CLOSE_SCOPE],
            ]
            .concat();
            let around = [
                declaration(OPEN_SCOPE, 8),
                inside,
                label(outer),
                vec![CLOSE_SCOPE],
            ]
            .concat();
            self.tell(
                0x1234,
                &[around, vec![SCREEN_BYTE, 0xff], label(root), vec![END]].concat(),
            );
        }
    }

    // Low and high bytes of a constant; and two sides of which one is refused or unresolved.
    fn put_values(&mut self) {
        for value in [
            i64::MIN,
            -65_537,
            -257,
            -256,
            -255,
            -1,
            0,
            255,
            256,
            65_535,
            65_536,
        ] {
            let constant = [declaration(CONSTANT, 1), number(value)].concat();
            let modified = |modifier| [vec![WORD], name(modifier, &[1])].concat();
            let words = [WHOLE, LOW, HIGH].map(modified).concat();
            self.tell(0, &[constant, words, vec![END]].concat());
        }
        let refused = flagged(NEG, &number(i64::MIN));
        let sides = [refused, short_name(9), number(64), number(0)];
        for (left, right, operator) in iproduct!(&sides, &sides, 0..=LAST_OPERATOR) {
            self.tell(
                0,
                &[vec![WORD], binary(operator, left, right), vec![END]].concat(),
            );
        }
    }

    // Names up to the last one that there is room for, and beyond: all in one scope, and in scopes
    // inside each other.
    fn put_full(&mut self) {
        for count in [1_022, 1_023, 1_024, 1_025] {
            let labels: Vec<u8> = (1..=count).flat_map(|id| declaration(LABEL, id)).collect();
            self.more(&labels);
            self.tell(0, &[END]);
            self.more(&labels);
            self.tell(0, &[declaration(LABEL, 1), vec![END]].concat());
            self.put_inside(
                count.into(),
                0,
                &[declaration(LABEL, 1), absolute(LDA), short_name(1)].concat(),
            );
        }
    }

    // Bytes inside so many scopes.
    fn put_inside(&mut self, scopes: u32, initial: usize, bytes: &[u8]) {
        self.put(More(scopes, &declaration(OPEN_SCOPE, 1)));
        self.more(bytes);
        self.put(More(scopes, &[CLOSE_SCOPE]));
        self.put(Build(initial as u32, &[END]));
    }

    // Tapes as long as they may be, and one byte longer; an image that is full at the end.
    fn put_longest(&mut self) {
        for (labels, initial) in [
            (1, 0),
            (2, 0),
            (1, SIZE / 2 + 1),
            (1, SIZE / 2 + 2),
            (1, SIZE / 2 + 3),
        ] {
            self.put(More(16_383, &[BYTE, CURRENT_PLACE, SCREEN_BYTE, 0]));
            self.more(&declaration(LABEL, 1));
            self.put(Build(initial as u32, &vec![END; labels]));
        }
    }

    // Random tapes.
    fn put_random(&mut self, count: usize) {
        for _ in 0..count {
            let initial = self.any_initial();
            let mut tape = match self.once_in(CHAINED) {
                true => self.any_chain(),
                false => self.any_tape(),
            };
            if self.once_in(FILLED) {
                let scopes = any(&mut self.source, 1_010, 1_024);
                self.put_inside(scopes, initial, &tape);
                continue;
            }
            tape.push(END);
            if self.once_in(DAMAGED) {
                self.damage(&mut tape);
            }
            self.tell(initial, &tape);
        }
    }

    // An initial place: mostly a small one, or one near the end.
    fn any_initial(&mut self) -> usize {
        let (low, high) = one_of(
            &mut self.source,
            &[
                (0, 0),
                (0, 300),
                (0, 300),
                (230, 256),
                (8_192, 8_192),
                (65_500, 65_537),
            ],
        );
        self.source.between(low, high) as usize
    }

    // A tape with a byte more, less or changed, or cut.
    fn damage(&mut self, tape: &mut Vec<u8>) {
        let at = self.source.between(0, tape.len() as i64 - 1) as usize;
        let byte = match self.source.between(0, 2) {
            0 => tape[at].wrapping_add(1),
            1 => one_of(
                &mut self.source,
                &[NUMBER, CURRENT_PLACE, NAME_1, LABEL, CLOSE_SCOPE, END],
            ),
            _ => self.source.next() as u8,
        };
        match self.source.between(0, 4) {
            0 => tape.insert(at, byte),
            1 => drop(tape.remove(at)),
            2 => tape.truncate(at),
            _ => tape[at] = byte,
        }
    }

    // Constants that name the one before or behind them, and lines that they move; without an end
    // record. The last of the constants most often is a label or a number.
    fn any_chain(&mut self) -> Vec<u8> {
        let count = self.source.between(2, LONGEST_CHAIN) as u16;
        self.names = (1..=count + 1).map(|id| vec![id]).collect();
        self.scope.clear();
        let mut lines: Vec<_> = (1..count).map(|id| self.any_link(id)).collect();
        lines.push([declaration(CONSTANT, count), self.any_leaf()].concat());
        lines.push(declaration(LABEL, count + 1));
        for _ in 0..self.source.between(0, 3) {
            let load = [
                absolute(LDA),
                short_name(any(&mut self.source, 1, 3) as u16),
            ]
            .concat();
            lines.push(load);
        }
        for at in (1..lines.len()).rev() {
            lines.swap(at, self.source.between(0, at as i64) as usize);
        }
        lines.concat()
    }

    // A constant that names the next one, seldom with a number or the current place.
    fn any_link(&mut self, id: u16) -> Vec<u8> {
        let next = short_name(id + 1);
        let tree = match self.source.between(0, 9) {
            0 => binary(0, &next, &number(self.any_number())),
            1 => binary(1, &next, &current_place()),
            _ => next,
        };
        [declaration(CONSTANT, id), tree].concat()
    }

    // A tape without its end record: first what it declares, then every line.
    fn any_tape(&mut self) -> Vec<u8> {
        let steps = self.any_steps();
        let mut tape = vec![];
        self.scope.clear();
        for step in steps {
            tape.extend(self.line(step));
        }
        tape
    }

    // The bytes of a step.
    fn line(&mut self, step: Step) -> Vec<u8> {
        match step {
            Step::Open(id) => {
                self.scope.push(id);
                declaration(OPEN_SCOPE, id)
            }
            Step::Close => {
                self.scope.pop();
                vec![CLOSE_SCOPE]
            }
            Step::Label(id) => declaration(LABEL, id),
            Step::Constant(id) => [declaration(CONSTANT, id), self.any_expression(3)].concat(),
            Step::Other => self.any_plain(),
        }
    }

    // The steps of a tape, with each scope closed.
    fn any_steps(&mut self) -> Vec<Step> {
        self.names.clear();
        let mut steps = vec![];
        let mut scope = vec![];
        for _ in 0..self.source.between(1, 12) {
            steps.push(self.any_step(&mut scope));
        }
        steps.extend(vec![Step::Close; scope.len()]);
        steps
    }

    // A step inside a scope.
    fn any_step(&mut self, scope: &mut Path) -> Step {
        let id = self.any_new_id(scope);
        let path = [&scope[..], &[id]].concat();
        match self.source.between(0, 12) {
            0 => {
                self.names.push(path);
                scope.push(id);
                Step::Open(id)
            }
            1 if scope.pop().is_some() => Step::Close,
            1..=4 => {
                self.names.push(path);
                Step::Label(id)
            }
            5..=6 => {
                self.names.push(path);
                Step::Constant(id)
            }
            _ => Step::Other,
        }
    }

    // An id that is most often not yet in the scope.
    fn any_new_id(&mut self, scope: &[u16]) -> u16 {
        let is_free = |id: &u16| !self.names.contains(&[scope, &[*id]].concat());
        let free = (1..).find(is_free).unwrap_or(1);
        match self.source.between(0, 40) {
            0 => any(&mut self.source, 1, 4) as u16,
            1 => LAST_ID,
            _ => free,
        }
    }

    // A line that is about no name.
    fn any_plain(&mut self) -> Vec<u8> {
        match self.source.between(0, 9) {
            0 => vec![SCREEN_BYTE, self.source.next() as u8],
            1 => [vec![SET_PLACE], self.any_place()].concat(),
            2 => [vec![BYTE], self.any_expression(4)].concat(),
            3 => [vec![WORD], self.any_expression(4)].concat(),
            4 | 5 => {
                let branch = one_of(&mut self.source, &BRANCHES);
                [absolute(branch), self.any_target()].concat()
            }
            6 | 7 => [absolute(LDA), self.any_expression(2)].concat(),
            _ => self.any_instruction(),
        }
    }

    // An instruction of any row, and its expression.
    fn any_instruction(&mut self) -> Vec<u8> {
        let row = one_of(&mut self.source, &self.rows);
        let record = [&[INSTRUCTION], &row[..]].concat();
        match row[1] {
            IMPLIED => record,
            _ => [record, self.any_expression(2)].concat(),
        }
    }

    // Where a set place leads: mostly a small number.
    fn any_place(&mut self) -> Vec<u8> {
        match self.source.between(0, 3) {
            0 => self.any_expression(3),
            1 => binary(0, &current_place(), &number(self.source.between(0, 200))),
            _ => number(self.source.between(0, 300)),
        }
    }

    // Where a branch leads: mostly to a name or to a place nearby.
    fn any_target(&mut self) -> Vec<u8> {
        match self.source.between(0, 5) {
            0 => self.any_expression(3),
            1 => binary(0, &current_place(), &number(self.source.between(-132, 135))),
            _ => self.any_name(),
        }
    }

    // An expression of at most so many records; seldom one that is nested about as deep as may be.
    fn any_expression(&mut self, most: i64) -> Vec<u8> {
        if self.once_in(NESTED) {
            let depth = self.source.between(62, 65) as usize;
            return [[FLAGS, NEG].repeat(depth), self.any_leaf()].concat();
        }
        let records = self.source.between(1, most);
        self.any_tree(records)
    }

    // An expression of so many records.
    fn any_tree(&mut self, records: i64) -> Vec<u8> {
        if records < 2 {
            return self.any_leaf();
        }
        if records == 2 {
            let flags = any(&mut self.source, NOT.into(), BOTH.into()) as u8;
            return flagged(flags, &self.any_leaf());
        }
        let operator = match self.source.between(0, 2) {
            0 => any(&mut self.source, 0, LAST_OPERATOR.into()) as u8,
            _ => any(&mut self.source, 0, 1) as u8,
        };
        let left = self.any_leaf();
        let right = self.any_tree(records - 2);
        binary(operator, &left, &right)
    }

    // A number, the current place or a name.
    fn any_leaf(&mut self) -> Vec<u8> {
        match self.source.between(0, 9) {
            0..=3 => number(self.any_number()),
            4 => current_place(),
            _ => self.any_name(),
        }
    }

    // A number: mostly a small one.
    fn any_number(&mut self) -> i64 {
        match self.source.between(0, 15) {
            0 => one_of(
                &mut self.source,
                &[i64::MIN, i64::MAX, -1, 65_535, 65_536, 65_537],
            ),
            1 => self.source.between(-300, 0),
            2..=4 => self.source.between(253, 258),
            _ => self.source.between(0, 300),
        }
    }

    // A name that the tape most often has, by its whole path, by its last ids or with supers.
    fn any_name(&mut self) -> Vec<u8> {
        let modifier = one_of(&mut self.source, &[WHOLE, WHOLE, WHOLE, WHOLE, LOW, HIGH]);
        if self.names.is_empty() || self.once_in(24) {
            return name(modifier, &self.any_ids());
        }
        let at = self.source.between(0, self.names.len() as i64 - 1) as usize;
        let whole = self.names[at].clone();
        let path = self.any_path(&whole);
        name(modifier, &path[path.len().saturating_sub(4)..])
    }

    // Ids that may be no name.
    fn any_ids(&mut self) -> Path {
        let id = any(&mut self.source, 1, 4) as u16;
        match self.source.between(0, 3) {
            0 => vec![id],
            1 => vec![SUPER, id],
            2 => vec![SUPER],
            _ => vec![1, id],
        }
    }

    // A path to a name from the scope of the line.
    fn any_path(&mut self, whole: &[u16]) -> Path {
        let shared = shared(&self.scope, whole);
        let supers = vec![SUPER; self.scope.len() - shared];
        match self.source.between(0, 7) {
            0 | 1 => whole.to_vec(),
            2 => [&supers, &whole[shared..]].concat(),
            3 => [&[SUPER], &whole[shared..]].concat(),
            _ => whole[shared..].to_vec(),
        }
    }
}
