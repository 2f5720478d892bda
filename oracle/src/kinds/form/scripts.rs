//! The scripts of questions about the form of tapes: every byte at every offset of a tape with all
//! kinds of record, every row, nested expressions and scopes, the longest tapes; and random ones,
//! cut at every offset, with bytes changed, inserted and removed.

use super::super::expressions::records::*;
use super::super::{any, one_of};
use super::Question::{self, *};
use super::{bytes_of, rows, IMPLIED, LAST_MNEMONIC, LAST_MODE, LAST_SUFFIX, PART};
use crate::random::Random;
use itertools::iproduct;
use std::ops::RangeInclusive;

// An offset behind every tape: nothing is changed there.
const NOWHERE: usize = u32::MAX as usize;

// The modes and suffixes, and those behind the last.
const MODES: RangeInclusive<u8> = 0..=LAST_MODE + 1;
const SUFFIXES: RangeInclusive<u8> = 0..=LAST_SUFFIX + 1;

const LDA_IMMEDIATE: [u8; 3] = [29, 1, 0];

// The mnemonics of which the sample has every mode and suffix: ASL, BNE, LDA, and one that is none.
const SAMPLE_MNEMONICS: [u8; 4] = [2, 8, 29, LAST_MNEMONIC + 1];

// The bytes that the sample has at every offset: 0, and those behind the last modifier, flags and
// operator.
const SAMPLE_BYTES: [u8; 4] = [0, HIGH + 1, BOTH + 1, LAST_OPERATOR + 1];

// How deep nested records go: up to the last that is allowed, and beyond.
const DEPTHS: [u32; 5] = [1, 63, 64, 65, 66];
const SAMPLE_DEPTHS: [u32; 3] = [64, 65, 66];

// How many scopes are opened; the last two are as many as a tape holds, with an end record and
// without one.
const SCOPES: [u32; 6] = [1, 2, 1_024, 5_000, 21_845, 21_846];

// Random tapes and expressions; how many bytes are inserted and removed in each; and how often each
// byte is changed.
const RANDOM: usize = 280;
const SAMPLE_RANDOM: usize = 3;
const MOVED: usize = 12;
const SAMPLE_MOVED: usize = 4;
const CHANGED: usize = 2;
const SAMPLE_CHANGED: usize = 1;

const SEED: u64 = 6502;

// Everything.
pub fn ask() -> Vec<u8> {
    let mut script = Script::new(MOVED, CHANGED);
    script.put_empty();
    script.put_firsts(&[]);
    script.put_firsts(&[1, CURRENT_PLACE, CURRENT_PLACE]);
    script.put_firsts(&[1, CURRENT_PLACE, CURRENT_PLACE, END]);
    script.put_bytes(&(0..=u8::MAX).collect::<Vec<_>>());
    script.put_rows(&(0..=LAST_MNEMONIC + 2).collect::<Vec<_>>());
    script.put_nested(&DEPTHS);
    script.put_scopes(&SCOPES);
    script.put_longest();
    script.put_random(RANDOM);
    script.out
}

// A part of it.
pub fn sample() -> Vec<u8> {
    let mut script = Script::new(SAMPLE_MOVED, SAMPLE_CHANGED);
    script.put_empty();
    script.put_firsts(&[1, CURRENT_PLACE, CURRENT_PLACE, END]);
    script.put_bytes(&SAMPLE_BYTES);
    script.put_rows(&SAMPLE_MNEMONICS);
    script.put_nested(&SAMPLE_DEPTHS);
    script.put_scopes(&SCOPES);
    script.put_longest();
    script.put_random(SAMPLE_RANDOM);
    script.out
}

// A tape that has every kind of record.
fn every_kind() -> Vec<u8> {
    let names = [1, 2, 3, 4].map(|count| name(HIGH, &[SUPER, 1, 256, LAST_ID][..count]));
    let sums = binary(
        0,
        &flagged(BOTH, &names[0]),
        &binary(15, &names[1], &current_place()),
    );
    [
        instruction(LDA_IMMEDIATE),
        number(-2),
        open_scope(1),
        label(256),
        constant(LAST_ID),
        sums,
        vec![CLOSE_SCOPE, SET_PLACE],
        names[2].clone(),
        vec![BYTE],
        names[3].clone(),
        vec![WORD, CURRENT_PLACE, SCREEN_BYTE, 0, END],
    ]
    .concat()
}

// An instruction, without its expression.
fn instruction(row: [u8; 3]) -> Vec<u8> {
    [&[INSTRUCTION], &row[..]].concat()
}

// The record that opens a scope.
fn open_scope(id: u16) -> Vec<u8> {
    declaration(OPEN_SCOPE, id)
}

// A label.
fn label(id: u16) -> Vec<u8> {
    declaration(LABEL, id)
}

// A constant, without its expression.
fn constant(id: u16) -> Vec<u8> {
    declaration(CONSTANT, id)
}

// A record that declares an id.
fn declaration(kind: u8, id: u16) -> Vec<u8> {
    [&[kind], &id.to_le_bytes()[..]].concat()
}

// What may stand at the bottom of nested records: whole, of a bad kind, with a bad body, cut short,
// and nothing.
fn bottoms() -> [Vec<u8>; 7] {
    [
        number(1),
        name(WHOLE, &[1, 2, 3, 4]),
        vec![0],
        vec![END],
        vec![FLAGS, BOTH + 1, CURRENT_PLACE],
        vec![NUMBER, 0],
        vec![],
    ]
}

/// How a script asks for an answer: a length, an offset and the byte that stands there.
type Ask = fn(&mut Script, usize, usize, u8);

/// Questions, and the tape that they leave.
struct Script {
    out: Vec<u8>,
    tape: Vec<u8>,
    source: Random,
    rows: Vec<[u8; 3]>,
    /// How many bytes are inserted or removed in a random tape.
    moved: usize,
    /// How often each of its bytes is changed.
    changed: usize,
}

impl Script {
    // No questions.
    fn new(moved: usize, changed: usize) -> Self {
        Self {
            out: vec![],
            tape: vec![],
            source: Random::new(SEED),
            rows: rows().into_iter().collect(),
            moved,
            changed,
        }
    }

    // Adds a question.
    fn put(&mut self, question: Question) {
        self.out.extend(bytes_of(question));
    }

    // Begins a tape.
    fn begin(&mut self) {
        self.put(Begin);
        self.tape.clear();
    }

    // Adds bytes so often to the tape.
    fn append(&mut self, times: u32, part: &[u8]) {
        self.put(Append(times, part));
        self.tape.extend(part.repeat(times as usize));
    }

    // Begins a tape with these bytes.
    fn tell(&mut self, bytes: &[u8]) {
        self.begin();
        for part in bytes.chunks(PART) {
            self.append(1, part);
        }
    }

    // Asks for the form of the tape, cut to a length and with a byte at an offset.
    fn ask_form(&mut self, length: usize, at: usize, byte: u8) {
        self.put(Form(length as u32, at as u32, byte));
    }

    // The same of an expression.
    fn ask_expression(&mut self, length: usize, at: usize, byte: u8) {
        self.put(ExpressionForm(length as u32, at as u32, byte));
    }

    // No bytes.
    fn put_empty(&mut self) {
        self.begin();
        self.ask_form(0, NOWHERE, 0);
        self.ask_expression(0, NOWHERE, 0);
    }

    // Every byte before some others.
    fn put_firsts(&mut self, others: &[u8]) {
        self.tell(&[&[0], others].concat());
        for byte in 0..=u8::MAX {
            self.ask_form(self.tape.len(), 0, byte);
            self.ask_expression(self.tape.len(), 0, byte);
        }
    }

    // Some bytes at every offset of a tape that has all kinds of record.
    fn put_bytes(&mut self, bytes: &[u8]) {
        self.tell(&every_kind());
        for (at, byte) in iproduct!(0..self.tape.len(), bytes) {
            self.ask_form(self.tape.len(), at, *byte);
        }
    }

    // Some mnemonics with every mode and suffix and those behind the last: with nothing behind them,
    // with the end record, and with an operand and the end record.
    fn put_rows(&mut self, mnemonics: &[u8]) {
        for (mnemonic, mode, suffix) in iproduct!(mnemonics, MODES, SUFFIXES) {
            self.begin();
            self.append(1, &instruction([*mnemonic, mode, suffix]));
            self.append(1, &[END, END]);
            self.ask_form(4, NOWHERE, 0);
            self.ask_form(5, NOWHERE, 0);
            self.ask_form(6, 4, CURRENT_PLACE);
        }
    }

    // Expressions nested in flags, at the left and at the right, alone and behind statements.
    fn put_nested(&mut self, depths: &[u32]) {
        let statements = [vec![], vec![WORD], constant(1), instruction(LDA_IMMEDIATE)];
        for (depth, bottom, statement) in iproduct!(depths, bottoms(), statements) {
            self.put_nest(&statement, *depth, &[FLAGS, NOT], &bottom, &[]);
            self.put_nest(&statement, *depth, &[BINARY, 1], &bottom, &[CURRENT_PLACE]);
            self.put_nest(&statement, *depth, &[BINARY, 1, 2], &bottom, &[]);
        }
    }

    // A statement, and in its expression something nested so deep, with the same before it and
    // behind it at each level; without a statement the expression is asked alone.
    fn put_nest(
        &mut self,
        statement: &[u8],
        depth: u32,
        before: &[u8],
        bottom: &[u8],
        behind: &[u8],
    ) {
        self.begin();
        self.append(1, statement);
        self.append(depth - 1, before);
        self.append(1, bottom);
        self.append(depth - 1, behind);
        if statement.is_empty() {
            self.ask_expression(self.tape.len(), NOWHERE, 0);
        } else {
            self.append(1, &[END]);
            self.ask_form(self.tape.len(), NOWHERE, 0);
        }
    }

    // So many scopes: unclosed, all but one closed, all closed, and one closed too often.
    fn put_scopes(&mut self, counts: &[u32]) {
        for count in counts {
            self.put_closed(*count, 0);
            self.put_closed(*count, count - 1);
            self.put_closed(*count, *count);
            self.put_closed(*count, count + 1);
        }
    }

    // So many scopes opened and so many closed, with an end record and without one.
    fn put_closed(&mut self, opened: u32, closed: u32) {
        self.begin();
        self.append(opened, &open_scope(1));
        self.append(closed, &[CLOSE_SCOPE]);
        self.append(1, &[END]);
        self.ask_form(self.tape.len(), NOWHERE, 0);
        self.ask_form(self.tape.len() - 1, NOWHERE, 0);
    }

    // Tapes and expressions as long as they may be, and longer.
    fn put_longest(&mut self) {
        self.begin();
        self.append(16_383, &[BYTE, CURRENT_PLACE, SCREEN_BYTE, 0]);
        self.append(1, &label(1));
        self.append(2, &[END]);
        for length in [LONGEST - 1, LONGEST, LONGEST + 1] {
            self.ask_form(length, NOWHERE, 0);
            self.ask_form(length, LONGEST - 1, CLOSE_SCOPE);
            self.ask_form(length, LONGEST - 1, 0);
            self.ask_form(length, 0, 0);
            self.ask_expression(length, NOWHERE, 0);
            self.ask_expression(length, 0, CURRENT_PLACE);
        }
    }

    // Random sound tapes and expressions, whole and damaged.
    fn put_random(&mut self, count: usize) {
        for _ in 0..count {
            let tape = self.any_tape();
            self.put_damaged(&tape, Script::ask_form);
            let records = self.source.between(1, 14);
            let expression = self.any_expression(records);
            self.put_damaged(&expression, Script::ask_expression);
        }
    }

    // Bytes as they are, cut, changed, and with one more or one less.
    fn put_damaged(&mut self, bytes: &[u8], ask: Ask) {
        self.tell(bytes);
        self.put_cut(ask);
        self.put_changed(ask);
        self.put_moved(bytes, ask);
    }

    // The tape cut to every length, the whole among them.
    fn put_cut(&mut self, ask: Ask) {
        for length in 0..=self.tape.len() {
            ask(self, length, NOWHERE, 0);
        }
    }

    // Each byte of the tape changed, some times.
    fn put_changed(&mut self, ask: Ask) {
        for i in 0..self.tape.len() * self.changed {
            let at = i / self.changed;
            let byte = self.any_damage(self.tape[at]);
            ask(self, self.tape.len(), at, byte);
        }
    }

    // Bytes with one more or one less, some times.
    fn put_moved(&mut self, bytes: &[u8], ask: Ask) {
        for _ in 0..self.moved {
            let moved = self.any_move(bytes);
            self.tell(&moved);
            ask(self, moved.len(), NOWHERE, 0);
        }
    }

    // Bytes with one more or one less.
    fn any_move(&mut self, bytes: &[u8]) -> Vec<u8> {
        let mut moved = bytes.to_vec();
        let at = self.source.between(0, bytes.len() as i64 - 1) as usize;
        if self.source.between(0, 1) == 0 {
            moved.remove(at);
        } else {
            let byte = self.any_damage(bytes[at]);
            moved.insert(at + self.source.between(0, 1) as usize, byte);
        }
        moved
    }

    // A byte in the place of another: near it, a kind of record, or any.
    fn any_damage(&mut self, byte: u8) -> u8 {
        let kinds = [
            NUMBER,
            CURRENT_PLACE,
            NAME_1,
            FLAGS,
            BINARY,
            CLOSE_SCOPE,
            LABEL,
            WORD,
            END,
        ];
        match self.source.between(0, 3) {
            0 => byte.wrapping_add(1),
            1 => byte.wrapping_sub(1),
            2 => one_of(&mut self.source, &kinds),
            _ => self.source.next() as u8,
        }
    }

    // A sound tape: some statements, each scope closed, and the end record.
    fn any_tape(&mut self) -> Vec<u8> {
        let mut tape = vec![];
        let mut open = 0;
        for _ in 0..self.source.between(0, 9) {
            tape.extend(self.any_statement(&mut open));
        }
        tape.extend(vec![CLOSE_SCOPE; open]);
        tape.push(END);
        tape
    }

    // A statement and its expression; how many scopes are open is counted.
    fn any_statement(&mut self, open: &mut usize) -> Vec<u8> {
        let id = self.any_id();
        match self.source.between(0, 9) {
            0..=2 => self.any_instruction(),
            3 => {
                *open += 1;
                open_scope(id)
            }
            4 if *open > 0 => {
                *open -= 1;
                vec![CLOSE_SCOPE]
            }
            4 | 5 => label(id),
            6 => self.with_expression(constant(id)),
            7 => vec![SCREEN_BYTE, id as u8],
            _ => {
                let kind = one_of(&mut self.source, &[SET_PLACE, BYTE, WORD]);
                self.with_expression(vec![kind])
            }
        }
    }

    // An instruction of any row, and its expression.
    fn any_instruction(&mut self) -> Vec<u8> {
        let row = one_of(&mut self.source, &self.rows);
        let record = instruction(row);
        match row[1] {
            IMPLIED => record,
            _ => self.with_expression(record),
        }
    }

    // A record and an expression behind it.
    fn with_expression(&mut self, record: Vec<u8>) -> Vec<u8> {
        let records = one_of(&mut self.source, &[1, 1, 2, 3, 5]);
        [record, self.any_expression(records)].concat()
    }

    // An expression of so many records.
    fn any_expression(&mut self, records: i64) -> Vec<u8> {
        if records < 2 {
            return self.any_leaf();
        }
        if records == 2 || self.source.between(0, 3) == 0 {
            let flags = any(&mut self.source, NOT.into(), BOTH.into()) as u8;
            return flagged(flags, &self.any_expression(records - 1));
        }
        let operator = any(&mut self.source, 0, LAST_OPERATOR.into()) as u8;
        let at_left = self.source.between(1, records - 2);
        let left = self.any_expression(at_left);
        let right = self.any_expression(records - 1 - at_left);
        binary(operator, &left, &right)
    }

    // A number, the current place or a name.
    fn any_leaf(&mut self) -> Vec<u8> {
        match self.source.between(0, 3) {
            0 => number(self.source.next() as i64),
            1 => current_place(),
            _ => {
                let ids = [0; 4].map(|_| self.any_id() - 1);
                let modifier = one_of(&mut self.source, &[WHOLE, LOW, HIGH]);
                let count = self.source.between(1, 4) as usize;
                name(modifier, &ids[..count])
            }
        }
    }

    // Any id of a declaration, mostly a small one.
    fn any_id(&mut self) -> u16 {
        match self.source.between(0, 3) {
            0 => any(&mut self.source, 1, LAST_ID.into()) as u16,
            1 => one_of(&mut self.source, &[255, 256, LAST_ID - 1, LAST_ID]),
            _ => any(&mut self.source, 1, 9) as u16,
        }
    }
}
