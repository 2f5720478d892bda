//! What is handed in: the tapes of `build/scripts.rs`, each with the numbers, start and bytes of its
//! build and of other layouts that fit it, and with these changed; and cases at the limits.

use super::super::build::program::Program;
use super::super::build::walks::{pass, write, Numbers, MOST_PASSES};
use super::super::build::{tapes, SIZE};
use super::super::expressions::records::*;
use super::super::form::{self, Rows};
use super::super::one_of;
use super::reading::{check, Claim};
use super::Question::{self, *};
use super::{bytes_of, line, PART, PART_NUMBERS};
use crate::random::Random;
use std::collections::BTreeSet;

// How many random tapes there are. For the stored ones, one in so many tapes of at most so many bytes
// is looked at.
const RANDOM: usize = 20_000;
const SAMPLE_STEP: usize = 37;
const SAMPLE_LONGEST: usize = 200;

// How often what is handed in with a tape is changed.
const CHANGES: usize = 6;

// What every name has before the first pass, for layouts that a build may not find.
const FIRST: [Option<i64>; 5] = [None, Some(0), Some(255), Some(300), Some(65_536)];

// A number that is in no tape's list.
const ODD: i64 = 987_654_321;

const SEED: u64 = 6510;

// Everything.
pub fn ask() -> Vec<u8> {
    let mut script = Script::new();
    script.put_limits();
    for (initial, tape) in tapes(RANDOM) {
        script.put_tape(initial, &tape);
    }
    script.out
}

// A part of it: of tapes that are answered alike, the first.
pub fn sample() -> Vec<u8> {
    let mut script = Script::new();
    script.put_limits();
    let mut answered = BTreeSet::new();
    for (initial, tape) in tapes(RANDOM).into_iter().step_by(SAMPLE_STEP) {
        if tape.len() <= SAMPLE_LONGEST && answered.insert(script.numbers(initial, &tape)) {
            script.put_tape(initial, &tape);
        }
    }
    script.out
}

// "With no byte written, start is the initial place": what fits a tape that writes nothing.
fn nothing(initial: usize) -> Claim {
    Claim {
        initial,
        numbers: vec![],
        start: initial,
        bytes: vec![],
    }
}

// What as many passes give as there may be, from these numbers on.
fn passed(program: &Program, initial: usize, first: Option<i64>) -> Numbers {
    let mut numbers = vec![first; program.numbers];
    for _ in 0..MOST_PASSES {
        numbers = pass(program, &numbers, initial);
    }
    numbers
}

// What the tape writes with these numbers, or nothing where it is refused with them.
fn layout(program: &Program, initial: usize, numbers: &Numbers) -> Claim {
    let known = numbers.iter().map(|z| z.unwrap_or(0)).collect();
    let written = write(program, numbers, initial).unwrap_or((initial..initial, vec![]));
    let (range, image) = written;
    Claim {
        initial,
        numbers: known,
        start: range.start,
        bytes: image.get(range).unwrap_or_default().to_vec(),
    }
}

/// Questions, and where they come from.
struct Script {
    out: Vec<u8>,
    source: Random,
    rows: Rows,
}

impl Script {
    // No questions.
    fn new() -> Self {
        Self {
            out: vec![],
            source: Random::new(SEED),
            rows: form::rows(),
        }
    }

    // Adds a question.
    fn put(&mut self, question: Question) {
        self.out.extend(bytes_of(question));
    }

    // Begins with a tape.
    fn begin(&mut self, tape: &[u8]) {
        let (first, rest) = tape.split_at(PART.min(tape.len()));
        self.put(Begin(1, first));
        for part in rest.chunks(PART) {
            self.put(More(1, part));
        }
    }

    // Hands in what belongs to the tape.
    fn hand_in(&mut self, claim: &Claim) {
        for part in claim.numbers.chunks(PART_NUMBERS) {
            self.put(Numbers(1, part));
        }
        for part in claim.bytes.chunks(PART) {
            self.put(Bytes(1, part));
        }
        self.put(Check(claim.initial as u32, claim.start as u32));
    }

    // Lengths and places that are just allowed, and beyond; and lists of any length.
    fn put_limits(&mut self) {
        for tape in [&[][..], &[END], &[0]] {
            for (initial, start) in [(0, 0), (SIZE, SIZE), (SIZE + 1, 0), (0, SIZE + 1)] {
                self.begin(tape);
                self.put(Check(initial as u32, start as u32));
            }
            self.put(Check(u32::MAX, 0));
            self.put(Check(0, u32::MAX));
        }
        for length in [SIZE as u32, SIZE as u32 + 1] {
            self.put(Begin(length, &[END]));
            self.put(Check(0, 0));
            self.begin(&[END]);
            self.put(Bytes(length, &[0]));
            self.put(Check(0, 0));
        }
        for tape in [
            &[][..],
            &[END],
            &[LABEL, 1, 0, END],
            &[LABEL, 1, 0, LABEL, 1, 0, END],
        ] {
            for length in [0, 1, 2, 1_023, 1_024, 2_000] {
                self.begin(tape);
                self.put(Numbers(length, &[0]));
                self.put(Check(0, 0));
            }
        }
        self.put_whole();
        self.put_scopes();
    }

    // Bytes at the first and the last place: all of the image is covered, and zero between them.
    fn put_whole(&mut self) {
        let last = [vec![SET_PLACE], number(65_535)].concat();
        self.begin(&[&[SCREEN_BYTE, 0x21][..], &last, &[SCREEN_BYTE, 0x22, END]].concat());
        for between in [0, 1] {
            self.put(Bytes(1, &[0x21]));
            self.put(Bytes(65_533, &[0]));
            self.put(Bytes(1, &[between, 0x22]));
            self.put(Check(0, 0));
        }
    }

    // As many scopes inside each other as there are names, and one more.
    fn put_scopes(&mut self) {
        for scopes in [1_023, 1_024] {
            self.put(Begin(scopes, &[OPEN_SCOPE, 1, 0]));
            self.put(More(scopes, &[CLOSE_SCOPE]));
            self.put(More(1, &[END]));
            self.put(Check(9, 9));
            self.put(Numbers(scopes, &[9]));
            self.put(Check(9, 9));
        }
    }

    // A tape with what fits it, and that changed.
    fn put_tape(&mut self, initial: usize, tape: &[u8]) {
        self.begin(tape);
        let layouts = self.layouts(initial, tape);
        for claim in &layouts {
            self.hand_in(claim);
        }
        for _ in 0..CHANGES {
            let at = self.source.between(0, layouts.len() as i64 - 1) as usize;
            let other = self.source.between(0, layouts.len() as i64 - 1) as usize;
            let mut claim = layouts[at].clone();
            while claim == layouts[at] {
                self.change(&mut claim, &layouts[other]);
            }
            self.hand_in(&claim);
        }
    }

    // What is answered to a tape with each of its layouts, but for the offsets.
    fn numbers(&self, initial: usize, tape: &[u8]) -> Vec<String> {
        let said = |claim: &Claim| line(check(&self.rows, tape, claim));
        let number = |said: String| said.split(" at ").next().unwrap_or_default().into();
        let layouts = self.layouts(initial, tape);
        layouts.iter().map(said).map(number).collect()
    }

    // The build's layout, and others that passes come to from other numbers. With a tape that is
    // refused before, or in its tries, something is handed in nevertheless.
    fn layouts(&self, initial: usize, tape: &[u8]) -> Vec<Claim> {
        let is_sound = initial <= SIZE && form::form(&self.rows, tape).is_ok();
        let program = is_sound.then(|| Program::read(tape).ok()).flatten();
        let Some(program) = program else {
            return vec![nothing(initial)];
        };
        let mut all: Vec<Numbers> = vec![];
        for first in FIRST {
            let numbers = passed(&program, initial, first);
            if !all.contains(&numbers) {
                all.push(numbers);
            }
        }
        let layout = |numbers| layout(&program, initial, numbers);
        all.iter().map(layout).collect()
    }

    // Changes something of what is handed in, or takes another layout's numbers or bytes.
    fn change(&mut self, claim: &mut Claim, other: &Claim) {
        match self.source.between(0, 11) {
            0..=3 => self.change_number(&mut claim.numbers),
            4 => drop(claim.numbers.pop()),
            5 => claim.numbers.push(0),
            6 => claim.start = self.any_near(claim.start),
            7 => self.change_byte(&mut claim.bytes),
            8 => drop(claim.bytes.pop()),
            9 => claim.bytes.push(0),
            10 => claim.initial = self.any_near(claim.initial),
            _ => claim.numbers = other.numbers.clone(),
        }
    }

    // Changes one number of a list, by a little or to anything.
    fn change_number(&mut self, numbers: &mut [i64]) {
        if numbers.is_empty() {
            return;
        }
        let at = self.source.between(0, numbers.len() as i64 - 1) as usize;
        let by = self.source.between(1, 3);
        let near = [numbers[at].wrapping_add(by), numbers[at].wrapping_sub(by)];
        let any = [i64::MIN, i64::MAX, -1, 0, 255, 256, 65_536, ODD];
        numbers[at] = match self.source.between(0, 1) {
            0 => one_of(&mut self.source, &near),
            _ => one_of(&mut self.source, &any),
        };
    }

    // Changes one byte.
    fn change_byte(&mut self, bytes: &mut [u8]) {
        if bytes.is_empty() {
            return;
        }
        let at = self.source.between(0, bytes.len() as i64 - 1) as usize;
        bytes[at] = bytes[at].wrapping_add(self.source.between(1, 255) as u8);
    }

    // A place beside this one, or the first or the last, or none.
    fn any_near(&mut self, place: usize) -> usize {
        let near = [place + 1, place.saturating_sub(1), 0, SIZE, SIZE + 1];
        one_of(&mut self.source, &near)
    }
}
