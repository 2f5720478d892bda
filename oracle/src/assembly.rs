//! Random tapes that ca65 and 64tass understand, too.
//!
//! Left out is what has another meaning there, or none: `/` and `%` stand only between a number or a
//! label and a number above 0, for 64tass rounds down and both refuse a zero divisor; factors and
//! shift counts are small, so that no value leaves an i64; a super stands only where a path begins.
//! Operands, bytes and words outside their range are few.

use crate::kinds::build::program::{shared, Path};
use crate::kinds::expressions::records::*;
use crate::kinds::{any, form, one_of};
use crate::random::Random;
use std::io::{self, BufWriter, Write};

// The operators: plus and minus, those whose right side is a small number, those whose left side is
// not below 0 as well, and those that take any two sides.
const SUMS: [u8; 2] = [0, 1];
const SCALED: [u8; 3] = [2, 5, 6];
const DIVIDED: [u8; 2] = [3, 4];
const ANY_SIDES: [u8; 9] = [7, 8, 9, 10, 11, 12, 13, 14, 15];

// The mode of a branch, and of what has a one-byte and a two-byte form; and the immediate one.
const ABSOLUTE_OR_ZP: u8 = 2;
const IMMEDIATE: u8 = 1;
const IMPLIED: u8 = 0;
const BRANCHES: [u8; 8] = [3, 4, 5, 7, 8, 9, 11, 12];

// LDA, LDX, STA, INC and BIT.
const LOADS: [u8; 5] = [29, 30, 47, 24, 6];

// How many steps a tape has at most, and how deep its scopes go.
const MOST_STEPS: i64 = 14;
const DEEPEST_SCOPE: usize = 3;

// An id that no tape declares.
const UNDECLARED: u16 = 99;

const SEED: u64 = 1975;

// Writes so many tapes, each behind its length as a u32.
pub fn write(count: usize) -> io::Result<()> {
    let mut maker = Maker::new();
    let mut out = BufWriter::new(io::stdout());
    for _ in 0..count {
        let tape = maker.any_tape();
        out.write_all(&(tape.len() as u32).to_le_bytes())?;
        out.write_all(&tape)?;
    }
    out.flush()
}

/// What a name stands for.
#[derive(Clone, Copy, PartialEq)]
enum Sort {
    Scope,
    Label,
    Constant,
}

/// A step of a tape: what it declares or closes, or a line about no name.
#[derive(Clone)]
enum Step {
    Declare(Sort, u16),
    Close,
    Other,
}

/// Makes tapes.
struct Maker {
    source: Random,
    rows: Vec<[u8; 3]>,
    /// The whole paths of all that a tape declares, in its order.
    names: Vec<(Path, Sort)>,
    /// The scope of the line that is made, and how many names are declared before it.
    scope: Path,
    declared: usize,
    /// Whether constants name those further down, and not those further up.
    downward: bool,
}

// A record that declares an id.
fn declaration(sort: Sort, id: u16) -> Vec<u8> {
    let kind = match sort {
        Sort::Scope => OPEN_SCOPE,
        Sort::Label => LABEL,
        Sort::Constant => CONSTANT,
    };
    [&[kind], &id.to_le_bytes()[..]].concat()
}

impl Maker {
    // No tape yet.
    fn new() -> Self {
        Self {
            source: Random::new(SEED),
            rows: form::rows().into_iter().collect(),
            names: vec![],
            scope: vec![],
            declared: 0,
            downward: false,
        }
    }

    // Whether something happens that does once in so many times.
    fn once_in(&mut self, times: i64) -> bool {
        self.source.between(1, times) == 1
    }

    // A tape: first what it declares, then every line.
    fn any_tape(&mut self) -> Vec<u8> {
        let steps = self.any_steps();
        self.scope.clear();
        self.declared = 0;
        self.downward = self.once_in(2);
        let mut tape = vec![];
        for step in steps {
            tape.extend(self.line(step));
        }
        tape.push(END);
        tape
    }

    // The steps of a tape, with each scope closed.
    fn any_steps(&mut self) -> Vec<Step> {
        self.names.clear();
        let mut steps = vec![];
        let mut scope = vec![];
        for _ in 0..self.source.between(1, MOST_STEPS) {
            steps.push(self.any_step(&mut scope));
        }
        steps.extend(vec![Step::Close; scope.len()]);
        steps
    }

    // A step inside a scope.
    fn any_step(&mut self, scope: &mut Path) -> Step {
        match self.source.between(0, 13) {
            0 if scope.len() < DEEPEST_SCOPE => {
                let step = self.any_declaration(scope, Sort::Scope);
                scope.extend(self.names.last().and_then(|(path, _)| path.last()));
                step
            }
            1 if scope.pop().is_some() => Step::Close,
            1..=3 => self.any_declaration(scope, Sort::Label),
            4 | 5 => self.any_declaration(scope, Sort::Constant),
            _ => Step::Other,
        }
    }

    // Declares an id that is most often not yet in the scope.
    fn any_declaration(&mut self, scope: &[u16], sort: Sort) -> Step {
        let path_of = |id: u16| [scope, &[id]].concat();
        let is_free = |id: &u16| self.names.iter().all(|(path, _)| *path != path_of(*id));
        let free = (1..).find(is_free).unwrap_or(1);
        let id = match self.source.between(0, 40) {
            0 => any(&mut self.source, 1, 3) as u16,
            1..=8 => free + 1,
            _ => free,
        };
        self.names.push((path_of(id), sort));
        Step::Declare(sort, id)
    }

    // The bytes of a step.
    fn line(&mut self, step: Step) -> Vec<u8> {
        match step {
            Step::Declare(sort, id) => {
                self.declared += 1;
                if sort == Sort::Scope {
                    self.scope.push(id);
                }
                let value = match sort {
                    Sort::Constant => self.any_constant(),
                    _ => vec![],
                };
                [declaration(sort, id), value].concat()
            }
            Step::Close => {
                self.scope.pop();
                vec![CLOSE_SCOPE]
            }
            Step::Other => self.any_plain(),
        }
    }

    // A line that is about no name.
    fn any_plain(&mut self) -> Vec<u8> {
        match self.source.between(0, 13) {
            0 => vec![SCREEN_BYTE, self.source.next() as u8],
            1 | 2 => [vec![SET_PLACE], self.any_place()].concat(),
            3 => [vec![BYTE], self.any_small()].concat(),
            4 | 5 => [vec![WORD], self.any_tree(4)].concat(),
            6 | 7 => {
                let branch = one_of(&mut self.source, &BRANCHES);
                let target = self.any_target();
                [vec![INSTRUCTION, branch, ABSOLUTE_OR_ZP, 0], target].concat()
            }
            8..=10 => {
                let load = one_of(&mut self.source, &LOADS);
                let operand = self.any_tree(2);
                [vec![INSTRUCTION, load, ABSOLUTE_OR_ZP, 0], operand].concat()
            }
            _ => self.any_instruction(),
        }
    }

    // An instruction of any row, and its expression.
    fn any_instruction(&mut self) -> Vec<u8> {
        let at = self.source.between(0, self.rows.len() as i64 - 1) as usize;
        let row = self.rows[at];
        let operand = match row[1] {
            IMPLIED => vec![],
            IMMEDIATE => self.any_small(),
            _ if BRANCHES.contains(&row[0]) => self.any_target(),
            ABSOLUTE_OR_ZP => self.any_tree(3),
            _ => self.any_small(),
        };
        [vec![INSTRUCTION], row.to_vec(), operand].concat()
    }

    // Where a set place leads: near 256, near the start, near the end, a little further, to a name.
    fn any_place(&mut self) -> Vec<u8> {
        match self.source.between(0, 11) {
            0 => number(self.source.between(0, 300)),
            1 | 2 => number(self.source.between(236, 260)),
            3 => number(self.source.between(0x1f00, 0x2100)),
            4 => number(self.source.between(65_400, 65_535)),
            5 => number(self.source.between(65_533, 65_537)),
            6 => {
                let name = self.any_name(WHOLE);
                binary(SUMS[0], &name, &number(self.source.between(0, 9)))
            }
            7 => self.place_and(0, 9),
            _ => self.place_and(116, 132),
        }
    }

    // The current place and a number.
    fn place_and(&mut self, low: i64, high: i64) -> Vec<u8> {
        binary(
            SUMS[0],
            &current_place(),
            &number(self.source.between(low, high)),
        )
    }

    // The target of a branch: a name, or a place near the limits of its distance.
    fn any_target(&mut self) -> Vec<u8> {
        match self.source.between(0, 9) {
            0 => self.place_and(-129, -124),
            1 => self.place_and(126, 132),
            2 => self.place_and(-20, 20),
            _ => self.any_name(WHOLE),
        }
    }

    // The value of a constant. It names labels, and constants on one side of it alone.
    fn any_constant(&mut self) -> Vec<u8> {
        match self.source.between(0, 7) {
            0..=2 => number(self.any_number()),
            3 => current_place(),
            4 => {
                let operator = one_of(&mut self.source, &SUMS);
                let left = self.any_name(WHOLE);
                binary(operator, &left, &number(self.source.between(0, 300)))
            }
            5 => self.any_part(),
            _ => self.any_name(WHOLE),
        }
    }

    // An expression that most often fits a byte.
    fn any_small(&mut self) -> Vec<u8> {
        match self.source.between(0, 19) {
            0 => self.any_tree(3),
            1..=5 => self.any_part(),
            6 => {
                let operator = one_of(&mut self.source, &ANY_SIDES[1..]);
                let left = self.any_leaf();
                binary(operator, &left, &self.any_leaf())
            }
            7 => flagged(NOT, &self.any_leaf()),
            8 | 9 => number(self.source.between(250, 257)),
            _ => number(self.source.between(0, 255)),
        }
    }

    // The low or the high byte of a name.
    fn any_part(&mut self) -> Vec<u8> {
        let modifier = one_of(&mut self.source, &[LOW, HIGH]);
        self.any_name(modifier)
    }

    // An expression of at most so many levels.
    fn any_tree(&mut self, most: i64) -> Vec<u8> {
        if most < 2 || self.once_in(2) {
            return self.any_leaf();
        }
        let small = number(self.source.between(0, 4));
        match self.source.between(0, 9) {
            0 => {
                let flags = any(&mut self.source, NOT.into(), BOTH.into()) as u8;
                flagged(flags, &self.any_tree(most - 1))
            }
            1 => binary(
                one_of(&mut self.source, &SCALED),
                &self.any_tree(most - 1),
                &small,
            ),
            2 => {
                let operator = one_of(&mut self.source, &DIVIDED);
                let divisor = number(self.source.between(1, 9));
                binary(operator, &self.any_dividend(), &divisor)
            }
            3 => {
                let operator = one_of(&mut self.source, &ANY_SIDES);
                let left = self.any_leaf();
                binary(operator, &left, &self.any_tree(most - 1))
            }
            _ => {
                let operator = one_of(&mut self.source, &SUMS);
                binary(operator, &self.any_leaf(), &small)
            }
        }
    }

    // A number that is not below 0, or a label.
    fn any_dividend(&mut self) -> Vec<u8> {
        let labels: Vec<Path> = self
            .names
            .iter()
            .filter(|(_, sort)| *sort == Sort::Label)
            .map(|(path, _)| path.clone())
            .collect();
        if labels.is_empty() || self.once_in(2) {
            return number(self.source.between(0, 70_000));
        }
        let at = self.source.between(0, labels.len() as i64 - 1) as usize;
        let supers = vec![SUPER; self.scope.len()];
        match supers.len() + labels[at].len() {
            1..=4 => name(WHOLE, &[&supers, &labels[at][..]].concat()),
            _ => current_place(),
        }
    }

    // A number, the current place or a name.
    fn any_leaf(&mut self) -> Vec<u8> {
        match self.source.between(0, 9) {
            0..=3 => number(self.any_number()),
            4 => current_place(),
            5 => self.any_part(),
            _ => self.any_name(WHOLE),
        }
    }

    // A number: mostly one near 256 or a small one, seldom one outside 16 bits.
    fn any_number(&mut self) -> i64 {
        match self.source.between(0, 31) {
            0 => self.source.between(-300, -1),
            1 => self.source.between(65_536, 65_541),
            2 | 3 => self.source.between(65_530, 65_535),
            4..=12 => self.source.between(252, 259),
            13 => self.source.between(0, 65_535),
            _ => self.source.between(0, 300),
        }
    }

    // A name that the tape most often has, seldom that of a scope.
    fn any_name(&mut self, modifier: u8) -> Vec<u8> {
        if self.once_in(50) {
            return name(modifier, &[UNDECLARED]);
        }
        let circular = self.once_in(600);
        let scopes = self.once_in(20);
        let at_hand: Vec<Path> = (self.names.iter().enumerate())
            .filter(|(at, (_, sort))| match sort {
                Sort::Scope => scopes,
                Sort::Label => true,
                Sort::Constant => circular || self.is_ahead(*at),
            })
            .map(|(_, (path, _))| path.clone())
            .collect();
        if at_hand.is_empty() {
            return number(self.source.between(0, 255));
        }
        let at = self.source.between(0, at_hand.len() as i64 - 1) as usize;
        let path = self.any_path(&at_hand[at]);
        name(modifier, &path[path.len().saturating_sub(4)..])
    }

    // Whether the constant of this number lies in the direction in which constants name others.
    fn is_ahead(&self, at: usize) -> bool {
        match self.downward {
            true => self.declared <= at,
            false => at + 1 < self.declared,
        }
    }

    // A path to a name from the scope of the line.
    fn any_path(&mut self, whole: &[u16]) -> Path {
        let shared = shared(&self.scope, whole);
        let supers = vec![SUPER; self.scope.len() - shared];
        match self.source.between(0, 7) {
            0 | 1 => whole.to_vec(),
            2 if supers.len() + whole.len() - shared <= 4 => [&supers, &whole[shared..]].concat(),
            _ => whole[shared..].to_vec(),
        }
    }
}
