//! The passes over a program, and the tries behind them.

use super::super::expressions::records::{HIGH, LOW, NEG, NOT};
use super::super::form::Fault;
use super::super::opcodes::encode;
use super::program::{Expression, Line, Program, What};
use super::SIZE;
use crate::refusal::{ARITHMETIC, MOVED, NOT_SETTLED, OUTSIDE, TOO_FAR, TOO_SMALL, UNRESOLVED};
use std::ops::Range;

/// How many passes there may be.
pub const MOST_PASSES: usize = 16;

// An operand that no one-byte form takes.
const LONG: i64 = 256;

// The mnemonics BCC, BCS, BEQ, BMI, BNE, BPL, BVC and BVS.
const BRANCHES: [u8; 8] = [3, 4, 5, 7, 8, 9, 11, 12];

// How long a branch is, and how far it goes.
const BRANCH_LENGTH: i64 = 2;
const DISTANCES: std::ops::RangeInclusive<i128> = -128..=127;

/// The numbers of a program's labels and constants.
pub type Numbers = Vec<Option<i64>>;

/// A number, or none where something is unresolved; an error is refusal 10.
type Value = Result<Option<i64>, Overflow>;

/// What refusal 10 stands for.
struct Overflow;

/// A finished build.
pub struct Built {
    pub range: Range<usize>,
    pub passes: usize,
    pub numbers: Vec<i64>,
    pub image: Vec<u8>,
}

// "The build reports the least n, 1 to 16, with Ln equal to L(n-1)"
pub fn build(program: &Program, initial: usize) -> Result<Built, Fault> {
    let mut before: Numbers = vec![None; program.numbers];
    for passes in 1..=MOST_PASSES {
        let after = pass(program, &before, initial);
        if after == before {
            let (range, image) = write(program, &after, initial)?;
            let numbers = after.into_iter().flatten().collect();
            return Ok(Built {
                range,
                passes,
                numbers,
                image,
            });
        }
        before = after;
    }
    Err(Fault::new(NOT_SETTLED, 0))
}

// "Pass n walks the tape from the initial place, reads L(n-1) and gives Ln."
pub fn pass(program: &Program, before: &Numbers, initial: usize) -> Numbers {
    let mut after = vec![None; program.numbers];
    let mut place = initial as i64;
    for line in &program.lines {
        let value_of = |tree| program.value(before, line, place, tree).ok().flatten();
        match &line.what {
            What::Label(slot) => after[*slot] = Some(place),
            What::Constant(slot, tree) => after[*slot] = value_of(tree),
            What::SetPlace(tree) => {
                let place_in = |z: &i64| (0..=SIZE as i64).contains(z);
                place = value_of(tree).filter(place_in).unwrap_or(place);
            }
            What::Byte(_) | What::ScreenByte(_) => place += 1,
            What::Word(_) => place += 2,
            What::Instruction(row, None) => place += length(*row, Some(0)),
            What::Instruction(row, Some(tree)) => place += length(*row, value_of(tree)),
        }
    }
    after
}

// "an unresolved operand takes the two-byte form where the row has one; a row of one form always has
// its length"
pub(crate) fn length(row: [u8; 3], operand: Option<i64>) -> i64 {
    let bytes = encode(row, operand.unwrap_or(LONG)).or_else(|| encode(row, 0));
    bytes.map_or(0, |bytes| bytes.len() as i64)
}

/// The bytes that a line writes, and where.
pub struct Write<'a> {
    pub line: &'a Line,
    pub place: usize,
    pub bytes: Vec<u8>,
}

// Tries each line in tape order. What is written, in that order.
pub fn writes<'a>(
    program: &'a Program,
    numbers: &Numbers,
    initial: usize,
) -> Result<Vec<Write<'a>>, Fault> {
    let mut writes = vec![];
    let mut place = initial;
    for line in &program.lines {
        let tried = program.attempt(numbers, line, place as i64);
        match tried.map_err(|number| Fault::new(number, line.at))? {
            Effect::Go(to) => place = to,
            Effect::Write(bytes) if bytes.is_empty() => {}
            Effect::Write(bytes) => {
                let end = place + bytes.len();
                if end > SIZE {
                    return Err(Fault::new(OUTSIDE, line.at));
                }
                writes.push(Write { line, place, bytes });
                place = end;
            }
        }
    }
    Ok(writes)
}

// The image of what is written, and the range.
pub fn write(
    program: &Program,
    numbers: &Numbers,
    initial: usize,
) -> Result<(Range<usize>, Vec<u8>), Fault> {
    let mut image = vec![0; SIZE];
    let mut written: Option<Range<usize>> = None;
    for Write { place, bytes, .. } in writes(program, numbers, initial)? {
        let end = place + bytes.len();
        image[place..end].copy_from_slice(&bytes);
        written = Some(match written {
            None => place..end,
            Some(range) => range.start.min(place)..range.end.max(end),
        });
    }
    Ok((written.unwrap_or(initial..initial), image))
}

/// What a line does in the last walk.
enum Effect {
    Go(usize),
    Write(Vec<u8>),
}

impl Program {
    // What a line does, or document 01's number of its refusal.
    fn attempt(&self, numbers: &Numbers, line: &Line, place: i64) -> Result<Effect, u8> {
        let value_of = |tree| self.evaluate(numbers, line, place, tree);
        Ok(Effect::Write(match &line.what {
            What::Label(slot) if numbers[*slot] == Some(place) => vec![],
            What::Label(_) => return Err(MOVED),
            What::Constant(_, tree) => value_of(tree).map(|_| vec![])?,
            What::SetPlace(tree) => return set_place(value_of(tree)?),
            What::Byte(tree) => value_of(tree)?.to_le_bytes()[..1].to_vec(),
            What::Word(tree) => value_of(tree)?.to_le_bytes()[..2].to_vec(),
            What::ScreenByte(byte) => vec![screen_byte(*byte)],
            What::Instruction(row, None) => encode(*row, 0).ok_or(TOO_SMALL)?,
            What::Instruction(row, Some(tree)) => instruction(*row, place, value_of(tree)?)?,
        }))
    }

    // The number of an expression, or document 01's number of its refusal.
    pub fn evaluate(
        &self,
        numbers: &Numbers,
        line: &Line,
        place: i64,
        tree: &Expression,
    ) -> Result<i64, u8> {
        match self.value(numbers, line, place, tree) {
            Err(Overflow) => Err(ARITHMETIC),
            Ok(value) => value.ok_or(UNRESOLVED),
        }
    }

    // "Left refusal, right refusal, unresolved, own refusal: in that order."
    fn value(&self, numbers: &Numbers, line: &Line, place: i64, tree: &Expression) -> Value {
        Ok(match tree {
            Expression::Number(z) => Some(*z),
            Expression::Here => Some(place),
            Expression::Name(modifier, path) => {
                let number = self.find(&line.scope, path).and_then(|slot| numbers[slot]);
                number.map(|z| modified(*modifier, z))
            }
            Expression::Flagged(flags, inner) => match self.value(numbers, line, place, inner)? {
                Some(z) => Some(flagged(*flags, z).ok_or(Overflow)?),
                None => None,
            },
            Expression::Binary(operator, left, right) => {
                let left = self.value(numbers, line, place, left)?;
                let right = self.value(numbers, line, place, right)?;
                match left.zip(right) {
                    Some((y, z)) => Some(joined(*operator, y, z).ok_or(Overflow)?),
                    None => None,
                }
            }
        })
    }
}

// Where a set place leads.
fn set_place(z: i64) -> Result<Effect, u8> {
    let place = usize::try_from(z).ok().filter(|place| *place <= SIZE);
    place.map(Effect::Go).ok_or(OUTSIDE)
}

// The bytes of an instruction with an operand: the Rust's, but for the distance of a branch.
pub fn instruction(row: [u8; 3], place: i64, operand: i64) -> Result<Vec<u8>, u8> {
    if !BRANCHES.contains(&row[0]) {
        return encode(row, operand).ok_or(TOO_SMALL);
    }
    let distance = i128::from(operand) - i128::from(place + BRANCH_LENGTH);
    if !DISTANCES.contains(&distance) {
        return Err(TOO_FAR);
    }
    let mut bytes = encode(row, 0).ok_or(TOO_SMALL)?;
    bytes[1] = distance as u8;
    Ok(bytes)
}

// A number, its low byte or its high byte.
fn modified(modifier: u8, z: i64) -> i64 {
    match modifier {
        LOW => z.rem_euclid(256),
        HIGH => z.div_euclid(256).rem_euclid(256),
        _ => z,
    }
}

// "NOT (0 to 1, else 0) comes before NEG."
fn flagged(flags: u8, z: i64) -> Option<i64> {
    let z = if flags & NOT != 0 {
        i64::from(z == 0)
    } else {
        z
    };
    if flags & NEG != 0 {
        z.checked_neg()
    } else {
        Some(z)
    }
}

// Two numbers under an operator.
fn joined(operator: u8, y: i64, z: i64) -> Option<i64> {
    match operator {
        0 => y.checked_add(z),
        1 => y.checked_sub(z),
        2 => y.checked_mul(z),
        3 if z == 0 => Some(0),
        3 => y.checked_div(z),
        4 if z == 0 => Some(0),
        4 => y.checked_rem(z),
        5 => y.checked_shl(u32::try_from(z).ok()?),
        6 => y.checked_shr(u32::try_from(z).ok()?),
        7 => Some(y ^ z),
        8 => Some((y == z).into()),
        9 => Some((y != z).into()),
        10 => Some((y > z).into()),
        11 => Some((y >= z).into()),
        12 => Some((y < z).into()),
        13 => Some((y <= z).into()),
        14 => Some((y != 0 && z != 0).into()),
        _ => Some((y != 0 || z != 0).into()),
    }
}

// The screen byte of a Petscii byte.
pub fn screen_byte(byte: u8) -> u8 {
    match byte {
        0x00..=0x1f => byte + 128,
        0x20..=0x3f => byte,
        0x40..=0x5f => byte - 64,
        0x60..=0x7f => byte - 32,
        0x80..=0x9f => byte + 64,
        0xa0..=0xbf => byte - 64,
        0xc0..=0xfe => byte - 128,
        0xff => 0x5e,
    }
}
