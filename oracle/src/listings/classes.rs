//! The known classes of difference, each with its rule. Those of the first sort are about lines that
//! the assembler reads otherwise: with such lines reworded, and no others, it has to agree. Those of
//! the second are refusals on one side alone.

use super::reading::{expression_of, paths, Reading};
use crate::kinds::build::program::What;
use crate::kinds::build::walks::length;
use crate::kinds::build::SIZE;
use crate::refusal::{NAME_TAKEN, OUTSIDE, TOO_FAR, UNRESOLVED};
use crate::source::{Assembler, Statement, Wording};
use std::collections::BTreeMap;
use std::fmt;
use Assembler::{Ca65, Tass};

// What no one-byte form takes.
const LONG: i64 = 256;

// The mode in which a row may have two forms.
const ABSOLUTE_OR_ZP: u8 = 2;

// The mnemonics of the branches, how long a branch is, and how far it goes.
const BRANCHES: [u8; 8] = [3, 4, 5, 7, 8, 9, 11, 12];
const BRANCH_LENGTH: i64 = 2;
const DISTANCES: std::ops::RangeInclusive<i64> = -128..=127;

/// A class of difference.
#[derive(Clone, Copy, PartialEq, Eq, PartialOrd, Ord)]
pub enum Class {
    LowBits,
    LowBitsBefore,
    FormByOuterName,
    FormInOnePass,
    SizeInOnePass,
    PlaceInOnePass,
    ScopeInOnePass,
    FirstId,
    PlaceAbove,
    ScopeAndNumber,
    ScopeHidesNothing,
    ScopeAsNumber,
    RoundTheEnd,
    LastPlace,
    UnusedConstant,
    PlaceMovesItself,
    Circle,
    OwnName,
    TargetOutside,
}

use Class::*;

impl fmt::Display for Class {
    // What the class is called.
    fn fmt(&self, out: &mut fmt::Formatter) -> fmt::Result {
        out.write_str(match self {
            LowBits => "low bits",
            LowBitsBefore => "low bits in a pass",
            FormByOuterName => "form by an outer name",
            FormInOnePass => "form in one pass",
            SizeInOnePass => "size in one pass",
            PlaceInOnePass => "set place in one pass",
            ScopeInOnePass => "scope in one pass",
            FirstId => "first id",
            PlaceAbove => "place above 65,535",
            ScopeAndNumber => "scope and number of one name",
            ScopeHidesNothing => "scope hides nothing",
            ScopeAsNumber => "scope as a number",
            RoundTheEnd => "branch round the end",
            LastPlace => "place 65,536",
            UnusedConstant => "constant that nothing uses",
            PlaceMovesItself => "place that moves its own name",
            Circle => "constants in a circle",
            OwnName => "constant that names itself",
            TargetOutside => "target outside 0 to 65,535",
        })
    }
}

/// The lines that a class is about, each with its wording.
pub type Rewordings = BTreeMap<Class, Vec<(usize, Wording)>>;

// The lines that an assembler reads otherwise, by class.
pub fn rewordings(reading: &Reading, assembler: Assembler) -> Rewordings {
    let mut found = Rewordings::new();
    for at in 0..reading.statements.len() {
        let paths = other_paths(reading, assembler, at);
        let others = [
            low_bits(reading, assembler, at),
            form_by_outer_name(reading, assembler, at),
            form_in_one_pass(reading, assembler, at),
            size_in_one_pass(reading, assembler, at),
            place_in_one_pass(reading, assembler, at),
        ];
        for (class, wording) in others.into_iter().flatten().chain(paths) {
            found.entry(class).or_default().push((at, wording));
        }
    }
    found
}

// Two wordings of a line as one.
pub fn joined(one: &Wording, other: &Wording) -> Wording {
    Wording {
        form: one.form.or(other.form),
        low: one.low.or(other.low),
        part: one.part.or(other.part),
        number: one.number.or(other.number),
        paths: [&one.paths[..], &other.paths[..]].concat(),
    }
}

// How many bytes a number has in a statement that writes it as it is, and whether its row has another
// form as well.
fn bytes_in(statement: &Statement, number: i64) -> Option<(usize, bool)> {
    match statement {
        Statement::Plain(What::Byte(_)) => Some((1, false)),
        Statement::Plain(What::Word(_)) => Some((2, false)),
        Statement::Plain(What::Instruction(row, _)) if !is_branch(statement) => {
            Some((length(*row, Some(number)) as usize - 1, has_two_forms(*row)))
        }
        _ => None,
    }
}

// A number whose low bits are kept here: a byte, a word or an operand outside its range. Or one that
// was so in a pass, for 64tass takes the longer form then.
fn low_bits(reading: &Reading, assembler: Assembler, at: usize) -> Option<(Class, Wording)> {
    let (statement, fact) = (&reading.statements[at], &reading.facts[at]);
    let fits = |number: i64| {
        let room = bytes_in(statement, number).map(|(bytes, _)| 0..1 << (8 * bytes));
        room.is_none_or(|room| room.contains(&number))
    };
    let (bytes, has_another) = bytes_in(statement, fact.number?)?;
    let wording = Wording {
        form: has_another.then_some(bytes),
        low: Some(bytes),
        ..Wording::default()
    };
    let fitted = fact.passed.iter().all(|number| fits(*number));
    match fits(fact.number?) {
        _ if reading.is_at_fault(at) => None,
        false => Some((LowBits, wording)),
        true => (assembler == Tass && !fitted).then_some((LowBitsBefore, wording)),
    }
}

// Whether a statement is a branch.
fn is_branch(statement: &Statement) -> bool {
    matches!(statement, Statement::Plain(What::Instruction(row, _)) if BRANCHES.contains(&row[0]))
}

// Whether a row has a one-byte and a two-byte form.
fn has_two_forms(row: [u8; 3]) -> bool {
    length(row, Some(0)) != length(row, Some(LONG))
}

// Whether ca65 does not know the number of a statement when it reads it: some name is declared further
// down, or further out, while the scope may yet declare it.
fn is_unknown(reading: &Reading, at: usize) -> bool {
    reading.needs_later(at) || reading.needs_outer(at)
}

// ca65 chooses the form of such an operand by a guess, even where there is one form alone.
fn form_in_one_pass(
    reading: &Reading,
    assembler: Assembler,
    at: usize,
) -> Option<(Class, Wording)> {
    let number = reading.facts[at].number?;
    let Statement::Plain(What::Instruction(row, Some(_))) = &reading.statements[at] else {
        return None;
    };
    let form = length(*row, Some(number)) as usize - 1;
    let wording = Wording {
        form: Some(form),
        ..Wording::default()
    };
    let is_chosen = row[1] == ABSOLUTE_OR_ZP && !BRANCHES.contains(&row[0]);
    let is_so = assembler == Ca65 && is_chosen && is_unknown(reading, at);
    is_so.then_some((FormInOnePass, wording))
}

// 64tass begins with the name further out where that of the scope stands further down, and keeps the
// form that this gives if it fits in the end.
fn form_by_outer_name(
    reading: &Reading,
    assembler: Assembler,
    at: usize,
) -> Option<(Class, Wording)> {
    let number = reading.facts[at].number?;
    let (bytes, has_another) = bytes_in(&reading.statements[at], number)?;
    let wording = Wording {
        form: Some(bytes),
        ..Wording::default()
    };
    let is_so = assembler == Tass && has_another && reading.needs_hiding(at);
    is_so.then_some((FormByOuterName, wording))
}

// ca65 guesses that such an operand is larger than the form has room for, and refuses the form even
// where it is demanded.
fn size_in_one_pass(
    reading: &Reading,
    assembler: Assembler,
    at: usize,
) -> Option<(Class, Wording)> {
    let (_, wording) = form_in_one_pass(reading, assembler, at)?;
    let part = wording.form;
    Some((SizeInOnePass, Wording { part, ..wording }))
}

// ca65 sets the place to numbers that it knows already.
fn place_in_one_pass(
    reading: &Reading,
    assembler: Assembler,
    at: usize,
) -> Option<(Class, Wording)> {
    let number = reading.facts[at].number?;
    let is_place = matches!(reading.statements[at], Statement::Plain(What::SetPlace(_)));
    let wording = Wording {
        number: Some(number),
        ..Wording::default()
    };
    let is_so = assembler == Ca65 && is_place && is_unknown(reading, at);
    is_so.then_some((PlaceInOnePass, wording))
}

// The paths of a line that lead elsewhere, or nowhere, in the assembler: since ca65 does not yet have
// a scope, or since the lookup ends at the first id.
fn other_paths(reading: &Reading, assembler: Assembler, at: usize) -> Vec<(Class, Wording)> {
    let mut found = vec![];
    for path in expression_of(&reading.statements[at])
        .map(paths)
        .unwrap_or_default()
    {
        let Some(whole) = reading.meant(at, &path) else {
            continue;
        };
        let is_numbered = reading.declared(&whole).is_some_and(|found| found.numbered);
        let same = |opened| reading.meant_by(assembler, at, &path, opened).as_ref() == Some(&whole);
        if !is_numbered || same(false) {
            continue;
        }
        let class = if same(true) { ScopeInOnePass } else { FirstId };
        let wording = Wording {
            paths: vec![(path, whole)],
            ..Wording::default()
        };
        found.push((class, wording));
    }
    found
}

// The class of a refusal that is ours alone.
pub fn of_refusal(reading: &Reading, assembler: Assembler, number: u8, at: usize) -> Option<Class> {
    match (assembler, number) {
        (Ca65, OUTSIDE) => (reading.end(at) > SIZE as i64).then_some(PlaceAbove),
        (Ca65, NAME_TAKEN) => scope_and_number(reading, at),
        (Ca65, UNRESOLVED) if names_itself(reading, at) => {
            is_unused(reading, at).then_some(OwnName)
        }
        (Ca65, UNRESOLVED) => scope_hides(reading, at).then_some(ScopeHidesNothing),
        (Tass, UNRESOLVED) if needs_outer_self(reading, at) => Some(OwnName),
        (Tass, UNRESOLVED) if is_unused(reading, at) => Some(UnusedConstant),
        (Tass, UNRESOLVED) => needs_scope(reading, at).then_some(ScopeAsNumber),
        (Tass, TOO_FAR) => round_the_end(reading, at),
        _ => None,
    }
}

// A name that is declared as a scope and as a number, which ca65 keeps apart.
fn scope_and_number(reading: &Reading, at: usize) -> Option<Class> {
    let (id, numbered) = match &reading.statements[at] {
        Statement::Open(id) => (*id, false),
        Statement::Label(id) | Statement::Constant(id, _) => (*id, true),
        _ => return None,
    };
    let first = reading.declared(&[&reading.facts[at].scope[..], &[id]].concat())?;
    (first.numbered != numbered).then_some(ScopeAndNumber)
}

// Whether a statement needs a name of one id that means a scope, while a label or a constant of that
// id stands further out.
fn scope_hides(reading: &Reading, at: usize) -> bool {
    reading.needed(at).iter().any(|(by, path)| {
        let Some(whole) = reading.meant(*by, path) else {
            return false;
        };
        let is_scope = reading
            .declared(&whole)
            .is_some_and(|found| !found.numbered);
        let outer = |depth| reading.declared(&[&whole[..depth], &path[..]].concat());
        let further = (0..whole.len() - 1).filter_map(outer);
        is_scope && path.len() == 1 && further.into_iter().any(|found| found.numbered)
    })
}

// Whether a statement needs a name that means a scope, which in 64tass is the scope's place.
fn needs_scope(reading: &Reading, at: usize) -> bool {
    reading.needed(at).iter().any(|(by, path)| {
        let found = reading
            .meant(*by, path)
            .and_then(|whole| reading.declared(&whole));
        found.is_some_and(|found| !found.numbered)
    })
}

// A branch whose distance fits where places go round behind 65,535, as they do in 64tass.
fn round_the_end(reading: &Reading, at: usize) -> Option<Class> {
    let fact = &reading.facts[at];
    let distance = fact.number? - (fact.place + BRANCH_LENGTH);
    let size = SIZE as i64;
    let fits = |z: &i64| DISTANCES.contains(z);
    let is_place = (0..size).contains(&fact.number?);
    let is_round = [distance - size, distance + size].iter().any(fits);
    (is_place && is_round).then_some(RoundTheEnd)
}

// Whether a statement is a constant that no statement but constants needs: 64tass leaves it alone.
fn is_unused(reading: &Reading, at: usize) -> bool {
    let is_constant = |at: usize| matches!(reading.statements[at], Statement::Constant(..));
    let needs = |by: usize| reading.needed(by).iter().any(|(by, _)| *by == at);
    let others = (0..reading.statements.len()).filter(|by| !is_constant(*by));
    is_constant(at) && !others.into_iter().any(needs)
}

// Whether a statement is a constant that names itself.
fn names_itself(reading: &Reading, at: usize) -> bool {
    let names = expression_of(&reading.statements[at])
        .map(paths)
        .unwrap_or_default();
    names
        .iter()
        .any(|path| reading.declarer(at, path) == Some(at))
}

// Whether a statement needs a constant that names itself by its id, while 64tass finds that id further
// out.
fn needs_outer_self(reading: &Reading, at: usize) -> bool {
    reading.needed(at).iter().any(|(by, path)| {
        let scope = &reading.facts[*by].scope;
        let outer = |depth| reading.declared(&[&scope[..depth], &path[..]].concat());
        let is_outer = (0..scope.len()).filter_map(outer).next().is_some();
        is_outer && path.len() == 1 && reading.declarer(*by, path) == Some(*by)
    })
}

// The class of a source at which an assembler does not end: ca65's where a constant needs itself.
pub fn of_endless(reading: &Reading, assembler: Assembler) -> Option<Class> {
    let in_circle = |at: usize| {
        let mut needed = reading.needed(at).into_iter();
        needed.any(|(by, path)| reading.declarer(by, &path) == Some(at))
    };
    let is_so = assembler == Ca65 && (0..reading.statements.len()).any(in_circle);
    is_so.then_some(Circle)
}

// The class of a refusal on both sides, but at other lines: the place is set by a name further down,
// whose place that moves, and 64tass names any line that does not settle.
pub fn of_both(reading: &Reading, assembler: Assembler, at: usize) -> Option<Class> {
    let is_place = matches!(reading.statements[at], Statement::Plain(What::SetPlace(_)));
    let is_so = assembler == Tass && is_place && reading.needs_later(at);
    is_so.then_some(PlaceMovesItself)
}

// The class of a refusal by the assembler, at these statements, that is not ours: 64tass has no place
// 65,536, and no branch goes there or beyond, or below 0.
pub fn of_their_refusal(reading: &Reading, assembler: Assembler, at: &[usize]) -> Option<Class> {
    let is_last = |at: &usize| {
        let fact = &reading.facts[*at];
        let is_place = matches!(reading.statements[*at], Statement::Plain(What::SetPlace(_)));
        fact.place == SIZE as i64 || (is_place && fact.number == Some(SIZE as i64))
    };
    let is_outside = |at: &usize| {
        let number = reading.facts[*at].number;
        let is_outside = number.is_some_and(|z| !(0..SIZE as i64).contains(&z));
        is_branch(&reading.statements[*at]) && is_outside
    };
    match assembler {
        Tass if at.iter().all(is_last) => Some(LastPlace),
        Tass if at.iter().all(|at| is_last(at) || is_outside(at)) => Some(TargetOutside),
        _ => None,
    }
}
