//! What the second reading of document 01 says of each statement of a tape: its scope, its place and
//! the number of its expression; and what its names mean, here and in an assembler.

use crate::kinds::build::program::{Expression, Path, Program, What};
use crate::kinds::build::walks::{instruction, length, pass, Numbers, MOST_PASSES};
use crate::kinds::build::SIZE;
use crate::source::{statements, Assembler, Statement, INITIAL};
use std::collections::{BTreeMap, BTreeSet};

/// A name: the statement that declares it, and whether it has a number, which a scope has not.
#[derive(Clone, Copy)]
pub struct Declared {
    pub by: usize,
    pub numbered: bool,
}

/// What is known of a statement: the scope in which it stands, its place, its number, and the numbers
/// that it had in all passes.
#[derive(Clone, Default)]
pub struct Fact {
    pub scope: Path,
    pub place: i64,
    pub number: Option<i64>,
    pub passed: Vec<i64>,
}

/// A tape as it is read here.
pub struct Reading {
    offsets: Vec<usize>,
    pub statements: Vec<Statement>,
    pub facts: Vec<Fact>,
    names: BTreeMap<Path, Declared>,
}

impl Reading {
    // Reads a tape. Where a name is declared twice, no statement has a number.
    pub fn new(tape: &[u8]) -> Self {
        let (offsets, statements) = statements(tape);
        let mut reading = Self {
            offsets,
            statements,
            facts: vec![],
            names: BTreeMap::new(),
        };
        reading.declare();
        if let Ok(program) = Program::read(tape) {
            reading.walk(&program);
        }
        reading
    }

    // Notes the scope of each statement, and each name where it is first declared.
    fn declare(&mut self) {
        let mut scope: Path = vec![];
        for (by, statement) in self.statements.iter().enumerate() {
            self.facts.push(Fact {
                scope: scope.clone(),
                ..Fact::default()
            });
            let (id, numbered) = match statement {
                Statement::Open(id) => (*id, false),
                Statement::Label(id) | Statement::Constant(id, _) => (*id, true),
                Statement::Close => {
                    scope.pop();
                    continue;
                }
                Statement::Plain(_) => continue,
            };
            let path = [&scope[..], &[id]].concat();
            self.names.entry(path).or_insert(Declared { by, numbered });
            if !numbered {
                scope.push(id);
            }
        }
    }

    // Walks with the numbers of each pass; those of the last stay.
    fn walk(&mut self, program: &Program) {
        let mut numbers = vec![None; program.numbers];
        for _ in 0..MOST_PASSES {
            self.walk_with(program, &numbers);
            numbers = pass(program, &numbers, INITIAL);
        }
        self.walk_with(program, &numbers);
    }

    // Notes the place and the number of each statement, with the numbers of a pass.
    fn walk_with(&mut self, program: &Program, numbers: &Numbers) {
        let mut lines = program.lines.iter();
        let mut place = INITIAL as i64;
        for (statement, fact) in self.statements.iter().zip(&mut self.facts) {
            fact.place = place;
            if matches!(statement, Statement::Open(_) | Statement::Close) {
                continue;
            }
            let line = lines.next().expect("a line for each statement");
            let number = |tree| program.evaluate(numbers, line, place, tree).ok();
            fact.number = expression_of(statement).and_then(number);
            fact.passed.extend(fact.number);
            place = behind(statement, place, fact.number);
        }
    }

    // The statement at an offset of the tape.
    pub fn statement_at(&self, offset: usize) -> Option<usize> {
        self.offsets.iter().position(|at| *at == offset)
    }

    // The declaration of a whole path.
    pub fn declared(&self, path: &[u16]) -> Option<Declared> {
        self.names.get(path).copied()
    }

    // The whole path that a path means at a statement.
    pub fn meant(&self, at: usize, path: &[u16]) -> Option<Path> {
        let scope = &self.facts[at].scope;
        let supers = path.iter().take_while(|id| **id == 0).count();
        if supers > 0 {
            let parent = &scope[..scope.len().checked_sub(supers)?];
            let whole = [parent, &path[supers..]].concat();
            return self.names.contains_key(&whole).then_some(whole);
        }
        let wholes = (0..=scope.len())
            .rev()
            .map(|depth| [&scope[..depth], path].concat());
        wholes
            .into_iter()
            .find(|whole| self.names.contains_key(whole))
    }

    // The statement that declares what a path means at a statement.
    pub fn declarer(&self, at: usize, path: &[u16]) -> Option<usize> {
        let whole = self.meant(at, path)?;
        self.declared(&whole).map(|found| found.by)
    }

    // The whole path that a path means there in an assembler, which looks for the first id alone from
    // scope to scope. `opened` says that ca65 is to see the scopes further down as well.
    pub fn meant_by(
        &self,
        assembler: Assembler,
        at: usize,
        path: &[u16],
        opened: bool,
    ) -> Option<Path> {
        let scope = &self.facts[at].scope;
        let is_seen = |whole: &[u16]| match (assembler, self.declared(whole)) {
            (Assembler::Tass, found) => found.is_some(),
            (_, Some(found)) => !found.numbered && (opened || found.by < at),
            (_, None) => false,
        };
        let is_open = |whole: &Path| (1..whole.len()).all(|depth| is_seen(&whole[..depth]));
        if path[0] == 0 {
            return self.meant(at, path).filter(is_open);
        }
        if path.len() == 1 {
            return self.meant(at, path);
        }
        let depths = (0..=scope.len()).rev();
        let first = |depth: &usize| is_seen(&[&scope[..*depth], &path[..1]].concat());
        let depth = depths.into_iter().find(first)?;
        let whole = [&scope[..depth], path].concat();
        (self.names.contains_key(&whole) && is_open(&whole)).then_some(whole)
    }

    // Every name, by its scope, that the expression of a statement needs: those that it names, and
    // those that the constants among these need. With each stands the statement that names it.
    pub fn needed(&self, at: usize) -> Vec<(usize, Path)> {
        let mut needed = vec![];
        let mut seen = BTreeSet::from([at]);
        let mut open = vec![at];
        while let Some(at) = open.pop() {
            for path in expression_of(&self.statements[at])
                .map(paths)
                .unwrap_or_default()
            {
                open.extend(self.declarer(at, &path).filter(|by| seen.insert(*by)));
                needed.push((at, path));
            }
        }
        needed
    }

    // Whether some name that a statement needs is declared behind it.
    pub fn needs_later(&self, at: usize) -> bool {
        let mut needed = self.needed(at).into_iter();
        needed.any(|(by, path)| self.declarer(by, &path).is_some_and(|by| by > at))
    }

    // Whether some name that a statement needs is declared behind it, and hides one further out.
    pub fn needs_hiding(&self, at: usize) -> bool {
        let is_hiding = |(by, path): &(usize, Path)| {
            let scope = &self.facts[*by].scope;
            let whole = self.meant(*by, path).unwrap_or_default();
            let outer = |depth| [&scope[..depth], &path[..]].concat();
            let mut outer = (0..scope.len())
                .map(outer)
                .filter(|path| path.len() < whole.len());
            let is_hidden = outer.any(|path| self.names.contains_key(&path));
            is_hidden && self.declarer(*by, path).is_some_and(|by| by > at)
        };
        self.needed(at).iter().any(is_hiding)
    }

    // Whether some name of one id that a statement needs is found outside the scope that names it.
    pub fn needs_outer(&self, at: usize) -> bool {
        let is_outer = |(by, path): &(usize, Path)| {
            let depth = self.facts[*by].scope.len();
            path.len() == 1
                && self
                    .meant(*by, path)
                    .is_some_and(|whole| whole.len() <= depth)
        };
        self.needed(at).iter().any(is_outer)
    }

    // The place behind a statement, even where there is no such place.
    pub fn end(&self, at: usize) -> i64 {
        let fact = &self.facts[at];
        behind(&self.statements[at], fact.place, fact.number)
    }

    // Whether a statement would be refused if none before it were.
    pub fn is_at_fault(&self, at: usize) -> bool {
        let (statement, fact, end) = (&self.statements[at], &self.facts[at], self.end(at));
        if expression_of(statement).is_some() && fact.number.is_none() {
            return true;
        }
        match (statement, fact.number) {
            (Statement::Plain(What::SetPlace(_)), _) => !(0..=SIZE as i64).contains(&end),
            (Statement::Plain(What::Instruction(row, Some(_))), Some(number)) => {
                SIZE < end as usize || instruction(*row, fact.place, number).is_err()
            }
            (Statement::Plain(_), _) => SIZE < end as usize,
            _ => false,
        }
    }
}

// The place behind a statement.
fn behind(statement: &Statement, place: i64, number: Option<i64>) -> i64 {
    match statement {
        Statement::Plain(What::SetPlace(_)) => number.unwrap_or(place),
        Statement::Plain(What::Byte(_) | What::ScreenByte(_)) => place + 1,
        Statement::Plain(What::Word(_)) => place + 2,
        Statement::Plain(What::Instruction(row, None)) => place + length(*row, Some(0)),
        Statement::Plain(What::Instruction(row, Some(_))) => place + length(*row, number),
        _ => place,
    }
}

// The expression of a statement.
pub fn expression_of(statement: &Statement) -> Option<&Expression> {
    match statement {
        Statement::Constant(_, tree) => Some(tree),
        Statement::Plain(What::Instruction(_, tree)) => tree.as_ref(),
        Statement::Plain(What::SetPlace(tree) | What::Byte(tree) | What::Word(tree)) => Some(tree),
        _ => None,
    }
}

// The paths in an expression.
pub fn paths(tree: &Expression) -> Vec<Path> {
    match tree {
        Expression::Number(_) | Expression::Here => vec![],
        Expression::Name(_, path) => vec![path.clone()],
        Expression::Flagged(_, inner) => paths(inner),
        Expression::Binary(_, left, right) => [paths(left), paths(right)].concat(),
    }
}
