//! A tape as a list of lines, each with the tree of its expression and the path of the scope around
//! it; and a map from the whole path of every name. Only tapes of a sound form are read.

use super::super::expressions::records::*;
use super::super::form::Fault;
use super::super::number_at;
use super::super::symbols::word_at;
use crate::refusal::{NAME_TAKEN, NO_ROOM};
use std::collections::BTreeMap;

/// How many names there may be: a table has 1,024 nodes, and one is the root.
const MOST_NAMES: usize = 1_023;

// The mode without an operand.
const IMPLIED: u8 = 0;

/// The ids from the root down to a scope or a name.
pub type Path = Vec<u16>;

/// How many scopes lie around both a line in this scope and the name of this whole path.
pub fn shared(scope: &[u16], whole: &[u16]) -> usize {
    let alike = scope.iter().zip(whole).take_while(|(a, b)| a == b);
    alike.count().min(whole.len() - 1)
}

/// An expression.
pub enum Expression {
    Number(i64),
    Here,
    Name(u8, Path),
    Flagged(u8, Box<Expression>),
    Binary(u8, Box<Expression>, Box<Expression>),
}

/// What a line says. A label and a constant come with their place in the list of numbers.
pub enum What {
    Instruction([u8; 3], Option<Expression>),
    Label(usize),
    Constant(usize, Expression),
    SetPlace(Expression),
    Byte(Expression),
    Word(Expression),
    ScreenByte(u8),
}

/// A line, its offset on the tape, and the scope in which it stands.
pub struct Line {
    pub at: usize,
    pub scope: Path,
    pub what: What,
}

/// The lines of a tape; of each name its place in the list of numbers, which a scope has not; and
/// how many numbers there are.
#[derive(Default)]
pub struct Program {
    pub lines: Vec<Line>,
    names: BTreeMap<Path, Option<usize>>,
    pub numbers: usize,
}

impl Program {
    // Reads a tape, and declares its names in tape order.
    pub fn read(tape: &[u8]) -> Result<Self, Fault> {
        let mut program = Self::default();
        let mut scope = vec![];
        let mut reader = Reader { tape, at: 0 };
        while reader.tape[reader.at] != END {
            program.line(&mut reader, &mut scope)?;
        }
        Ok(program)
    }

    // Reads a line.
    fn line(&mut self, reader: &mut Reader, scope: &mut Path) -> Result<(), Fault> {
        let at = reader.at;
        let what = match reader.byte() {
            OPEN_SCOPE => {
                let id = reader.word();
                self.declare(at, scope, id, None)?;
                scope.push(id);
                return Ok(());
            }
            CLOSE_SCOPE => {
                scope.pop();
                return Ok(());
            }
            LABEL => What::Label(self.number(at, scope, reader.word())?),
            CONSTANT => {
                let slot = self.number(at, scope, reader.word())?;
                What::Constant(slot, reader.expression())
            }
            kind => reader.plain(kind),
        };
        let scope = scope.clone();
        self.lines.push(Line { at, scope, what });
        Ok(())
    }

    // Declares a name with a number; its place in the list.
    fn number(&mut self, at: usize, scope: &Path, id: u16) -> Result<usize, Fault> {
        self.declare(at, scope, id, Some(self.numbers))?;
        self.numbers += 1;
        Ok(self.numbers - 1)
    }

    // "at a record, 3 (id already in that scope) before 2"
    fn declare(
        &mut self,
        at: usize,
        scope: &Path,
        id: u16,
        slot: Option<usize>,
    ) -> Result<(), Fault> {
        let path = [&scope[..], &[id]].concat();
        if self.names.contains_key(&path) {
            return Err(Fault::new(NAME_TAKEN, at));
        }
        if self.names.len() == MOST_NAMES {
            return Err(Fault::new(NO_ROOM, at));
        }
        self.names.insert(path, slot);
        Ok(())
    }

    // "follow the whole path; if it fails and holds a super, not found; else ask again from the
    // parent". The place in the list of numbers, if what is found has one.
    pub fn find(&self, scope: &[u16], path: &[u16]) -> Option<usize> {
        if let Some(found) = self.follow(scope, path) {
            return self.names.get(&found).copied().flatten();
        }
        if path.contains(&SUPER) {
            return None;
        }
        let (_, parent) = scope.split_last()?;
        self.find(parent, path)
    }

    // The whole path of what a path leads to from a scope; the root's is empty.
    fn follow(&self, scope: &[u16], path: &[u16]) -> Option<Path> {
        let mut found = scope.to_vec();
        for id in path {
            if *id == SUPER {
                found.pop()?;
            } else {
                found.push(*id);
                self.names.get(&found)?;
            }
        }
        Some(found)
    }
}

/// A tape that is read from an offset on.
pub(crate) struct Reader<'a> {
    pub(crate) tape: &'a [u8],
    pub(crate) at: usize,
}

impl Reader<'_> {
    // The next byte.
    pub(crate) fn byte(&mut self) -> u8 {
        self.at += 1;
        self.tape[self.at - 1]
    }

    // The next two bytes as a number.
    pub(crate) fn word(&mut self) -> u16 {
        self.at += 2;
        word_at(self.tape, self.at - 2)
    }

    // The rest of a line that is about no name.
    pub(crate) fn plain(&mut self, kind: u8) -> What {
        match kind {
            INSTRUCTION => {
                let row = [self.byte(), self.byte(), self.byte()];
                let operand = (row[1] != IMPLIED).then(|| self.expression());
                What::Instruction(row, operand)
            }
            SET_PLACE => What::SetPlace(self.expression()),
            BYTE => What::Byte(self.expression()),
            WORD => What::Word(self.expression()),
            SCREEN_BYTE => What::ScreenByte(self.byte()),
            _ => panic!("no line begins with {kind}"),
        }
    }

    // An expression.
    pub(crate) fn expression(&mut self) -> Expression {
        match self.byte() {
            NUMBER => {
                self.at += 8;
                Expression::Number(number_at(self.tape, self.at - 8) as i64)
            }
            CURRENT_PLACE => Expression::Here,
            FLAGS => Expression::Flagged(self.byte(), Box::new(self.expression())),
            BINARY => {
                let operator = self.byte();
                let left = self.expression();
                let right = self.expression();
                Expression::Binary(operator, Box::new(left), Box::new(right))
            }
            kind @ NAME_1..=NAME_4 => {
                let modifier = self.byte();
                let path = (NAME_1..=kind).map(|_| self.word()).collect();
                Expression::Name(modifier, path)
            }
            kind => panic!("no expression begins with {kind}"),
        }
    }
}
