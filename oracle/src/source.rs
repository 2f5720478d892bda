//! A tape as the source of a real assembler, ca65 or 64tass: one line for each statement.
//!
//! Names are `n` and the id. Scopes are the assembler's own, so that a name of one id, or a path, is
//! looked up by its rules and not by ours. `super` has no word there: a path that begins with it is
//! written from the root down, which says the same, for such a path is asked of one scope alone. Any
//! other super is written as the id 0, which nothing declares. All expressions are bracketed. A screen
//! byte is a byte with its screen code.

use crate::kinds::build::program::{Expression, Path, Reader, What};
use crate::kinds::build::walks::screen_byte;
use crate::kinds::expressions::records::*;
use std::io::{self, Read};

/// Where a tape is built.
pub const INITIAL: usize = 0x2000;

#[rustfmt::skip]
const MNEMONICS: [&str; 56] = [
    "adc", "and", "asl", "bcc", "bcs", "beq", "bit", "bmi", "bne", "bpl", "brk", "bvc", "bvs", "clc",
    "cld", "cli", "clv", "cmp", "cpx", "cpy", "dec", "dex", "dey", "eor", "inc", "inx", "iny", "jmp",
    "jsr", "lda", "ldx", "ldy", "lsr", "nop", "ora", "pha", "php", "pla", "plp", "rol", "ror", "rti",
    "rts", "sbc", "sec", "sed", "sei", "sta", "stx", "sty", "tax", "tay", "tsx", "txa", "txs", "tya",
];

const SUFFIXES: [&str; 3] = ["", ",x", ",y"];

// The modes with an operand.
const IMMEDIATE: u8 = 1;
const ABSOLUTE_OR_ZP: u8 = 2;
const INDIRECT: u8 = 3;

// The operators And and Or.
const AND: u8 = 14;
const OR: u8 = 15;

/// An assembler.
#[derive(Clone, Copy, PartialEq)]
pub enum Assembler {
    Ca65,
    Tass,
}

use Assembler::*;

impl Assembler {
    // The assembler of this name.
    pub fn called(name: &str) -> Option<Self> {
        match name {
            "ca65" => Some(Ca65),
            "64tass" => Some(Tass),
            _ => None,
        }
    }

    // The operators, in the order of their numbers.
    fn operators(self) -> [&'static str; 16] {
        let (modulo, equal, unequal) = match self {
            Ca65 => (".mod", "=", "<>"),
            Tass => ("%", "==", "!="),
        };
        [
            "+", "-", "*", "/", modulo, "<<", ">>", "^", equal, unequal, ">", ">=", "<", "<=",
            "&&", "||",
        ]
    }

    // What stands between two names of a path, and before one that begins at the root.
    fn joints(self) -> (&'static str, &'static str) {
        match self {
            Ca65 => ("::", "::"),
            Tass => (".", "root."),
        }
    }

    // The lines before those of the tape. A scope around all of it gives 64tass a word for the root.
    fn head(self) -> Vec<String> {
        match self {
            Ca65 => vec![format!(" .org ${INITIAL:X}")],
            Tass => vec![format!(" * = ${INITIAL:X}"), "root .block".into()],
        }
    }

    // The lines behind those of the tape.
    fn foot(self) -> Vec<String> {
        match self {
            Ca65 => vec![],
            Tass => vec![" .bend".into()],
        }
    }

    // The word before an operand that demands its one-byte or its two-byte form.
    fn form_word(self, bytes: usize) -> &'static str {
        match (self, bytes) {
            (Ca65, 1) => "z:",
            (Ca65, _) => "a:",
            (Tass, 1) => "@b ",
            (Tass, _) => "@w ",
        }
    }
}

/// A statement of a tape.
pub enum Statement {
    Open(u16),
    Close,
    Label(u16),
    Constant(u16, Expression),
    Plain(What),
}

/// What a line says otherwise than its statement does. Without any of it the line is plain.
#[derive(Clone, Default)]
pub struct Wording {
    /// The form of the operand, by its bytes, is demanded.
    pub form: Option<usize>,
    /// The expression is cut to its low bits, of so many bytes.
    pub low: Option<usize>,
    /// The same with ca65's own words for a part of a number, which say its size as well.
    pub part: Option<usize>,
    /// A number stands for the expression.
    pub number: Option<i64>,
    /// For these paths stand names of the root, which lead to these whole paths.
    pub paths: Vec<(Path, Path)>,
}

// The statements of a tape of a sound form, up to its end record, and the offset of each.
pub fn statements(tape: &[u8]) -> (Vec<usize>, Vec<Statement>) {
    let mut reader = Reader { tape, at: 0 };
    let (mut offsets, mut statements) = (vec![], vec![]);
    while reader.tape[reader.at] != END {
        offsets.push(reader.at);
        statements.push(match reader.byte() {
            OPEN_SCOPE => Statement::Open(reader.word()),
            CLOSE_SCOPE => Statement::Close,
            LABEL => Statement::Label(reader.word()),
            CONSTANT => Statement::Constant(reader.word(), reader.expression()),
            kind => Statement::Plain(reader.plain(kind)),
        });
    }
    (offsets, statements)
}

// Reads a tape and prints its source.
pub fn print(assembler: Assembler) -> io::Result<()> {
    let mut tape = vec![];
    io::stdin().read_to_end(&mut tape)?;
    let (_, statements) = statements(&tape);
    let plain = vec![Wording::default(); statements.len()];
    print!("{}", Source::new(assembler).text(&statements, &plain));
    Ok(())
}

// How many lines stand before that of the first statement.
pub fn lines_before(assembler: Assembler) -> usize {
    assembler.head().len()
}

/// A source that is written: the scope of the line, and the whole paths of the names of the root.
pub struct Source {
    assembler: Assembler,
    scope: Path,
    whole: Vec<Path>,
}

impl Source {
    // No line yet.
    pub fn new(assembler: Assembler) -> Self {
        Self {
            assembler,
            scope: vec![],
            whole: vec![],
        }
    }

    // The whole source, with a wording for each statement.
    pub fn text(mut self, statements: &[Statement], wordings: &[Wording]) -> String {
        let mut lines = self.assembler.head();
        for (statement, wording) in statements.iter().zip(wordings) {
            lines.push(self.line(statement, wording));
        }
        lines.extend(self.assembler.foot());
        for (number, path) in self.whole.iter().enumerate() {
            lines.push(format!("whole{number} = {}", self.from_root(path)));
        }
        lines.join("\n") + "\n"
    }

    // The line of a statement.
    fn line(&mut self, statement: &Statement, wording: &Wording) -> String {
        match statement {
            Statement::Open(id) => {
                self.scope.push(*id);
                match self.assembler {
                    Ca65 => format!(" .scope n{id}"),
                    Tass => format!("n{id} .block"),
                }
            }
            Statement::Close => {
                self.scope.pop();
                match self.assembler {
                    Ca65 => " .endscope".into(),
                    Tass => " .bend".into(),
                }
            }
            Statement::Label(id) => match self.assembler {
                Ca65 => format!("n{id}:"),
                Tass => format!("n{id}"),
            },
            Statement::Constant(id, tree) => format!("n{id} = {}", self.operand(tree, wording)),
            Statement::Plain(what) => self.plain(what, wording),
        }
    }

    // The line of a statement that declares nothing.
    fn plain(&mut self, what: &What, wording: &Wording) -> String {
        match what {
            What::Instruction(row, None) => format!(" {}", MNEMONICS[row[0] as usize]),
            What::Instruction(row, Some(tree)) => self.instruction(*row, tree, wording),
            What::SetPlace(tree) => {
                let word = match self.assembler {
                    Ca65 => ".org",
                    Tass => "* =",
                };
                format!(" {word} {}", self.operand(tree, wording))
            }
            What::Byte(tree) => format!(" .byte {}", self.operand(tree, wording)),
            What::Word(tree) => format!(" .word {}", self.operand(tree, wording)),
            What::ScreenByte(byte) => format!(" .byte ${:02X}", screen_byte(*byte)),
            What::Label(_) | What::Constant(..) => panic!("a declaration is no plain statement"),
        }
    }

    // The line of an instruction with an operand.
    fn instruction(&mut self, row: [u8; 3], tree: &Expression, wording: &Wording) -> String {
        let mnemonic = MNEMONICS[row[0] as usize];
        let suffix = SUFFIXES[row[2] as usize];
        let operand = self.operand(tree, wording);
        let form = wording
            .form
            .map_or("", |bytes| self.assembler.form_word(bytes));
        match row[1] {
            IMMEDIATE => format!(" {mnemonic} #{operand}{suffix}"),
            ABSOLUTE_OR_ZP => format!(" {mnemonic} {form}{operand}{suffix}"),
            INDIRECT => format!(" {mnemonic} ({operand}{suffix})"),
            _ => format!(" {mnemonic} ({operand}){suffix}"),
        }
    }

    // A whole expression. One that begins with a bracket would be an indirect operand.
    fn operand(&mut self, tree: &Expression, wording: &Wording) -> String {
        if let Some(number) = wording.number {
            return number.to_string();
        }
        let text = self.expression(tree, wording);
        match (wording.part, wording.low) {
            (Some(1), _) => format!("<({text})"),
            (Some(_), _) => format!(".loword({text})"),
            (None, Some(bytes)) => format!("0+({text} & ${})", "FF".repeat(bytes)),
            (None, None) if text.starts_with('(') => format!("0+{text}"),
            (None, None) => text,
        }
    }

    // An expression, in brackets where it is more than a number, the place or a name.
    fn expression(&mut self, tree: &Expression, wording: &Wording) -> String {
        match tree {
            Expression::Number(z) if *z < 0 => format!("({z})"),
            Expression::Number(z) => z.to_string(),
            Expression::Here => "*".into(),
            Expression::Name(modifier, path) => {
                let name = self.name(path, wording);
                match *modifier {
                    LOW => format!("(<{name})"),
                    HIGH => format!("(>{name})"),
                    _ => name,
                }
            }
            Expression::Flagged(flags, inner) => {
                let inner = self.expression(inner, wording);
                match *flags {
                    NOT => format!("(!{inner})"),
                    NEG => format!("(-{inner})"),
                    _ => format!("(-(!{inner}))"),
                }
            }
            Expression::Binary(operator, left, right) => {
                let left = self.expression(left, wording);
                let right = self.expression(right, wording);
                self.binary(*operator, &left, &right)
            }
        }
    }

    // Two expressions under an operator. And and Or of 64tass give one of the sides, and may leave the
    // right one out; in their place stand the bits of two truths.
    fn binary(&self, operator: u8, left: &str, right: &str) -> String {
        let word = self.assembler.operators()[operator as usize];
        match (self.assembler, operator) {
            (Tass, AND) => format!("(({left} != 0) & ({right} != 0))"),
            (Tass, OR) => format!("(({left} != 0) | ({right} != 0))"),
            _ => format!("({left} {word} {right})"),
        }
    }

    // A name.
    fn name(&mut self, path: &[u16], wording: &Wording) -> String {
        let other = wording.paths.iter().find(|(written, _)| written == path);
        if let Some((_, whole)) = other {
            self.whole.push(whole.clone());
            return format!("whole{}", self.whole.len() - 1);
        }
        let supers = path.iter().take_while(|id| **id == SUPER).count();
        if supers == 0 || self.scope.len() < supers {
            return self.joined(path);
        }
        let parent = &self.scope[..self.scope.len() - supers];
        self.from_root(&[parent, &path[supers..]].concat())
    }

    // A whole path.
    fn from_root(&self, path: &[u16]) -> String {
        self.assembler.joints().1.to_string() + &self.joined(path)
    }

    // The ids of a path as names.
    fn joined(&self, path: &[u16]) -> String {
        let names: Vec<String> = path.iter().map(|id| format!("n{id}")).collect();
        names.join(self.assembler.joints().0)
    }
}
