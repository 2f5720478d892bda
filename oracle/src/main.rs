//! Puts questions to the Rust of mos and prints its answers.
//!
//! `oracle ask KIND` writes every question of a kind, `oracle sample KIND` the few that are stored
//! beside the replay programs, and `oracle answer KIND` reads questions from standard input and
//! prints a line for each. README.md has the form of the questions. A new kind is a file in kinds/
//! and a line in `kinds::all`.
//!
//! `oracle tapes COUNT` writes tapes for `storm/`, and `oracle tapes short` every short one.
//! `oracle source ASSEMBLER` reads a tape and prints its source for ca65 or 64tass, `oracle
//! assembly-tapes COUNT` writes random tapes, and `oracle listings ASSEMBLER PROGRAM` compares what
//! the program lists with what the assembler makes of them.

mod assembly;
mod kinds;
mod listings;
mod random;
mod refusal;
mod source;

use kinds::Kind;
use source::Assembler;
use std::io::{self, BufWriter, Read, Write};

const USAGE: &str = "usage: oracle kinds | ask KIND | sample KIND | answer KIND \
    | tapes COUNT | tapes short | source ASSEMBLER | assembly-tapes COUNT \
    | listings ASSEMBLER PROGRAM";

// Reads the words of the command line and does what they say.
fn main() -> io::Result<()> {
    let words: Vec<String> = std::env::args().skip(1).collect();
    let words: Vec<&str> = words.iter().map(String::as_str).collect();
    match words[..] {
        ["kinds"] => list_kinds(),
        ["ask", name] => write_questions((find(name).ask)()),
        ["sample", name] => write_questions((find(name).sample)()),
        ["answer", name] => answer_questions(find(name)),
        ["tapes", "short"] => write_questions(kinds::short_tapes()),
        ["tapes", count] => write_questions(kinds::tapes(number(count))),
        ["source", name] => source::print(assembler(name)),
        ["assembly-tapes", count] => assembly::write(number(count)),
        ["listings", name, program] => compare_listings(assembler(name), program),
        _ => fail(USAGE),
    }
}

// Ends the program with a message.
fn fail(message: &str) -> ! {
    eprintln!("oracle: {message}");
    std::process::exit(2)
}

// The number that a word is.
fn number(word: &str) -> usize {
    match word.parse() {
        Ok(number) => number,
        Err(_) => fail(&format!("{word} is no number")),
    }
}

// The kind of this name.
fn find(name: &str) -> Kind {
    match kinds::all().into_iter().find(|kind| kind.name == name) {
        Some(kind) => kind,
        None => fail(&format!("no kind is called {name}")),
    }
}

// The assembler of this name.
fn assembler(name: &str) -> Assembler {
    match Assembler::called(name) {
        Some(assembler) => assembler,
        None => fail(&format!("no assembler is called {name}")),
    }
}

// Compares the listings of a program with an assembler. Ends with 1 at a difference.
fn compare_listings(assembler: Assembler, program: &str) -> io::Result<()> {
    match listings::compare(assembler, program)? {
        0 => Ok(()),
        _ => std::process::exit(1),
    }
}

// Prints a line for each kind: its name, and the bytes of one question.
fn list_kinds() -> io::Result<()> {
    for kind in kinds::all() {
        println!("{} {}", kind.name, kind.width);
    }
    Ok(())
}

// Writes questions as they are.
fn write_questions(questions: Vec<u8>) -> io::Result<()> {
    io::stdout().write_all(&questions)
}

// Reads questions, and prints an answer line for each.
fn answer_questions(kind: Kind) -> io::Result<()> {
    let mut questions = vec![];
    io::stdin().read_to_end(&mut questions)?;
    if questions.len() % kind.width != 0 {
        fail("the last question is cut short");
    }
    let mut answer = (kind.answerer)();
    let mut out = BufWriter::new(io::stdout());
    for question in questions.chunks_exact(kind.width) {
        writeln!(out, "{}", answer(question))?;
    }
    out.flush()
}
