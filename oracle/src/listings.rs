//! Holds the listings of tapes to what an assembler makes of them.
//!
//! `oracle listings ASSEMBLER PROGRAM` reads tapes, each behind its length as a u32, puts each to the
//! listing program and its source to the assembler, and compares place and bytes of each record that
//! writes. Where a tape is refused here the assembler has to find an error in the same line, or, for an
//! unresolved name, in that of a constant which the line needs. What differs has to belong to a known
//! class (`listings/classes.rs`); each class is counted, and printed with its smallest tape.

mod classes;
mod reading;
mod said;

use crate::kinds::hex;
use crate::refusal::{NOT_SETTLED, UNRESOLVED};
use crate::source::{lines_before, statements, Assembler, Source, Statement, Wording};
use classes::{Class, Rewordings};
use reading::Reading;
use said::{Ours, Theirs};
use std::collections::{BTreeMap, BTreeSet};
use std::io::{self, Read};

/// How a tape ended: both write the same; both refuse it, the assembler at the first statement that is
/// at fault, or at later ones that are; by some classes; or differently.
#[derive(Clone, PartialEq, Eq, PartialOrd, Ord)]
enum Ending {
    SameBytes,
    SameRefusal,
    LaterRefusal,
    Known(Vec<Class>),
    Different,
}

/// How many tapes ended in a way, and the smallest one.
#[derive(Default)]
struct Count {
    tapes: usize,
    smallest: Vec<u8>,
}

/// A comparison with an assembler.
struct Comparison<'a> {
    assembler: Assembler,
    program: &'a str,
    counts: BTreeMap<Ending, Count>,
}

// Compares the tapes on standard input, and prints the counts; how many differences there are.
pub fn compare(assembler: Assembler, program: &str) -> io::Result<usize> {
    let mut comparison = Comparison {
        assembler,
        program,
        counts: BTreeMap::new(),
    };
    for tape in read_tapes()? {
        let ending = comparison.ending(&tape)?;
        let count = comparison.counts.entry(ending).or_default();
        count.tapes += 1;
        if count.tapes == 1 || tape.len() < count.smallest.len() {
            count.smallest = tape;
        }
    }
    comparison.print()?;
    let different = comparison.counts.get(&Ending::Different);
    Ok(different.map_or(0, |count| count.tapes))
}

// The tapes on standard input.
fn read_tapes() -> io::Result<Vec<Vec<u8>>> {
    let mut bytes = vec![];
    io::stdin().read_to_end(&mut bytes)?;
    let (mut tapes, mut rest) = (vec![], &bytes[..]);
    while let Some((length, behind)) = rest.split_first_chunk::<4>() {
        let (tape, behind) = behind.split_at(u32::from_le_bytes(*length) as usize);
        tapes.push(tape.to_vec());
        rest = behind;
    }
    Ok(tapes)
}

impl Comparison<'_> {
    // How a tape ends: with its plain source, with the lines of one class reworded, of two, of all.
    fn ending(&self, tape: &[u8]) -> io::Result<Ending> {
        let (ours, _) = said::ours(self.program, tape)?;
        let reading = Reading::new(tape);
        let rewordings = classes::rewordings(&reading, self.assembler);
        for chosen in choices(&rewordings) {
            let source = self.source(&reading, &rewordings, &chosen);
            let theirs = said::theirs(self.assembler, &source)?;
            match self.verdict(&reading, &ours, &theirs) {
                Ending::Different => {}
                Ending::Known(class) => return Ok(Ending::Known([chosen, class].concat())),
                same if chosen.is_empty() => return Ok(same),
                _ => return Ok(Ending::Known(chosen)),
            }
        }
        Ok(Ending::Different)
    }

    // The source of a tape with the lines of some classes reworded.
    fn source(&self, reading: &Reading, rewordings: &Rewordings, chosen: &[Class]) -> String {
        let mut wordings = vec![Wording::default(); reading.statements.len()];
        for (at, wording) in chosen.iter().flat_map(|class| &rewordings[class]) {
            wordings[*at] = classes::joined(&wordings[*at], wording);
        }
        Source::new(self.assembler).text(&reading.statements, &wordings)
    }

    // Whether both sides say the same of a source, or what known refusal is on one side alone.
    fn verdict(&self, reading: &Reading, ours: &Ours, theirs: &Theirs) -> Ending {
        match (ours, theirs) {
            (Ours::Lines(ours), Theirs::Lines(theirs)) if ours == theirs => Ending::SameBytes,
            (Ours::Lines(_), Theirs::Lines(_)) => Ending::Different,
            (Ours::Lines(_), Theirs::Refused(lines)) => {
                let errors = self.statements_at(lines);
                known(classes::of_their_refusal(reading, self.assembler, &errors))
            }
            (_, Theirs::Endless) => known(classes::of_endless(reading, self.assembler)),
            (Ours::Refused { number, .. }, Theirs::Refused(_)) if *number == NOT_SETTLED => {
                Ending::SameRefusal
            }
            (Ours::Refused { number, at }, theirs) => match reading.statement_at(*at) {
                Some(at) => self.refusal(reading, *number, at, theirs),
                None => Ending::Different,
            },
        }
    }

    // Whether the assembler refuses the same statement, or what known class it is.
    fn refusal(&self, reading: &Reading, number: u8, at: usize, theirs: &Theirs) -> Ending {
        let alone = || classes::of_refusal(reading, self.assembler, number, at);
        let class = match theirs {
            Theirs::Refused(lines) => {
                let errors = self.statements_at(lines);
                let blamed = blamed(reading, number, at);
                if errors.iter().any(|at| blamed.contains(at)) {
                    return Ending::SameRefusal;
                }
                let mut others = errors;
                others.retain(|at| !reading.is_at_fault(*at));
                if others.is_empty() {
                    return Ending::LaterRefusal;
                }
                classes::of_their_refusal(reading, self.assembler, &others)
                    .or_else(|| classes::of_both(reading, self.assembler, at))
                    .or_else(alone)
            }
            _ => alone(),
        };
        known(class)
    }

    // The statements of some lines of the source.
    fn statements_at(&self, lines: &BTreeSet<usize>) -> Vec<usize> {
        let before = lines_before(self.assembler) + 1;
        lines.iter().map(|line| line - before).collect()
    }

    // Prints the counts, a small tape for each class that stands alone, and one for the differences.
    fn print(&self) -> io::Result<()> {
        for (ending, count) in &self.counts {
            println!("{}: {}", ending_name(ending), count.tapes);
        }
        for (ending, count) in &self.counts {
            let is_alone = matches!(ending, Ending::Known(classes) if classes.len() == 1);
            if is_alone || *ending == Ending::Different {
                println!("\nsmallest tape, {}:", ending_name(ending));
                self.print_tape(&self.shrunk(ending, &count.smallest)?)?;
            }
        }
        Ok(())
    }

    // A tape without the statements that are not needed for its ending.
    fn shrunk(&self, ending: &Ending, tape: &[u8]) -> io::Result<Vec<u8>> {
        let mut tape = tape.to_vec();
        let mut left = shorter(&tape);
        while let Some(candidate) = left.pop() {
            if self.ending(&candidate)? == *ending {
                left = shorter(&candidate);
                tape = candidate;
            }
        }
        Ok(tape)
    }

    // Prints a tape, its source, and what both sides say of it.
    fn print_tape(&self, tape: &[u8]) -> io::Result<()> {
        let reading = Reading::new(tape);
        let source = self.source(&reading, &Rewordings::new(), &[]);
        println!("{}\n{source}", hex(tape));
        print!("here:\n{}there: ", said::ours(self.program, tape)?.1);
        match said::theirs(self.assembler, &source)? {
            Theirs::Endless => println!("no end"),
            Theirs::Refused(lines) => println!("an error in line {lines:?}"),
            Theirs::Lines(lines) => {
                let line =
                    |(place, bytes): &(usize, Vec<u8>)| format!("\n{place:04X} {}", hex(bytes));
                println!("{}", lines.iter().map(line).collect::<String>());
            }
        }
        Ok(())
    }
}

// A tape without each of its statements; where that opens a scope, without its end as well.
fn shorter(tape: &[u8]) -> Vec<Vec<u8>> {
    let (mut offsets, statements) = statements(tape);
    offsets.push(tape.len() - 1);
    let part = |at: usize| offsets[at]..offsets[at + 1];
    let mut shorter = vec![];
    for (at, statement) in statements.iter().enumerate() {
        let (before, behind) = (&tape[..part(at).start], &tape[part(at).end..]);
        match statement {
            Statement::Close => {}
            Statement::Open(_) => {
                let close = part(closing(&statements, at)).start;
                let inside = &tape[part(at).end..close];
                shorter.push([before, inside, &tape[close + 1..]].concat());
                shorter.push([before, &tape[close + 1..]].concat());
            }
            _ => shorter.push([before, behind].concat()),
        }
    }
    shorter
}

// The statement that closes the scope which a statement opens.
fn closing(statements: &[Statement], open: usize) -> usize {
    let mut depth = 0;
    for (at, statement) in statements.iter().enumerate().skip(open) {
        match statement {
            Statement::Open(_) => depth += 1,
            Statement::Close => depth -= 1,
            _ => {}
        }
        if depth == 0 {
            return at;
        }
    }
    panic!("every scope is closed")
}

// The ending of a class, if there is one.
fn known(class: Option<Class>) -> Ending {
    match class {
        Some(class) => Ending::Known(vec![class]),
        None => Ending::Different,
    }
}

// The statements at which an assembler may find the error that is a refusal here: that statement; and
// for an unresolved name the constants that it needs.
fn blamed(reading: &Reading, number: u8, at: usize) -> BTreeSet<usize> {
    let mut blamed = BTreeSet::from([at]);
    if number == UNRESOLVED {
        blamed.extend(reading.needed(at).into_iter().map(|(by, _)| by));
    }
    blamed
}

// The classes whose lines are reworded: none, each one, each two, and all.
fn choices(rewordings: &Rewordings) -> Vec<Vec<Class>> {
    let all: Vec<Class> = rewordings.keys().copied().collect();
    let mut choices = vec![vec![]];
    choices.extend(all.iter().map(|class| vec![*class]));
    for (at, one) in all.iter().enumerate() {
        choices.extend(all[at + 1..].iter().map(|other| vec![*one, *other]));
    }
    if all.len() > 2 {
        choices.push(all);
    }
    choices
}

// What an ending is called.
fn ending_name(ending: &Ending) -> String {
    match ending {
        Ending::SameBytes => "same places and bytes".into(),
        Ending::SameRefusal => "refused by both, at the same line".into(),
        Ending::LaterRefusal => "refused by both, at later lines that are at fault here too".into(),
        Ending::Different => "different".into(),
        Ending::Known(classes) => {
            let names: Vec<String> = classes.iter().map(Class::to_string).collect();
            format!("known: {}", names.join(" + "))
        }
    }
}
