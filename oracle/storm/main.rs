//! Lists, builds and checks many tapes in one process, and holds what the calls say to document 01
//! and to each other.
//!
//! `storm TAPES LIST`: TAPES is a file of tapes, each behind its length and its initial place, both
//! u32; LIST is the program of the crate `list`. At the first answer that is wrong the tape is
//! printed, and the program ends with 1.

mod calls;
#[path = "../src/random.rs"]
mod random;
mod records;
mod text;

use calls::{Finished, Memory, Refusal, Tape, LIST, SIZE, TEXT, WORK};
use random::Random;
use records::{labels, names};
use std::collections::BTreeMap;
use std::fs::{self, File};
use std::process::{Command, ExitCode, Stdio};
use std::time::Instant;
use text::{Line, Lines};

// Where the program LIST builds a tape, and how many tapes it is given.
const LISTED_AT: usize = 0x2000;
const PROCESSES: usize = 1_000;

// Document 01's numbers.
const ARGUMENT: u8 = 1;
const NUMBER_DIFFERS: u8 = 17;
const BYTES_DIFFER: u8 = 18;

const SEED: u64 = 6_507;

/// What went wrong with a tape.
type Fault = &'static str;

/// How many tapes were refused with a number, and how many bytes the shortest has.
struct Refused {
    count: usize,
    shortest: usize,
}

/// What was counted.
#[derive(Default)]
struct Counts {
    finished: usize,
    refused: BTreeMap<u8, Refused>,
    lines: usize,
    longest: usize,
    accepted: usize,
    bytes_changed: usize,
    lists_changed: usize,
    labels_changed: usize,
    near: BTreeMap<&'static str, usize>,
    processes: usize,
}

// Reads the words of the command line, and lets every tape through.
fn main() -> ExitCode {
    let words: Vec<String> = std::env::args().skip(1).collect();
    let [tapes, program] = &words[..] else {
        eprintln!("usage: storm TAPES LIST");
        return ExitCode::from(2);
    };
    let began = Instant::now();
    let all = read_tapes(&fs::read(tapes).expect("TAPES can be read"));
    let input = format!("{tapes}.one");
    let mut storm = Storm::new(program, &input, &all);
    for tape in &all {
        if let Err(fault) = storm.examine(tape) {
            println!("{fault}: initial place {}, tape", tape.initial);
            println!("{}", hex(&tape.bytes));
            return ExitCode::from(1);
        }
    }
    storm.counts.print(all.len());
    println!("seconds: {:.1}", began.elapsed().as_secs_f64());
    ExitCode::SUCCESS
}

// Bytes in hex.
fn hex(bytes: &[u8]) -> String {
    bytes.iter().map(|byte| format!("{byte:02x}")).collect()
}

// The tapes of a file.
fn read_tapes(mut file: &[u8]) -> Vec<Tape> {
    let mut tapes = vec![];
    while !file.is_empty() {
        let length = take_number(&mut file);
        let initial = take_number(&mut file);
        let (bytes, rest) = file.split_at(length);
        let bytes = bytes.to_vec();
        tapes.push(Tape { initial, bytes });
        file = rest;
    }
    tapes
}

// Takes a u32 from a file.
fn take_number(file: &mut &[u8]) -> usize {
    let (number, rest) = file.split_at(4);
    *file = rest;
    u32::from_le_bytes(number.try_into().unwrap()) as usize
}

// Nothing, or a fault where something does not hold.
fn hold(holds: bool, fault: Fault) -> Result<(), Fault> {
    match holds {
        true => Ok(()),
        false => Err(fault),
    }
}

// Bytes of which none is zero, and neighbours differ.
fn pattern(length: usize) -> Vec<u8> {
    (0..length).map(|i| (i % 251) as u8 + 1).collect()
}

// Memory of which nothing is zero.
fn used_memory() -> Memory {
    Memory {
        image: pattern(SIZE),
        numbers: (1..=LIST as i64).collect(),
        work: (0..WORK).map(|i| (i % 65_521) as u16 + 1).collect(),
    }
}

// The image of some lines, later ones over earlier ones, over zeros.
fn laid(lines: &[Line]) -> Option<Vec<u8>> {
    let mut image = vec![0; SIZE];
    for line in lines {
        let room = image.get_mut(line.place..line.place + line.bytes.len())?;
        room.copy_from_slice(&line.bytes);
    }
    Some(image)
}

// The least and the greatest place of some lines; with none, the initial place.
fn covered(lines: &[Line], initial: usize) -> (usize, usize) {
    let start = lines.iter().map(|line| line.place).min();
    let end = lines.iter().map(|line| line.place + line.bytes.len()).max();
    (start.unwrap_or(initial), end.unwrap_or(initial))
}

/// The program LIST, its input, and which tapes it is given; lent memory, and how it was before.
struct Storm<'a> {
    program: &'a str,
    input: &'a str,
    step: usize,
    listed_at: usize,
    text: Vec<u8>,
    text_before: Vec<u8>,
    memory: Memory,
    memory_before: Memory,
    source: Random,
    counts: Counts,
}

impl<'a> Storm<'a> {
    // Before the first tape.
    fn new(program: &'a str, input: &'a str, all: &[Tape]) -> Self {
        let listed = all.iter().filter(|tape| tape.initial == LISTED_AT).count();
        Self {
            program,
            input,
            step: (listed / PROCESSES).max(1),
            listed_at: 0,
            text: pattern(TEXT),
            text_before: pattern(TEXT),
            memory: used_memory(),
            memory_before: used_memory(),
            source: Random::new(SEED),
            counts: Counts::default(),
        }
    }

    // Lets a tape through every call.
    fn examine(&mut self, tape: &Tape) -> Result<(), Fault> {
        let length = self.list(tape)?;
        let said = text::read(&self.text[..length]).ok_or("the text has another form")?;
        match (said, self.build(tape)) {
            (Err(told), Err(refusal)) if told == refusal => self.refused(tape, refusal)?,
            (Ok(lines), Ok(finished)) => self.finished(tape, &lines, &finished)?,
            _ => return Err("listing and build differ"),
        }
        self.compare_process(tape, length)?;
        self.text[..length].copy_from_slice(&self.text_before[..length]);
        Ok(())
    }

    // Lists a tape; how long the text is. What is behind it stays as it was.
    fn list(&mut self, tape: &Tape) -> Result<usize, Fault> {
        let length = calls::list(tape, &mut self.text).map_err(|_| "the listing gives no text")?;
        hold(length <= TEXT, "the text is longer than its room")?;
        let is_kept = self.text[length..] == self.text_before[length..];
        hold(is_kept, "something behind the text changed")?;
        self.counts.longest = self.counts.longest.max(length);
        Ok(length)
    }

    // Builds a tape in memory that was used before.
    fn build(&mut self, tape: &Tape) -> Result<Finished, Refusal> {
        self.memory.clone_from(&self.memory_before);
        calls::build(tape, &mut self.memory)
    }

    // "A build refused for any number but 1 leaves its number list and work memory zero; for 1,
    // unchanged." The image stays.
    fn refused(&mut self, tape: &Tape, refusal: Refusal) -> Result<(), Fault> {
        self.counts.refuse(refusal.number, tape.bytes.len());
        let (now, before) = (&self.memory, &self.memory_before);
        hold(now.image == before.image, "a refused build wrote an image")?;
        if refusal.number == ARGUMENT {
            return hold(now == before, "a build with a bad argument wrote");
        }
        let is_zero = now.numbers.iter().all(|z| *z == 0) && now.work.iter().all(|n| *n == 0);
        hold(is_zero, "a refused build left numbers or work")
    }

    // What a finished build leaves behind, against the listing, and against the checker.
    fn finished(&mut self, tape: &Tape, lines: &Lines, built: &Finished) -> Result<(), Fault> {
        let (start, end) = (built.start, built.end);
        let last = (lines.start, lines.end, lines.passes);
        hold(last == (start, end, built.passes), "the last line differs")?;
        let range = covered(&lines.lines, tape.initial);
        hold(range == (start, end), "the lines cover another range")?;
        let image = laid(&lines.lines).ok_or("a line goes beyond the last place")?;
        hold(image == self.memory.image, "the lines give another image")?;
        let called: Vec<usize> = lines.lines.iter().map(|line| line.name).collect();
        hold(called == names(&tape.bytes), "the lines are other records")?;
        let is_count = built.numbers == labels(&tape.bytes).len();
        hold(is_count, "the list has another length")?;
        let behind = &self.memory.numbers[built.numbers..];
        hold(behind.iter().all(|z| *z == 0), "numbers behind the list")?;
        let is_clear = self.memory.work.iter().all(|n| *n == 0);
        hold(is_clear, "a finished build left work")?;
        self.counts.finished += 1;
        self.counts.lines += lines.lines.len();
        let numbers = self.memory.numbers[..built.numbers].to_vec();
        self.check(tape, numbers, start, &image[start..end])
    }

    // The checker accepts the build, and notices what is changed in it.
    fn check(
        &mut self,
        tape: &Tape,
        numbers: Vec<i64>,
        start: usize,
        bytes: &[u8],
    ) -> Result<(), Fault> {
        let checked = calls::check(tape, &numbers, start, bytes);
        hold(checked.is_ok(), "the checker refuses the build")?;
        self.counts.accepted += 1;
        self.change_byte(tape, &numbers, start, bytes.to_vec())?;
        self.change_list(tape, &numbers, start, bytes)?;
        self.change_number(tape, numbers, start, bytes)
    }

    // With one byte changed: 18.
    fn change_byte(
        &mut self,
        tape: &Tape,
        numbers: &[i64],
        start: usize,
        mut bytes: Vec<u8>,
    ) -> Result<(), Fault> {
        if bytes.is_empty() {
            return Ok(());
        }
        let at = self.any_index(bytes.len());
        bytes[at] ^= self.source.between(1, 255) as u8;
        let (number, at) = (BYTES_DIFFER, 0);
        let checked = calls::check(tape, numbers, start, &bytes);
        self.counts.bytes_changed += 1;
        hold(checked == Err(Refusal { number, at }), "a changed byte")
    }

    // With one number more: 17.
    fn change_list(
        &mut self,
        tape: &Tape,
        numbers: &[i64],
        start: usize,
        bytes: &[u8],
    ) -> Result<(), Fault> {
        let (number, at) = (NUMBER_DIFFERS, 0);
        let checked = calls::check(tape, &[numbers, &[0]].concat(), start, bytes);
        self.counts.lists_changed += 1;
        hold(checked == Err(Refusal { number, at }), "a longer list")
    }

    // With one number changed. A label's number is a place, so that one that is no place never fits;
    // one nearby may, where set place leads to the name itself, and is counted.
    fn change_number(
        &mut self,
        tape: &Tape,
        mut numbers: Vec<i64>,
        start: usize,
        bytes: &[u8],
    ) -> Result<(), Fault> {
        if numbers.is_empty() {
            return Ok(());
        }
        let at = self.any_index(numbers.len());
        let is_label = labels(&tape.bytes)[at];
        let right = numbers[at];
        numbers[at] = right.wrapping_add(self.source.between(1, 3));
        let near = calls::check(tape, &numbers, start, bytes);
        *self.counts.near.entry(kept(is_label, near)).or_default() += 1;
        if !is_label {
            return Ok(());
        }
        numbers[at] = right + 1 + SIZE as i64;
        let checked = calls::check(tape, &numbers, start, bytes);
        self.counts.labels_changed += 1;
        hold(checked.is_err(), "a label's number that is no place")
    }

    // An index of a list.
    fn any_index(&mut self, length: usize) -> usize {
        self.source.between(0, length as i64 - 1) as usize
    }

    // Gives the tape to the program, if it is one of those, and compares what that prints.
    fn compare_process(&mut self, tape: &Tape, length: usize) -> Result<(), Fault> {
        if tape.initial != LISTED_AT {
            return Ok(());
        }
        self.listed_at += 1;
        if self.listed_at % self.step != 0 || self.counts.processes == PROCESSES {
            return Ok(());
        }
        fs::write(self.input, &tape.bytes).expect("the input can be written");
        let input = Stdio::from(File::open(self.input).expect("the input can be read"));
        let ran = Command::new(self.program).stdin(input).output();
        let ran = ran.expect("LIST can be run");
        self.counts.processes += 1;
        hold(ran.status.success(), "the program failed")?;
        hold(
            ran.stdout == self.text[..length],
            "the program prints another text",
        )
    }
}

// What came of a number that was changed a little.
fn kept(is_label: bool, checked: Result<(), Refusal>) -> &'static str {
    match (is_label, checked) {
        (true, Ok(())) => "labels accepted",
        (false, Ok(())) => "constants accepted",
        (_, Err(refusal)) if refusal.number == NUMBER_DIFFERS => "refused with 17",
        _ => "refused with another number",
    }
}

impl Counts {
    // Counts a tape of so many bytes that is refused with a number.
    fn refuse(&mut self, number: u8, length: usize) {
        let refused = self.refused.entry(number).or_insert(Refused {
            count: 0,
            shortest: length,
        });
        refused.count += 1;
        refused.shortest = refused.shortest.min(length);
    }

    // Prints what was counted.
    fn print(&self, tapes: usize) {
        println!("tapes: {tapes}");
        println!("finished: {}", self.finished);
        for (number, refused) in &self.refused {
            let Refused { count, shortest } = refused;
            println!("refused with {number}: {count}, the shortest of {shortest} bytes");
        }
        println!("lines listed: {}", self.lines);
        println!("longest listing, in bytes: {}", self.longest);
        println!("checks accepted: {}", self.accepted);
        println!("checks with a byte changed: {}", self.bytes_changed);
        println!("checks with a number more: {}", self.lists_changed);
        println!("checks with no place for a label: {}", self.labels_changed);
        for (what, count) in &self.near {
            println!("checks with a number changed a little, {what}: {count}");
        }
        println!("processes compared: {}", self.processes);
    }
}
