//! Times the calls on four tapes, and next to them four assemblers on one of these as source. It
//! prints a table, in Markdown.
//!
//! Times are processor time, the least of many runs, as `cells` says. A run counts only if its
//! answer is right: the program ends with 1 at the first that is wrong.

#[path = "../storm/calls.rs"]
mod calls;
mod cells;
mod clock;
mod peers;
mod process;
#[path = "../storm/records.rs"]
mod records;
mod tapes;
#[path = "../storm/text.rs"]
mod text;

use calls::{Finished, Memory, LIST, SIZE, TEXT, WORK};
use cells::{figures, hold, Cell};
use peers::Peer;
use std::time::Duration;
use tapes::{Case, Image, INITIAL};
use text::Lines;

// Times everything, and prints the table.
fn main() {
    let cases = tapes::all();
    let [flat, ..] = &cases;
    let mut cells: Vec<Cell> = cases.iter().flat_map(call_cells).collect();
    let first = cells.len();
    cells.extend(peers::ALL.iter().map(|peer| peer_cell(peer, flat)));
    let nothing = "a process that does nothing".into();
    cells.push(Cell::new(nothing, peers::time_nothing));
    cells::run(cells.iter_mut());
    print(&cells, cells[first].least());
}

// Each call on a tape. A check is given what a build leaves: nothing, where that is refused.
fn call_cells(case: &Case) -> [Cell<'_>; 3] {
    let mut memory = new_memory();
    let mut text = vec![0; TEXT];
    let numbers = built_numbers(case);
    [
        Cell::new(called("build", case), move || time_build(case, &mut memory)),
        Cell::new(called("check", case), move || time_check(case, &numbers)),
        Cell::new(called("list", case), move || time_list(case, &mut text)),
    ]
}

// What a call on a tape is called in the table.
fn called(call: &str, case: &Case) -> String {
    format!("`{call}`, {}", case.name)
}

// The memory that is lent to a build.
fn new_memory() -> Memory {
    Memory {
        image: vec![0; SIZE],
        numbers: vec![0; LIST],
        work: vec![0; WORK],
    }
}

// The numbers that a build leaves; none, where it is refused.
fn built_numbers(case: &Case) -> Vec<i64> {
    let mut memory = new_memory();
    if case.answer.is_ok() {
        time_build(case, &mut memory);
    }
    memory.numbers.truncate(numbers_of(case));
    memory.numbers
}

// How many labels and constants a tape has.
fn numbers_of(case: &Case) -> usize {
    records::labels(&case.tape.bytes).len()
}

// The time of one build.
fn time_build(case: &Case, memory: &mut Memory) -> Duration {
    let (built, took) = clock::timed(|| calls::build(&case.tape, memory));
    let is_right = match (&case.answer, built) {
        (Ok(image), Ok(finished)) => is_built(case, image, &finished, memory),
        (answer, built) => answer.as_ref().err() == built.err().as_ref(),
    };
    hold(is_right, &called("build", case));
    took
}

// Whether a finished build is the one that has to be.
fn is_built(case: &Case, image: &Image, finished: &Finished, memory: &Memory) -> bool {
    let (start, end) = (finished.start, finished.end);
    start == INITIAL
        && finished.passes == image.passes
        && finished.numbers == numbers_of(case)
        && memory.image.get(start..end) == Some(&image.bytes)
}

// The time of one check.
fn time_check(case: &Case, numbers: &[i64]) -> Duration {
    let (bytes, right) = match &case.answer {
        Ok(image) => (&image.bytes[..], Ok(())),
        Err(refusal) => (&[][..], Err(*refusal)),
    };
    let (checked, took) = clock::timed(|| calls::check(&case.tape, numbers, INITIAL, bytes));
    hold(checked == right, &called("check", case));
    took
}

// The time of one listing.
fn time_list(case: &Case, text: &mut [u8]) -> Duration {
    let (listed, took) = clock::timed(|| calls::list(&case.tape, text));
    let said = listed.ok().and_then(|length| text::read(&text[..length]));
    let is_right = match (&case.answer, said) {
        (Ok(image), Some(Ok(lines))) => is_listed(case, image, &lines),
        (Err(refusal), Some(Err(told))) => *refusal == told,
        _ => false,
    };
    hold(is_right, &called("list", case));
    took
}

// Whether the lines of a listing are the tape's writing records, one behind the other.
fn is_listed(case: &Case, image: &Image, lines: &Lines) -> bool {
    let mut bytes: Vec<u8> = vec![];
    let mut names = vec![];
    for line in &lines.lines {
        if line.place != INITIAL + bytes.len() {
            return false;
        }
        bytes.extend(&line.bytes);
        names.push(line.name);
    }
    let last = (lines.start, lines.end, lines.passes);
    last == (INITIAL, INITIAL + bytes.len(), image.passes)
        && bytes == image.bytes
        && names == records::names(&case.tape.bytes)
}

// An assembler on the source of `flat`.
fn peer_cell<'a>(peer: &'a Peer, flat: &'a Case) -> Cell<'a> {
    peer.write(&tapes::flat_source());
    let what = format!("{}, the whole run, {}", peer.name, flat.name);
    let bytes = flat.answer.as_ref().map_or(&[][..], |image| &image.bytes);
    Cell::new(what, || peer.time(bytes))
}

// Prints the table.
fn print(cells: &[Cell], unit: Duration) {
    println!("| what | ms | of xa's run |");
    println!("|---|---|---|");
    for cell in cells {
        let seconds = cell.least().as_secs_f64();
        let ms = figures(seconds * 1_000.0);
        let ratio = figures(seconds / unit.as_secs_f64());
        println!("| {} | {ms} | {ratio} |", cell.what);
    }
}
