//! The calls of the static library. A slice is handed over as its pointer and its length.

/// How many bytes a text, an image and a tape's work memory have, and how many numbers a list.
pub const TEXT: usize = 1_310_740;
pub const SIZE: usize = 65_536;
pub const WORK: usize = 65_536;
pub const LIST: usize = 1_024;

// What a call gives that refuses nothing.
const DONE: u8 = 0;

extern "C" {
    fn storm_list(
        tape: *const u8,
        tape_length: usize,
        initial: usize,
        text: *mut u8,
        text_length: usize,
        answers: *mut usize,
        answers_length: usize,
    ) -> u8;

    fn storm_build(
        tape: *const u8,
        tape_length: usize,
        initial: usize,
        image: *mut u8,
        image_length: usize,
        numbers: *mut i64,
        numbers_length: usize,
        work: *mut u16,
        work_length: usize,
        answers: *mut usize,
        answers_length: usize,
    ) -> u8;

    fn storm_check(
        tape: *const u8,
        tape_length: usize,
        initial: usize,
        numbers: *const i64,
        numbers_length: usize,
        start: usize,
        bytes: *const u8,
        bytes_length: usize,
        answers: *mut usize,
        answers_length: usize,
    ) -> u8;
}

/// A tape, and the place that it is built from.
pub struct Tape {
    pub initial: usize,
    pub bytes: Vec<u8>,
}

/// A refusal: document 01's number, and the offset.
#[derive(Clone, Copy, Debug, PartialEq)]
pub struct Refusal {
    pub number: u8,
    pub at: usize,
}

/// A finished build: where what is written starts and ends, the passes, and how many numbers the
/// list has.
pub struct Finished {
    pub start: usize,
    pub end: usize,
    pub passes: usize,
    pub numbers: usize,
}

/// The memory that is lent to a build.
#[derive(Clone, PartialEq)]
pub struct Memory {
    pub image: Vec<u8>,
    pub numbers: Vec<i64>,
    pub work: Vec<u16>,
}

// Lists a tape. How long the text is, or the number of the refusal.
pub fn list(tape: &Tape, text: &mut [u8]) -> Result<usize, u8> {
    let mut answers = [0];
    let number = unsafe {
        storm_list(
            tape.bytes.as_ptr(),
            tape.bytes.len(),
            tape.initial,
            text.as_mut_ptr(),
            text.len(),
            answers.as_mut_ptr(),
            answers.len(),
        )
    };
    match number {
        DONE => Ok(answers[0]),
        _ => Err(number),
    }
}

// Builds a tape.
pub fn build(tape: &Tape, memory: &mut Memory) -> Result<Finished, Refusal> {
    let mut answers = [0; 4];
    let number = unsafe {
        storm_build(
            tape.bytes.as_ptr(),
            tape.bytes.len(),
            tape.initial,
            memory.image.as_mut_ptr(),
            memory.image.len(),
            memory.numbers.as_mut_ptr(),
            memory.numbers.len(),
            memory.work.as_mut_ptr(),
            memory.work.len(),
            answers.as_mut_ptr(),
            answers.len(),
        )
    };
    let [start, end, numbers, passes] = answers;
    match number {
        DONE => Ok(Finished {
            start,
            end,
            passes,
            numbers,
        }),
        _ => Err(Refusal { number, at: start }),
    }
}

// Checks numbers, a start and bytes against a tape.
pub fn check(tape: &Tape, numbers: &[i64], start: usize, bytes: &[u8]) -> Result<(), Refusal> {
    let mut answers = [0];
    let number = unsafe {
        storm_check(
            tape.bytes.as_ptr(),
            tape.bytes.len(),
            tape.initial,
            numbers.as_ptr(),
            numbers.len(),
            start,
            bytes.as_ptr(),
            bytes.len(),
            answers.as_mut_ptr(),
            answers.len(),
        )
    };
    let [at] = answers;
    match number {
        DONE => Ok(()),
        _ => Err(Refusal { number, at }),
    }
}
