//! How the Rust refuses, and document 01's numbers.

use std::panic;

pub const ARGUMENT: u8 = 1;
pub const NO_ROOM: u8 = 2;
pub const NAME_TAKEN: u8 = 3;
pub const LOOP: u8 = 4;
pub const BAD_RECORD: u8 = 5;
pub const NO_ROW: u8 = 6;
pub const CUT_SHORT: u8 = 7;
pub const UNPAIRED: u8 = 8;
pub const TOO_DEEP: u8 = 9;
pub const ARITHMETIC: u8 = 10;
pub const UNRESOLVED: u8 = 11;
pub const TOO_SMALL: u8 = 12;
pub const MOVED: u8 = 13;
pub const TOO_FAR: u8 = 14;
pub const OUTSIDE: u8 = 15;
pub const NOT_SETTLED: u8 = 16;
pub const NUMBER_DIFFERS: u8 = 17;
pub const BYTES_DIFFER: u8 = 18;

/// The answer line of a refusal.
pub const REFUSED: &str = "refused";

// Runs the Rust; nothing is returned if it panics, and nothing is printed then.
pub fn tried<T>(run: impl FnOnce() -> T) -> Option<T> {
    let hook = panic::take_hook();
    panic::set_hook(Box::new(|_| {}));
    let result = panic::catch_unwind(panic::AssertUnwindSafe(run));
    panic::set_hook(hook);
    result.ok()
}

// The answer line, or the line of a refusal.
pub fn or_refused(answer: Option<String>) -> String {
    answer.unwrap_or_else(|| REFUSED.to_string())
}
