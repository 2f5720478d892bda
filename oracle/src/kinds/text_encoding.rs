//! text_encoding.rs: the screen byte of a Petscii byte.
//!
//! A question is the byte. All 256 are asked, and all are stored.

use super::{hex, Answerer, Kind};
use mos::codegen::text_encoding::encode_text;
use mos::parser::TextEncoding;

// What the driver knows of this kind.
pub fn kind() -> Kind {
    Kind {
        name: "text_encoding",
        width: 1,
        ask,
        sample: ask,
        answerer,
    }
}

// Every byte.
fn ask() -> Vec<u8> {
    (0..=255).collect()
}

// Nothing is kept from one question to the next.
fn answerer() -> Answerer {
    Box::new(answer)
}

// The screen bytes of the string that is this one byte.
fn answer(question: &[u8]) -> String {
    let text = char::from(question[0]).to_string();
    hex(&encode_text(&text, TextEncoding::Petscreen))
}
