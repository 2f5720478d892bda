//! The records of document 01's tape under their names, and the bytes of each record that
//! expressions are made of.

pub const NUMBER: u8 = 0x01;
pub const CURRENT_PLACE: u8 = 0x02;
pub const NAME_1: u8 = 0x11;
pub const NAME_4: u8 = 0x14;
pub const FLAGS: u8 = 0x20;
pub const BINARY: u8 = 0x30;
pub const INSTRUCTION: u8 = 0x40;
pub const OPEN_SCOPE: u8 = 0x42;
pub const CLOSE_SCOPE: u8 = 0x43;
pub const LABEL: u8 = 0x44;
pub const CONSTANT: u8 = 0x45;
pub const SET_PLACE: u8 = 0x46;
pub const BYTE: u8 = 0x47;
pub const WORD: u8 = 0x48;
pub const SCREEN_BYTE: u8 = 0x49;
pub const END: u8 = 0x4f;

// The flags.
pub const NOT: u8 = 1;
pub const NEG: u8 = 2;
pub const BOTH: u8 = 3;

// The modifiers of a name.
pub const WHOLE: u8 = 0;
pub const LOW: u8 = 1;
pub const HIGH: u8 = 2;

/// The last of the sixteen operators.
pub const LAST_OPERATOR: u8 = 15;

/// How many expression records may be nested.
pub const DEEPEST: usize = 64;

/// The most bytes that a tape or an expression has.
pub const LONGEST: usize = 65_536;

/// The id that leads to the parent, and the last one.
pub const SUPER: u16 = 0;
pub const LAST_ID: u16 = u16::MAX;

// A number.
pub fn number(value: i64) -> Vec<u8> {
    [&[NUMBER][..], &value.to_le_bytes()].concat()
}

// The current place.
pub fn current_place() -> Vec<u8> {
    vec![CURRENT_PLACE]
}

// A name of one to four ids.
pub fn name(modifier: u8, ids: &[u16]) -> Vec<u8> {
    let kind = NAME_1 + ids.len() as u8 - 1;
    let ids = ids.iter().flat_map(|id| id.to_le_bytes());
    [kind, modifier].into_iter().chain(ids).collect()
}

// Flags before an expression.
pub fn flagged(flags: u8, inner: &[u8]) -> Vec<u8> {
    [&[FLAGS, flags], inner].concat()
}

// An operator between two expressions.
pub fn binary(operator: u8, left: &[u8], right: &[u8]) -> Vec<u8> {
    [&[BINARY, operator], left, right].concat()
}
