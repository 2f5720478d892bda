//! The records of a tape of sound form. Each kind of record has one length.

const NUMBER: u8 = 0x01;
const NAME_1: u8 = 0x11;
const NAME_4: u8 = 0x14;
const FLAGS: u8 = 0x20;
const BINARY: u8 = 0x30;
const INSTRUCTION: u8 = 0x40;
const OPEN_SCOPE: u8 = 0x42;
const LABEL: u8 = 0x44;
const CONSTANT: u8 = 0x45;
const BYTE: u8 = 0x47;
const WORD: u8 = 0x48;
const SCREEN_BYTE: u8 = 0x49;

// The records of a tape, in its order.
fn records(mut tape: &[u8]) -> Vec<&[u8]> {
    let mut records = vec![];
    while let [kind, ..] = tape {
        let (record, rest) = tape.split_at(length(*kind));
        records.push(record);
        tape = rest;
    }
    records
}

// How long a record of this kind is.
fn length(kind: u8) -> usize {
    match kind {
        NUMBER => 9,
        NAME_1..=NAME_4 => 4 + 2 * usize::from(kind - NAME_1),
        INSTRUCTION => 4,
        OPEN_SCOPE | LABEL | CONSTANT => 3,
        FLAGS | BINARY | SCREEN_BYTE => 2,
        _ => 1,
    }
}

// Whether each record that has a number, in tape order, is a label.
pub fn labels(tape: &[u8]) -> Vec<bool> {
    let label = |record: &&[u8]| match record[0] {
        LABEL => Some(true),
        CONSTANT => Some(false),
        _ => None,
    };
    records(tape).iter().filter_map(label).collect()
}

// What each record that writes, in tape order, is called: 0 for data, else one more than the number
// of the mnemonic.
pub fn names(tape: &[u8]) -> Vec<usize> {
    let name = |record: &&[u8]| match record[0] {
        INSTRUCTION => Some(1 + usize::from(record[1])),
        BYTE | WORD | SCREEN_BYTE => Some(0),
        _ => None,
    };
    records(tape).iter().filter_map(name).collect()
}
