//! The tapes that are timed, and what a build has to answer to each of them.

use crate::calls::{Refusal, Tape, SIZE};

/// The place that every tape is built from.
pub const INITIAL: usize = 0x2000;

// The records, and the modes of instructions.
const NUMBER: u8 = 0x01;
const NAME_OF_NONE: u8 = 0x10;
const INSTRUCTION: u8 = 0x40;
const OPEN_SCOPE: u8 = 0x42;
const CLOSE_SCOPE: u8 = 0x43;
const LABEL: u8 = 0x44;
const BYTE: u8 = 0x47;
const END: u8 = 0x4f;
const IMPLIED: u8 = 0;
const IMMEDIATE: u8 = 1;
const ABSOLUTE: u8 = 2;

// Mnemonics.
const BNE: u8 = 8;
const JMP: u8 = 27;
const LDA: u8 = 29;
const LDX: u8 = 30;
const NOP: u8 = 33;
const RTS: u8 = 42;
const STA: u8 = 47;

// Document 01's number of an unresolved name.
const UNRESOLVED: u8 = 11;

// The labels of `flat`, and how many bytes the instructions behind each of them have.
const LABELS: usize = 1_000;
const STRIDE: usize = 15;

// The labels of `nested`, how many a scope has, and how often a label is named.
const NESTED_LABELS: usize = 988;
const IN_SCOPE: usize = 50;
const USES: usize = 3_072;

// The scopes of `unresolved`, one in the other, and the id that is nowhere.
const SCOPES: usize = 1_022;
const NOWHERE: u16 = 60_000;

/// A tape by its name, and what it builds to.
pub struct Case {
    pub name: &'static str,
    pub tape: Tape,
    pub answer: Result<Image, Refusal>,
}

/// A finished build: the passes, and the bytes from the initial place on.
pub struct Image {
    pub passes: usize,
    pub bytes: Vec<u8>,
}

// Every tape. None takes more than two passes.
pub fn all() -> [Case; 4] {
    [
        finished("flat", flat(), flat_bytes()),
        finished("nested", nested(), nested_bytes()),
        case("unresolved", unresolved(), Err(first_use())),
        finished("tiny", tiny(), tiny_bytes()),
    ]
}

// A tape and its answer.
fn case(name: &'static str, bytes: Vec<u8>, answer: Result<Image, Refusal>) -> Case {
    let initial = INITIAL;
    let tape = Tape { initial, bytes };
    Case { name, tape, answer }
}

// A tape that settles after two passes, and its bytes.
fn finished(name: &'static str, tape: Vec<u8>, bytes: Vec<u8>) -> Case {
    case(name, tape, Ok(Image { passes: 2, bytes }))
}

// A record that has an id.
fn declared(kind: u8, id: usize) -> Vec<u8> {
    [vec![kind], low_and_high(id)].concat()
}

// A number's record.
fn number(value: i64) -> Vec<u8> {
    [vec![NUMBER], value.to_le_bytes().to_vec()].concat()
}

// A name's record, without a modifier.
fn name(path: &[usize]) -> Vec<u8> {
    let ids = path.iter().flat_map(|id| low_and_high(*id)).collect();
    [vec![NAME_OF_NONE + path.len() as u8, 0], ids].concat()
}

// An instruction's record, without a suffix, and its operand.
fn instruction(mnemonic: u8, mode: u8, operand: Vec<u8>) -> Vec<u8> {
    [vec![INSTRUCTION, mnemonic, mode, 0], operand].concat()
}

// The two bytes of a number.
fn low_and_high(number: usize) -> Vec<u8> {
    (number as u16).to_le_bytes().to_vec()
}

// The labels that STA, LDX and JMP name in `flat`: some before and some behind, near and far.
fn named(label: usize) -> [usize; 3] {
    [7 * label + 3, 13 * label + 5, label + LABELS / 2].map(|other| other % LABELS)
}

// LDA, STA, LDX, BNE, JMP, NOP and RTS behind each label of the root.
fn flat() -> Vec<u8> {
    let mut tape: Vec<u8> = (0..LABELS).flat_map(flat_part).collect();
    tape.push(END);
    tape
}

// One label of `flat`, and its instructions. Ids begin with 1.
fn flat_part(label: usize) -> Vec<u8> {
    let [sta, ldx, jmp] = named(label).map(|other| name(&[other + 1]));
    [
        declared(LABEL, label + 1),
        instruction(LDA, IMMEDIATE, number(label as i64 % 256)),
        instruction(STA, ABSOLUTE, sta),
        instruction(LDX, ABSOLUTE, ldx),
        instruction(BNE, ABSOLUTE, name(&[label + 1])),
        instruction(JMP, ABSOLUTE, jmp),
        instruction(NOP, IMPLIED, vec![]),
        instruction(RTS, IMPLIED, vec![]),
    ]
    .concat()
}

// The bytes of `flat`.
fn flat_bytes() -> Vec<u8> {
    (0..LABELS).flat_map(flat_part_bytes).collect()
}

// The bytes behind one label of `flat`. The branch goes back over ten bytes, its own among them.
fn flat_part_bytes(label: usize) -> [u8; STRIDE] {
    let place = |other| ((INITIAL + STRIDE * other) as u16).to_le_bytes();
    let [[a, b], [c, d], [e, f]] = named(label).map(place);
    let byte = label as u8;
    [
        0xa9, byte, 0x8d, a, b, 0xae, c, d, 0xd0, 0xf6, 0x4c, e, f, 0xea, 0x60,
    ]
}

// `flat` as the source of an assembler, behind the line that sets the place.
pub fn flat_source() -> String {
    (0..LABELS).map(flat_part_source).collect()
}

// One label of `flat`, and its instructions, as source.
fn flat_part_source(label: usize) -> String {
    let [sta, ldx, jmp] = named(label).map(|other| format!("n{}", other + 1));
    let (own, byte) = (label + 1, label % 256);
    format!("n{own}:\n lda #{byte}\n sta {sta}\n ldx {ldx}\n bne n{own}\n jmp {jmp}\n nop\n rts\n")
}

// The path from the root to a label of `nested`: three scopes, of which there are 5, 10 and 20.
fn path(label: usize) -> [usize; 4] {
    let scope = label / IN_SCOPE;
    let id = 101 + label % IN_SCOPE;
    [1 + scope / 4, 11 + scope / 2 % 2, 21 + scope % 2, id]
}

// The labels that are named behind a label of `nested`.
fn named_nested(label: usize) -> impl Iterator<Item = usize> {
    let uses = (label..USES).step_by(NESTED_LABELS);
    uses.map(|used| (7 * used + 3) % NESTED_LABELS)
}

// Labels in scopes inside each other, and jumps to them by their paths from the root. With them the
// table is full.
fn nested() -> Vec<u8> {
    let mut tape = vec![];
    let mut open: Vec<usize> = vec![];
    for label in 0..NESTED_LABELS {
        let path = path(label);
        go_to(&mut tape, &mut open, &path[..3]);
        tape.extend(declared(LABEL, path[3]));
        for other in named_nested(label) {
            tape.extend(instruction(JMP, ABSOLUTE, name(&self::path(other))));
        }
    }
    go_to(&mut tape, &mut open, &[]);
    tape.push(END);
    tape
}

// Closes and opens scopes so that those of a path are open.
fn go_to(tape: &mut Vec<u8>, open: &mut Vec<usize>, path: &[usize]) {
    while !path.starts_with(open) {
        tape.push(CLOSE_SCOPE);
        open.pop();
    }
    for id in &path[open.len()..] {
        tape.extend(declared(OPEN_SCOPE, *id));
    }
    *open = path.to_vec();
}

// The bytes of `nested`. A jump has three.
fn nested_bytes() -> Vec<u8> {
    let mut places = vec![];
    let mut jumps = vec![];
    for label in 0..NESTED_LABELS {
        places.push(INITIAL + 3 * jumps.len());
        jumps.extend(named_nested(label));
    }
    let jump = |label: &usize| [vec![0x4c], low_and_high(places[*label])].concat();
    jumps.iter().flat_map(jump).collect()
}

// Bytes by a name that is nowhere, as many as fit, in the innermost of scopes inside each other.
fn unresolved() -> Vec<u8> {
    let opened = (1..=SCOPES).flat_map(|id| declared(OPEN_SCOPE, id));
    let mut tape: Vec<u8> = opened.collect();
    let used = [vec![BYTE], name(&[NOWHERE.into()])].concat();
    while tape.len() + used.len() + SCOPES < SIZE {
        tape.extend(&used);
    }
    tape.extend([CLOSE_SCOPE; SCOPES]);
    tape.push(END);
    tape
}

// What `unresolved` is refused with: the first byte is at fault.
fn first_use() -> Refusal {
    let number = UNRESOLVED;
    let at = 3 * SCOPES;
    Refusal { number, at }
}

// Document 01's example.
fn tiny() -> Vec<u8> {
    [
        declared(LABEL, 1),
        instruction(LDA, IMMEDIATE, number(5)),
        instruction(STA, ABSOLUTE, name(&[1])),
        instruction(BNE, ABSOLUTE, name(&[1])),
        vec![END],
    ]
    .concat()
}

// The bytes of `tiny`.
fn tiny_bytes() -> Vec<u8> {
    vec![0xa9, 0x05, 0x8d, 0x00, 0x20, 0xd0, 0xf9]
}
