//! The port's calls, over its static library. A slice is handed over as its pointer and its length.

use crate::questions::{Entry, Instruction, Operation, Place, BYTES, IMAGE, MAP, START};

// How many words the edges of a table have.
const WORDS: usize = 6_144;

extern "C" {
    fn speed_encode(mnemonic: u8, mode: u8, suffix: u8, operand: i64) -> u32;

    fn speed_apply_i64(op: u8, lhs: i64, rhs: i64) -> i64;

    fn speed_insert(ids: *const u16, ids_length: usize) -> usize;

    fn speed_query(
        links: *const u16,
        edges: usize,
        nodes: usize,
        nx: u16,
        path: *const u16,
        path_length: usize,
    ) -> u16;

    fn speed_emit(
        place: usize,
        start: usize,
        end: usize,
        emitted: bool,
        image: *mut u8,
        image_length: usize,
        bytes: *const u8,
        bytes_length: usize,
    ) -> usize;

    fn speed_add(map: *mut u32, map_length: usize, scope: u32, span: u32, pc: u32, len: u32) -> u8;

    fn speed_address_to_offset(map: *const u32, map_length: usize, pc: u32) -> u32;
}

// The bytes of an instruction, the first of them lowest.
pub fn encode(instruction: &Instruction) -> u64 {
    let [mnemonic, mode, suffix] = instruction.numbers();
    unsafe { speed_encode(mnemonic, mode, suffix, instruction.operand) }.into()
}

// An operator on two numbers.
pub fn apply_i64(operation: &Operation) -> u64 {
    let op = operation.op as u8;
    unsafe { speed_apply_i64(op, operation.lhs, operation.rhs) as u64 }
}

// Nodes below the root of a new table; how many it has then.
pub fn insert(ids: &[u16]) -> u64 {
    unsafe { speed_insert(ids.as_ptr(), ids.len()) as u64 }
}

/// The edges of a table, three words each: the node above, the name, the node.
pub struct Table {
    links: Vec<u16>,
    edges: usize,
}

impl Table {
    // The table with these nodes.
    pub fn new(nodes: &[Place]) -> Table {
        let edge = |(i, place): (usize, &Place)| [place.above, place.id, i as u16 + 1];
        let mut links: Vec<u16> = nodes.iter().enumerate().flat_map(edge).collect();
        links.resize(WORDS, 0);
        let edges = nodes.len();
        Table { links, edges }
    }

    // The node that a path means in a scope.
    pub fn query(&self, nx: u16, path: &[u16]) -> u64 {
        let node = unsafe {
            speed_query(
                self.links.as_ptr(),
                self.edges,
                self.edges + 1,
                nx,
                path.as_ptr(),
                path.len(),
            )
        };
        node.into()
    }
}

// Writes bytes again and again, one behind the other; the place then.
pub fn emit(image: &mut [u8; IMAGE], count: usize) -> usize {
    let mut place = START;
    for i in 0..count {
        place = unsafe {
            speed_emit(
                place,
                START,
                place,
                i > 0,
                image.as_mut_ptr(),
                IMAGE,
                BYTES.as_ptr(),
                BYTES.len(),
            )
        };
    }
    place
}

// Adds an entry to a map: 1 if there is room.
pub fn add(map: &mut [u32; MAP], entry: &Entry) -> u64 {
    let Entry { scope, pc, len } = *entry;
    unsafe { speed_add(map.as_mut_ptr(), MAP, scope, 0, pc, len) }.into()
}

// The scope of the entry that holds an address.
pub fn address_to_offset(map: &[u32; MAP], pc: u32) -> u64 {
    unsafe { speed_address_to_offset(map.as_ptr(), MAP, pc) }.into()
}
