//! symbols.rs: nodes, joined by edges with names, and what a path of names means in one of them.
//!
//! A question is the number of an operation, a byte; a node, and a second node or an id, each a u16;
//! a byte, and eight bytes: how many ids a path has, and four ids; or whether there is a number, and
//! an i64. All are 0 where the operation has less. Id 0 is "super", any other the name that is its
//! digits. Questions are asked in scripts: `new` begins one, and the table is kept from question to
//! question.
//!
//! An answer is the Rust's, `refused 3` too, which is an export that gives false; but for what
//! document 01 adds. There the answer is worked out from its text, over what the Rust's `child` and
//! `parent` say, and the Rust's table is left as it is:
//!
//! - `refused 1`: a node that is not there, an id 0 where a name has to be, an empty export path.
//! - `refused 4`: an export that would close a loop.
//! - `refused 2`: no room for all nodes and edges. Where an export has none the Rust is asked on a
//!   copy of its table whether the name is taken, for 3 comes before 2.
//!
//! Document 01's export leaves the table as it was where it is refused. So does the Rust's: a node
//! that it makes has no edges, so that a false comes only where it made none; after each export the
//! driver tests that, and stops if it is not so.

mod scripts;

use super::{number_at, Answerer, Kind};
use crate::refusal::{ARGUMENT, LOOP, NAME_TAKEN, NO_ROOM};
use mos::codegen::{SymbolIndex, SymbolTable};
use mos::parser::{Identifier, IdentifierPath};

const NEW: u8 = 0;
const INSERT: u8 = 1;
const UPDATE_DATA: u8 = 2;
const ENSURE_INDEX: u8 = 3;
const EXPORT: u8 = 4;
const GET: u8 = 5;
const CHILD: u8 = 6;
const PARENT: u8 = 7;
const TRY_INDEX: u8 = 8;
const QUERY: u8 = 9;
const QUERY_ALL: u8 = 10;

// The bytes of a question.
const WIDTH: usize = 14;

// How many nodes and edges a table holds.
const NODES: usize = 1_024;
const EDGES: usize = 2_048;

// How many ids a path has at most.
const LONGEST: usize = 4;

// The id that leads to the parent.
const SUPER: u16 = 0;

/// A question.
#[derive(Clone, Copy)]
enum Question<'a> {
    New,
    Insert(u16, u16, Option<i64>),
    UpdateData(u16, Option<i64>),
    EnsureIndex(u16, &'a [u16]),
    Export(u16, u16, &'a [u16]),
    Get(u16),
    Child(u16, u16),
    Parent(u16),
    TryIndex(u16, &'a [u16]),
    Query(u16, &'a [u16]),
    QueryAll(u16, &'a [u16]),
}

use Question::*;

// What the driver knows of this kind.
pub fn kind() -> Kind {
    Kind {
        name: "symbols",
        width: WIDTH,
        ask: scripts::ask,
        sample: scripts::sample,
        answerer,
    }
}

// The bytes of a question.
fn bytes_of(question: Question) -> Vec<u8> {
    match question {
        New => packed(NEW, 0, 0, vec![]),
        Insert(nx, id, value) => packed(INSERT, nx, id, value_bytes(value)),
        UpdateData(nx, value) => packed(UPDATE_DATA, nx, 0, value_bytes(value)),
        EnsureIndex(nx, path) => packed(ENSURE_INDEX, nx, 0, path_bytes(path)),
        Export(node, nx, path) => packed(EXPORT, node, nx, path_bytes(path)),
        Get(nx) => packed(GET, nx, 0, vec![]),
        Child(nx, id) => packed(CHILD, nx, id, vec![]),
        Parent(nx) => packed(PARENT, nx, 0, vec![]),
        TryIndex(nx, path) => packed(TRY_INDEX, nx, 0, path_bytes(path)),
        Query(nx, path) => packed(QUERY, nx, 0, path_bytes(path)),
        QueryAll(nx, path) => packed(QUERY_ALL, nx, 0, path_bytes(path)),
    }
}

// The parts of a question, and zero behind them.
fn packed(operation: u8, nx: u16, other: u16, rest: Vec<u8>) -> Vec<u8> {
    let head = [nx.to_le_bytes(), other.to_le_bytes()].concat();
    let mut out = [vec![operation], head, rest].concat();
    out.resize(WIDTH, 0);
    out
}

// Whether there is a number, and the number.
fn value_bytes(value: Option<i64>) -> Vec<u8> {
    let number = value.unwrap_or(0).to_le_bytes();
    [vec![value.is_some().into()], number.to_vec()].concat()
}

// How many ids there are, and the ids.
fn path_bytes(path: &[u16]) -> Vec<u8> {
    let ids = path.iter().flat_map(|id| id.to_le_bytes());
    [vec![path.len() as u8], ids.collect()].concat()
}

// The u16 in the two bytes from an offset on.
pub(super) fn word_at(question: &[u8], offset: usize) -> u16 {
    u16::from_le_bytes([question[offset], question[offset + 1]])
}

// The table is kept.
fn answerer() -> Answerer {
    let mut kept = Kept::default();
    Box::new(move |question| {
        let ids = [6, 8, 10, 12].map(|offset| word_at(question, offset));
        kept.answer(read(question, &ids))
    })
}

// The question that bytes are; ids has the last eight of them.
fn read<'a>(question: &[u8], ids: &'a [u16; LONGEST]) -> Question<'a> {
    let nx = word_at(question, 1);
    let other = word_at(question, 3);
    let path = &ids[..LONGEST.min(question[5].into())];
    let number = number_at(question, 6) as i64;
    let value = (question[5] != 0).then_some(number);
    match question[0] {
        NEW => New,
        INSERT => Insert(nx, other, value),
        UPDATE_DATA => UpdateData(nx, value),
        ENSURE_INDEX => EnsureIndex(nx, path),
        EXPORT => Export(nx, other, path),
        GET => Get(nx),
        CHILD => Child(nx, other),
        PARENT => Parent(nx),
        TRY_INDEX => TryIndex(nx, path),
        QUERY => Query(nx, path),
        _ => QueryAll(nx, path),
    }
}

/// The Rust's table, and how many nodes and edges it has.
struct Kept {
    table: SymbolTable<i64>,
    nodes: usize,
    edges: usize,
}

impl Default for Kept {
    fn default() -> Self {
        Self {
            table: SymbolTable::default(),
            nodes: 1,
            edges: 0,
        }
    }
}

impl Kept {
    // The answer's line.
    fn answer(&mut self, question: Question) -> String {
        match self.refusal(question) {
            Some(number) => refused(number),
            None => self.apply(question),
        }
    }

    // The number of a refusal that document 01 adds.
    fn refusal(&self, question: Question) -> Option<u8> {
        if !self.in_range(question) {
            return Some(ARGUMENT);
        }
        match question {
            Insert(..) => self.no_room(1, 1),
            EnsureIndex(nx, path) => {
                let (_, missing) = self.deepest(nx, path);
                self.no_room(missing, missing)
            }
            Export(node, parent, path) => self.export_refusal(node, parent, path),
            _ => None,
        }
    }

    // Document 01's 1: whether nodes are there, names are names, and an export path has one.
    fn in_range(&self, question: Question) -> bool {
        let is_node = |nx: u16| usize::from(nx) < self.nodes;
        let is_new = |path: &[u16]| !path.contains(&SUPER);
        match question {
            New => true,
            Insert(nx, id, _) | Child(nx, id) => is_node(nx) && id != SUPER,
            UpdateData(nx, _) | Get(nx) | Parent(nx) => is_node(nx),
            EnsureIndex(nx, path) => is_node(nx) && is_new(path),
            Export(node, nx, path) => {
                is_node(node) && is_node(nx) && is_new(path) && !path.is_empty()
            }
            TryIndex(nx, _) | Query(nx, _) | QueryAll(nx, _) => is_node(nx),
        }
    }

    // Document 01's 4, then the Rust's 3, then document 01's 2. With room the Rust says 3 itself.
    fn export_refusal(&self, node: u16, parent: u16, path: &[u16]) -> Option<u8> {
        let (deepest, missing) = self.deepest(parent, &path[..path.len() - 1]);
        if self.chain(deepest).contains(&node) {
            return Some(LOOP);
        }
        let number = self.no_room(missing, missing + 1)?;
        let mut copy = self.table.clone();
        let free = copy.export(index(node), index(parent), path_of(path));
        Some(if free { number } else { NAME_TAKEN })
    }

    // Document 01's 2, if so many nodes and edges have no room.
    fn no_room(&self, nodes: usize, edges: usize) -> Option<u8> {
        let fits = self.nodes + nodes <= NODES && self.edges + edges <= EDGES;
        (!fits).then_some(NO_ROOM)
    }

    // The deepest node of a path that is there, and how many ids are missing below it.
    fn deepest(&self, mut nx: u16, path: &[u16]) -> (u16, usize) {
        for (depth, id) in path.iter().enumerate() {
            match self.child(nx, *id) {
                Some(next) => nx = next,
                None => return (nx, path.len() - depth),
            }
        }
        (nx, 0)
    }

    // A node, its parent, and so on up to the root.
    fn chain(&self, nx: u16) -> Vec<u16> {
        std::iter::successors(Some(nx), |nx| self.parent(*nx)).collect()
    }

    // What the Rust's child says.
    fn child(&self, nx: u16, id: u16) -> Option<u16> {
        self.table.child(index(nx), &id_of(id)).map(number)
    }

    // What the Rust's parent says.
    fn parent(&self, nx: u16) -> Option<u16> {
        self.table.parent(index(nx)).map(number)
    }

    // Where one id of a path leads.
    fn step(&self, nx: u16, id: u16) -> Option<u16> {
        match id {
            SUPER => self.parent(nx),
            _ => self.child(nx, id),
        }
    }

    // Asks the Rust.
    fn apply(&mut self, question: Question) -> String {
        match question {
            New => {
                *self = Self::default();
                "done".into()
            }
            Insert(nx, id, value) => {
                let node = self.table.insert(index(nx), id_of(id), value);
                self.grow(1, 1);
                number(node).to_string()
            }
            UpdateData(nx, value) => {
                self.table.update_data(index(nx), value);
                "done".into()
            }
            EnsureIndex(nx, path) => {
                let (_, missing) = self.deepest(nx, path);
                let node = self.table.ensure_index(index(nx), path_of(path));
                self.grow(missing, missing);
                number(node).to_string()
            }
            Export(node, nx, path) => self.export(node, nx, path),
            Get(nx) => {
                let value = self.table.get(index(nx));
                value.map_or("unresolved".into(), |number| number.to_string())
            }
            Child(nx, id) => found(self.child(nx, id)),
            Parent(nx) => found(self.parent(nx)),
            TryIndex(nx, path) => found(self.table.try_index(index(nx), path_of(path)).map(number)),
            Query(nx, path) => found(self.table.query(index(nx), path_of(path)).map(number)),
            QueryAll(nx, path) => {
                let nodes = self.table.query_all(index(nx), path_of(path));
                let words = nodes.iter().map(|node| format!(" {}", number(*node)));
                format!("{}{}", nodes.len(), words.collect::<String>())
            }
        }
    }

    // An export that document 01 leaves to the Rust.
    fn export(&mut self, node: u16, nx: u16, path: &[u16]) -> String {
        let (_, missing) = self.deepest(nx, &path[..path.len() - 1]);
        if self.table.export(index(node), index(nx), path_of(path)) {
            self.grow(missing, missing + 1);
            "done".into()
        } else {
            self.grow(0, 0);
            refused(NAME_TAKEN)
        }
    }

    // Counts what was made, and tests that the Rust made as many nodes.
    fn grow(&mut self, nodes: usize, edges: usize) {
        self.nodes += nodes;
        self.edges += edges;
        assert_eq!(self.nodes, self.table.indices().count(), "nodes made");
    }
}

// The line of a refusal.
fn refused(number: u8) -> String {
    format!("refused {number}")
}

// The line of a node, or of none.
fn found(node: Option<u16>) -> String {
    node.map_or("nothing".into(), |node| node.to_string())
}

// A node as the Rust numbers it.
pub(super) fn index(nx: u16) -> SymbolIndex {
    SymbolIndex::new(nx.into())
}

// The number of a node.
fn number(node: SymbolIndex) -> u16 {
    node.index() as u16
}

// The name of an id: its digits.
pub(super) fn id_of(id: u16) -> Identifier {
    match id {
        SUPER => Identifier::sup(),
        _ => Identifier::new(id.to_string()),
    }
}

// The names of a path.
fn path_of(path: &[u16]) -> IdentifierPath {
    let ids: Vec<Identifier> = path.iter().map(|id| id_of(*id)).collect();
    IdentifierPath::new(&ids)
}
