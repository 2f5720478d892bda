//! The scripts of questions about symbols: written by hand, over full tables, and random. The table
//! that they leave is kept while they are made, so that later questions are about what is there.

use super::super::{any, one_of};
use super::Question::{self, *};
use super::{bytes_of, Kept, EDGES, LONGEST, NODES, SUPER};
use crate::random::Random;

const ROOT: u16 = 0;

// The last node of a table that has all.
const LAST: u16 = NODES as u16 - 1;

const LAST_ID: u16 = u16::MAX;

// Scripts written by hand, each for one rule of the table.
#[rustfmt::skip]
const WRITTEN: [&[Question]; 15] = [
    // the root alone
    &[Get(0), Parent(0), Child(0, 1), TryIndex(0, &[]), TryIndex(0, &[SUPER]), Query(0, &[]),
      Query(0, &[1]), Query(0, &[SUPER]), QueryAll(0, &[]), QueryAll(0, &[1]), EnsureIndex(0, &[])],
    // a number, another, and none
    &[Insert(0, 1, Some(-5)), Insert(0, 2, None), Get(0), Get(1), Get(2), UpdateData(1, None),
      UpdateData(2, Some(i64::MIN)), UpdateData(0, Some(i64::MAX)), Get(0), Get(1), Get(2),
      UpdateData(1, Some(0)), UpdateData(2, Some(7)), Get(1), Get(2), UpdateData(0, None), Get(0)],
    // of edges with one name the last added answers, also for what is below
    &[Insert(0, 1, Some(1)), Insert(1, 2, Some(2)), Insert(0, 1, Some(3)), Child(0, 1),
      TryIndex(0, &[1, 2]), Query(1, &[2]), Query(2, &[1, 2]), Parent(1), Parent(3),
      Insert(3, 2, Some(4)), TryIndex(0, &[1, 2]), Query(1, &[1, 2]), Child(1, 2)],
    // the innermost scope decides in which the whole path is found
    &[Insert(0, 1, None), Insert(1, 9, Some(1)), Insert(0, 9, Some(2)), Insert(0, 5, None),
      Insert(4, 6, Some(3)), Insert(1, 5, None), Query(1, &[9]), Query(2, &[9]), Query(0, &[9]),
      Query(4, &[9]), Query(1, &[5]), Query(1, &[5, 6]), TryIndex(1, &[5, 6]), Query(6, &[5, 6]),
      Insert(6, 6, Some(4)), Query(1, &[5, 6]), Query(4, &[5, 6])],
    // a name that comes later than who asks for it
    &[Insert(0, 1, None), Query(1, &[7]), Insert(0, 7, Some(1)), Query(1, &[7]),
      Insert(1, 7, Some(2)), Query(1, &[7]), Query(0, &[7])],
    // super at the start, in the middle, at the end, and above the root; it is not asked again
    &[EnsureIndex(0, &[1, 2, 3, 4]), Insert(0, 8, Some(8)), TryIndex(4, &[SUPER]),
      TryIndex(4, &[SUPER, SUPER, SUPER, SUPER]), TryIndex(3, &[SUPER, SUPER, SUPER, SUPER]),
      TryIndex(0, &[1, SUPER, 1, 2]), TryIndex(2, &[3, 4, SUPER, SUPER]), Query(4, &[8]),
      Query(4, &[SUPER, 8]), Query(2, &[SUPER, SUPER, 8]), Query(3, &[SUPER, 3]),
      Query(1, &[2, SUPER, 8]), Query(1, &[SUPER, 8]), QueryAll(4, &[SUPER, 8]),
      QueryAll(4, &[SUPER]), QueryAll(0, &[SUPER])],
    // parent is the source of the incoming edge last added, and super the parent
    &[Insert(0, 1, None), Insert(0, 2, None), Insert(1, 3, Some(3)), Insert(1, 4, Some(4)),
      Insert(2, 4, Some(5)), Parent(3), Query(3, &[4]), Export(3, 2, &[6]), Parent(3),
      Query(3, &[4]), TryIndex(1, &[3, SUPER]), TryIndex(0, &[1, 3, SUPER, 4]), Export(3, 1, &[3]),
      Parent(3), Query(3, &[4]), TryIndex(2, &[6, SUPER]), QueryAll(3, &[4])],
    // an export makes the missing nodes of its path
    &[Insert(0, 1, Some(1)), Export(1, 0, &[2]), Export(1, 0, &[3, 4, 5, 6]),
      TryIndex(0, &[3, 4, 5, 6]), Parent(1), Export(1, 0, &[3, 4, 7, 8]), Get(2), Get(5), Parent(5),
      Export(1, 3, &[7]), Insert(0, 1, None)],
    // a name that leads elsewhere is taken; the same edge twice is not
    &[Insert(0, 1, None), Insert(0, 2, None), Export(1, 0, &[2]), Export(2, 0, &[2]),
      Export(2, 0, &[2]), Export(2, 1, &[3]), Export(2, 1, &[3]), Insert(0, 4, None),
      Export(3, 1, &[3]), Export(3, 0, &[1, 3]), Export(3, 0, &[1, 4]), Insert(0, 5, None)],
    // an edge that a later one hides takes the name too
    &[Insert(0, 1, None), Insert(0, 1, None), Child(0, 1), Export(2, 0, &[1]), Export(1, 0, &[1]),
      Child(0, 1), Insert(2, 6, None), Export(2, 1, &[6]), Export(3, 0, &[1])],
    // a loop: the node itself, its parent, the root; also where nodes are missing or a name is taken
    &[EnsureIndex(0, &[1, 2, 3]), Export(3, 3, &[9]), Export(2, 3, &[9]), Export(1, 3, &[9]),
      Export(0, 3, &[9]), Export(0, 0, &[9]), Export(1, 0, &[1, 2, 9]), Export(1, 2, &[8, 9]),
      Export(0, 0, &[7, 8, 9]), Export(1, 2, &[3]), Insert(0, 4, None), Child(2, 8), Child(0, 7)],
    // a chain goes by the edges last added; what was a loop is none behind an export, and turned round
    &[EnsureIndex(0, &[1, 2]), Insert(0, 3, None), Export(1, 2, &[9]), Export(2, 3, &[4]),
      Export(1, 2, &[9]), Export(3, 1, &[8]), Export(3, 2, &[8]), Parent(1), Query(1, &[4]),
      Export(2, 0, &[5]), Export(3, 1, &[8]), Export(3, 2, &[7])],
    // what is there of a path, and what is made
    &[EnsureIndex(0, &[1, 2]), EnsureIndex(0, &[1, 2]), EnsureIndex(0, &[1, 3]), EnsureIndex(1, &[]),
      EnsureIndex(2, &[1, 1, 1, 1]), EnsureIndex(1, &[2, 1]), Get(7), Insert(0, 1, None),
      EnsureIndex(0, &[1, 2]), Query(1, &[2]), EnsureIndex(0, &[LAST_ID]), Child(0, LAST_ID)],
    // a node is listed once for each scope that reaches it
    &[EnsureIndex(0, &[1, 1, 1]), Insert(0, 2, Some(2)), Insert(2, 2, Some(3)), QueryAll(3, &[2]),
      QueryAll(3, &[1]), QueryAll(3, &[]), QueryAll(3, &[1, 1]), QueryAll(3, &[SUPER, 1]),
      QueryAll(3, &[1, SUPER]), QueryAll(3, &[3]), QueryAll(1, &[1, 1, 1, 1]), QueryAll(1, &[1, 2])],
    // arguments out of range
    &[Insert(1, 1, None), Insert(0, SUPER, None), UpdateData(1, None), EnsureIndex(1, &[]),
      EnsureIndex(0, &[1, SUPER]), Export(1, 0, &[1]), Export(0, 1, &[1]), Insert(0, 1, None),
      Export(1, 0, &[]), Export(0, 1, &[]), Export(1, 0, &[SUPER]), Export(1, 0, &[SUPER, 2]),
      Get(2), Child(2, 1), Child(0, SUPER), Parent(2), TryIndex(2, &[]), Query(2, &[]),
      QueryAll(2, &[]), Get(LAST_ID), Query(1_024, &[]), Insert(0, 1, None)],
];

// Paths that are asked from the deepest scope of a chain.
#[rustfmt::skip]
const CHAIN_PATHS: [&[u16]; 8] =
    [&[1], &[2], &[2, 2], &[1, 2, 2, 2], &[2, 1], &[3], &[], &[SUPER, 2, 2]];

// Random scripts; those over a table that is nearly full; and how many nodes and paths each asks for
// at its end.
const RANDOM: usize = 2_000;
const NEARLY_FULL: usize = 24;
const ASKED: usize = 150;

// The same for the sample.
const SAMPLE_RANDOM: usize = 16;
const SAMPLE_ASKED: usize = 10;

const SEED: u64 = 6502;

// The scripts written by hand, full tables, then random scripts, at first over nearly full tables.
pub fn ask() -> Vec<u8> {
    let mut script = Script::new(ASKED);
    script.put_written();
    script.put_chain();
    script.put_full();
    for i in 0..NEARLY_FULL {
        script.begin();
        script.fill(i);
        script.put_random(40);
        script.put_end();
    }
    for _ in 0..RANDOM {
        script.begin();
        let count = script.source.between(10, 60);
        script.put_random(count);
        script.put_end();
    }
    script.out
}

// The scripts written by hand, and few random ones.
pub fn sample() -> Vec<u8> {
    let mut script = Script::new(SAMPLE_ASKED);
    script.put_written();
    for _ in 0..SAMPLE_RANDOM {
        script.begin();
        script.put_random(30);
        script.put_end();
    }
    script.out
}

/// Questions, and the table that they leave, so that later ones can be about what is there.
struct Script {
    out: Vec<u8>,
    kept: Kept,
    source: Random,
    /// The names that the script draws from.
    names: Vec<u16>,
    /// How many nodes and paths it asks for at its end.
    asked: usize,
}

impl Script {
    // No questions.
    fn new(asked: usize) -> Self {
        Self {
            out: vec![],
            kept: Kept::default(),
            source: Random::new(SEED),
            names: vec![],
            asked,
        }
    }

    // Adds one question.
    fn put(&mut self, question: Question) {
        self.out.extend(bytes_of(question));
        self.kept.answer(question);
    }

    // Begins a script over a new table, with two to six names.
    fn begin(&mut self) {
        self.put(New);
        let count = self.source.between(2, 6);
        self.names = (0..count).map(|_| any_id(&mut self.source)).collect();
    }

    // The scripts written by hand.
    fn put_written(&mut self) {
        for questions in WRITTEN {
            self.begin();
            self.names = (1..=9).collect();
            for question in questions {
                self.put(*question);
            }
            self.put_end();
        }
    }

    // A chain of as many scopes as a table holds, the first by the name 1 and the others by 2, asked
    // from the deepest; then as many edges.
    fn put_chain(&mut self) {
        self.begin();
        self.names = vec![1, 2, 3];
        for scope in 0..LAST {
            self.put(Insert(scope, if scope == ROOT { 1 } else { 2 }, None));
        }
        for path in CHAIN_PATHS {
            self.put(TryIndex(LAST, path));
            self.put(Query(LAST, path));
            self.put(Query(LAST / 2, path));
            self.put(QueryAll(LAST, path));
        }
        self.put_no_room();
        self.put_edges(EDGES);
        self.put_no_room();
        self.put_end();
    }

    // A root with as many nodes below it as a table holds; then with one edge less than it holds.
    fn put_full(&mut self) {
        self.begin();
        for i in 0..LAST {
            self.put(Insert(ROOT, LAST_ID - i, Some(i64::from(i) - 500)));
        }
        self.names = [0, 1, 500, LAST - 1, LAST].map(|i| LAST_ID - i).to_vec();
        self.put_no_room();
        self.put_edges(EDGES - 1);
        self.put_no_room();
        self.put_end();
    }

    // Of a table with all nodes: what needs room, and what is refused before room is asked for.
    fn put_no_room(&mut self) {
        let above = self.kept.parent(LAST).unwrap();
        let id = self.names[0];
        self.put(Insert(LAST, 5, None));
        self.put(Insert(LAST, SUPER, None));
        self.put(EnsureIndex(LAST, &[5]));
        self.put(EnsureIndex(ROOT, &[id]));
        self.put(Export(LAST, ROOT, &[5, 6]));
        self.put(Export(LAST, ROOT, &[id]));
        self.put(Export(above, LAST, &[8]));
        self.put(Export(ROOT, LAST, &[8, 9]));
        self.put(Export(LAST, ROOT, &[7]));
        self.put(Export(LAST, ROOT, &[7]));
        self.put(Child(LAST, 5));
        self.put(Child(ROOT, 5));
    }

    // Exports a node by a name that it has, until there are so many edges.
    fn put_edges(&mut self, edges: usize) {
        let node = self.kept.nodes as u16 - 1;
        let above = self.kept.parent(node).unwrap();
        while self.kept.edges < edges {
            let before = self.kept.edges;
            self.put(Export(node, above, &[10]));
            assert!(before < self.kept.edges, "no edge was added");
        }
    }

    // Fills most of a table: with nodes, or with edges to one of few nodes.
    fn fill(&mut self, number: usize) {
        let left = self.source.between(0, 6) as usize;
        if number % 2 == 0 {
            while self.kept.nodes < NODES - left {
                let (near, id) = (self.late_node(), self.name());
                self.put(Insert(near, id, None));
            }
        } else {
            for _ in 0..20 {
                let (near, id) = (self.late_node(), self.name());
                self.put(Insert(near, id, None));
            }
            self.put_edges(EDGES - left);
        }
    }

    // So many random questions.
    fn put_random(&mut self, count: i64) {
        for _ in 0..count {
            self.put_any();
        }
    }

    // A random question.
    fn put_any(&mut self) {
        let nx = self.node();
        match self.source.between(0, 39) {
            0..=10 => {
                let (id, value) = (self.name_or_super(), self.value());
                self.put(Insert(nx, id, value));
            }
            11..=13 => {
                let value = self.value();
                self.put(UpdateData(nx, value));
            }
            14..=16 => {
                let path = self.new_path(nx);
                self.put(EnsureIndex(nx, &path));
            }
            17..=23 => {
                let (node, path) = (self.node(), self.new_path(nx));
                self.put(Export(node, nx, &path));
            }
            24 | 25 => self.put_again(nx),
            26 => self.put(Get(nx)),
            27 => self.put(Parent(nx)),
            28 | 29 => {
                let id = self.name_or_super();
                self.put(Child(nx, id));
            }
            30..=32 => {
                let path = self.path(nx);
                self.put(TryIndex(nx, &path));
            }
            33..=37 => {
                let path = self.path_above(nx);
                self.put(Query(nx, &path));
            }
            _ => {
                let path = self.path_above(nx);
                self.put(QueryAll(nx, &path));
            }
        }
    }

    // An export of what a name means already.
    fn put_again(&mut self, nx: u16) {
        let id = self.name();
        let node = self.kept.child(nx, id).unwrap_or(ROOT);
        self.put(Export(node, nx, &[id]));
    }

    // Adds what every script ends with: parent and number of nodes, names in them, and paths.
    fn put_end(&mut self) {
        let nodes = self.kept.nodes;
        for i in 0..nodes.min(self.asked) {
            let nx = (i * nodes / nodes.min(self.asked)) as u16;
            self.put(Parent(nx));
            self.put(Get(nx));
        }
        for _ in 0..self.asked {
            let nx = self.any_node();
            let path = self.path_above(nx);
            self.put(Query(nx, &path));
        }
        for _ in 0..self.asked / 8 {
            let (nx, id) = (self.any_node(), self.name());
            self.put(Child(nx, id));
            let nx = self.any_node();
            let path = self.path(nx);
            self.put(TryIndex(nx, &path));
        }
        let nx = self.late_node();
        let path = self.path_above(nx);
        self.put(QueryAll(nx, &path));
    }

    // One of the script's names.
    fn name(&mut self) -> u16 {
        one_of(&mut self.source, &self.names)
    }

    // Seldom a super where a name has to be.
    fn name_or_super(&mut self) -> u16 {
        match self.source.between(0, 29) {
            0 => SUPER,
            _ => self.name(),
        }
    }

    // A number or none.
    fn value(&mut self) -> Option<i64> {
        match self.source.between(0, 7) {
            0..=2 => None,
            3 => Some(one_of(&mut self.source, &[i64::MIN, -1, 0, i64::MAX])),
            4 => Some(self.source.next() as i64),
            _ => Some(self.source.between(-999, 999)),
        }
    }

    // A node that is there.
    fn any_node(&mut self) -> u16 {
        any(&mut self.source, 0, self.kept.nodes as u32 - 1) as u16
    }

    // One of the nodes made last.
    fn late_node(&mut self) -> u16 {
        let last = self.kept.nodes as u32 - 1;
        any(&mut self.source, last.saturating_sub(3), last) as u16
    }

    // Mostly a node that is there.
    fn node(&mut self) -> u16 {
        match self.source.between(0, 59) {
            0 => one_of(&mut self.source, &[self.kept.nodes as u16, 1_024, LAST_ID]),
            1..=19 => self.late_node(),
            _ => self.any_node(),
        }
    }

    // A path from a node, each id mostly one that leads on, and seldom a super.
    fn path(&mut self, nx: u16) -> Vec<u16> {
        let mut at = Some(nx);
        let count = one_of(&mut self.source, &[0, 1, 1, 1, 2, 2, 2, 3, 3, LONGEST]);
        let mut path = vec![];
        for _ in 0..count {
            let id = match self.source.between(0, 7) {
                0 => SUPER,
                _ => self.leading(at),
            };
            at = at.and_then(|nx| self.kept.step(nx, id));
            path.push(id);
        }
        path
    }

    // The same from the node or from one above it.
    fn path_above(&mut self, nx: u16) -> Vec<u16> {
        let chain = self.kept.chain(nx);
        let from = one_of(&mut self.source, &chain);
        self.path(from)
    }

    // A path to be made, seldom with a super: mostly of one or two ids.
    fn new_path(&mut self, nx: u16) -> Vec<u16> {
        let mut at = Some(nx);
        let count = match self.source.between(0, 39) {
            0 => 0,
            1..=16 => 1,
            17..=28 => 2,
            29..=36 => 3,
            _ => LONGEST,
        };
        let mut path = vec![];
        for _ in 0..count {
            let id = match self.source.between(0, 59) {
                0 => SUPER,
                1..=20 => self.name(),
                _ => self.leading(at),
            };
            at = at.and_then(|nx| self.kept.child(nx, id));
            path.push(id);
        }
        path
    }

    // A name, of three tries one that leads on.
    fn leading(&mut self, at: Option<u16>) -> u16 {
        let tries = [self.name(), self.name(), self.name()];
        let leads = |id: &&u16| at.map_or(false, |nx| self.kept.child(nx, **id).is_some());
        *tries.iter().find(leads).unwrap_or(&tries[0])
    }
}

// Any id of a name, mostly a small one.
fn any_id(source: &mut Random) -> u16 {
    match source.between(0, 4) {
        0 => any(source, 1, LAST_ID.into()) as u16,
        1 => one_of(source, &[255, 256, LAST_ID - 1, LAST_ID]),
        _ => any(source, 1, 9) as u16,
    }
}
