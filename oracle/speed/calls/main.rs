//! Times calls of the port, over its static library, next to the same calls of the Rust. It prints
//! a table, in Markdown.
//!
//! Times are processor time, the least of many runs, as `cells` says. Both sides are asked the
//! same, and the program ends with 1 if they differ.

#[path = "../cells.rs"]
mod cells;
#[path = "../clock.rs"]
mod clock;
mod product;
mod questions;
#[path = "../../src/random.rs"]
mod random;
mod rust;

use cells::{figures, hold, Cell};
use clock::timed;
use mos::codegen::SourceMap;
use mos::parser::Identifier;
use product::Table;
use questions::{CALLS, IMAGE, INSERTS, MAP};
use std::time::Duration;

/// A call: how many times it is made at a time, and the port's side and the Rust's.
struct Call<'a> {
    count: usize,
    sides: [Cell<'a>; 2],
}

/// What a side answered, all of it in one number, and the time that it took.
type Answered = (u64, Duration);

// Times all calls, and prints the table.
fn main() {
    let mut calls = [
        encode(),
        apply_i64(),
        insert(),
        query(),
        emit(),
        add(),
        address_to_offset(),
    ];
    cells::run(calls.iter_mut().flat_map(|call| &mut call.sides));
    print(&calls);
}

// A call of both sides.
fn call<'a>(
    what: &'static str,
    count: usize,
    port: impl FnMut() -> Answered + 'a,
    mut rust: impl FnMut() -> Answered + 'a,
) -> Call<'a> {
    let (right, _) = rust();
    let sides = [held(what, right, port), held(what, right, rust)];
    Call { count, sides }
}

// One side of a call, which has to answer this.
fn held<'a>(what: &'static str, right: u64, mut side: impl FnMut() -> Answered + 'a) -> Cell<'a> {
    Cell::new(format!("`{what}`"), move || {
        let (answer, took) = side();
        hold(answer == right, what);
        took
    })
}

// What one call after the other answers, added up.
fn sum(answers: impl Iterator<Item = u64>) -> u64 {
    answers.fold(0, u64::wrapping_add)
}

// The bytes of instructions.
fn encode() -> Call<'static> {
    let ours = questions::instructions();
    let theirs = ours.clone();
    call(
        "encode",
        CALLS,
        move || timed(|| sum(ours.iter().map(product::encode))),
        move || timed(|| sum(theirs.iter().map(rust::encode))),
    )
}

// Operators on numbers.
fn apply_i64() -> Call<'static> {
    let ours = questions::operations();
    let theirs = questions::operations();
    call(
        "apply_i64",
        CALLS,
        move || timed(|| sum(ours.iter().map(product::apply_i64))),
        move || timed(|| sum(theirs.iter().map(rust::apply_i64))),
    )
}

// Nodes of a new table; how many it has then.
fn insert() -> Call<'static> {
    let ids = questions::ids();
    let names: Vec<Identifier> = ids.iter().map(|id| rust::name(*id)).collect();
    let theirs = move || {
        let names = names.clone();
        let (table, took) = timed(|| rust::insert(names));
        (table.indices().count() as u64, took)
    };
    call(
        "insert",
        INSERTS,
        move || timed(|| product::insert(&ids)),
        theirs,
    )
}

// Paths of four ids, asked in scopes inside each other.
fn query() -> Call<'static> {
    let nodes = questions::nodes();
    let (ours, theirs) = (Table::new(&nodes), rust::table(&nodes));
    let queries = questions::queries();
    let asked: Vec<_> = queries.iter().map(rust::asked).collect();
    call(
        "query",
        CALLS,
        move || {
            timed(|| {
                sum(queries
                    .iter()
                    .map(|query| ours.query(query.nx, &query.path)))
            })
        },
        move || {
            let asked = asked.clone();
            timed(|| sum(asked.into_iter().map(|query| rust::query(&theirs, query))))
        },
    )
}

// Bytes, one behind the other; what is written, and the place then.
fn emit() -> Call<'static> {
    let mut image = Box::new([0; IMAGE]);
    let port = move || {
        let (place, took) = timed(|| product::emit(&mut image, CALLS));
        (written(&image[questions::START..place]), took)
    };
    let rust = || {
        let mut segment = rust::segment();
        let (_, took) = timed(|| rust::emit(&mut segment, CALLS));
        (written(segment.range_data()), took)
    };
    call("emit", CALLS, port, rust)
}

// A number for some bytes, which depends on each of them.
fn written(bytes: &[u8]) -> u64 {
    bytes.iter().fold(0, |all: u64, byte| {
        all.wrapping_mul(257).wrapping_add(u64::from(*byte) + 1)
    })
}

// Entries of a new source map.
fn add() -> Call<'static> {
    let ours = questions::entries();
    let theirs = questions::entries();
    let span = rust::some_span();
    let port = move || {
        let mut map = [0; MAP];
        timed(|| sum(ours.iter().map(|entry| product::add(&mut map, entry))))
    };
    let rust = move || {
        let mut map = SourceMap::default();
        timed(|| sum(theirs.iter().map(|entry| rust::add(&mut map, span, entry))))
    };
    call("add", CALLS, port, rust)
}

// Addresses in a source map.
fn address_to_offset() -> Call<'static> {
    let mut ours = [0; MAP];
    let mut theirs = SourceMap::default();
    let span = rust::some_span();
    for entry in questions::entries() {
        product::add(&mut ours, &entry);
        rust::add(&mut theirs, span, &entry);
    }
    let addresses = questions::addresses();
    let same = addresses.clone();
    let port = move |pc: &u32| product::address_to_offset(&ours, *pc);
    let rust = move |pc: &u32| rust::address_to_offset(&theirs, *pc);
    call(
        "address_to_offset",
        CALLS,
        move || timed(|| sum(addresses.iter().map(&port))),
        move || timed(|| sum(same.iter().map(&rust))),
    )
}

// Prints the table.
fn print(calls: &[Call]) {
    println!("| call | ns | the Rust, ns | of the Rust |");
    println!("|---|---|---|---|");
    for Call { count, sides } in calls {
        let [port, rust] = sides;
        let each = |side: &Cell| side.least().as_nanos() as f64 / *count as f64;
        let (ours, theirs) = (each(port), each(rust));
        let ratio = figures(ours / theirs);
        println!(
            "| {} | {} | {} | {ratio} |",
            port.what,
            figures(ours),
            figures(theirs)
        );
    }
}
