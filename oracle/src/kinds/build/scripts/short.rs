//! Every tape of sound form that has at most so many bytes, built from 2000 hex, framed as those of
//! the storm. Names are of ids up to 3 and of super, and one screen byte stands for all: so short a
//! tape has no more than three ids, and no other screen byte is refused in another way. No number
//! record has room.

use super::*;

// The most bytes of a tape, its end record among them.
const MOST: usize = 10;

// The ids; the last stands for super, in names alone.
const IDS: [u16; 4] = [1, 2, 3, 0];
const SUPER: usize = 1;

const PETSCII: u8 = 0x20;

// All of them.
pub fn framed() -> Vec<u8> {
    let mut script = Script::new();
    for tape in tapes(&script.rows, MOST, 0) {
        script.frame(storm::LISTED_AT, &tape);
    }
    script.out
}

// Every tape of at most so many bytes that closes so many scopes more than it opens.
fn tapes(rows: &[[u8; 3]], most: usize, open: usize) -> Vec<Vec<u8>> {
    if most == 0 {
        return vec![];
    }
    let mut all = vec![];
    if open == 0 {
        all.push(vec![END]);
    }
    for line in lines(rows, most - 1) {
        let Some(still_open) = scopes_behind(line[0], open) else {
            continue;
        };
        let rest = tapes(rows, most - line.len(), still_open);
        all.extend(rest.iter().map(|rest| [&line[..], rest].concat()));
    }
    all
}

// How many scopes are open behind a line of this kind; none where it closes one that is not open.
fn scopes_behind(kind: u8, open: usize) -> Option<usize> {
    match kind {
        OPEN_SCOPE => Some(open + 1),
        CLOSE_SCOPE => open.checked_sub(1),
        _ => Some(open),
    }
}

// Every line of at most so many bytes.
fn lines(rows: &[[u8; 3]], most: usize) -> Vec<Vec<u8>> {
    let declared = &IDS[..IDS.len() - SUPER];
    let mut all = vec![vec![CLOSE_SCOPE], vec![SCREEN_BYTE, PETSCII]];
    for (kind, id) in iproduct!([OPEN_SCOPE, LABEL], declared) {
        all.push(declaration(kind, *id));
    }
    for id in declared {
        all.extend(followed(&declaration(CONSTANT, *id), most));
    }
    for kind in [SET_PLACE, BYTE, WORD] {
        all.extend(followed(&[kind], most));
    }
    for row in rows {
        let record = [&[INSTRUCTION], &row[..]].concat();
        match row[1] {
            IMPLIED => all.push(record),
            _ => all.extend(followed(&record, most)),
        }
    }
    all.retain(|line| line.len() <= most);
    all
}

// A record with every expression behind it that has room.
fn followed(record: &[u8], most: usize) -> Vec<Vec<u8>> {
    let behind = expressions(most.saturating_sub(record.len()));
    behind.iter().map(|tree| [record, tree].concat()).collect()
}

// Every expression of at most so many bytes.
fn expressions(most: usize) -> Vec<Vec<u8>> {
    let mut all = names(most);
    if most > 0 {
        all.push(current_place());
    }
    if most > 2 {
        for (flags, inner) in iproduct!(NOT..=BOTH, expressions(most - 2)) {
            all.push(flagged(flags, &inner));
        }
        for left in expressions(most - 3) {
            for (operator, right) in
                iproduct!(0..=LAST_OPERATOR, expressions(most - 2 - left.len()))
            {
                all.push(binary(operator, &left, &right));
            }
        }
    }
    all
}

// Every name of at most so many bytes.
fn names(most: usize) -> Vec<Vec<u8>> {
    let mut all = vec![];
    let mut paths: Vec<Path> = IDS.iter().map(|id| vec![*id]).collect();
    while 2 + 2 * paths[0].len() <= most {
        for (modifier, path) in iproduct!(WHOLE..=HIGH, &paths) {
            all.push(name(modifier, path));
        }
        paths = iproduct!(&paths, IDS)
            .map(|(path, id)| [&path[..], &[id]].concat())
            .collect();
    }
    all
}
