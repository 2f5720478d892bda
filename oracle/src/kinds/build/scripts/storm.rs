//! The tapes of the storm: random ones as in `build`, sound ones of many lines, ones at the limits
//! of depth, names, places, passes and length, and any of these damaged. Each stands behind its
//! length and its initial place, both u32.

use super::*;

// Where the program `list` builds a tape.
pub const LISTED_AT: usize = 0x2000;

// One in so many tapes is built from another place, and one is damaged, up to so many times.
const ELSEWHERE: i64 = 5;
const BROKEN: i64 = 4;
const MOST_BREAKS: i64 = 3;

// The most lines of a short body, of a sound tape and of a long one.
const SHORT: i64 = 8;
const SOUND: i64 = 40;
const LONG: i64 = 2_000;

// A sound body has a label for so many lines; the first of them, behind the ids of chains.
const LINES_PER_LABEL: u16 = 4;
const FIRST_LABEL: u16 = 100;

// Operators that small numbers never overflow: Add, Sub, Xor, Gt, And, Or.
const SAFE_OPERATORS: [u8; 6] = [0, 1, 7, 10, 14, 15];

const STORM_SEED: u64 = 65_816;

// So many tapes.
pub fn framed(count: usize) -> Vec<u8> {
    let mut script = Script::new();
    script.source = Random::new(STORM_SEED);
    for _ in 0..count {
        let initial = script.any_start();
        let mut tape = script.any_kind_of_tape();
        tape.push(END);
        if script.once_in(BROKEN) {
            script.break_often(&mut tape);
        }
        script.frame(initial, &tape);
    }
    script.out
}

impl Script {
    // Adds a tape.
    pub fn frame(&mut self, initial: usize, tape: &[u8]) {
        self.out.extend((tape.len() as u32).to_le_bytes());
        self.out.extend((initial as u32).to_le_bytes());
        self.out.extend(tape);
    }

    // An initial place: the program's, one as in `build`, or any, one beyond the last among them.
    fn any_start(&mut self) -> usize {
        if !self.once_in(ELSEWHERE) {
            return LISTED_AT;
        }
        match self.once_in(2) {
            true => self.any_initial(),
            false => self.source.between(0, SIZE as i64 + 1) as usize,
        }
    }

    // The lines of a tape of some kind.
    fn any_kind_of_tape(&mut self) -> Vec<u8> {
        match self.source.between(1, 1_000) {
            1..=400 => self.any_tape(),
            401..=650 => self.any_sound(SOUND),
            651..=665 => self.any_sound(LONG),
            666..=740 => self.any_chain(),
            741..=800 => self.any_long_chain(),
            801..=870 => self.any_deep(),
            871..=988 => self.any_edge(),
            989..=998 => self.any_crowd(),
            _ => self.any_full(),
        }
    }

    // Up to so many lines that nothing refuses where there is room, with labels among them.
    fn any_sound(&mut self, most: i64) -> Vec<u8> {
        let count = self.source.between(1, most);
        let labels = 1 + count as u16 / LINES_PER_LABEL;
        let last = FIRST_LABEL + labels - 1;
        let mut lines: Vec<_> = (0..count).map(|_| self.any_sound_line(last)).collect();
        for id in FIRST_LABEL..=last {
            let at = self.source.between(0, lines.len() as i64) as usize;
            lines.insert(at, declaration(LABEL, id));
        }
        lines.concat()
    }

    // A line about the labels up to this one, the current place or a byte.
    fn any_sound_line(&mut self, last: u16) -> Vec<u8> {
        let id = any(&mut self.source, FIRST_LABEL.into(), last.into()) as u16;
        let byte = self.source.between(0, 255);
        match self.source.between(0, 6) {
            0 => vec![SCREEN_BYTE, byte as u8],
            1 => {
                let modifier = one_of(&mut self.source, &[LOW, HIGH]);
                [vec![BYTE], name(modifier, &[id])].concat()
            }
            2 => [vec![WORD], short_name(id)].concat(),
            3 => [absolute(LDA), short_name(id)].concat(),
            _ => self.any_sound_instruction(byte),
        }
    }

    // An instruction of any row, with an operand that it takes.
    fn any_sound_instruction(&mut self, byte: i64) -> Vec<u8> {
        let row = one_of(&mut self.source, &self.rows);
        let record = [&[INSTRUCTION], &row[..]].concat();
        let distance = self.source.between(-126, 129);
        match row {
            [_, IMPLIED, _] => record,
            [branch, ..] if BRANCHES.contains(&branch) => {
                [record, binary(0, &current_place(), &number(distance))].concat()
            }
            _ => [record, number(byte)].concat(),
        }
    }

    // About as many constants as passes can settle, each naming the one before, and lines behind.
    fn any_long_chain(&mut self) -> Vec<u8> {
        let mut tape = chain(any(&mut self.source, 13, 18) as u16);
        tape.pop();
        [tape, self.any_sound(SHORT)].concat()
    }

    // A byte whose expression is nested about as deep as may be, and lines behind.
    fn any_deep(&mut self) -> Vec<u8> {
        let mut tree = number(self.source.between(0, 300));
        for _ in 1..self.source.between(DEEPEST as i64 - 2, DEEPEST as i64 + 2) {
            let operator = one_of(&mut self.source, &SAFE_OPERATORS);
            tree = match self.source.between(0, 2) {
                0 => flagged(any(&mut self.source, NOT.into(), BOTH.into()) as u8, &tree),
                1 => binary(operator, &number(1), &tree),
                _ => binary(operator, &tree, &current_place()),
            };
        }
        [vec![BYTE], tree, self.any_sound(SHORT)].concat()
    }

    // Lines near the last place, seldom behind it, and lines elsewhere.
    fn any_edge(&mut self) -> Vec<u8> {
        let near = number(self.source.between(65_505, 65_537));
        let near = [vec![SET_PLACE], near, self.any_sound(SHORT)].concat();
        if self.once_in(2) {
            return near;
        }
        let back = [vec![SET_PLACE], self.any_place()].concat();
        [near, back, vec![SCREEN_BYTE, 0]].concat()
    }

    // About as many names as there may be: labels in the root, and scopes inside each other around a
    // load of the first label.
    fn any_crowd(&mut self) -> Vec<u8> {
        let names = any(&mut self.source, 1_022, 1_024) as u16;
        let scopes = one_of(&mut self.source, &[0, 1, 30, 500, names - 1, names]);
        let labels = FIRST_LABEL..FIRST_LABEL + (names - scopes);
        let labels: Vec<u8> = labels.flat_map(|id| declaration(LABEL, id)).collect();
        let open = declaration(OPEN_SCOPE, 1).repeat(scopes.into());
        let load = [absolute(LDA), short_name(FIRST_LABEL)].concat();
        let inside = [open, load, vec![CLOSE_SCOPE; scopes.into()]].concat();
        match self.once_in(2) {
            true => [labels, inside].concat(),
            false => [inside, labels].concat(),
        }
    }

    // A tape that is as long as it may be with its end record, or a byte shorter or longer.
    fn any_full(&mut self) -> Vec<u8> {
        let line = one_of(&mut self.source, &[[SCREEN_BYTE, 1], [BYTE, CURRENT_PLACE]]);
        match self.source.between(0, 2) {
            0 => line.repeat(SIZE / 2 - 1),
            1 => [declaration(LABEL, 1), line.repeat(SIZE / 2 - 2)].concat(),
            _ => line.repeat(SIZE / 2),
        }
    }

    // A tape that is damaged at some places.
    fn break_often(&mut self, tape: &mut Vec<u8>) {
        for _ in 0..self.source.between(1, MOST_BREAKS) {
            if !tape.is_empty() {
                self.break_once(tape);
            }
        }
    }

    // A tape that is cut, goes on behind its end, has a bit turned, or is damaged as in `build`.
    fn break_once(&mut self, tape: &mut Vec<u8>) {
        let at = self.source.between(0, tape.len() as i64 - 1) as usize;
        match self.source.between(0, 3) {
            0 => tape.truncate(at),
            1 => {
                let any = self.source.next() as u8;
                tape.push(one_of(&mut self.source, &[END, CLOSE_SCOPE, any]));
            }
            2 => tape[at] ^= 1 << self.source.between(0, 7),
            _ => self.damage(tape),
        }
    }
}
