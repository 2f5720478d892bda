//! What is timed, a line of a table each: again and again, and all of them in turns, so that none
//! has only the worst moments of a machine that does other work too.

use std::time::{Duration, Instant};

// How many turns there are, and how long a cell is run in each. One that takes longer misses turns.
const TURNS: u32 = 5;
const TURN: Duration = Duration::from_millis(400);

// Of so many times the least is left out: of a process that was interrupted Linux may count too
// little.
const LEFT_OUT: usize = 100;

/// What is run, how it is timed once, and its times so far.
pub struct Cell<'a> {
    pub what: String,
    time: Box<dyn FnMut() -> Duration + 'a>,
    spent: Duration,
    times: Vec<Duration>,
}

impl<'a> Cell<'a> {
    // A cell that was not run yet.
    pub fn new(what: String, time: impl FnMut() -> Duration + 'a) -> Cell<'a> {
        Cell {
            what,
            time: Box::new(time),
            spent: Duration::ZERO,
            times: vec![],
        }
    }

    // Runs it until so much time was spent on it in all.
    fn run_until(&mut self, limit: Duration) {
        while self.spent < limit {
            let began = Instant::now();
            self.times.push((self.time)());
            self.spent += began.elapsed();
        }
    }

    // The least of its times, without those that are left out.
    pub fn least(&self) -> Duration {
        let mut times = self.times.clone();
        times.sort();
        times[times.len() / LEFT_OUT]
    }
}

// Runs all cells in turns.
pub fn run<'c, 'a: 'c>(cells: impl Iterator<Item = &'c mut Cell<'a>>) {
    let mut cells: Vec<&mut Cell> = cells.collect();
    for turn in 1..=TURNS {
        for cell in &mut cells {
            cell.run_until(turn * TURN);
        }
    }
}

// Ends the program where an answer is wrong.
pub fn hold(holds: bool, what: &str) {
    if !holds {
        eprintln!("speed: {what}: a wrong answer");
        std::process::exit(1);
    }
}

// A number with some three figures.
pub fn figures(number: f64) -> String {
    let digits = match number {
        100.0.. => 0,
        10.0.. => 1,
        1.0.. => 2,
        0.1.. => 3,
        _ => 4,
    };
    format!("{number:.digits$}")
}
