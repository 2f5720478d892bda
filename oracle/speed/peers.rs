//! The assemblers of Debian's packages, each run as a whole on one source.

use crate::cells::hold;
use crate::process;
use std::fs;
use std::time::Duration;

/// An assembler: its name, that of its files, its line that sets the place, and what is run in the
/// current folder, in this order.
pub struct Peer {
    pub name: &'static str,
    file: &'static str,
    origin: &'static str,
    commands: &'static [&'static str],
}

/// Every assembler. The times of all else are put beside the first's.
pub const ALL: [Peer; 4] = [
    Peer {
        name: "xa",
        file: "xa",
        origin: "* = $2000",
        commands: &["xa -o xa.bin xa.s"],
    },
    Peer {
        name: "acme",
        file: "acme",
        origin: "* = $2000",
        commands: &["acme -f plain -o acme.bin acme.s"],
    },
    Peer {
        name: "64tass",
        file: "64tass",
        origin: "* = $2000",
        commands: &["64tass --m65xx --quiet --nostart -o 64tass.bin 64tass.s"],
    },
    Peer {
        name: "ca65 with ld65",
        file: "ca65",
        origin: ".org $2000",
        commands: &[
            "ca65 --cpu 6502 -t none -o ca65.o ca65.s",
            "ld65 -t none -o ca65.bin ca65.o",
        ],
    },
];

impl Peer {
    // Writes its source: the lines behind the one that sets the place.
    pub fn write(&self, lines: &str) {
        let source = format!("{}\n{lines}", self.origin);
        let written = fs::write(format!("{}.s", self.file), source);
        written.expect("the source can be written");
    }

    // The time of one run, which has to make these bytes. What an earlier run wrote does not count.
    pub fn time(&self, bytes: &[u8]) -> Duration {
        let output = format!("{}.bin", self.file);
        let _ = fs::remove_file(&output);
        let took = self.commands.iter().map(|command| run(command)).sum();
        let is_same = fs::read(&output).is_ok_and(|made| made == bytes);
        hold(is_same, self.name);
        took
    }
}

// The time of a process that does nothing.
pub fn time_nothing() -> Duration {
    run("true")
}

// The time of a command, which has to end well.
fn run(command: &str) -> Duration {
    let took = process::run(command);
    hold(took.is_some(), command);
    took.unwrap_or_default()
}
