//! Processor time of other processes.

use std::process::{Command, Stdio};
use std::time::Duration;

// Linux's timeval.
#[repr(C)]
#[derive(Default)]
struct Time {
    seconds: i64,
    microseconds: i64,
}

// Linux's rusage.
#[repr(C)]
#[derive(Default)]
struct Usage {
    user: Time,
    system: Time,
    others: [i64; 14],
}

extern "C" {
    fn wait4(process: i32, status: *mut i32, options: i32, usage: *mut Usage) -> i32;
}

impl Time {
    // The same as a duration.
    fn duration(&self) -> Duration {
        Duration::from_secs(self.seconds as u64) + Duration::from_micros(self.microseconds as u64)
    }
}

// Runs a command to its end; the time in it and in the system for it, or nothing if it fails.
pub fn run(command: &str) -> Option<Duration> {
    let mut words = command.split(' ');
    let mut process = Command::new(words.next()?);
    process.args(words).stdout(Stdio::null());
    let process = process.spawn().ok()?.id() as i32;
    let (mut status, mut usage) = (0, Usage::default());
    let ended = unsafe { wait4(process, &mut status, 0, &mut usage) };
    let took = usage.user.duration() + usage.system.duration();
    (ended == process && status == 0).then_some(took)
}
