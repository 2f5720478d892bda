//! Processor time of this process.

use std::time::Duration;

// Linux's number of that clock.
const PROCESS_TIME: i32 = 2;

// Linux's timespec.
#[repr(C)]
#[derive(Default)]
struct Time {
    seconds: i64,
    nanoseconds: i64,
}

extern "C" {
    fn clock_gettime(clock: i32, time: *mut Time) -> i32;
}

// The processor time so far.
fn used() -> Duration {
    let mut time = Time::default();
    let failed = unsafe { clock_gettime(PROCESS_TIME, &mut time) };
    assert_eq!(failed, 0, "the clock can be read");
    Duration::from_secs(time.seconds as u64) + Duration::from_nanos(time.nanoseconds as u64)
}

// What a call gives, and the processor time that it takes.
pub fn timed<T>(call: impl FnOnce() -> T) -> (T, Duration) {
    let before = used();
    let given = call();
    (given, used() - before)
}
