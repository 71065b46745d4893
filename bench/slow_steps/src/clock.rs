//! The processor time of this thread.

use std::ffi::{c_int, c_long};

/// As Linux has it on x86-64, where the library runs.
const CLOCK_THREAD_CPUTIME_ID: c_int = 3;

#[repr(C)]
#[derive(Default)]
struct Timespec {
    seconds: c_long,
    nanoseconds: c_long,
}

unsafe extern "C" {
    safe fn clock_gettime(clock: c_int, time: &mut Timespec) -> c_int;
}

/// Milliseconds of the work, and its answer.
pub fn timed<R>(work: impl FnOnce() -> R) -> (f64, R) {
    let start = now();
    let answer = work();
    (now() - start, answer)
}

fn now() -> f64 {
    let mut time = Timespec::default();
    assert_eq!(clock_gettime(CLOCK_THREAD_CPUTIME_ID, &mut time), 0);
    time.seconds as f64 * 1e3 + time.nanoseconds as f64 * 1e-6
}
