//! Processor time, which other work on the machine disturbs less than it does the time of day.

use std::ffi::{c_int, c_long};

#[repr(C)]
struct Time {
    seconds: c_long,
    nanos: c_long,
}

/// The start of the system's struct rusage: seconds and µs for the program, then for the system.
#[repr(C)]
struct Usage {
    times: [c_long; 4],
    _rest: [c_long; 28],
}

extern "C" {
    fn clock_gettime(clock: c_int, time: *mut Time) -> c_int;
    fn getrusage(who: c_int, usage: *mut Usage) -> c_int;
}

/// The µs that this thread has taken.
fn thread_time() -> f64 {
    const THREAD: c_int = 3;
    let mut time = Time {
        seconds: 0,
        nanos: 0,
    };
    // SAFETY: the area is a struct timespec.
    let code = unsafe { clock_gettime(THREAD, &mut time) };
    assert_eq!(code, 0, "clock_gettime");
    time.seconds as f64 * 1e6 + time.nanos as f64 / 1e3
}

/// The µs that this thread takes for some work.
pub fn micros(work: impl FnOnce()) -> f64 {
    let before = thread_time();
    work();
    thread_time() - before
}

/// The µs that the processes waited for have taken.
pub fn children_time() -> f64 {
    const CHILDREN: c_int = -1;
    let mut usage = Usage {
        times: [0; 4],
        _rest: [0; 28],
    };
    // SAFETY: the area is larger than a struct rusage.
    let code = unsafe { getrusage(CHILDREN, &mut usage) };
    assert_eq!(code, 0, "getrusage");
    let [seconds, micros, system_seconds, system_micros] = usage.times;
    ((seconds + system_seconds) * 1_000_000 + micros + system_micros) as f64
}
