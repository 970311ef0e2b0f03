//! Work in a process of its own, which may come to any end.

use std::ffi::{c_int, c_uint};
use std::fmt;
use std::io::Write;
use std::panic::{AssertUnwindSafe, catch_unwind};
use std::ptr::null_mut;

unsafe extern "C" {
    fn fork() -> c_int;
    fn waitpid(process: c_int, status: *mut c_int, options: c_int) -> c_int;
    fn _exit(status: c_int) -> !;
    fn alarm(seconds: c_uint) -> c_uint;
    fn setitimer(which: c_int, new: *const [i64; 4], old: *mut [i64; 4]) -> c_int;
}

/// The timer that counts the processor's time.
const PROCESSOR_TIME: c_int = 2;

/// The exit status of work that was done. Not 0, with which a library might end the process.
const DONE: c_int = 3;

/// How a process came to its end.
#[derive(Clone, Copy, PartialEq, Eq, Debug)]
pub enum Ended {
    Well,
    /// With this exit status: 1 is a difference, 2 a panic.
    With(c_int),
    /// By this signal: 11 is memory that it must not touch, 14 and 27 that it took too long.
    By(c_int),
}

impl fmt::Display for Ended {
    fn fmt(&self, to: &mut fmt::Formatter<'_>) -> fmt::Result {
        match self {
            Ended::Well => write!(to, "no difference"),
            Ended::With(1) => write!(to, "answers or lent bytes differ"),
            Ended::With(status) => write!(to, "exit status {status}"),
            Ended::By(11) => write!(to, "signal 11: memory was touched that must not be"),
            Ended::By(signal @ (14 | 27)) => write!(to, "signal {signal}: it came to no end"),
            Ended::By(signal) => write!(to, "signal {signal}"),
        }
    }
}

/// Does the work in a process of its own and waits for its end.
pub fn in_a_child(work: impl FnOnce()) -> Ended {
    let _ = std::io::stdout().flush();
    let child = unsafe { fork() };
    assert!(child >= 0, "no further process");
    if child == 0 {
        let status = if catch_unwind(AssertUnwindSafe(work)).is_ok() { DONE } else { 2 };
        unsafe { _exit(status) }
    }
    let mut status = 0;
    assert!(unsafe { waitpid(child, &mut status, 0) } == child);
    match (status & 0x7f, status >> 8 & 0xff) {
        (0, DONE) => Ended::Well,
        (0, status) => Ended::With(status),
        (signal, _) => Ended::By(signal),
    }
}

/// This process is ended by a signal unless it says this again in so many seconds of the processor's time; or, should it wait for something, in a hundred times
/// as many by the clock.
pub fn end_after(seconds: c_uint) {
    // The seconds and microseconds between two signals, and until the first.
    let times = [0, 0, i64::from(seconds), 0];
    unsafe {
        setitimer(PROCESSOR_TIME, &times, null_mut());
        alarm(100 * seconds);
    }
}
