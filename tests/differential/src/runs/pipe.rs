//! How much of what was written to a pipe its reader has still to take. The standard library has no word for it, the C library has.

use std::ffi::{c_int, c_ulong};
use std::os::fd::AsRawFd;
use std::thread;
use std::time::{Duration, Instant};

/// Linux's number, the same on x86-64 and on Arm.
const FIONREAD: c_ulong = 0x541B;
const LOOK_AGAIN: Duration = Duration::from_micros(20);
/// A program that reads nothing for so long has ended, or will not read.
const LONGEST: Duration = Duration::from_secs(5);

extern "C" {
    fn ioctl(descriptor: c_int, request: c_ulong, ...) -> c_int;
}

/// Waits until the pipe is empty. One that can't be asked is taken for empty.
pub fn wait_until_taken(pipe: &impl AsRawFd) {
    let began = Instant::now();
    let mut left: c_int = 0;
    // The call writes one int, to a place that outlives it.
    while unsafe { ioctl(pipe.as_raw_fd(), FIONREAD, &mut left) } == 0 && left > 0 {
        if began.elapsed() > LONGEST {
            return;
        }
        thread::sleep(LOOK_AGAIN);
    }
}
