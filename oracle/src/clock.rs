//! The time that this thread has run, which other programs on the machine do not lengthen.
use std::time::Duration;

#[repr(C)]
struct Timespec {
    seconds: i64,
    nanoseconds: i64,
}

extern "C" {
    fn clock_gettime(clock: i32, time: *mut Timespec) -> i32;
}

/// `CLOCK_THREAD_CPUTIME_ID` of Linux.
const THREAD: i32 = 3;

pub fn thread_time() -> Duration {
    let mut time = Timespec {
        seconds: 0,
        nanoseconds: 0,
    };
    // SAFETY: the struct has the layout of C's `struct timespec` on 64-bit Linux, and outlives the call.
    let answer = unsafe { clock_gettime(THREAD, &mut time) };
    assert_eq!(answer, 0);
    Duration::new(time.seconds as u64, time.nanoseconds as u32)
}
