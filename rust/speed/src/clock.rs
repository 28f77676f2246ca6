//! The time that this thread has had of a processor (Linux): other work on the machine does not count.

use std::time::Duration;

#[repr(C)]
struct TimeSpec {
    seconds: i64,
    nanos: i64,
}

extern "C" {
    fn clock_gettime(clock: i32, time: *mut TimeSpec) -> i32;
}

const CLOCK_THREAD_CPUTIME_ID: i32 = 3;

pub fn cpu_time() -> Duration {
    let mut time = TimeSpec { seconds: 0, nanos: 0 };
    // SAFETY: the pointer is to a variable of the type that the C library has on 64-bit Linux.
    let failed = unsafe { clock_gettime(CLOCK_THREAD_CPUTIME_ID, &mut time) };
    assert_eq!(failed, 0, "no clock of the thread's time");
    Duration::new(time.seconds as u64, time.nanos as u32)
}
