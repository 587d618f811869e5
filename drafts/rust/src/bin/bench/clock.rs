//! The processor's time of this thread, so that others who use the machine count as little as can be.
use std::time::Duration;

#[repr(C)]
struct Timespec {
    seconds: i64,
    nanos: i64,
}

unsafe extern "C" {
    fn clock_gettime(clock: i32, time: *mut Timespec) -> i32;
}

/// Linux's CLOCK_THREAD_CPUTIME_ID.
const THREAD: i32 = 3;

pub fn now() -> Duration {
    let mut t = Timespec { seconds: 0, nanos: 0 };
    // SAFETY: it writes to `t` alone.
    let status = unsafe { clock_gettime(THREAD, &mut t) };
    assert_eq!(status, 0, "no clock");
    Duration::new(t.seconds as u64, t.nanos as u32)
}
