//! The time that this thread has spent on a processor: other programs on the machine do not count.

#[repr(C)]
struct Timespec {
    seconds: i64,
    nanoseconds: i64,
}

extern "C" {
    fn clock_gettime(clock: i32, time: *mut Timespec) -> i32;
}

/// Linux's number for the clock.
const THREAD_CPUTIME: i32 = 3;

/// In ns.
pub fn thread_time() -> f64 {
    let mut time = Timespec { seconds: 0, nanoseconds: 0 };
    // SAFETY: the C library of x86-64 Linux fills a time of this layout.
    let failed = unsafe { clock_gettime(THREAD_CPUTIME, &mut time) };
    assert_eq!(failed, 0, "no clock of this thread's time");
    time.seconds as f64 * 1e9 + time.nanoseconds as f64
}
