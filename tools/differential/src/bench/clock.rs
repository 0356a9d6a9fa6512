//! The processor time of this thread, so that other work on the machine counts little.

#[repr(C)]
struct Timespec {
    seconds: i64,
    nanoseconds: i64,
}

extern "C" {
    fn clock_gettime(clock: i32, time: *mut Timespec) -> i32;
}

const CLOCK_THREAD_CPUTIME_ID: i32 = 3;

/// Nanoseconds, on 64-bit Linux.
pub fn now() -> f64 {
    let mut time = Timespec { seconds: 0, nanoseconds: 0 };
    // SAFETY: the pointer is to a timespec as 64-bit Linux has it, which the call fills.
    let failed = unsafe { clock_gettime(CLOCK_THREAD_CPUTIME_ID, &mut time) };
    assert_eq!(failed, 0, "no clock of the thread's time");
    time.seconds as f64 * 1e9 + time.nanoseconds as f64
}

/// What an interval of nothing is told to take, at least.
pub fn least() -> f64 {
    let nothing = || {
        let start = now();
        now() - start
    };
    (0..1000).map(|_| nothing()).fold(f64::INFINITY, f64::min)
}
