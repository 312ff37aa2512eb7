//! The processor time of this process, which other processes disturb least.

use std::time::Duration;

/// `struct timespec` of Linux on 64 bits.
#[repr(C)]
struct Timespec {
    seconds: i64,
    nanoseconds: i64,
}

/// `CLOCK_PROCESS_CPUTIME_ID`.
const PROCESS_TIME: i32 = 2;

extern "C" {
    fn clock_gettime(clock: i32, time: *mut Timespec) -> i32;
}

fn processor_time() -> Duration {
    let mut time = Timespec {
        seconds: 0,
        nanoseconds: 0,
    };
    // The function writes to the given place alone.
    let failed = unsafe { clock_gettime(PROCESS_TIME, &mut time) };
    assert_eq!(failed, 0);
    Duration::new(time.seconds as u64, time.nanoseconds as u32)
}

/// What the call gives, and the time it takes.
pub fn timed<Given>(call: impl FnOnce() -> Given) -> (Given, Duration) {
    let start = processor_time();
    let given = call();
    (given, processor_time() - start)
}
