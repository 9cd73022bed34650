//! Processor time of the thread: what other programs take is no part of it.

/// The C library's `struct timespec` on 64-bit Linux.
#[repr(C)]
#[derive(Default)]
struct Timespec {
    seconds: i64,
    nanoseconds: i64,
}

/// Linux's CLOCK_THREAD_CPUTIME_ID.
const THREAD_TIME: i32 = 3;

extern "C" {
    fn clock_gettime(clock: i32, time: *mut Timespec) -> i32;
}

/// Nanoseconds of processor time that the thread has taken.
pub fn thread_time() -> i64 {
    let mut time = Timespec::default();
    // SAFETY: the place is borrowed alone and has the C library's layout.
    let status = unsafe { clock_gettime(THREAD_TIME, &mut time) };
    assert_eq!(status, 0);
    time.seconds * 1_000_000_000 + time.nanoseconds
}

/// Work takes of it, waiting doesn't.
#[test]
fn waiting_takes_none() {
    use std::time::{Duration, Instant};
    let wait = Duration::from_millis(100);
    let start = thread_time();
    std::thread::sleep(wait);
    let waited = thread_time() - start;
    let begun = Instant::now();
    while thread_time() - start - waited < 1_000_000 {
        assert!(begun.elapsed() < Duration::from_secs(60));
    }
    assert!(waited < 50_000_000);
}
