//! Which of standard input, output and error were closed when the program began. Rust's own start opens /dev/null in their place, so that a closed output
//! would look like one that takes everything; this is asked before it.

use std::sync::atomic::{AtomicU8, Ordering};

static CLOSED: AtomicU8 = AtomicU8::new(0);

/// Of 0, 1 and 2.
pub fn was_closed(descriptor: u8) -> bool {
    CLOSED.load(Ordering::Relaxed) >> descriptor & 1 == 1
}

/// For the table of functions that the system calls before main (`main.rs` puts it there).
pub extern "C" fn look() {
    for descriptor in 0..3 {
        // SAFETY: asking for a descriptor's flags changes nothing and takes any number.
        if unsafe { libc::fcntl(descriptor, libc::F_GETFD) } == -1 {
            CLOSED.fetch_or(1 << descriptor, Ordering::Relaxed);
        }
    }
}
