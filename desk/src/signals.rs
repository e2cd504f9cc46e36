//! Signals that ask for the end: caught, so that a script ends between two of its lines and no file is left
//! behind. A read or write that waits comes back interrupted, and whoever made it asks here why.

use std::ffi::{c_int, c_uint};
use std::sync::atomic::{AtomicI32, Ordering};

const SIGHUP: c_int = 1;
const SIGINT: c_int = 2;
const SIGALRM: c_int = 14;
const SIGTERM: c_int = 15;
const ASKING: [c_int; 3] = [SIGHUP, SIGINT, SIGTERM];

const SIG_IGN: usize = 1;

extern "C" {
    fn signal(number: c_int, handler: usize) -> usize;
    fn siginterrupt(number: c_int, interrupts: c_int) -> c_int;
    fn alarm(seconds: c_uint) -> c_uint;
}

/// The number of the last one caught, 0 where none was.
static CAUGHT: AtomicI32 = AtomicI32::new(0);

/// A call that begins just behind this would wait all the same: an alarm comes each second until the end.
extern "C" fn caught_one(number: c_int) {
    if number != SIGALRM {
        CAUGHT.store(number, Ordering::Relaxed);
    }
    // It may be called anywhere.
    unsafe { alarm(1) };
}

/// From here on they are caught, but for those that whoever started the program has it ignore.
pub fn catch() {
    // Plain calls: the handler does nothing that it may not do there.
    unsafe {
        for number in ASKING {
            if signal(number, SIG_IGN) != SIG_IGN {
                interrupting(number);
            }
        }
        interrupting(SIGALRM);
    }
}

unsafe fn interrupting(number: c_int) {
    signal(number, caught_one as extern "C" fn(c_int) as usize);
    siginterrupt(number, 1);
}

/// From here on they come too late.
pub fn ignore() {
    for number in ASKING.into_iter().chain([SIGALRM]) {
        // A plain call.
        unsafe { signal(number, SIG_IGN) };
    }
}

/// The one that asked for the end.
pub fn caught() -> Option<c_int> {
    Some(CAUGHT.load(Ordering::Relaxed)).filter(|&number| number != 0)
}
