//! Being told to stop.

use std::ffi::c_int;
use std::sync::atomic::{AtomicBool, Ordering};

static STOP: AtomicBool = AtomicBool::new(false);

const SIGHUP: c_int = 1;
const SIGINT: c_int = 2;
const SIGTERM: c_int = 15;

extern "C" {
    fn signal(number: c_int, handler: extern "C" fn(c_int)) -> usize;
}

extern "C" fn told(_: c_int) {
    STOP.store(true, Ordering::Relaxed);
}

/// From now on the signals to hang up, to interrupt and to end are noted.
pub fn listen() {
    for number in [SIGHUP, SIGINT, SIGTERM] {
        // SAFETY: the handler only stores to an atomic, which a handler may do at any time.
        unsafe { signal(number, told) };
    }
}

/// Whether one of them came.
pub fn stop() -> bool {
    STOP.load(Ordering::Relaxed)
}
