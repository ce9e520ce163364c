//! Ctrl-C: the run ends, and what was measured until then is told. A second one ends the program.
use std::ffi::c_int;
use std::sync::atomic::{AtomicBool, Ordering::Relaxed};

static IS_TOLD: AtomicBool = AtomicBool::new(false);

const INTERRUPT: c_int = 2;
const DEFAULT: usize = 0;

extern "C" {
    fn signal(number: c_int, handler: usize) -> usize;
}

extern "C" fn told(_: c_int) {
    IS_TOLD.store(true, Relaxed);
    // SAFETY: `signal` may be called in a handler.
    unsafe { signal(INTERRUPT, DEFAULT) };
}

/// From now on Ctrl-C doesn't end the program at once.
pub fn watch() {
    let handler: extern "C" fn(c_int) = told;
    // SAFETY: the handler stores to an atomic, and calls what a handler may.
    unsafe { signal(INTERRUPT, handler as usize) };
}

/// Whether the run is to end.
#[must_use]
pub fn is_told() -> bool {
    IS_TOLD.load(Relaxed)
}

/// What is said of a run that was ended; nothing of another.
#[must_use]
pub fn note() -> &'static str {
    if is_told() {
        ", ended before its end"
    } else {
        ""
    }
}
