//! Signals that ask the program to end: noted, so that what was found can be written first. A second one ends it at once.

use std::sync::atomic::{AtomicBool, Ordering};

static CAUGHT: AtomicBool = AtomicBool::new(false);

// Linux's numbers.
const HANG_UP: i32 = 1;
const INTERRUPT: i32 = 2;
const TERMINATE: i32 = 15;
const DEFAULT: usize = 0;
const IGNORED: usize = 1;

extern "C" {
    fn signal(number: i32, handler: usize) -> usize;
}

/// Runs in the middle of anything: it may only note, and let the next one end the program.
extern "C" fn note(number: i32) {
    CAUGHT.store(true, Ordering::Relaxed);
    // SAFETY: `signal` may be called within a handler.
    unsafe { signal(number, DEFAULT) };
}

/// From here on the signals are noted. One that was ignored, as by nohup, stays so.
pub fn catch() {
    for number in [HANG_UP, INTERRUPT, TERMINATE] {
        // SAFETY: the handler takes a number, and touches nothing but an atomic flag and the handler itself.
        unsafe {
            if signal(number, note as extern "C" fn(i32) as usize) == IGNORED {
                signal(number, IGNORED);
            }
        }
    }
}

/// Whether one came.
pub fn came() -> bool {
    CAUGHT.load(Ordering::Relaxed)
}
