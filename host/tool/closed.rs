//! Whether standard input or output was closed when the program began. Rust puts /dev/null in their place before `main`: what is written would be
//! lost, and what is read would be an empty text.

use std::sync::atomic::{AtomicBool, Ordering};

static INPUT: AtomicBool = AtomicBool::new(false);
static OUTPUT: AtomicBool = AtomicBool::new(false);

const STANDARD_INPUT: i32 = 0;
const STANDARD_OUTPUT: i32 = 1;
const GET_FLAGS: i32 = 1;

extern "C" {
    fn fcntl(descriptor: i32, command: i32, ...) -> i32;
}

/// Runs before Rust does, and looks.
extern "C" fn look() {
    for (descriptor, closed) in [(STANDARD_INPUT, &INPUT), (STANDARD_OUTPUT, &OUTPUT)] {
        // SAFETY: F_GETFD takes no further argument and changes nothing.
        closed.store(unsafe { fcntl(descriptor, GET_FLAGS) } == -1, Ordering::Relaxed);
    }
}

#[used]
#[link_section = ".init_array"]
static LOOK: extern "C" fn() = look;

pub fn input() -> bool {
    INPUT.load(Ordering::Relaxed)
}

pub fn output() -> bool {
    OUTPUT.load(Ordering::Relaxed)
}
