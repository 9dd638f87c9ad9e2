//! Ctrl-C and TERM, caught while a run can stop by itself. The first asks it to; the second ends the program.

use std::ffi::c_int;
use std::sync::atomic::{AtomicBool, Ordering};

extern "C" {
    fn signal(number: c_int, handler: usize) -> usize;
}

const INTERRUPT: c_int = 2;
const TERMINATE: c_int = 15;

/// What a signal does if nothing is said, and that it does nothing.
const DEFAULT: usize = 0;
const IGNORED: usize = 1;

static ASKED: AtomicBool = AtomicBool::new(false);

extern "C" fn ask(_: c_int) {
    ASKED.store(true, Ordering::Relaxed);
    set(DEFAULT);
}

/// Says what the two signals do, but where they are ignored.
fn set(handler: usize) {
    for number in [INTERRUPT, TERMINATE] {
        // `signal` is one of the functions that a handler may call
        unsafe {
            if signal(number, handler) == IGNORED {
                signal(number, IGNORED);
            }
        }
    }
}

/// From now on a signal only asks.
pub fn catch() {
    set(ask as *const () as usize);
}

/// From now on a signal ends the program.
pub fn release() {
    set(DEFAULT);
}

/// Was the run asked to stop?
pub fn asked() -> bool {
    ASKED.load(Ordering::Relaxed)
}
