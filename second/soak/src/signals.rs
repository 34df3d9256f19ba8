//! Ctrl-C and SIGTERM.
//!
//! All unsafe code is here.

use std::ffi::c_int;
use std::io;
use std::sync::atomic::{AtomicBool, Ordering};

/// SIGINT, which is Ctrl-C, and SIGTERM.
const CAUGHT: [c_int; 2] = [2, 15];
/// What a signal does when nothing is said.
const SIG_DFL: usize = 0;
const SIG_ERR: usize = usize::MAX;

static ASKED_TO_STOP: AtomicBool = AtomicBool::new(false);

extern "C" {
    /// Of the C library; a handler is a function of the signal's number.
    fn signal(number: c_int, handler: usize) -> usize;
}

/// Notes the first signal. The next one ends the program at once.
extern "C" fn note(_number: c_int) {
    ASKED_TO_STOP.store(true, Ordering::Relaxed);
    for number in CAUGHT {
        // SAFETY: a handler may call `signal`; no function of ours is installed.
        unsafe { signal(number, SIG_DFL) };
    }
}

/// Catches both from now on; what is given becomes true with the first.
pub fn catch() -> io::Result<&'static AtomicBool> {
    let handler: extern "C" fn(c_int) = note;
    for number in CAUGHT {
        // SAFETY: `note` is a handler, and does only what one may do: it stores
        // to an atomic that needs no lock, and calls `signal`.
        if unsafe { signal(number, handler as usize) } == SIG_ERR {
            return Err(io::Error::last_os_error());
        }
    }
    Ok(&ASKED_TO_STOP)
}
