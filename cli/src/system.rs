//! What the standard library doesn't offer: which standard streams were open at
//! the start, a file that a signal removes, and a lock on a file.
//!
//! All unsafe code is here.

use std::ffi::{c_char, c_int, CString};
use std::fs::File;
use std::io;
use std::os::fd::AsRawFd;
use std::os::unix::ffi::OsStrExt;
use std::path::Path;
use std::ptr;
use std::sync::atomic::{AtomicBool, AtomicPtr, Ordering};

extern "C" {
    fn fcntl(file: c_int, command: c_int, ...) -> c_int;
    fn flock(file: c_int, operation: c_int) -> c_int;
    fn raise(number: c_int) -> c_int;
    fn unlink(path: *const c_char) -> c_int;
    /// A handler is a function of the signal's number.
    fn signal(number: c_int, handler: usize) -> usize;
}

const F_GETFD: c_int = 1;
const LOCK_EX: c_int = 2;
const LOCK_NB: c_int = 4;
const SIG_DFL: usize = 0;
const SIG_IGN: usize = 1;
/// SIGHUP, SIGINT, SIGQUIT, SIGTERM, SIGXCPU and SIGXFSZ: all that end a program
/// that goes over its limits or is asked to stop.
const ENDING: [c_int; 6] = [1, 2, 3, 15, 24, 25];

/// Whether standard input and standard output were open.
static OPEN: [AtomicBool; 2] = [AtomicBool::new(true), AtomicBool::new(true)];

/// The path of the file that a signal removes, or null.
static TEMPORARY: AtomicPtr<c_char> = AtomicPtr::new(ptr::null_mut());

/// Called before `main`. By then the standard library has put the null device in
/// the place of a closed stream, and that it was closed can't be seen any more.
#[used]
#[cfg_attr(target_os = "macos", link_section = "__DATA,__mod_init_func")]
#[cfg_attr(not(target_os = "macos"), link_section = ".init_array")]
static AT_THE_START: extern "C" fn() = note_closed_streams;

extern "C" fn note_closed_streams() {
    for (stream, open) in (0..).zip(&OPEN) {
        // SAFETY: F_GETFD takes any number and changes nothing.
        let found = unsafe { fcntl(stream, F_GETFD) };
        open.store(found != -1, Ordering::Relaxed);
    }
}

/// Was standard input open when the program was started?
pub fn input_was_open() -> bool {
    OPEN[0].load(Ordering::Relaxed)
}

/// Was standard output open when the program was started?
pub fn output_was_open() -> bool {
    OPEN[1].load(Ordering::Relaxed)
}

/// From now on a signal that ends the program removes this file first, until
/// [`keep`] is called. There is one such file at a time.
pub fn remove_on_signal(path: &Path) -> io::Result<()> {
    // The handler may still read the last path, so its memory is never freed.
    let path = CString::new(path.as_os_str().as_bytes())?.into_raw();
    TEMPORARY.store(path, Ordering::SeqCst);
    let handler: extern "C" fn(c_int) = remove_and_end;
    for number in ENDING {
        // SAFETY: `remove_and_end` does only what a handler may do: it uses an
        // atomic that needs no lock, and calls `unlink`, `signal` and `raise`.
        let before = unsafe { signal(number, handler as usize) };
        if before == SIG_IGN {
            // SAFETY: what was ignored stays so, as under `nohup`.
            unsafe { signal(number, SIG_IGN) };
        }
    }
    Ok(())
}

/// No signal removes a file any more.
pub fn keep() {
    TEMPORARY.store(ptr::null_mut(), Ordering::SeqCst);
}

extern "C" fn remove_and_end(number: c_int) {
    let path = TEMPORARY.load(Ordering::SeqCst);
    // SAFETY: the path is null or one of `remove_on_signal`'s, which are never
    // freed. The signal is raised again when this returns, and then ends the
    // program as it would have without this.
    unsafe {
        if !path.is_null() {
            unlink(path);
        }
        signal(number, SIG_DFL);
        raise(number);
    }
}

/// Locks a file for this run, unless another has locked it. The lock goes with
/// the run, however it ends.
pub fn try_lock(file: &File) -> io::Result<()> {
    // SAFETY: the file is open as long as it is borrowed.
    match unsafe { flock(file.as_raw_fd(), LOCK_EX | LOCK_NB) } {
        0 => Ok(()),
        _ => Err(io::Error::last_os_error()),
    }
}
