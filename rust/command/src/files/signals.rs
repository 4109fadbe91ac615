//! Ending by a signal: nothing is left behind, and who waits for the command sees the signal.

#![allow(unsafe_code)]

use std::ffi::{c_char, c_int, CString};
use std::os::unix::ffi::OsStrExt;
use std::path::Path;
use std::process;
use std::ptr;
use std::sync::atomic::{AtomicBool, AtomicI32, AtomicPtr, Ordering};

const SIGHUP: c_int = 1;
const SIGINT: c_int = 2;
const SIGQUIT: c_int = 3;
const SIGUSR1: c_int = 10;
const SIGUSR2: c_int = 12;
const SIGPIPE: c_int = 13;
const SIGALRM: c_int = 14;
const SIGTERM: c_int = 15;
const SIGXCPU: c_int = 24;

/// Those that somebody sends, or a limit of time.
const ENDING: [c_int; 8] = [
    SIGHUP, SIGINT, SIGQUIT, SIGUSR1, SIGUSR2, SIGALRM, SIGTERM, SIGXCPU,
];

/// The actions `SIG_DFL` and `SIG_IGN`; any other is a function's address.
const DEFAULT: usize = 0;
const IGNORE: usize = 1;

extern "C" {
    fn signal(number: c_int, action: usize) -> usize;
    fn raise(number: c_int) -> c_int;
    fn unlink(path: *const c_char) -> c_int;
}

/// The file that a signal removes; null if there is none.
static TEMPORARY: AtomicPtr<c_char> = AtomicPtr::new(ptr::null_mut());

/// Whether a signal has to wait, and the one that does; 0 if none does.
static HELD: AtomicBool = AtomicBool::new(false);
static WAITING: AtomicI32 = AtomicI32::new(0);

/// From now on a signal that ends the command removes this file first, be it there yet or not.
pub fn remove_if_ended(file: &Path) {
    let path = CString::new(file.as_os_str().as_bytes()).expect("a path has no NUL");
    // Never freed: a signal may come at any moment.
    TEMPORARY.store(path.into_raw(), Ordering::SeqCst);
    for number in ENDING {
        let action: extern "C" fn(c_int) = remove_and_end;
        // SAFETY: the action is a function of the type that `signal` asks for, and calls only what
        // a handler may call.
        unsafe {
            // What nohup or a shell has the command ignore stays so.
            if signal(number, IGNORE) != IGNORE {
                signal(number, action as usize);
            }
        }
    }
}

/// The file is renamed or removed.
pub fn remove_nothing() {
    TEMPORARY.store(ptr::null_mut(), Ordering::SeqCst);
}

/// From now on a signal waits: what is about to be done is to be said, too.
pub fn hold() {
    HELD.store(true, Ordering::SeqCst);
}

/// All is done and said: a signal that waits ends the command.
pub fn release() {
    HELD.store(false, Ordering::SeqCst);
    let number = WAITING.swap(0, Ordering::SeqCst);
    if number != 0 {
        remove_and_end(number);
    }
}

extern "C" fn remove_and_end(number: c_int) {
    if HELD.load(Ordering::SeqCst) {
        WAITING.store(number, Ordering::SeqCst);
        return;
    }
    let path = TEMPORARY.load(Ordering::SeqCst);
    // SAFETY: the path is null or a C string that is never freed; the three functions are
    // async-signal-safe. In a handler the signal raised is blocked until this returns, and ends the
    // command then.
    unsafe {
        if !path.is_null() {
            unlink(path);
        }
        signal(number, DEFAULT);
        raise(number);
    }
}

/// Ends as other filters do whose reader went away; Rust has this signal ignored.
pub fn end_by_broken_pipe() -> ! {
    // SAFETY: both take any signal's number; the default action is no function of ours.
    unsafe {
        signal(SIGPIPE, DEFAULT);
        raise(SIGPIPE);
    }
    // Still here if the signal is blocked: the status that a shell would show.
    process::exit(128 + SIGPIPE)
}
