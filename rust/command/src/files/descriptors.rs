//! The descriptors that the command was started with.

#![allow(unsafe_code)]

use std::fs::File;
use std::io;
use std::os::fd::{BorrowedFd, RawFd};

pub const STANDARD_INPUT: RawFd = 0;
pub const STANDARD_OUTPUT: RawFd = 1;
pub const STANDARD_ERROR: RawFd = 2;

/// A duplicate of an open one, which goes on where that is. Errors are told that Rust's own
/// `stdin` and `stdout` keep to themselves.
pub fn duplicate(number: RawFd) -> io::Result<File> {
    assert!(number >= 0, "a descriptor's number");
    // SAFETY: it is borrowed for this call alone, in which nothing is closed; if it is not open, the
    // system says so.
    let descriptor = unsafe { BorrowedFd::borrow_raw(number) };
    descriptor.try_clone_to_owned().map(File::from)
}
