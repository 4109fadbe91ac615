//! Extended attributes, of which the access control list is one. A file that replaces another takes
//! them over: with such a list the mode's group bits are its mask, and would let a group in without it.

#![allow(unsafe_code)]

use std::ffi::{c_char, c_int, c_void, CStr};
use std::fs::File;
use std::io;
use std::os::fd::AsRawFd;

const ACCESS_LIST: &CStr = c"system.posix_acl_access";
/// Sums over the content, which is another now.
const SUMS: [&CStr; 2] = [c"security.ima", c"security.evm"];

/// The most that Linux gives, of names and of a value.
const MOST_BYTES: usize = 65_536;
const NO_SUCH_ATTRIBUTE: i32 = 61;
const NOT_SUPPORTED: i32 = 95;

extern "C" {
    fn flistxattr(file: c_int, names: *mut c_char, size: usize) -> isize;
    fn fgetxattr(file: c_int, name: *const c_char, value: *mut c_void, size: usize) -> isize;
    fn fsetxattr(
        file: c_int,
        name: *const c_char,
        value: *const c_void,
        size: usize,
        flags: c_int,
    ) -> c_int;
    fn fremovexattr(file: c_int, name: *const c_char) -> c_int;
}

/// Gives the new file the old one's; the system's own stay away where they cannot be set.
pub fn copy(old: &File, new: &File) -> io::Result<()> {
    let names = list(old)?;
    let names: Vec<&CStr> = split(&names).collect();
    for name in names.iter().filter(|name| !SUMS.contains(name)) {
        let Some(value) = get(old, name)? else {
            continue;
        };
        let needed = *name == ACCESS_LIST || name.to_bytes().starts_with(b"user.");
        match set(new, name, &value) {
            Err(error) if needed => return Err(unkept(name, &error)),
            _ => {}
        }
    }
    // The folder may have given it one.
    let given = list(new)?;
    if !names.contains(&ACCESS_LIST) && split(&given).any(|name| name == ACCESS_LIST) {
        remove(new, ACCESS_LIST)?;
    }
    Ok(())
}

fn unkept(name: &CStr, error: &io::Error) -> io::Error {
    let name = name.to_string_lossy();
    io::Error::other(format!("its attribute {name} cannot be kept: {error}"))
}

/// The names, each with a NUL behind it.
fn list(file: &File) -> io::Result<Vec<u8>> {
    let mut names = vec![0; MOST_BYTES];
    // SAFETY: at most as many bytes are written as the buffer has, and the file is open.
    let length = unsafe { flistxattr(file.as_raw_fd(), names.as_mut_ptr().cast(), MOST_BYTES) };
    Ok(filled(names, length, NOT_SUPPORTED)?.unwrap_or_default())
}

fn split(names: &[u8]) -> impl Iterator<Item = &CStr> {
    let names = names.split_inclusive(|byte| *byte == 0);
    names.filter_map(|name| CStr::from_bytes_with_nul(name).ok())
}

/// Nothing if somebody removed it meanwhile.
fn get(file: &File, name: &CStr) -> io::Result<Option<Vec<u8>>> {
    let mut value = vec![0; MOST_BYTES];
    let buffer = value.as_mut_ptr().cast();
    // SAFETY: as above; the name is a C string.
    let length = unsafe { fgetxattr(file.as_raw_fd(), name.as_ptr(), buffer, MOST_BYTES) };
    filled(value, length, NO_SUCH_ATTRIBUTE).map_err(|error| unkept(name, &error))
}

/// What was written to the buffer; nothing if this error says that there is nothing.
fn filled(mut buffer: Vec<u8>, length: isize, nothing: i32) -> io::Result<Option<Vec<u8>>> {
    match usize::try_from(length) {
        Ok(length) => {
            buffer.truncate(length);
            Ok(Some(buffer))
        }
        Err(_) => match io::Error::last_os_error() {
            error if error.raw_os_error() == Some(nothing) => Ok(None),
            error => Err(error),
        },
    }
}

fn set(file: &File, name: &CStr, value: &[u8]) -> io::Result<()> {
    let (start, size) = (value.as_ptr().cast(), value.len());
    // SAFETY: as many bytes are read as the value has; the name is a C string, and the file is open.
    succeeded(unsafe { fsetxattr(file.as_raw_fd(), name.as_ptr(), start, size, 0) })
}

fn remove(file: &File, name: &CStr) -> io::Result<()> {
    // SAFETY: the name is a C string, and the file is open.
    succeeded(unsafe { fremovexattr(file.as_raw_fd(), name.as_ptr()) })
}

fn succeeded(outcome: c_int) -> io::Result<()> {
    match outcome {
        0 => Ok(()),
        _ => Err(io::Error::last_os_error()),
    }
}
