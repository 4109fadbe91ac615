//! The C interface, behind functions that take slices. `include/tonschnecke.h` says what it promises.

#![allow(unsafe_code)]

use crate::lent::Insertion;
use std::ffi::{c_char, CStr};

/// `ton_reading`.
#[repr(C)]
#[derive(Clone, Copy, Debug)]
pub struct Reading {
    pub code: u64,
    pub at: u64,
    pub nodes: u64,
    pub ordinals: u64,
}

/// `ton_writing`.
#[repr(C)]
#[derive(Clone, Copy, Debug)]
pub struct Writing {
    pub code: u64,
    pub at: u64,
    pub length: u64,
}

extern "C" {
    fn ton_read(source: *const u8, source_len: usize, table: *mut u64, table_len: usize)
        -> Reading;

    fn ton_canonicalize(
        source: *const u8,
        source_len: usize,
        table: *mut u64,
        table_len: usize,
        out: *mut u8,
        out_len: usize,
    ) -> Writing;

    fn ton_insert(
        source: *const u8,
        source_len: usize,
        array_node: usize,
        pair_index: usize,
        key: *const u8,
        key_len: usize,
        value: *const u8,
        value_len: usize,
        table: *mut u64,
        table_len: usize,
        out: *mut u8,
        out_len: usize,
    ) -> Writing;

    fn ton_find(
        source: *const u8,
        source_len: usize,
        table: *const u64,
        table_len: usize,
        path: *const c_char,
    ) -> usize;
}

/// `TON_NOWHERE`.
pub const NOWHERE: usize = usize::MAX;

pub fn read(source: &[u8], table: &mut [u64]) -> Reading {
    // SAFETY: the pointers come with the lengths of the slices that they stand for; what is
    // borrowed mutably overlaps nothing else; the library keeps no pointer beyond the call.
    unsafe {
        ton_read(
            source.as_ptr(),
            source.len(),
            table.as_mut_ptr(),
            table.len(),
        )
    }
}

pub fn canonicalize(source: &[u8], table: &mut [u64], out: &mut [u8]) -> Writing {
    // SAFETY: as in `read`.
    unsafe {
        ton_canonicalize(
            source.as_ptr(),
            source.len(),
            table.as_mut_ptr(),
            table.len(),
            out.as_mut_ptr(),
            out.len(),
        )
    }
}

pub fn insert(
    source: &[u8],
    insertion: Insertion<'_>,
    table: &mut [u64],
    out: &mut [u8],
) -> Writing {
    let Insertion { key, value, .. } = insertion;
    // SAFETY: as in `read`.
    unsafe {
        ton_insert(
            source.as_ptr(),
            source.len(),
            insertion.array_node,
            insertion.pair_index,
            key.as_ptr(),
            key.len(),
            value.as_ptr(),
            value.len(),
            table.as_mut_ptr(),
            table.len(),
            out.as_mut_ptr(),
            out.len(),
        )
    }
}

pub fn find(source: &[u8], table: &[u64], path: &CStr) -> usize {
    // SAFETY: as in `read`; nothing is written, and the path ends with its NUL.
    unsafe {
        ton_find(
            source.as_ptr(),
            source.len(),
            table.as_ptr(),
            table.len(),
            path.as_ptr(),
        )
    }
}

#[cfg(test)]
mod tests {
    use super::*;
    use crate::Reason;

    extern "C" {
        fn ton_message(code: u64) -> *const c_char;
    }

    fn message(code: u64) -> &'static str {
        // SAFETY: it takes any number, and what it points to ends with a NUL and stays.
        let message = unsafe { CStr::from_ptr(ton_message(code)) };
        message.to_str().expect("ASCII")
    }

    #[test]
    fn messages_are_the_sentences_of_the_reasons() {
        assert_eq!(message(0), "accepted");
        for reason in Reason::ALL {
            assert_eq!(message(reason.code()), reason.to_string());
        }
        let count = Reason::ALL.len() as u64;
        for code in [count + 1, count + 2, 1 << 32, u64::MAX] {
            assert_eq!(message(code), "unknown code");
        }
    }
}
