//! The archive under test, called through the wrapper that users have; its answers as numbers.

use crate::call::{Lent, Place};
use std::ffi::CString;
use tonschnecke::lent::{self, Insertion};
use tonschnecke::Refusal;

/// What reading returns. Code 0: accepted.
#[derive(Clone, Copy, Debug, PartialEq, Eq)]
pub struct Reading {
    pub code: u64,
    pub at: u64,
    pub nodes: u64,
    pub ordinals: u64,
}

/// What a service that writes a plan returns. Code 0: accepted.
#[derive(Clone, Copy, Debug, PartialEq, Eq)]
pub struct Writing {
    pub code: u64,
    pub at: u64,
    pub length: u64,
}

/// Has the library read `source` into `table`.
pub fn read(source: &[u8], table: &mut [u64]) -> Reading {
    match lent::read(source, table) {
        Ok(counted) => Reading {
            code: 0,
            at: 0,
            nodes: counted.nodes as u64,
            ordinals: counted.ordinals as u64,
        },
        Err(Refusal { reason, at }) => Reading {
            code: reason.code(),
            at: at as u64,
            nodes: 0,
            ordinals: 0,
        },
    }
}

/// Has the library write the canonical text of `source` to `out`.
pub fn canonicalize(source: &[u8], table: &mut [u64], out: &mut [u8]) -> Writing {
    writing(lent::canonicalize(source, table, out))
}

/// Has the library write the plan to `out` with the pair put in at its place.
pub fn insert(texts: Lent, place: Place, table: &mut [u64], out: &mut [u8]) -> Writing {
    let insertion = Insertion {
        array_node: place.array_node,
        pair_index: place.pair_index,
        key: texts.key,
        value: texts.value,
    };
    writing(lent::insert(texts.source, insertion, table, out))
}

/// Where the library says that a path without NUL bytes leads.
pub fn find(source: &[u8], table: &[u64], path: &[u8]) -> Option<usize> {
    let path = CString::new(path).expect("no NUL");
    lent::find(source, table, &path)
}

fn writing(answer: Result<usize, Refusal>) -> Writing {
    match answer {
        Ok(length) => Writing {
            code: 0,
            at: 0,
            length: length as u64,
        },
        Err(Refusal { reason, at }) => Writing {
            code: reason.code(),
            at: at as u64,
            length: 0,
        },
    }
}
