//! Memory as it is lent: a table and an output between guards, texts of exact size or ones that
//! stand among bytes which would continue them.

use crate::call::{Call, Texts};
use std::hint::black_box;
use std::ops::Range;

/// Guard words or bytes before and after what is lent.
const GUARD: usize = 16;

/// A word or a byte of lent memory.
pub trait Cell: Copy + Eq + Into<u64> {
    /// What the cell with this index holds before the call.
    fn pattern(index: usize) -> Self;
}

impl Cell for u64 {
    /// Never zero, and different for each word, since multiplying by an odd number permutes the
    /// 64-bit words.
    fn pattern(index: usize) -> u64 {
        (index as u64 + 1).wrapping_mul(0x9E37_79B9_7F4A_7C15)
    }
}

impl Cell for u8 {
    /// Never zero, nor a byte that the format itself uses.
    fn pattern(index: usize) -> u8 {
        0x80 | (u64::pattern(index) >> 57) as u8
    }
}

/// Lent cells between guards, every one filled with its pattern at first.
#[derive(Clone)]
pub struct Guarded<T> {
    cells: Vec<T>,
}

/// A cell that does not hold what it should. The place counts from the first cell lent, so a guard
/// before it has a negative one.
#[derive(Clone, Copy, Debug)]
pub struct WrongCell {
    pub place: isize,
    pub expected: u64,
    pub found: u64,
}

impl<T: Cell> Guarded<T> {
    fn new(length: usize) -> Self {
        Guarded {
            cells: (0..length + 2 * GUARD).map(T::pattern).collect(),
        }
    }

    /// What is lent.
    pub fn lent(&mut self) -> &mut [T] {
        let end = self.cells.len() - GUARD;
        &mut self.cells[GUARD..end]
    }

    /// The first cell, guards included, that differs from the one of `expected`.
    pub fn first_wrong(&self, expected: &Self) -> Option<WrongCell> {
        let mut both = self.cells.iter().zip(&expected.cells);
        let wrong = both.position(|(found, expected)| found != expected)?;
        Some(WrongCell {
            place: wrong as isize - GUARD as isize,
            expected: expected.cells[wrong].into(),
            found: self.cells[wrong].into(),
        })
    }
}

/// All that a call may write to.
#[derive(Clone)]
pub struct Memory {
    pub table: Guarded<u64>,
    pub output: Guarded<u8>,
}

impl Memory {
    pub fn for_call(call: Call) -> Self {
        Memory {
            table: Guarded::new(call.table_len),
            output: Guarded::new(call.out_len),
        }
    }
}

/// How the texts that a call reads stand in memory.
#[derive(Clone, Copy, Debug)]
pub enum Setting {
    /// Each in an allocation of exactly its size, so that memory checkers see any byte read beyond
    /// it.
    Alone,
    /// Among bytes that continue them, so that reading past their length changes the answer.
    Surrounded,
}

impl Setting {
    pub const ALL: [Setting; 2] = [Setting::Alone, Setting::Surrounded];
}

/// A text that a call reads, as it stands in memory.
pub struct Input {
    whole: Box<[u8]>,
    copy: Box<[u8]>,
    text: Range<usize>,
}

impl Input {
    pub fn new(text: &[u8], setting: Setting) -> Self {
        let (before, after): (&[u8], &[u8]) = match setting {
            Setting::Alone => (b"", b""),
            Setting::Surrounded => (b"a:1:{i:0;", continuation(text)),
        };
        let whole = [before, text, after].concat().into_boxed_slice();
        Input {
            copy: whole.clone(),
            whole,
            text: before.len()..before.len() + text.len(),
        }
    }

    /// What is lent.
    pub fn lent(&self) -> &[u8] {
        black_box(&self.whole[self.text.clone()])
    }

    /// Whether its memory was left as it was. The compiler must not conclude that nothing behind
    /// these borrows can have changed.
    pub fn unchanged(&self) -> bool {
        *black_box(&self.whole) == self.copy
    }
}

impl Texts<Input> {
    pub fn unchanged(&self) -> bool {
        [&self.source, &self.key, &self.value]
            .into_iter()
            .all(Input::unchanged)
    }
}

/// Bytes that may well complete a text that ends too soon.
fn continuation(text: &[u8]) -> &'static [u8] {
    match text.last() {
        Some(b'0'..=b'9') => b";}}}}",
        Some(b';' | b'{') => b"}}}}}",
        Some(b':') => b"0;}}}",
        Some(b'+') => b"0:\"\";",
        Some(b'"') => b";N;}}",
        Some(_) => b"\";};}",
        None => b"i:7;}",
    }
}
