//! What is wanted of a plan besides its table.

use super::reader::Cursor;
use super::token::Token;
use std::ops::Range;

pub trait Trace {
    /// Bytes of a numeral that its shortest form leaves out.
    fn surplus(&mut self, _bytes: Range<usize>) {}
    /// A reference's node, and the position of its tag.
    fn reference(&mut self, _node: usize, _start: usize) {}
    /// A container's node and depth, and where the count of its pairs stands.
    fn open(&mut self, _container: usize, _depth: usize, _count: Range<usize>) {}
    /// The key of a container's pair with this index; the cursor is before it.
    fn key(&mut self, _container: usize, _index: usize, _before: Cursor, _key: &Token) {}
    /// The cursor is before a container's `}`.
    fn close(&mut self, _container: usize, _before: Cursor) {}
}

/// Nothing.
impl Trace for () {}
