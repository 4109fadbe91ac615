//! What tokens say, and the nodes of those that say it.

use super::Words;
use std::ops::Range;

/// A key, or a value that is no container and no reference.
#[derive(Clone, Copy)]
pub struct Token {
    pub tag: u8,
    /// Words 2 and 3 of its node.
    pub content: u64,
    pub size: usize,
    /// The position behind it.
    pub end: usize,
}

impl Token {
    /// Its node, which ends before another.
    #[inline(always)]
    pub fn row(&self, ordinal: usize, end: usize) -> Words {
        [
            self.tag.into(),
            ordinal as u64,
            self.content,
            self.size as u64,
            0,
            end as u64,
        ]
    }
}

/// A reference, and the position behind it.
#[derive(Clone, Copy)]
pub struct Reference {
    pub tag: u8,
    pub named: usize,
    pub end: usize,
}

/// A container up to its brace.
pub struct Head {
    pub tag: u8,
    /// Words 2 and 3 of its node.
    pub content: u64,
    pub size: usize,
    pub pairs: usize,
    /// Where the count of pairs stands.
    pub count: Range<usize>,
    pub end: usize,
}

impl Head {
    /// Its node, of which the end is to come.
    pub fn row(&self, ordinal: usize) -> Words {
        [
            self.tag.into(),
            ordinal as u64,
            self.content,
            self.size as u64,
            self.pairs as u64,
            0,
        ]
    }
}
