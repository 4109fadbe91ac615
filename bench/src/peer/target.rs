//! The place that a pair is put into, found while the plan is read.

use super::keys::Key;
use super::reader::Cursor;
use super::room::Notes;
use super::token::Token;
use super::trace::Trace;
use super::{refused, Step, Words, DEPTH_LIMIT};
use std::ops::Range;
use tonschnecke_tests::call::{Lent, Place};

/// The place asked for, and what reading found out about it.
pub struct Target<'a> {
    source: &'a [u8],
    pub place: Place,
    /// The new one, if it is one.
    key: Option<Key<'a>>,
    /// Whether the array has it already.
    pub has_key: bool,
    /// The containers from the plan down to the array, once that is met; before, to where reading is.
    path: [u16; DEPTH_LIMIT],
    /// The array's, once it is met; 0 before.
    pub depth: usize,
    /// Where the array's count stands.
    pub count: Range<usize>,
    /// Where the pair goes in, and what was read before.
    gap: Option<Cursor>,
    /// The nodes and positions of all.
    pub references: Notes<'a>,
}

impl<'a> Target<'a> {
    pub fn new(texts: Lent<'a>, place: Place, key: Option<Token>, references: Notes<'a>) -> Self {
        Target {
            source: texts.source,
            place,
            key: key.map(|key| key.key(texts.key)),
            has_key: false,
            path: [0; DEPTH_LIMIT],
            depth: 0,
            count: 0..0,
            gap: None,
            references,
        }
    }
}

impl Trace for Target<'_> {
    fn reference(&mut self, node: usize, start: usize) {
        self.references.push(node, start);
    }

    fn open(&mut self, container: usize, depth: usize, count: Range<usize>) {
        if self.depth > 0 {
            return;
        }
        self.path[depth - 1] = container as u16;
        if container == self.place.array_node {
            self.depth = depth;
            self.count = count;
        }
    }

    #[inline(always)]
    fn key(&mut self, container: usize, index: usize, before: Cursor, key: &Token) {
        if container != self.place.array_node {
            return;
        }
        if index == self.place.pair_index {
            self.gap = Some(before);
        }
        self.has_key |= self.key == Some(key.key(self.source));
    }

    fn close(&mut self, container: usize, before: Cursor) {
        if container == self.place.array_node {
            self.gap.get_or_insert(before);
        }
    }
}

impl Target<'_> {
    /// The containers around the array, and itself.
    pub fn around(&self) -> &[u16] {
        &self.path[..self.depth]
    }

    /// Where the pair goes in, if there is an array with such a place.
    pub fn gap(&self, rows: &[Words]) -> Step<Cursor> {
        match (rows.get(self.place.array_node), self.gap) {
            (Some(&[tag, .., count, _]), Some(gap)) if tag == u64::from(b'a') => {
                if self.place.pair_index as u64 > count {
                    return refused(12, 0);
                }
                Ok(gap)
            }
            _ => refused(11, 0),
        }
    }
}
