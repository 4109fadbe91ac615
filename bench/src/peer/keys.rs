//! The keys of one container, and whether one repeats an earlier one.

use super::integer::Guess;
use super::set::{front, number_hash, text_hash, Set};
use super::token::Token;
use super::Words;
use std::iter;

#[derive(Clone, Copy, PartialEq, Eq)]
pub enum Key<'a> {
    Int(i64),
    Text(&'a [u8]),
}

/// The one with these words 0, 2 and 3.
fn key(source: &[u8], tag: u8, content: u64, size: usize) -> Key<'_> {
    if tag == b'i' {
        return Key::Int(content as i64);
    }
    Key::Text(&source[content as usize..][..size])
}

#[inline(always)]
fn hash(source: &[u8], tag: u8, content: u64, size: usize) -> u64 {
    if tag == b'i' {
        return number_hash(content);
    }
    text_hash(source, content as usize, size)
}

impl Token {
    pub fn key<'a>(&self, source: &'a [u8]) -> Key<'a> {
        key(source, self.tag, self.content, self.size)
    }

    #[inline(always)]
    pub fn hash(&self, source: &[u8]) -> u64 {
        hash(source, self.tag, self.content, self.size)
    }
}

/// A plan and its nodes so far.
#[derive(Clone, Copy)]
pub struct Seen<'a> {
    pub source: &'a [u8],
    pub rows: &'a [Words],
}

impl<'a> Seen<'a> {
    fn key(self, node: usize) -> Key<'a> {
        let [tag, _, content, size, ..] = self.rows[node];
        key(self.source, tag as u8, content, size as usize)
    }

    fn hash(self, node: usize) -> u64 {
        let [tag, _, content, size, ..] = self.rows[node];
        hash(self.source, tag as u8, content, size as usize)
    }

    /// Whether the key at a node equals another one, if that is of its container too.
    #[cold]
    fn is_equal(self, node: usize, other: usize, first: usize) -> bool {
        let mut earlier = self.keys_between(first, node);
        self.key(node) == self.key(other) && earlier.any(|key| key == other)
    }

    /// The nodes of a container's keys from the first on and before a node: behind a key stands its
    /// value, which says where it ends.
    fn keys_between(self, first: usize, node: usize) -> impl Iterator<Item = usize> + 'a {
        let mut next = first;
        iter::from_fn(move || {
            let key = next;
            if key >= node {
                return None;
            }
            next = self.rows[key + 1][5] as usize;
            Some(key)
        })
    }
}

/// As long as the integers rise and the strings rise, each is above those before and in no set.
pub struct Keys {
    /// The node of the first key.
    first: usize,
    pub guess: Guess,
    in_set: bool,
    /// The highest integer; the highest that there can be once all keys are in the set.
    highest: i64,
    /// The highest string: its first bytes as a number, its offset and size.
    highest_front: u64,
    highest_from: usize,
    highest_size: usize,
}

impl Keys {
    /// Of the container whose first key has this node.
    pub fn new(first: usize) -> Self {
        Keys {
            first,
            guess: Guess::ONE,
            in_set: false,
            highest: i64::MIN,
            highest_front: 0,
            highest_from: 0,
            highest_size: 0,
        }
    }

    /// The node of the container.
    pub fn container(&self) -> usize {
        self.first - 1
    }

    /// Takes in the next key of the container; whether it rises, and so is new.
    #[inline(always)]
    pub fn rise(&mut self, source: &[u8], key: &Token) -> bool {
        match key.tag {
            b'i' => self.integer_rises(key.content as i64),
            _ => self.text_rises(source, key.content as usize, key.size),
        }
    }

    #[inline(always)]
    fn integer_rises(&mut self, value: i64) -> bool {
        let rises = value > self.highest;
        if rises {
            self.highest = value;
        }
        rises
    }

    #[inline(always)]
    fn text_rises(&mut self, source: &[u8], from: usize, size: usize) -> bool {
        if self.in_set {
            return false;
        }
        let front = front(source, from, size).swap_bytes();
        let text = |from: usize, size: usize| &source[from..][..size];
        let rises = front > self.highest_front
            || front == self.highest_front
                && text(from, size) > text(self.highest_from, self.highest_size);
        if rises {
            self.highest_front = front;
            self.highest_from = from;
            self.highest_size = size;
        }
        rises
    }

    /// Whether the key at a node, which does not rise, is there already. From the first such on all
    /// are put into the set.
    #[inline(always)]
    pub fn repeat(&mut self, hash: u64, node: usize, seen: Seen, set: &mut Set) -> bool {
        if !self.in_set {
            self.put_earlier(node, seen, set);
        }
        let first = self.first;
        set.repeats(hash, first, node, |other| seen.is_equal(node, other, first))
    }

    #[cold]
    fn put_earlier(&mut self, node: usize, seen: Seen, set: &mut Set) {
        self.in_set = true;
        self.highest = i64::MAX;
        for earlier in seen.keys_between(self.first, node) {
            set.repeats(seen.hash(earlier), self.first, earlier, |_| false);
        }
    }
}
