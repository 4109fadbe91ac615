//! A hash set of keys, one for all containers of a plan, so that none has to be cleared in between.

use super::room::Lazy;
use super::words::load;

/// Two to the 64th by the golden ratio.
const SPREAD: u64 = 0x9E37_79B9_7F4A_7C15;
/// Bits of a node in a slot: no plan has as many as 32,768.
const NODE_BITS: u32 = 15;
const NODE_MASK: u32 = (1 << NODE_BITS) - 1;

/// A slot is a key's node and as many bits of its hash as fit. An empty one is zero, since node 0 is no key.
pub struct Set<'a> {
    slots: Lazy<'a>,
}

impl<'a> Set<'a> {
    pub fn new(slots: Lazy<'a>) -> Self {
        Set { slots }
    }

    /// Puts in the key at a node; whether its container had put in an equal one. The container is told by its first
    /// key, and only moves the place of a hash: equal keys of two containers are told apart by `is_equal`.
    #[inline(always)]
    pub fn repeats(
        &mut self,
        hash: u64,
        container: usize,
        node: usize,
        is_equal: impl Fn(usize) -> bool,
    ) -> bool {
        let slots = self.slots.words();
        let entry = (hash as u32) << NODE_BITS | node as u32;
        let mut index = (hash >> 32) as usize ^ container;
        loop {
            let mask = slots.len() - 1;
            let slot = &mut slots[index & mask];
            if *slot == 0 {
                *slot = entry;
                return false;
            }
            if (*slot ^ entry) >> NODE_BITS == 0 && is_equal((*slot & NODE_MASK) as usize) {
                return true;
            }
            index += 1;
        }
    }
}

#[inline(always)]
pub fn number_hash(value: u64) -> u64 {
    folded(value, SPREAD)
}

/// Eight bytes a step, the last eight of a longer text a second time where they are not eight more.
#[inline(always)]
pub fn text_hash(source: &[u8], from: usize, size: usize) -> u64 {
    let start = size as u64;
    if size <= 8 {
        return folded(start ^ front(source, from, size), SPREAD);
    }
    let mut hash = start;
    let last = from + size - 8;
    for at in (from..last).step_by(8) {
        hash = folded(hash ^ load(source, at), SPREAD);
    }
    folded(hash ^ load(source, last), SPREAD)
}

/// The first eight bytes of a text, zeros for those that it does not have.
#[inline(always)]
pub fn front(source: &[u8], from: usize, size: usize) -> u64 {
    let word = load(source, from);
    if size >= 8 {
        return word;
    }
    word & ((1 << (8 * size)) - 1)
}

#[inline(always)]
fn folded(a: u64, b: u64) -> u64 {
    let wide = u128::from(a) * u128::from(b);
    wide as u64 ^ (wide >> 64) as u64
}
