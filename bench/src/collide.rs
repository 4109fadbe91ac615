//! Keys made to defeat the library's test for equal ones: they fall into few words of its filter, and once the bits of
//! those are set, every further key looks like an earlier one and is looked for among them.

/// So many integers that collide, the lowest there are and rising.
pub fn keys(count: usize) -> Vec<u64> {
    let colliding = (0..).filter(|&key| words_of(key).into_iter().all(|word| word < FULL));
    colliding.take(count).collect()
}

/// Words that the keys fall into: few enough that their bits are soon all set, and enough that such keys are found in a
/// moment.
const FULL: u64 = 32;

const LOW_FACTOR: u64 = 2_654_435_761;
const HIGH_FACTOR: u64 = 2_246_822_519;
const HOLDER_FACTOR: u64 = 3_266_489_917;
/// The node of the first key in a plan that is an array.
const HOLDER: u64 = 1;
/// The words of a long plan's filter.
const WORDS: u64 = 4096;

/// The words of the filter that have the bits of an integer key. The library's hash (crates/key_filter) over again: if
/// that changes and this does not, the keys do not collide any more.
fn words_of(key: u64) -> [u64; 2] {
    let hash = mixed(HOLDER * HOLDER_FACTOR, key);
    let hash = mixed(hash >> 32, hash);
    [(hash >> 44) % WORDS, (hash >> 32) % WORDS]
}

fn mixed(a: u64, b: u64) -> u64 {
    let both = a ^ b;
    let (low, high) = (both & 0xFFFF_FFFF, both >> 32);
    (low * LOW_FACTOR) ^ (high * HIGH_FACTOR)
}
