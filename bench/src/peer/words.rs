//! Eight bytes as one word, the first of them lowest.

/// The eight bytes from a position on; zeros, which no text has to have, for those past the end.
#[inline(always)]
pub fn load(source: &[u8], at: usize) -> u64 {
    match source.get(at..at + 8) {
        Some(bytes) => u64::from_le_bytes(bytes.try_into().unwrap_or_default()),
        None => load_last(source, at),
    }
}

#[cold]
fn load_last(source: &[u8], at: usize) -> u64 {
    let rest = source.get(at..).unwrap_or_default();
    let bytes = rest.iter().rev();
    bytes.fold(0, |word, &byte| word << 8 | u64::from(byte))
}

/// A byte in all eight places.
const fn all(byte: u8) -> u64 {
    u64::from_le_bytes([byte; 8])
}

/// The high bit of every byte that is no digit, but for bytes behind one that is 0xBA or more.
#[inline(always)]
pub fn others(word: u64) -> u64 {
    let digits = word ^ all(b'0');
    (digits.wrapping_add(all(0x76)) | digits) & all(0x80)
}

/// The index of the first byte of which a bit is set; 8 if none is.
#[inline(always)]
pub fn first(bits: u64) -> usize {
    (bits.trailing_zeros() / 8) as usize
}

/// The byte at an index below 8.
#[inline(always)]
pub fn byte(word: u64, index: usize) -> u8 {
    (word >> (8 * index)) as u8
}

/// The value of so many digits in front, one to eight.
#[inline(always)]
pub fn value(word: u64, count: usize) -> u64 {
    // Zeros in front of them, so that they are eight; then pairs, fours and all by their weights.
    let digits = (word ^ all(b'0')) << (64 - 8 * count);
    let pairs = digits.wrapping_mul(10).wrapping_add(digits >> 8);
    let mask = 0xFF_0000_00FF;
    let high = (pairs & mask).wrapping_mul(100 + (1_000_000 << 32));
    let low = (pairs >> 16 & mask).wrapping_mul(1 + (10_000 << 32));
    high.wrapping_add(low) >> 32
}

/// The end of the run of digits that begins at a position.
#[inline(always)]
pub fn run_end(source: &[u8], mut at: usize) -> usize {
    loop {
        let count = first(others(load(source, at)));
        at += count;
        if count < 8 {
            return at;
        }
    }
}
