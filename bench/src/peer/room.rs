//! Memory on the stack that reading a plan may need, of several sizes: a short plan should not clear
//! what only a long one needs. What not every plan needs is cleared once it is asked for.

/// Words that hold nothing until they are cleared.
pub trait Uncleared {
    fn cleared(&mut self) -> &mut [u32];
}

impl<const WORDS: usize> Uncleared for Option<[u32; WORDS]> {
    fn cleared(&mut self) -> &mut [u32] {
        self.insert([0; WORDS])
    }
}

/// Words that are cleared when they are asked for first.
pub struct Lazy<'a> {
    room: Option<&'a mut (dyn Uncleared + 'static)>,
    words: &'a mut [u32],
}

impl<'a> Lazy<'a> {
    fn new(room: &'a mut (dyn Uncleared + 'static)) -> Self {
        Lazy {
            room: Some(room),
            words: &mut [],
        }
    }

    #[inline(always)]
    pub fn words(&mut self) -> &mut [u32] {
        if self.words.is_empty() {
            self.clear();
        }
        self.words
    }

    #[cold]
    fn clear(&mut self) {
        if let Some(room) = self.room.take() {
            self.words = room.cleared();
        }
    }
}

pub struct Room<'a> {
    /// One for each ordinal.
    pub carriers: &'a mut [u16],
    /// A power of two, more than there can be keys.
    pub slots: Lazy<'a>,
    /// One for each numeral.
    pub notes: Lazy<'a>,
}

/// Lends room for plans of this length. Pairs have six bytes or more, and one ordinal each; the
/// plan has one too. Odd numerals stand in five bytes or more.
pub fn lend<R>(length: usize, run: impl FnOnce(Room) -> R) -> R {
    match length {
        0..=512 => lend_of::<86, 128, 104, R>(run),
        513..=2_048 => lend_of::<342, 512, 411, R>(run),
        2_049..=8_192 => lend_of::<1_366, 2_048, 1_640, R>(run),
        _ => lend_of::<10_923, 16_384, 13_109, R>(run),
    }
}

/// Not inlined: each size is to have a frame of its own.
#[inline(never)]
fn lend_of<const ORDINALS: usize, const SLOTS: usize, const NOTES: usize, R>(
    run: impl FnOnce(Room) -> R,
) -> R {
    run(Room {
        carriers: &mut [0; ORDINALS],
        slots: Lazy::new(&mut None::<[u32; SLOTS]>),
        notes: Lazy::new(&mut None::<[u32; NOTES]>),
    })
}

/// A list in lazy words.
pub struct Notes<'a> {
    words: Lazy<'a>,
    count: usize,
}

impl<'a> Notes<'a> {
    pub fn new(words: Lazy<'a>) -> Self {
        Notes { words, count: 0 }
    }

    /// Notes two numbers below 65,536.
    pub fn push(&mut self, first: usize, second: usize) {
        self.words.words()[self.count] = (first << 16 | second) as u32;
        self.count += 1;
    }

    pub fn len(&self) -> usize {
        self.count
    }

    pub fn iter(&self) -> impl Iterator<Item = (usize, usize)> + '_ {
        let split = |&word: &u32| ((word >> 16) as usize, (word & 0xFFFF) as usize);
        self.words.words[..self.count].iter().map(split)
    }
}
