//! The keys of one container: all different, in orders and spellings that make comparing hard.

use super::spelling;
use crate::random::Random;
use std::collections::HashSet;

#[derive(Clone, PartialEq, Eq, Hash)]
pub enum Key {
    Integer(i64),
    Text(Vec<u8>),
}

#[derive(Clone, Copy)]
enum Scheme {
    /// Integers from a first one on, with a step of either sign.
    Sequence { first: i64, step: i64 },
    /// Integers from anywhere in the range.
    Scattered,
    /// Texts of any bytes.
    Words,
    /// Small integers, and texts that look like them.
    LookAlike { integers: bool },
    /// Integers that a narrower or unsigned comparison takes for one another.
    CloseIntegers,
    /// Texts that begin alike, or differ in one byte.
    CloseTexts,
}

/// Hands out the keys of a container one by one.
pub struct Keys {
    scheme: Scheme,
    count: usize,
    order: Vec<Key>,
    used: HashSet<Key>,
}

impl Keys {
    /// Keys for an array of `count` pairs.
    pub fn of_array(random: &mut Random, count: usize) -> Self {
        let scheme = match random.below(10) {
            0..=2 => rising(random, count),
            3..=4 => falling(random, count),
            _ => unordered(random),
        };
        Keys::new(scheme, count)
    }

    /// Keys for an object of `count` pairs: texts only.
    pub fn of_object(random: &mut Random, count: usize) -> Self {
        let scheme = match random.below(4) {
            0 => Scheme::LookAlike { integers: false },
            1 => Scheme::CloseTexts,
            _ => Scheme::Words,
        };
        Keys::new(scheme, count)
    }

    /// Keys in any order but the rising one, whatever their count.
    pub fn crowded(random: &mut Random, count: usize) -> Self {
        let scheme = match random.below(3) {
            0 => falling(random, count),
            _ => unordered(random),
        };
        Keys::new(scheme, count)
    }

    fn new(scheme: Scheme, count: usize) -> Self {
        Keys {
            scheme,
            count,
            order: Vec::new(),
            used: HashSet::new(),
        }
    }

    /// A key that differs from all before it.
    pub fn fresh(&mut self, random: &mut Random) -> Key {
        loop {
            let key = self.candidate(random);
            if self.used.insert(key.clone()) {
                self.order.push(key.clone());
                return key;
            }
        }
    }

    /// One of the keys handed out, again.
    pub fn repeated(&self, random: &mut Random) -> Option<Key> {
        match self.order.len() {
            0 => None,
            length => Some(self.order[random.below(length)].clone()),
        }
    }

    fn candidate(&self, random: &mut Random) -> Key {
        match self.scheme {
            Scheme::Sequence { first, step } => {
                Key::Integer(first + step * self.order.len() as i64)
            }
            Scheme::Scattered => Key::Integer(spelling::any_integer(random)),
            Scheme::Words => Key::Text(spelling::text(random, 9)),
            Scheme::LookAlike { integers } => {
                let value = random.below(self.count + 2) as i64;
                if integers && random.one_in(2) {
                    return Key::Integer(value);
                }
                let mut text = Vec::new();
                spelling::integer(random, &mut text, value);
                Key::Text(text)
            }
            Scheme::CloseIntegers => {
                let value = random.below(self.count + 2) as i64;
                let high = value + (1 << random.pick(&[8, 16, 31, 32, 62]));
                Key::Integer(random.pick(&[value, -value, high, i64::MIN + value]))
            }
            Scheme::CloseTexts => {
                let length = random.between(0, 13);
                Key::Text((0..length).map(|_| random.pick(b"aab")).collect())
            }
        }
    }
}

fn unordered(random: &mut Random) -> Scheme {
    random.pick(&[
        Scheme::Scattered,
        Scheme::Words,
        Scheme::LookAlike { integers: true },
        Scheme::CloseIntegers,
        Scheme::CloseTexts,
    ])
}

fn rising(random: &mut Random, count: usize) -> Scheme {
    let step = random.pick(&[1, 1, 1, 2, 7]);
    let span = step * count as i64;
    let middle = -(random.below(count + 1) as i64);
    let first = random.pick(&[0, 0, 0, middle, i64::MIN, i64::MAX - span]);
    Scheme::Sequence { first, step }
}

fn falling(random: &mut Random, count: usize) -> Scheme {
    let step = random.pick(&[1, 1, 3]);
    let span = step * count as i64;
    let middle = random.below(count + 1) as i64;
    let first = random.pick(&[middle, span, i64::MAX, i64::MIN + span]);
    Scheme::Sequence { first, step: -step }
}

/// Writes a key as it stands in a pair, in one of its spellings.
pub fn write(random: &mut Random, out: &mut Vec<u8>, key: &Key) {
    match key {
        Key::Integer(value) => {
            out.extend(b"i:");
            spelling::integer(random, out, *value);
        }
        Key::Text(bytes) => {
            out.extend(b"s:");
            spelling::quoted(random, out, bytes);
        }
    }
    out.push(b';');
}

/// The same, with a sign or a zero that is not needed.
pub fn write_oddly(random: &mut Random, out: &mut Vec<u8>, key: &Key) {
    match key {
        Key::Integer(value) => {
            let sign = if *value < 0 { '-' } else { '+' };
            out.extend(format!("i:{sign}0{}", value.unsigned_abs()).bytes());
        }
        Key::Text(bytes) => {
            let needless = random.pick(&["0", "+", "+0"]);
            out.extend(format!("s:{needless}{}:\"", bytes.len()).bytes());
            out.extend(bytes);
            out.push(b'"');
        }
    }
    out.push(b';');
}
