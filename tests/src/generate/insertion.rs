//! Insertions into a plan. Most are right; the others break one rule, or two whose rows stand side
//! by side in the order.

use super::keys::{self, Key};
use super::{damage, faults, spelling};
use crate::call::{Lent, Place, Texts};
use crate::lengths::LONG_SOURCE;
use crate::model::{self, is_of, Identity, Survey, Table, DEEPEST, LONGEST_PLAN, WORDS};
use crate::random::Random;
use std::iter;

/// What is asked for besides the plan.
#[derive(Debug, PartialEq, Eq)]
pub struct Insertion {
    pub place: Place,
    pub key: Vec<u8>,
    pub value: Vec<u8>,
}

impl Insertion {
    /// Its texts and that of a plan.
    pub fn texts<'a>(&'a self, source: &'a [u8]) -> Lent<'a> {
        Texts {
            source,
            key: &self.key,
            value: &self.value,
        }
    }
}

/// The rules that a request itself can break, in the order of their rows: 11, 12, 13, 9.
#[derive(Clone, Copy, PartialEq, Eq)]
enum Flaw {
    Node,
    Place,
    Text,
    Key,
}

const FLAWS: [Flaw; 4] = [Flaw::Node, Flaw::Place, Flaw::Text, Flaw::Key];

/// What is put into plans of so many bytes makes them as long as can be.
const NEARLY_LONGEST: usize = LONGEST_PLAN - 100;

/// An insertion into this plan, which may well be one that reading refuses.
pub fn insertion(random: &mut Random, source: &[u8], survey: &Survey) -> Insertion {
    let flaws = flaws(random);
    let mut asker = Asker {
        random,
        source,
        table: survey.answer.as_ref().ok(),
    };
    let array = asker.array(survey.depth);
    let key = asker.key(array, flaws.contains(&Flaw::Key));
    let mut insertion = Insertion {
        place: asker.place(array, flaws),
        key,
        value: asker.value(),
    };
    if flaws.contains(&Flaw::Text) {
        // A key that is present already is to stay so.
        let in_value = flaws.contains(&Flaw::Key) || asker.random.one_in(2);
        spoil(asker.random, &mut insertion, in_value);
    }
    let chances = match source.len() {
        ..LONG_SOURCE => 250,
        LONG_SOURCE..NEARLY_LONGEST => 2,
        _ => 1,
    };
    if asker.random.one_in(chances) {
        lengthen(asker.random, source, &mut insertion);
    }
    insertion
}

fn flaws(random: &mut Random) -> &'static [Flaw] {
    let first = random.below(FLAWS.len());
    match random.below(20) {
        0..=13 => &[],
        14..=17 => &FLAWS[first..=first],
        18 => &FLAWS[first..FLAWS.len().min(first + 2)],
        _ => &FLAWS[first..],
    }
}

struct Asker<'a> {
    random: &'a mut Random,
    source: &'a [u8],
    /// None for a plan that reading refuses.
    table: Option<&'a Table>,
}

impl Asker<'_> {
    /// An array of the plan, if there is one; those at the greatest depth rather often.
    fn array(&mut self, depth: usize) -> Option<usize> {
        let table = self.table?;
        let is_array = |node: &usize| is_of(&table.rows[*node], b"a");
        let mut arrays: Vec<usize> = (0..table.rows.len()).filter(is_array).collect();
        if depth >= DEEPEST && self.random.one_in(2) {
            arrays.retain(|&node| table.depth_of(node) >= DEEPEST - 1);
        }
        match arrays.len() {
            0 => None,
            count => Some(arrays[self.random.below(count)]),
        }
    }

    fn count(&self, array: Option<usize>) -> usize {
        let row = self.table.zip(array).map(|(table, node)| table.rows[node]);
        row.map_or(0, |row| row[4] as usize)
    }

    fn place(&mut self, array: Option<usize>, flaws: &[Flaw]) -> Place {
        let count = self.count(array);
        let any = self.random.between(0, count);
        let right = self.random.pick(&[0, count, any, any]);
        let wrong = self.random.pick(&[
            count + 1,
            count + 1,
            count + 2,
            right + (1 << 32),
            LONGEST_PLAN + 1,
            usize::MAX - 1,
            usize::MAX,
        ]);
        let array_node = match array {
            Some(node) if !flaws.contains(&Flaw::Node) => node,
            _ => self.no_array(array.unwrap_or(0)),
        };
        Place {
            array_node,
            pair_index: if flaws.contains(&Flaw::Place) {
                wrong
            } else {
                right
            },
        }
    }

    /// Mostly the index of a node that is no array, or of none.
    fn no_array(&mut self, array: usize) -> usize {
        let nodes = self.table.map_or(0, |table| table.rows.len());
        let any = self.random.below(nodes.max(1));
        let beyond = nodes + self.random.below(3);
        let odd = self.random.pick(&[
            array * WORDS,
            array + (1 << 32),
            LONGEST_PLAN,
            usize::MAX - 1,
            usize::MAX,
        ]);
        self.random.pick(&[any, any, beyond, odd])
    }

    /// A key text: of a key that the array has not got, or of one that it has.
    fn key(&mut self, array: Option<usize>, present: bool) -> Vec<u8> {
        let mut out = Vec::new();
        let Some(key) = self.some_key(array).filter(|_| present) else {
            let key = self.absent_key(array);
            keys::write(self.random, &mut out, &key);
            return out;
        };
        match self.random.one_in(2) {
            true => keys::write_oddly(self.random, &mut out, &key),
            false => keys::write(self.random, &mut out, &key),
        }
        out
    }

    /// One of the array's keys.
    fn some_key(&mut self, array: Option<usize>) -> Option<Key> {
        let count = self.count(array).max(1);
        let place = self.random.below(count);
        let table = self.table?;
        let node = table.keys_of(array?).nth(place)?;
        Some(match table.key(node, self.source) {
            Identity::Integer(value) => Key::Integer(value),
            Identity::Text(text) => Key::Text(text.to_vec()),
        })
    }

    /// A key that the array has not got, unless chance is against it.
    fn absent_key(&mut self, array: Option<usize>) -> Key {
        let mut key = self.candidate(array);
        for _ in 0..3 {
            if !self.is_present(array, &key) {
                break;
            }
            key = self.candidate(array);
        }
        key
    }

    fn is_present(&self, array: Option<usize>, key: &Key) -> bool {
        let key = match key {
            Key::Integer(value) => Identity::Integer(*value),
            Key::Text(text) => Identity::Text(text),
        };
        self.table.zip(array).is_some_and(|(table, array)| {
            let mut keys = table.keys_of(array);
            keys.any(|node| table.key(node, self.source) == key)
        })
    }

    /// Any key, rather often one that looks like one of the array's or is close to it.
    fn candidate(&mut self, array: Option<usize>) -> Key {
        let like = self.some_key(array);
        let random = &mut *self.random;
        match (random.below(8), like) {
            (0..=2, Some(Key::Integer(value))) => Key::Text(value.to_string().into()),
            (0..=2, Some(Key::Text(text))) => look_alike(text),
            (3, Some(Key::Integer(value))) => Key::Integer(value.wrapping_add(1)),
            (0..=4, _) => Key::Integer(spelling::any_integer(random)),
            (5, _) => Key::Integer(self.count(array) as i64),
            _ => Key::Text(spelling::text(random, 9)),
        }
    }

    fn value(&mut self) -> Vec<u8> {
        let mut out = Vec::new();
        let tag = self.random.pick(b"Nbids");
        spelling::plain(self.random, &mut out, tag, 12);
        out
    }
}

/// The integer that a text spells, else a text with a byte more.
fn look_alike(mut text: Vec<u8>) -> Key {
    let spelled = str::from_utf8(&text).ok();
    match spelled.and_then(|digits| digits.parse().ok()) {
        Some(value) => Key::Integer(value),
        None => {
            text.push(b'0');
            Key::Text(text)
        }
    }
}

/// Makes the value text unfit, or the key text, unless chance is against it.
fn spoil(random: &mut Random, insertion: &mut Insertion, in_value: bool) {
    let text = match in_value {
        true => &mut insertion.value,
        false => &mut insertion.key,
    };
    match random.below(11) {
        0 => text.clear(),
        1 => text.push(random.pick(b";}N0 \0\n")),
        2 => text.extend_from_within(..),
        3 => text.truncate(random.below(text.len())),
        4 => *text = random.pick(CONTAINERS).into(),
        5 => *text = random.pick(REFERENCES).into(),
        6 => damage::once(random, text),
        7 => {
            text.clear();
            faults::missigned_string(random, text);
        }
        _ => {
            text.clear();
            match in_value {
                true => faults::value(random, text, 1),
                false => faults::key(random, text),
            }
        }
    }
}

const CONTAINERS: &[&str] = &[
    "a:0:{}",
    "a:+0:{}",
    "a:1:{i:0;N;}",
    "O:1:\"X\":0:{}",
    "O:1:\"X\":1:{s:1:\"x\";N;}",
];

const REFERENCES: &[&str] = &["r:1;", "R:1;", "r:2;", "R:2;", "R:01;", "r:+1;", "r:9;"];

/// Makes one of the texts so long that what is written has 65,536 bytes or about that many, or so
/// long that it has more by itself.
fn lengthen(random: &mut Random, source: &[u8], insertion: &mut Insertion) {
    if !matches!(insertion.value.first(), Some(b'i' | b's')) {
        insertion.value = b"i:7;".to_vec();
    }
    let Ok(length) = model::bytes_to_write(insertion.texts(source), insertion.place) else {
        return;
    };
    let target = random.pick(&[
        LONGEST_PLAN - 1,
        LONGEST_PLAN,
        LONGEST_PLAN,
        LONGEST_PLAN + 1,
        LONGEST_PLAN + 1,
        2 * LONGEST_PLAN,
    ]);
    let by = target.saturating_sub(length);
    match random.below(3) {
        0 => stretch(&mut insertion.key, by),
        1 if (100..60_000).contains(&by) => {
            // The length is spelled with six bytes always, and six other bytes stand around.
            let text_len = insertion.value.len() + by - 12;
            let text: Vec<u8> = (0..text_len).map(|_| random.byte()).collect();
            let head = match random.one_in(2) {
                true => format!("s:{text_len:+06}:\""),
                false => format!("s:{text_len:06}:\""),
            };
            insertion.value = [head.as_bytes(), &text, b"\";"].concat();
        }
        _ => stretch(&mut insertion.value, by),
    }
}

/// Puts zeros before the digits of an i, or of an s's length.
fn stretch(text: &mut Vec<u8>, by: usize) {
    let digits = match text.get(2) {
        Some(b'+' | b'-') => 3,
        _ => 2,
    };
    text.splice(digits..digits, iter::repeat_n(b'0', by));
}
