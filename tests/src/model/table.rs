//! The node table, computed from the finished tree in two walks: ordinals first, then rows.

use super::value::{Identity, Key, Kind, Span, Value};
use crate::call::Place;
use std::iter;

/// Words to a node.
pub const WORDS: usize = 6;

/// One node of the table.
pub type Row = [u64; WORDS];

/// The nodes in order of tags met, and the count of ordinals taken.
#[derive(Clone, Debug, PartialEq, Eq)]
pub struct Table {
    pub ordinals: usize,
    pub rows: Vec<Row>,
}

impl Table {
    /// The nodes of a container's keys. Behind a key stands its value, which says where it ends.
    pub fn keys_of(&self, container: usize) -> impl Iterator<Item = usize> + '_ {
        let end = self.rows[container][5] as usize;
        let inside = move |key: usize| (key < end).then_some(key);
        iter::successors(inside(container + 1), move |key| {
            inside(self.rows[key + 1][5] as usize)
        })
    }

    /// The key at a node of a plan.
    pub fn key<'s>(&self, node: usize, source: &'s [u8]) -> Identity<'s> {
        let row @ [_, _, content, length, ..] = &self.rows[node];
        match is_of(row, b"i") {
            true => Identity::Integer(*content as i64),
            false => Identity::Text(&source[*content as usize..][..*length as usize]),
        }
    }

    /// The node that the key of a new pair takes: that of the key with its place, or the first one
    /// after the array.
    pub fn gap(&self, place: Place) -> usize {
        let end = self.rows[place.array_node][5] as usize;
        let mut keys = self.keys_of(place.array_node);
        keys.nth(place.pair_index).unwrap_or(end)
    }

    /// "1 plus the numbers taken by values whose letters stand before the new pair"
    pub fn new_ordinal(&self, gap: usize) -> usize {
        let takes_ordinal = |row: &&Row| row[1] > 0;
        1 + self.rows[..gap].iter().filter(takes_ordinal).count()
    }

    /// "the plan itself has depth 1, a value in a container one more than the container"
    pub fn depth_of(&self, value: usize) -> usize {
        let holds_it = |row: &&Row| row[5] as usize > value;
        1 + self.rows[..value].iter().filter(holds_it).count()
    }
}

/// Whether a node is of one of these kinds.
pub fn is_of(row: &Row, tags: &[u8]) -> bool {
    tags.iter().any(|&tag| row[0] == u64::from(tag))
}

/// The table of a plan.
pub fn of(root: &Value) -> Table {
    let mut carriers = Vec::new();
    number(root, 0, &mut carriers);
    let mut writer = Writer {
        carriers: &carriers,
        rows: Vec::new(),
    };
    writer.value(root);
    let rows = writer.rows;
    Table {
        ordinals: carriers.len(),
        rows,
    }
}

/// Collects the node index of each ordinal's value, the container before its contents. Returns the
/// index of the first node after `value` and all it holds.
fn number(value: &Value, index: usize, carriers: &mut Vec<usize>) -> usize {
    if value.takes_ordinal() {
        carriers.push(index);
    }
    let contents = value.pairs().iter();
    contents.fold(index + 1, |key, pair| {
        number(&pair.value, key + 1, carriers)
    })
}

struct Writer<'a> {
    /// Index of the node that carries ordinal `t`, at `t - 1`.
    carriers: &'a [usize],
    rows: Vec<Row>,
}

impl Writer<'_> {
    fn value(&mut self, value: &Value) {
        let index = self.rows.len();
        let (tag, [second, third, fourth]) = self.words(value);
        self.rows
            .push([tag.into(), self.ordinal(index), second, third, fourth, 0]);
        for pair in value.pairs() {
            self.key(pair.key);
            self.value(&pair.value);
        }
        self.rows[index][5] = self.rows.len() as u64;
    }

    fn key(&mut self, key: Key) {
        let (tag, [second, third]) = match key {
            Key::Integer(value) => (b'i', [value as u64, 0]),
            Key::Text(span) => (b's', span_words(span)),
        };
        let end = self.rows.len() as u64 + 1;
        self.rows.push([tag.into(), 0, second, third, 0, end]);
    }

    /// The tag and words 2, 3 and 4.
    fn words(&self, value: &Value) -> (u8, [u64; 3]) {
        let text = |span, count: usize| {
            let [offset, length] = span_words(span);
            [offset, length, count as u64]
        };
        match &value.kind {
            Kind::Null => (b'N', [0; 3]),
            Kind::Bool(value) => (b'b', [(*value).into(), 0, 0]),
            Kind::Integer(value) => (b'i', [*value as u64, 0, 0]),
            Kind::Float(span) => (b'd', text(*span, 0)),
            Kind::Text(span) => (b's', text(*span, 0)),
            Kind::Array(pairs) => (b'a', [0, 0, pairs.len() as u64]),
            Kind::Object { class, pairs } => (b'O', text(*class, pairs.len())),
            Kind::Copy(ordinal) => (b'r', self.named(*ordinal)),
            Kind::Alias(ordinal) => (b'R', self.named(*ordinal)),
        }
    }

    /// "It may name an r; it then resolves to that r, one step only."
    fn named(&self, ordinal: usize) -> [u64; 3] {
        [ordinal as u64, 0, self.carriers[ordinal - 1] as u64]
    }

    /// The ordinal that the value at `index` carries, else 0. The carriers' indexes rise.
    fn ordinal(&self, index: usize) -> u64 {
        let place = self.carriers.binary_search(&index);
        place.map_or(0, |place| place as u64 + 1)
    }
}

fn span_words(span: Span) -> [u64; 2] {
    [span.offset as u64, span.length as u64]
}
