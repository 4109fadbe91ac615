//! Writes one plan by the grammar, with faults only where they are asked for.

use super::faults;
use super::keys::{self, Keys};
use super::spelling;
use crate::random::Random;

/// What a plan should look like.
#[derive(Clone, Copy)]
pub struct Style {
    /// How many nodes at most, those of the spine not counted.
    pub nodes: usize,
    /// Depth of the deepest containers.
    pub depth: usize,
    /// Whether one path leads down to that depth for certain.
    pub spine: bool,
    pub longest_text: usize,
    /// References often name an ordinal around this one; 0 for none.
    pub near: usize,
    /// One value in so many is wrong; 0 for none.
    pub wrong_values: usize,
    /// One key in so many is wrong or repeats another; 0 for none.
    pub wrong_keys: usize,
}

/// A plan in this style, accepted by reading if it is without faults and not too deep.
pub fn write(random: &mut Random, style: Style) -> Vec<u8> {
    let mut writer = Writer {
        random,
        style,
        out: Vec::new(),
        ordinals: 0,
        left: style.nodes.saturating_sub(1),
    };
    writer.value(1, style.spine);
    writer.out
}

struct Writer<'r> {
    random: &'r mut Random,
    style: Style,
    out: Vec<u8>,
    ordinals: usize,
    /// Nodes not yet promised to any container.
    left: usize,
}

impl Writer<'_> {
    fn value(&mut self, depth: usize, spine: bool) {
        if self.falls_on(self.style.wrong_values) {
            faults::value(self.random, &mut self.out, self.ordinals);
            return;
        }
        let inner = depth < self.style.depth;
        let chances = if depth == 1 { 10 } else { 4 };
        let wanted = self.left >= 2 && !self.random.one_in(chances);
        if inner && (spine || wanted) {
            self.container(depth, spine);
        } else {
            // The spine often ends in an array, which may be the deepest there is.
            let array = spine && self.random.one_in(2);
            self.leaf(array);
        }
    }

    fn falls_on(&mut self, chances: usize) -> bool {
        chances > 0 && self.random.one_in(chances)
    }

    fn container(&mut self, depth: usize, spine: bool) {
        self.ordinals += 1;
        let most = (self.left / 2).max(1);
        let few = most.min(self.random.pick(&[2, 5, 12, most]));
        let count = self.random.between(usize::from(spine), few);
        self.left = self.left.saturating_sub(2 * count);
        let object = self.random.one_in(3) && count <= 400;
        let keys = if object {
            Keys::of_object(self.random, count)
        } else {
            Keys::of_array(self.random, count)
        };
        self.head(object, count);
        let spine = spine.then(|| self.random.below(count));
        self.pairs(depth, count, keys, spine);
        self.out.push(b'}');
    }

    fn head(&mut self, object: bool, count: usize) {
        if object {
            self.out.extend(b"O:");
            let class = spelling::text(self.random, self.style.longest_text);
            spelling::quoted(self.random, &mut self.out, &class);
            self.out.push(b':');
        } else {
            self.out.extend(b"a:");
        }
        spelling::number(self.random, &mut self.out, count);
        self.out.extend(b":{");
    }

    /// Writes `count` pairs; the one at place `spine` leads further down.
    fn pairs(&mut self, depth: usize, count: usize, mut keys: Keys, spine: Option<usize>) {
        for place in 0..count {
            let repeated = keys.repeated(self.random);
            match repeated {
                _ if !self.falls_on(self.style.wrong_keys) => {
                    let key = keys.fresh(self.random);
                    keys::write(self.random, &mut self.out, &key);
                }
                Some(key) if !self.random.one_in(4) => {
                    keys::write(self.random, &mut self.out, &key);
                }
                _ => faults::key(self.random, &mut self.out),
            }
            self.value(depth + 1, spine == Some(place));
        }
    }

    /// A value that holds nothing: a plain one, a reference or an empty container.
    fn leaf(&mut self, array: bool) {
        let earlier = self.ordinals;
        let tag = match earlier {
            _ if array => b'a',
            0 => self.random.pick(b"NbidsaO"),
            _ => self.random.pick(b"NbidsaOrrRR"),
        };
        self.ordinals += usize::from(tag != b'R');
        match tag {
            b'a' | b'O' => {
                self.head(tag == b'O', 0);
                self.out.push(b'}');
            }
            b'r' | b'R' => self.reference(tag, earlier),
            _ => spelling::plain(self.random, &mut self.out, tag, self.style.longest_text),
        }
    }

    fn reference(&mut self, tag: u8, earlier: usize) {
        let near = self.style.near;
        let any = self.random.between(1, earlier);
        let ordinal = if (1..=earlier + 1).contains(&near) && self.random.one_in(2) {
            earlier.min(self.random.between(near - 1, near + 1))
        } else {
            self.random.pick(&[any, any, 1, earlier])
        };
        self.out.extend([tag, b':']);
        spelling::number(self.random, &mut self.out, ordinal);
        self.out.push(b';');
    }
}
