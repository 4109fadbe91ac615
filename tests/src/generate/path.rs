//! Components of paths, spelled in every way that leads to a key, and paths that are not quite so.

use crate::model::{is_integer, Identity};
use crate::random::Random;

/// What paths and the keys of plans are made of.
const ALPHABET: &[u8] = b"//\"\"%%%0123456789aAfFgG-+ _.";

/// How a string key's bytes are spelled.
#[derive(Clone, Copy)]
struct Spelling {
    quoted: bool,
    /// One in so many bytes is escaped that need not be; 0 for none.
    escaped: usize,
}

/// A component that leads to the key.
pub fn component(random: &mut Random, key: Identity) -> Vec<u8> {
    match key {
        Identity::Integer(value) => value.to_string().into_bytes(),
        Identity::Text(text) => {
            let spelling = Spelling {
                quoted: random.one_in(2),
                escaped: random.pick(&[0, 0, 1, 4]),
            };
            let spelled = spell(random, text, spelling);
            if !spelled.is_empty() && !is_integer(&spelled) {
                return spelled;
            }
            let quoted = Spelling {
                quoted: true,
                ..spelling
            };
            spell(random, text, quoted)
        }
    }
}

fn spell(random: &mut Random, text: &[u8], spelling: Spelling) -> Vec<u8> {
    let mut spelled = Vec::new();
    for &byte in text {
        let by_chance = spelling.escaped > 0 && random.one_in(spelling.escaped);
        if by_chance || b"\0/\"%".contains(&byte) {
            let (high, low) = (digit(random, byte >> 4), digit(random, byte & 15));
            spelled.extend([b'%', high, low]);
        } else {
            spelled.push(byte);
        }
    }
    if spelling.quoted {
        spelled.insert(0, b'"');
        spelled.push(b'"');
    }
    spelled
}

/// A hexadecimal digit, of either case.
fn digit(random: &mut Random, value: u8) -> u8 {
    random.pick(&[b"0123456789abcdef", b"0123456789ABCDEF"])[usize::from(value)]
}

/// The path with one byte changed, left out or put in, or a stretch of it left out. No byte is NUL.
pub fn altered(random: &mut Random, path: &[u8]) -> Vec<u8> {
    let mut path = path.to_vec();
    let place = random.below(path.len());
    let byte = random.pick(ALPHABET);
    match random.below(6) {
        0..=1 => path[place] = byte,
        2 => path[place] = random.byte().max(1),
        3 => drop(path.remove(place)),
        4 => path.insert(place + 1, byte),
        _ => path.truncate(place),
    }
    path
}
