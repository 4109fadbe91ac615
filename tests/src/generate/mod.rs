//! Seeded plans: valid ones, damaged ones, and noise; insertions into them, and paths.

mod damage;
mod faults;
mod insertion;
mod keys;
mod long;
mod noise;
mod path;
mod plan;
mod spelling;

pub use insertion::{insertion, Insertion};
pub use long::padded;
pub use path::{altered, component};

use crate::random::Random;
use long::{crowded, listed};
use plan::{write, Style};

/// The bytes that the format itself uses.
pub const ALPHABET: &[u8] = b"NbidsaOrR:;{}\"0123456789+-.eEIFACoSU";

/// One plan of any sort. The rare sorts are the long ones.
pub fn plan(random: &mut Random) -> Vec<u8> {
    match random.below(10_000) {
        0..=39 => crowded(random),
        40..=53 => padded(random),
        54..=79 => wide(random, 0),
        80..=107 => wide(random, 700),
        108..=112 => listed(random, 1_000),
        113..=137 => listed(random, 100),
        138..=237 => listed(random, 10),
        238..=499 => linked(random),
        500..=3_499 => valid(random),
        3_500..=6_499 => damaged(random),
        6_500..=7_999 => faulty(random),
        _ => noise::bytes(random),
    }
}

/// A plan that reading accepts.
pub fn valid(random: &mut Random) -> Vec<u8> {
    let style = style(random);
    write(random, style)
}

/// A valid plan whose references name what gets a digit more if it is moved by one.
fn linked(random: &mut Random) -> Vec<u8> {
    let near = if random.one_in(12) { 100 } else { 10 };
    let mut style = style(random);
    style.near = near;
    style.nodes = random.between(3 * near, 5 * near);
    style.depth = random.pick(&[3, 4, 6]);
    style.spine = false;
    style.longest_text = 3;
    write(random, style)
}

/// A valid plan with one mutation or several.
fn damaged(random: &mut Random) -> Vec<u8> {
    let mut bytes = valid(random);
    for _ in 0..random.pick(&[1, 1, 1, 1, 2, 3, 6]) {
        damage::once(random, &mut bytes);
    }
    bytes
}

/// A plan with wrong values and keys written in on purpose, or too deep.
fn faulty(random: &mut Random) -> Vec<u8> {
    let mut style = style(random);
    style.wrong_values = random.pick(&[0, 0, 4, 10, 25]);
    style.wrong_keys = random.pick(&[0, 2, 4, 10, 25]);
    if style.spine {
        style.depth = random.between(60, 68);
    }
    write(random, style)
}

fn style(random: &mut Random) -> Style {
    let (nodes, depth, spine) = match random.below(100) {
        0..=19 => (random.between(1, 4), 2, false),
        20..=64 => (random.between(3, 14), 4, false),
        65..=94 => (random.between(10, 60), 8, false),
        95..=96 => (random.between(60, 200), 64, false),
        97 => (random.between(1, 200), random.between(30, 63), true),
        _ => (random.between(1, 200), 64, true),
    };
    Style {
        nodes,
        depth,
        spine,
        longest_text: random.pick(&[3, 12, 12, 40]),
        near: 0,
        wrong_values: 0,
        wrong_keys: 0,
    }
}

/// Hundreds of nodes and long texts; one value and one key in `faults` is wrong.
fn wide(random: &mut Random, faults: usize) -> Vec<u8> {
    let style = Style {
        nodes: random.between(200, 2_000),
        depth: 20,
        spine: false,
        longest_text: 60,
        near: 0,
        wrong_values: faults,
        wrong_keys: faults,
    };
    write(random, style)
}
