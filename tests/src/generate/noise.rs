//! Bytes without a plan behind them.

use super::ALPHABET;
use crate::random::Random;

/// Pieces that follow one another in plans.
const PIECES: &[&str] = &[
    "N;",
    "b:0;",
    "b:1;",
    "i:0;",
    "i:1;",
    "i:-1;",
    "i:01;",
    "d:1.5;",
    "d:NAN;",
    "s:0:\"\";",
    "s:1:\"a\";",
    "s:1:\"0\";",
    "s:+1:\"a\";",
    "a:0:{}",
    "a:1:{",
    "a:2:{",
    "a:3:{",
    "a:+2:{",
    "O:1:\"X\":1:{",
    "O:0:\"\":2:{",
    "O:1:\"X\":0:{}",
    "O:+1:\"X\":+1:{",
    "r:1;",
    "r:2;",
    "r:3;",
    "R:1;",
    "R:2;",
    "R:3;",
    "r:+2;",
    "R:+02;",
    "}",
    "}",
    "}}",
];

/// Pieces, bytes of the format or any bytes; mostly short.
pub fn bytes(random: &mut Random) -> Vec<u8> {
    let longest = random.pick(&[4, 8, 12, 12, 60]);
    let length = random.between(0, longest);
    match random.below(8) {
        0 => (0..length).map(|_| random.byte()).collect(),
        1..=2 => (0..length).map(|_| random.pick(ALPHABET)).collect(),
        3 => started(random, length),
        _ => (0..length)
            .flat_map(|_| random.pick(PIECES).bytes())
            .collect(),
    }
}

/// The start of a value, then bytes of the format.
fn started(random: &mut Random, length: usize) -> Vec<u8> {
    const STARTS: &[&str] = &[
        "i:",
        "d:",
        "s:",
        "s:1:\"",
        "a:",
        "a:1:{i:0;",
        "O:",
        "O:1:\"X\":",
        "r:",
        "R:",
        "b:",
    ];
    let start = random.pick(STARTS).bytes();
    start
        .chain((0..length).map(|_| random.pick(b"0123456789+-.eE;:{}\"")))
        .collect()
}
