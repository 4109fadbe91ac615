//! How single texts are spelled: signs, leading zeros, floats of all shapes, bytes of any kind.

use super::ALPHABET;
use crate::random::Random;

/// Spells a number, now and then with a `+` or leading zeros.
pub fn number(random: &mut Random, out: &mut Vec<u8>, value: usize) {
    if random.one_in(12) {
        out.push(b'+');
    }
    zeros(random, out);
    out.extend(value.to_string().bytes());
}

/// Spells an integer, now and then with a needless sign or leading zeros.
pub fn integer(random: &mut Random, out: &mut Vec<u8>, value: i64) {
    match value {
        0 if random.one_in(4) => out.push(random.pick(b"+-")),
        0.. if random.one_in(10) => out.push(b'+'),
        0.. => {}
        _ => out.push(b'-'),
    }
    zeros(random, out);
    out.extend(value.unsigned_abs().to_string().bytes());
}

fn zeros(random: &mut Random, out: &mut Vec<u8>) {
    if random.one_in(12) {
        let many = random.one_in(100);
        let count = random.between(1, if many { 300 } else { 4 });
        out.resize(out.len() + count, b'0');
    }
}

/// An integer from where mistakes live: small ones, the ends of the range, powers of two and ten.
pub fn any_integer(random: &mut Random) -> i64 {
    let near = random.below(5) as i64 - 2;
    match random.below(9) {
        0..=2 => random.below(200) as i64 - 100,
        3 => i64::MIN + random.below(3) as i64,
        4 => i64::MAX - random.below(3) as i64,
        5 => (1_i64 << random.below(63)).wrapping_add(near),
        6 => random.pick(&[1, -1]) * 10_i64.pow(random.below(19) as u32) + near,
        // Zero has the most spellings.
        7 => 0,
        _ => random.word() as i64,
    }
}

/// Writes a float text of any shape.
pub fn float(random: &mut Random, out: &mut Vec<u8>) {
    if random.one_in(6) {
        out.extend(random.pick(&["INF", "-INF", "NAN"]).bytes());
        return;
    }
    sign(random, out);
    let (whole, fraction) = match random.below(4) {
        0 => (random.between(1, 4), None),
        1 => (random.between(1, 20), Some(0)),
        2 => (0, Some(random.between(1, 20))),
        _ => (random.between(1, 6), Some(random.between(1, 6))),
    };
    digits(random, out, whole);
    if let Some(fraction) = fraction {
        out.push(b'.');
        digits(random, out, fraction);
    }
    if random.one_in(3) {
        out.push(random.pick(b"eE"));
        sign(random, out);
        let length = random.between(1, 4);
        digits(random, out, length);
    }
}

fn sign(random: &mut Random, out: &mut Vec<u8>) {
    if random.one_in(3) {
        out.push(random.pick(b"+-"));
    }
}

fn digits(random: &mut Random, out: &mut Vec<u8>, count: usize) {
    for _ in 0..count {
        out.push(random.pick(b"0123456789"));
    }
}

/// Bytes for a string or a class name: words, the format's own bytes, pieces of plans, anything.
pub fn text(random: &mut Random, longest: usize) -> Vec<u8> {
    const PIECES: &[&str] = &[
        "\";",
        "\";i:0;N;}",
        "s:1:\"",
        "{",
        "}",
        "\0",
        "\u{fc}",
        "a:1:{",
        "i:+05;",
        "R:01;",
        "R:+2;",
        "\":02:{",
        "\":+1:{",
        "s:+1:\"",
        "-0",
    ];
    let length = random.below(longest + 1);
    match random.below(5) {
        0 => PIECES[random.below(PIECES.len())].into(),
        1 => (0..length).map(|_| random.pick(ALPHABET)).collect(),
        2 => (0..length).map(|_| random.byte()).collect(),
        _ => (0..length).map(|_| random.pick(b"aeinrst")).collect(),
    }
}

/// Writes a plain value of a kind.
pub fn plain(random: &mut Random, out: &mut Vec<u8>, tag: u8, longest_text: usize) {
    out.push(tag);
    if tag != b'N' {
        out.push(b':');
    }
    match tag {
        b'N' => {}
        b'b' => out.push(random.pick(b"01")),
        b'i' => {
            let value = any_integer(random);
            integer(random, out, value);
        }
        b'd' => float(random, out),
        _ => {
            let text = text(random, longest_text);
            quoted(random, out, &text);
        }
    }
    out.push(b';');
}

/// Number, `:"`, the bytes, `"`.
pub fn quoted(random: &mut Random, out: &mut Vec<u8>, bytes: &[u8]) {
    number(random, out, bytes.len());
    out.extend(b":\"");
    out.extend(bytes);
    out.push(b'"');
}
