//! Plans at the limit of length, arrays of many pairs, and of very many keys.

use super::keys::{self, Keys};
use crate::random::Random;

/// Plans that can be made as long as wanted by repeating one byte: before, that byte, after.
const STRETCHABLE: &[(&str, u8, &str)] = &[
    ("i:", b'0', "7;"),
    ("i:-", b'0', "9223372036854775808;"),
    ("i:", b'0', "9223372036854775808;"),
    ("i:1", b'0', ";"),
    ("d:1.", b'3', "e5;"),
    ("d:-1e+", b'9', ";"),
    ("s:", b'0', "1:\"a\";"),
    ("a:", b'0', "1:{i:0;R:1;}"),
    ("a:1:{i:0;r:", b'0', "1;}"),
    ("a:1:{i:0;R:", b'0', "2;}"),
    ("a:2:{i:5;N;i:", b'0', "5;N;}"),
    ("a:2:{i:5;N;s:1:\"5\";i:+", b'0', "5;}"),
    ("O:", b'0', "1:\"X\":0:{}"),
    ("O:1:\"X\":", b'0', "1:{s:1:\"x\";r:1;}"),
    ("s:+", b'0', "1:\"a\";"),
    ("a:+", b'0', "1:{i:0;R:1;}"),
    ("a:1:{s:+", b'0', "1:\"k\";N;}"),
    ("a:1:{i:0;r:+", b'0', "1;}"),
    ("a:1:{i:0;R:+", b'0', "2;}"),
    ("O:+", b'0', "1:\"X\":0:{}"),
    ("O:1:\"X\":+", b'0', "0:{}"),
];

/// A plan of an exact length, most often at the limit of 65,536 bytes, one beyond or right before.
pub fn padded(random: &mut Random) -> Vec<u8> {
    let any = random.between(9_000, 65_536);
    // Room for one pair.
    let near = random.between(65_480, 65_525);
    let length = random.pick(&[
        65_536, 65_536, 65_536, 65_535, 65_537, 65_537, 66_000, 131_072, any, any, near, near, near,
    ]);
    match random.below(6) {
        0..=2 => stretched(random, length),
        3 => one_text(random, length),
        _ => many_pairs(random, length),
    }
}

fn stretched(random: &mut Random, length: usize) -> Vec<u8> {
    let (before, filler, after) = random.pick(STRETCHABLE);
    let filling = vec![filler; length - before.len() - after.len()];
    [before.as_bytes(), &filling, after.as_bytes()].concat()
}

/// A string or class name that fills the plan. Its length is spelled with six digits always.
fn one_text(random: &mut Random, length: usize) -> Vec<u8> {
    let (before, after) = random.pick(&[
        ("s:", ";"),
        ("O:", ":0:{}"),
        ("a:1:{i:0;s:", ";}"),
        ("a:2:{s:", ";N;i:0;R:2;}"),
        ("s:+", ";"),
        ("a:+1:{i:0;s:+", ";}"),
    ]);
    let text_len = length - before.len() - 6 - 3 - after.len();
    let head = format!("{before}{text_len:06}:\"");
    let text: Vec<u8> = (0..text_len).map(|_| random.byte()).collect();
    [head.as_bytes(), &text, b"\"", after.as_bytes()].concat()
}

/// As many pairs with rising keys as fit; the count's leading zeros fill the rest. Here references
/// name ordinals in the thousands.
fn many_pairs(random: &mut Random, length: usize) -> Vec<u8> {
    let tags = random.pick(&["N", "NNRr", "RR", "rr", "Nrra"]);
    let any = |random: &mut Random, ordinals| random.between(1, ordinals);
    let (pairs, count) = pairs(random, tags, any, |bytes, _| bytes + 40 < length);
    let tail = format!("{count}:{{{pairs}}}");
    let zeros = "0".repeat(length - 2 - tail.len());
    format!("a:{zeros}{tail}").into_bytes()
}

/// An array whose count, and the ordinals that its references name, are around a power of ten: one
/// more may have a digit more.
pub fn listed(random: &mut Random, power: usize) -> Vec<u8> {
    let tags = random.pick(&["NNNr", "NNNNaR", "aNrrr"]);
    let around = |random: &mut Random, ordinals: usize| {
        let near = ordinals.min(random.between(power - 2, power + 1));
        let any = random.between(1, ordinals);
        random.pick(&[near, near, any])
    };
    let wanted = random.pick(&[power - 1, power - 1, power, power + power / 4]);
    let (pairs, count) = pairs(random, tags, around, |_, count| count < wanted);
    let plus = plus(random);
    format!("a:{plus}{count}:{{{pairs}}}").into_bytes()
}

/// Now and then a `+`.
fn plus(random: &mut Random) -> &'static str {
    if random.one_in(12) {
        "+"
    } else {
        ""
    }
}

/// Pairs with rising keys and values of these kinds, as long as more are `wanted` of their bytes and
/// count, and how many there are. References name one of so many ordinals.
fn pairs(
    random: &mut Random,
    tags: &str,
    name: impl Fn(&mut Random, usize) -> usize,
    wanted: impl Fn(usize, usize) -> bool,
) -> (String, usize) {
    let mut pairs = String::from("i:-1;N;");
    let mut count = 1;
    let mut ordinals = 2;
    while wanted(pairs.len(), count) {
        let tag = random.pick(tags.as_bytes());
        pairs += &match tag {
            b'r' | b'R' => {
                let named = name(random, ordinals);
                let plus = plus(random);
                format!("i:{};{}:{plus}{named};", count - 1, tag as char)
            }
            b'a' => format!("i:{};a:0:{{}}", count - 1),
            _ => format!("i:{};N;", count - 1),
        };
        count += 1;
        ordinals += usize::from(tag != b'R');
    }
    (pairs, count)
}

/// An array of a few pairs to very many whose keys do not rise, or that has one of them again.
pub fn crowded(random: &mut Random) -> Vec<u8> {
    let (least, most) = random.pick(&[(4, 20), (20, 200), (200, 1_000), (1_000, 4_000)]);
    let count = random.between(least, most);
    let mut keys = Keys::crowded(random, count);
    let mut plan = format!("a:{count}:{{").into_bytes();
    let any = random.below(count);
    let again_at = random.one_in(3).then(|| random.pick(&[any, count - 1]));
    for place in 0..count {
        let again = keys.repeated(random).filter(|_| again_at == Some(place));
        let key = again.unwrap_or_else(|| keys.fresh(random));
        keys::write(random, &mut plan, &key);
        plan.extend(b"N;");
    }
    plan.push(b'}');
    plan
}
