//! Values and keys that reading must refuse, written where right ones were due.

use super::spelling;
use crate::random::Random;

const UNKNOWN_TAGS: &[&str] = &[
    "C:1:\"X\":0:{}",
    "o:0:{}",
    "S:1:\"a\";",
    "U:1:\"a\";",
    "n;",
    "B:1;",
    "}",
    ";",
    "\"",
    "\0",
    "\u{fc}",
];

const MALFORMED: &[&str] = &[
    "N",
    "N:;",
    "N ;",
    "b:2;",
    "b:01;",
    "b:+1;",
    "b:;",
    "b1;",
    "b:1",
    "i:;",
    "i:+;",
    "i:-;",
    "i:+-1;",
    "i:++5;",
    "i: 1;",
    "i:1 ;",
    "i:1.0;",
    "i1;",
    "i:0x1;",
    "s:1:a;",
    "s:1:\"a;",
    "s:2:\"a\";",
    "s:0:\"a\";",
    "s:-1:\"\";",
    "s::\"\";",
    "s:1;\"a\";",
    "s:1:\"a\"",
    "a:1:}",
    "a:0:{;}",
    "a:0{}",
    "a:-0:{}",
    "a::{}",
    "a:0:{",
    "O:1:\"X\":0:{",
    "O:1:\"X\"0:{}",
    "O:1:X:0:{}",
    "O:2:\"X\":0:{}",
    "O:1:\"X\":0:}",
    "r:1",
    "r:;",
    "R:-1;",
    "r;",
    "R::1;",
];

const UNFIT_FLOATS: &[&str] = &[
    "", ".", "+", "-", "+INF", "+NAN", "-NAN", "inf", "nan", "INF1", "INFINITY", "e5", ".e5", "1e",
    "1e+", "1e-", "1E+-1", "1.2.3", "1..", "--1", "+-1", "1e5.0", "1e5e5", " 1", "1 ", "0x1",
    "1,5", "1_0", "-.", "+.e1", "IN", "N", "1f",
];

/// Keys of kinds that no container takes, and keys whose text is wrong.
const UNFIT_KEYS: &[&str] = &[
    "N;",
    "b:1;",
    "d:1;",
    "a:0:{}",
    "O:1:\"X\":0:{}",
    "r:1;",
    "R:1;",
    "}",
    "C:1;",
    "S:1:\"a\";",
    "i:;",
    "i:9223372036854775808;",
    "s:65537:\"\";",
    "s:1:\"\";",
    "s:2:\"a\";",
    "s:+",
    "s:+:\"\";",
    "s:++1:\"a\";",
    "s:+-1:\"a\";",
    "s:-1:\"a\";",
    "s:+65537:\"\";",
    "i:++1;",
    "i:1",
    "i:0;i:0;",
    "i:1;",
];

/// Magnitudes just beyond a range, or equal to a small number after wrapping at some width.
const OVERLARGE: &[&str] = &[
    "65537",
    "65538",
    "99999",
    "131072",
    "4294967296",
    "4294967297",
    "9223372036854775808",
    "9223372036854775809",
    "9999999999999999999",
    "10000000000000000000",
    "18446744073709551615",
    "18446744073709551616",
    "18446744073709551617",
    "27670116110564327424",
    "99999999999999999999",
    "184467440737095516161",
    "340282366920938463463374607431768211457",
];

/// A place of a number: what stands before it in a value, and behind it if it is 0 or 1.
type Place = (&'static str, [&'static str; 2]);

const LENGTH: Place = ("s:", [":\"\";", ":\"a\";"]);

/// Every place of a number.
const PLACES: &[Place] = &[
    LENGTH,
    ("a:1:{s:", [":\"\";N;}", ":\"k\";N;}"]),
    ("a:", [":{}", ":{i:0;N;}"]),
    ("O:", [":\"\":0:{}", ":\"X\":0:{}"]),
    ("O:1:\"X\":", [":{}", ":{s:1:\"k\";N;}"]),
    ("r:", [";", ";"]),
    ("R:", [";", ";"]),
];

/// Numbers with a wrong sign, and what they would be if it were right.
const MISSIGNED: &[(&str, usize)] = &[
    ("+", 0),
    ("+", 0),
    ("-", 0),
    ("-0", 0),
    ("-1", 1),
    ("++1", 1),
    ("++1", 1),
    ("+-1", 1),
    ("-+1", 1),
    ("+ 1", 1),
    ("1+", 1),
];

/// A value that is wrong in most places. `ordinals` is the count taken before it.
pub fn value(random: &mut Random, out: &mut Vec<u8>, ordinals: usize) {
    match random.below(7) {
        0 => out.extend(random.pick(UNKNOWN_TAGS).bytes()),
        1 => out.extend(random.pick(MALFORMED).bytes()),
        2 => {
            out.extend(b"d:");
            out.extend(random.pick(UNFIT_FLOATS).bytes());
            out.push(b';');
        }
        3 => overlarge(random, out),
        4 => {
            let place = random.pick(PLACES);
            missigned(random, out, place);
        }
        _ => reference(random, out, ordinals),
    }
}

/// A key that is wrong in most places.
pub fn key(random: &mut Random, out: &mut Vec<u8>) {
    out.extend(random.pick(UNFIT_KEYS).bytes());
}

/// A string whose length has a wrong sign, or a `+` and no digit. Nothing else is wrong with it,
/// unless its end is missing.
pub fn missigned_string(random: &mut Random, out: &mut Vec<u8>) {
    missigned(random, out, LENGTH);
}

/// The same of any number.
fn missigned(random: &mut Random, out: &mut Vec<u8>, (before, after): Place) {
    let (number, meant) = random.pick(MISSIGNED);
    out.extend(before.bytes());
    out.extend(number.bytes());
    if !random.one_in(4) {
        out.extend(after[meant].bytes());
    }
}

/// A value with an integer or number above its range; the rest of it may be missing.
fn overlarge(random: &mut Random, out: &mut Vec<u8>) {
    let (before, after) = random.pick(&[
        ("i:", ";"),
        ("i:-", ";"),
        ("i:+0", ";"),
        ("i:", "x"),
        ("s:", ":\"a\";"),
        ("s:", ""),
        ("a:", ":{}"),
        ("O:", ":\"X\":0:{}"),
        ("O:1:\"X\":", ":{}"),
        ("O:1:\"X\":", "}"),
        ("r:", ";"),
        ("R:000", ";"),
        ("s:+", ":\"a\";"),
        ("s:+0", ""),
        ("a:1:{s:+", ":\"k\";N;}"),
        ("a:+", ":{}"),
        ("O:+", ":\"X\":0:{}"),
        ("O:1:\"X\":+", ":{}"),
        ("r:+", ";"),
        ("R:+00", ";"),
    ]);
    out.extend(before.bytes());
    out.extend(random.pick(OVERLARGE).bytes());
    out.extend(after.bytes());
}

/// A reference to nothing: to 0, to its own or a later ordinal, to the largest number.
fn reference(random: &mut Random, out: &mut Vec<u8>, ordinals: usize) {
    let named = random.pick(&[0, ordinals + 1, ordinals + 1, ordinals + 2, 65_536]);
    out.push(random.pick(b"rR"));
    out.push(b':');
    spelling::number(random, out, named);
    out.push(b';');
}
