//! Plans and insertions that are listed rather than drawn: all short texts, all neighbours of some
//! plans, all places of some plans.

use crate::call::{Lent, Place, Service, Texts};
use crate::cases;
use crate::generate::ALPHABET;

/// Calls `visit` with every enumerated plan until one visit fails.
pub fn all<E>(visit: &mut impl FnMut(&[u8]) -> Result<(), E>) -> Result<(), E> {
    for case in cases::all() {
        visit(&case.texts.source)?;
    }
    one_and_two_bytes(visit)?;
    for (start, alphabet, longest) in SHORT_TEXTS {
        let mut text = start.to_vec();
        endings(&mut text, alphabet, *longest, visit)?;
    }
    for plan in NEIGHBOURED {
        neighbours(plan, visit)?;
    }
    Ok(())
}

/// The insertion that is asked for with every enumerated plan.
pub fn insertion(source: &[u8]) -> (Lent<'_>, Place) {
    let texts = Texts {
        source,
        key: b"i:77;",
        value: b"N;",
    };
    (texts, Place::default())
}

/// Calls `visit` with every enumerated insertion until one visit fails.
pub fn insertions<E>(visit: &mut impl FnMut(Lent, Place) -> Result<(), E>) -> Result<(), E> {
    let mut cases = cases::all();
    cases.retain(|case| case.call.service == Service::Insert);
    cases.dedup_by(|one, other| one.texts == other.texts && one.call.place == other.call.place);
    for case in cases {
        visit(case.texts.lent(), case.call.place)?;
    }
    for source in INSERTED_INTO {
        everywhere(source, visit)?;
    }
    for (start, alphabet, longest) in SHORT_PAIR_TEXTS {
        let mut text = start.to_vec();
        endings(&mut text, alphabet, *longest, &mut |text| {
            as_key_and_value(text, visit)
        })?;
    }
    for text in NEIGHBOURED_PAIR_TEXTS {
        neighbours(text, &mut |text| as_key_and_value(text, visit))?;
    }
    Ok(())
}

/// A start, and the bytes and the length of everything that is put behind it.
type Endings = (&'static [u8], &'static [u8], usize);

const SHORT_TEXTS: &[Endings] = &[
    (b"", ALPHABET, 3),
    (b"", b"Nbi:;01-r", 5),
    (b"d:", b"07.eE+-;", 5),
    (b"d:", b"INFA+-;", 5),
    (b"i:", b"09+-;x", 5),
    (b"i:922337203685477580", b"06789;x", 4),
    (b"i:-0922337203685477580", b"06789;x", 4),
    (b"a:1:{i:1844674407370955161", b"05678;N", 3),
    (b"s:", b"012:\";", 6),
    (b"a:1:{s:6553", b"05678:\";", 3),
    (b"O:6553", b"05678:\";", 3),
    (b"a:1:{i:0;R:6553", b"05678;}", 4),
    (b"r:", b"01+-;:", 4),
    (b"R:", b"01+-;:", 4),
    (b"a:", b"01:{}i", 5),
    (b"a:1:{", b"i:01;N}", 6),
    (b"a:2:{i:0;N;", b"is:01;N}-", 5),
    (b"a:2:{i:0;", b"rR:0123;}", 5),
    (b"O:0:\"", b"\":01{}s", 5),
    (b"O:1:\"", b"\":01{}", 5),
    (b"s:+", b"01+-:\";", 5),
    (b"b:", b"01+-;", 4),
    (b"a:+", b"01+-:{}", 4),
    (b"a:1:{s:+", b"01+-:\";", 4),
    (b"O:+", b"01+-:\"", 4),
    (b"O:0:\"\":+", b"01+-:{}", 4),
    (b"a:2:{i:0;r:", b"012+-;}", 4),
    (b"a:2:{i:0;R:", b"012+-;}", 4),
    (b"a:1:{s:+6553", b"05678:\";", 3),
    (b"a:+6553", b"05678:{}", 3),
    (b"O:+6553", b"05678:\";", 3),
    (b"O:0:\"\":+6553", b"05678:{}", 3),
    (b"a:1:{i:0;r:+6553", b"05678;}", 3),
    (b"a:1:{i:0;R:+6553", b"05678;}", 3),
];

/// Plans whose neighbours are tried: each byte replaced by all others, left out, or the last one.
const NEIGHBOURED: &[&[u8]] = &[
    b"i:-9223372036854775808;",
    b"i:9223372036854775807;",
    b"d:-12.50E+07;",
    b"d:-INF;",
    b"s:5:\"ba\";n\";",
    b"s:12:\"twelve bytes\";",
    b"a:2:{i:5;b:1;i:06;N;}",
    b"a:3:{s:1:\"5\";r:1;i:5;R:2;i:-5;d:.5;}",
    b"O:3:\"Day\":4:{s:3:\"air\";i:40;s:4:\"self\";r:1;s:4:\"open\";b:1;s:4:\"copy\";R:4;}",
    b"a:4:{i:0;i:7;i:1;r:2;i:2;i:9;i:3;R:3;}",
    b"a:2:{i:0;a:1:{i:0;a:1:{i:0;R:3;}}i:1;O:0:\"\":1:{s:0:\"\";r:2;}}",
    b"a:03:{i:+07;i:-0;s:02:\"-0\";i:-010;i:-0;s:01:\"+\";}",
    b"O:02:\"07\":02:{s:01:\"x\";d:+00.50;s:00:\"\";R:02;}",
    b"a:+2:{s:+1:\"k\";s:+5:\"basin\";i:0;O:+1:\"X\":+02:{s:1:\"r\";r:+2;s:1:\"R\";R:+03;}}",
];

/// Plans that a pair is put into everywhere, and at nodes and places where it cannot be.
const INSERTED_INTO: &[&[u8]] = &[
    b"a:0:{}",
    b"N;",
    b"O:1:\"X\":1:{s:1:\"x\";a:1:{i:0;r:2;}}",
    b"a:3:{i:0;d:1.5;i:1;d:2.5;i:2;R:3;}",
    b"a:4:{i:0;i:7;i:1;r:2;i:2;i:9;i:3;R:3;}",
    b"a:02:{i:0;a:001:{i:0;a:0:{}}i:1;O:0:\"\":2:{s:0:\"\";R:03;s:1:\"a\";r:04;}}",
    b"a:2:{s:1:\"a\";a:2:{i:0;R:2;i:1;a:1:{i:0;R:3;}}s:1:\"b\";a:2:{i:0;R:4;i:1;r:1;}}",
    b"a:9:{i:0;N;i:1;N;i:2;N;i:3;N;i:4;N;i:5;N;i:6;N;i:7;r:08;i:8;R:9;}",
    b"a:+9:{i:0;N;i:1;N;i:2;N;i:3;N;i:4;N;i:5;N;i:6;N;i:7;r:+8;i:8;R:+09;}",
    b"a:+02:{i:0;a:+1:{i:0;a:+0:{}}i:1;O:+1:\"X\":+2:{s:+0:\"\";R:+03;s:1:\"a\";r:+4;}}",
];

/// Texts that are put in as keys and as values: all of these endings, and all neighbours of these.
const SHORT_PAIR_TEXTS: &[Endings] = &[
    (b"", b"Nbidsa:;01", 3),
    (b"i:", b"09+-;x", 4),
    (b"s:", b"012:\";", 5),
    (b"d:", b"07.eE+-;", 4),
    (b"b:", b"01;:", 3),
    (b"i:922337203685477580", b"06789;x", 3),
    (b"i:-922337203685477580", b"06789;x", 3),
    (b"s:6553", b"05678:\";", 3),
    (b"s:+", b"01+-:\";", 4),
    (b"s:+6553", b"05678:\";", 3),
];

const NEIGHBOURED_PAIR_TEXTS: &[&[u8]] = &[
    b"i:+05;",
    b"i:-9223372036854775808;",
    b"s:02:\"5;\";",
    b"s:+2:\"5;\";",
    b"s:3:\"\";\"\";",
    b"d:-1.5e+3;",
    b"b:1;",
    b"N;",
];

/// Three pairs at every node and place of a plan, and at some more.
fn everywhere<E>(
    source: &[u8],
    visit: &mut impl FnMut(Lent, Place) -> Result<(), E>,
) -> Result<(), E> {
    let pairs: [[&[u8]; 2]; 3] = [
        [b"i:+077;", b"N;"],
        [b"s:03:\"new\";", b"d:1.5;"],
        [b"s:+3:\"new\";", b"s:+00:\"\";"],
    ];
    for array_node in 0..24 {
        for pair_index in 0..12 {
            let place = Place {
                array_node,
                pair_index,
            };
            for [key, value] in pairs {
                visit(Texts { source, key, value }, place)?;
            }
        }
    }
    Ok(())
}

/// The text once as a key and once as a value.
fn as_key_and_value<E>(
    text: &[u8],
    visit: &mut impl FnMut(Lent, Place) -> Result<(), E>,
) -> Result<(), E> {
    let source: &[u8] = b"a:2:{i:0;N;s:1:\"0\";R:2;}";
    let place = Place {
        array_node: 0,
        pair_index: 1,
    };
    for [key, value] in [[text, b"N;"], [b"i:77;", text]] {
        visit(Texts { source, key, value }, place)?;
    }
    Ok(())
}

fn one_and_two_bytes<E>(visit: &mut impl FnMut(&[u8]) -> Result<(), E>) -> Result<(), E> {
    for first in 0..=u8::MAX {
        visit(&[first])?;
        for second in 0..=u8::MAX {
            visit(&[first, second])?;
        }
    }
    Ok(())
}

/// Visits `text` followed by each sequence of at most `longest` bytes of the alphabet.
fn endings<E>(
    text: &mut Vec<u8>,
    alphabet: &[u8],
    longest: usize,
    visit: &mut impl FnMut(&[u8]) -> Result<(), E>,
) -> Result<(), E> {
    visit(text)?;
    if longest == 0 {
        return Ok(());
    }
    for &byte in alphabet {
        text.push(byte);
        endings(text, alphabet, longest - 1, visit)?;
        text.pop();
    }
    Ok(())
}

fn neighbours<E>(plan: &[u8], visit: &mut impl FnMut(&[u8]) -> Result<(), E>) -> Result<(), E> {
    visit(plan)?;
    for place in 0..plan.len() {
        visit(&plan[..place])?;
        visit(&[&plan[..place], &plan[place + 1..]].concat())?;
        let mut changed = plan.to_vec();
        for byte in (0..=u8::MAX).filter(|&byte| byte != plan[place]) {
            changed[place] = byte;
            visit(&changed)?;
        }
    }
    Ok(())
}
