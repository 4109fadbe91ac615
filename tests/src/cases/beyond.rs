//! Cases that no line of `crates/cases/stdin` can hold: bytes that are not printed, a space in a key
//! or a value text, tables and outputs longer than the program lends.

use super::{at, Case, Expected};
use crate::call::{Call, Lent, Texts};
use crate::model::WORDS;
use std::ops::Range;

/// Room for more nodes than any case has.
const AMPLE_TABLE: usize = 1_000 * WORDS;
/// An output longer than every plan.
const AMPLE_OUTPUT: usize = 70_000;

pub fn cases() -> Vec<Case> {
    [
        vec![behind_the_plan()],
        copied(),
        carries(),
        longest_written(),
        unfit_texts(),
        too_long(),
    ]
    .concat()
}

/// A plan, and the texts of a pair that is put into it.
fn texts<'a>(source: &'a str, [key, value]: [&'a str; 2]) -> Lent<'a> {
    Texts { source, key, value }.map(|text| text.as_bytes())
}

fn canonical(source: &str, text: &str) -> Case {
    Case {
        texts: Lent::plan(source.as_bytes()).kept(),
        call: Call::canonicalize(AMPLE_TABLE, AMPLE_OUTPUT),
        expected: Expected::Written {
            text: text.into(),
            rows: None,
        },
    }
}

fn inserted(source: &str, place: [usize; 2], pair: [&str; 2], text: &str) -> Case {
    Case {
        texts: texts(source, pair).kept(),
        call: Call::insert(at(place), AMPLE_TABLE, AMPLE_OUTPUT),
        expected: Expected::Written {
            text: text.into(),
            rows: None,
        },
    }
}

fn refused(source: &str, place: [usize; 2], pair: [&str; 2], code: u64) -> Case {
    Case {
        texts: texts(source, pair).kept(),
        call: Call::insert(at(place), AMPLE_TABLE, AMPLE_OUTPUT),
        expected: Expected::Refused { code, at: 0 },
    }
}

/// "10 is last", a NUL as any byte.
fn behind_the_plan() -> Case {
    Case {
        texts: Lent::plan(b"a:0:{}\0").kept(),
        call: Call::read(AMPLE_TABLE),
        expected: Expected::Refused { code: 10, at: 6 },
    }
}

/// "Float texts, strings and class names are copied": bytes of any kind, and as many as a plan has
/// room for.
fn copied() -> Vec<Case> {
    let longest = format!("s:65525:\"{}\";", "0".repeat(65_525));
    ["s:3:\"\0\u{fc}\";", &longest]
        .map(|plan| canonical(plan, plan))
        .into()
}

/// "forgetting that 9 becomes 10 and the bytes move": references 98 to 99 and 99 to 100, the count
/// 99 to 100.
fn carries() -> Vec<Case> {
    [97, 98].into_iter().flat_map(carry).collect()
}

/// An array of so many N and two references to the last of them. The array is 1, so that N is one
/// more than they are.
fn carry(nulls: usize) -> [Case; 2] {
    let pairs =
        |places: Range<usize>| -> String { places.map(|place| format!("i:{place};N;")).collect() };
    let plan = |pairs: &str, named: usize, count: usize| {
        format!("a:{count}:{{{pairs}s:1:\"r\";r:{named};s:1:\"R\";R:{named};}}")
    };
    let source = plan(&pairs(0..nulls), nulls + 1, nulls + 2);
    let before_last = pairs(0..nulls - 1) + "i:-1;b:1;" + &pairs(nulls - 1..nulls);
    let behind_last = pairs(0..nulls) + "i:-1;b:1;";
    let raised = plan(&before_last, nulls + 2, nulls + 3);
    let kept = plan(&behind_last, nulls + 1, nulls + 3);
    let pair = ["i:-1;", "b:1;"];
    [
        inserted(&source, [0, nulls - 1], pair, &raised),
        inserted(&source, [0, nulls], pair, &kept),
    ]
}

/// An array with a string of so many bytes, of five digits; 21 bytes stand around it.
fn with_string(length: usize) -> String {
    format!("a:1:{{i:0;s:{length}:\"{}\";}}", "x".repeat(length))
}

/// A plan of the greatest length; also with a plus in it, by which it is not shorter.
fn longest_written() -> Vec<Case> {
    let source = with_string(65_500);
    let written = |pair: [&str; 2]| {
        let longest = source.replacen("a:1:", "a:2:", 1);
        let longest = longest.replace(";}", &format!(";{}}}", pair.concat()));
        inserted(&source, [0, 1], pair, &longest)
    };
    [["i:1;", "i:12345678;"], ["s:+0:\"\";", "i:1234;"]]
        .map(written)
        .into()
}

/// 13, by a text that is neither a key nor a plain value: "No spaces anywhere", nor any other byte.
fn unfit_texts() -> Vec<Case> {
    let refused = |pair| refused("a:1:{i:0;N;}", [0, 1], pair, 13);
    let unfit = |text| [[text, "N;"], ["i:1;", text]].map(refused);
    [" i:5;", "i: 5;", "\0:5;", "s:+ 1:\"a\";", "s: +1:\"a\";"]
        .map(unfit)
        .concat()
}

/// 14: "bytes to write exceed the output's length or 65,536". Key text and value text have no limit
/// of their own.
fn too_long() -> Vec<Case> {
    let long = format!("i:{}1;", "0".repeat(65_536));
    let one_more = ["i:1;", "i:123456789;"];
    let by_its_plus = ["s:+0:\"\";", "i:12345;"];
    vec![
        refused(&with_string(65_500), [0, 1], one_more, 14),
        refused(&with_string(65_500), [0, 1], by_its_plus, 14),
        refused(&with_string(65_515), [0, 1], ["i:1;", "N;"], 14),
        refused("a:0:{}", [0, 0], [&long, "N;"], 14),
        refused("a:0:{}", [0, 0], ["i:1;", &long], 14),
    ]
}
