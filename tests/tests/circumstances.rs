//! The circumstances that a run has to meet are what their names say.

use tonschnecke_tests::call::{Call, Place, Texts};
use tonschnecke_tests::circumstances::{self, Met, Request};
use tonschnecke_tests::memory::Memory;
use tonschnecke_tests::model::{self, WORDS};
use tonschnecke_tests::sides;

/// The names of all that an insertion meets, with room for so many nodes and an output of so many
/// bytes.
fn met(
    (array_node, pair_index): (usize, usize),
    texts: [&str; 3],
    (nodes, out_len): (usize, usize),
) -> Vec<&'static str> {
    let place = Place {
        array_node,
        pair_index,
    };
    let [source, key, value] = texts.map(str::as_bytes);
    let texts = Texts { source, key, value };
    let call = Call::insert(place, nodes * WORDS, out_len);
    let survey = model::survey(source, usize::MAX);
    let request = Request::new(texts, place, &survey, model::bytes_to_write(texts, place));
    let met = Met {
        request: &request,
        call,
        reply: sides::model(texts, call, &mut Memory::for_call(call)),
    };
    let named = circumstances::names().zip(circumstances::of(&met));
    named.filter(|named| named.1).map(|named| named.0).collect()
}

#[test]
fn of_the_insertion_in_the_paper() {
    let paper = ["a:3:{i:0;d:1.5;i:1;d:2.5;i:2;R:3;}", "i:59;", "d:2;"];
    assert_eq!(
        met((0, 1), paper, (9, 43)),
        [
            "between other pairs",
            "into the plan's own array",
            "raised R",
            "raised the number k",
            "raised one inside the array",
            "key of kind i",
            "value of kind d",
            "table just long enough",
            "output just long enough",
        ]
    );
}

#[test]
fn of_an_insertion_inside() {
    let plan = "O:1:\"X\":2:{s:1:\"x\";a:01:{i:7;a:0:{}}s:1:\"y\";a:2:{i:0;r:04;i:1;R:01;}}";
    assert_eq!(
        met((2, 0), [plan, "s:01:\"7\";", "i:+5;"], (20, 100)),
        [
            "in front of other pairs",
            "into an array in an object",
            "into an array with arrays inside",
            "count spelled oddly",
            "raised r",
            "raised one spelled oddly",
            "raised one that names an open container",
            "raised one behind and past the array",
            "kept one spelled oddly behind the place",
            "kept one behind that names an open container",
            "kept some and raised others",
            "key of kind s",
            "key s spelled oddly",
            "key equal to another but for its kind",
            "value of kind i",
            "value i spelled oddly",
            "table with nodes to spare",
            "output with bytes to spare",
        ]
    );
}

/// Every number of the plan has a `+`, and so have the texts put in.
#[test]
fn of_an_insertion_with_pluses() {
    let plan =
        "O:+1:\"X\":+2:{s:+1:\"x\";a:+1:{i:7;s:+1:\"a\";}s:+1:\"y\";a:+2:{i:0;r:+3;i:1;R:+01;}}";
    assert_eq!(
        met((2, 0), [plan, "s:+1:\"7\";", "s:+0:\"\";"], (20, 100)),
        [
            "in front of other pairs",
            "into an array in an object",
            "count spelled oddly",
            "count with +",
            "raised r",
            "raised the number k",
            "raised one spelled oddly",
            "raised one from behind into the array",
            "kept one spelled oddly behind the place",
            "kept one behind that names an open container",
            "kept some and raised others",
            "raised r with +",
            "kept R with +",
            "kept one with + behind the place",
            "+ in another array's count",
            "+ in an object's count",
            "+ in a length",
            "+ in a key's length",
            "+ in a class's length",
            "key of kind s",
            "key s spelled oddly",
            "key equal to another but for its kind",
            "value of kind s",
            "value s spelled oddly",
            "key s with +",
            "value s with +",
            "table with nodes to spare",
            "output with bytes to spare",
        ]
    );
}

/// The names with a `+` in them.
fn met_with_plus(place: (usize, usize), plan: &str) -> Vec<&'static str> {
    let mut names = met(place, [plan, "i:99;", "N;"], (30, 100));
    names.retain(|name| name.contains('+'));
    names
}

#[test]
fn of_pluses_told_apart() {
    assert_eq!(met_with_plus((0, 0), "a:+1:{i:0;a:0:{}}"), ["count with +"]);
    assert_eq!(
        met_with_plus((2, 0), "a:+1:{i:0;a:0:{}}"),
        ["+ in another array's count"]
    );
    assert_eq!(
        met_with_plus((0, 1), "a:1:{i:0;r:+1;}"),
        ["kept r with +", "kept one with + before the place"]
    );
    assert_eq!(
        met_with_plus((0, 0), "a:2:{i:0;N;i:1;R:+2;}"),
        ["raised R with +"]
    );
    assert!(met_with_plus((0, 0), "a:2:{i:+0;d:+1;i:1;s:2:\"+5\";}").is_empty());
    let nulls: String = (0..8).map(|key| format!("i:{key};N;")).collect();
    assert_eq!(
        met_with_plus((0, 0), &format!("a:+9:{{{nulls}i:8;r:+9;}}")),
        [
            "count with +",
            "count +9 to 10",
            "raised r with +",
            "raised +9 to 10",
        ]
    );
}

/// Five nodes; `i:9;` and `N;` make it 26 bytes long.
const PLAN: &str = "a:2:{i:5;N;i:6;R:2;}";
const FIT: [&str; 3] = [PLAN, "i:9;", "N;"];
/// More than is needed.
const AMPLE: (usize, usize) = (7, 99);

#[test]
fn of_nodes_and_places_refused() {
    let greatest = usize::MAX;
    assert_eq!(met((1, 0), FIT, AMPLE), ["11 for a key"]);
    assert_eq!(met((2, 0), FIT, AMPLE), ["11 for a plain value"]);
    assert_eq!(met((4, 0), FIT, AMPLE), ["11 for an r or R"]);
    assert_eq!(met((5, 0), FIT, AMPLE), ["11 for the count of nodes"]);
    assert_eq!(met((0, 3), FIT, AMPLE), ["12 for the count and one"]);
    assert_eq!(
        met((0, greatest), [PLAN, "i:9;", "r:1;"], AMPLE),
        ["12 for the greatest place", "12 where 13 holds"]
    );
    assert_eq!(
        met((greatest, 0), ["x", "", ""], AMPLE),
        ["reading's own where 11 holds"]
    );
}

#[test]
fn of_texts_and_keys_refused() {
    assert_eq!(
        met((0, 0), [PLAN, "d:5;", "N;"], AMPLE),
        ["13 for a key of kind d"]
    );
    assert_eq!(
        met((0, 0), [PLAN, "i:+5;", "N;;"], AMPLE),
        ["13 for bytes behind the value", "13 where 9 holds"]
    );
    assert_eq!(
        met((0, 0), [PLAN, "i:+5;", "N;"], (6, 99)),
        ["9 for a key spelled otherwise", "9 where 7 holds"]
    );
}

#[test]
fn of_signs_refused() {
    let keys = [
        ("s:+:\"\";", "not of its form", "with + and no digit"),
        ("s:++1:\"a\";", "not of its form", "with + and no digit"),
        ("s:-1:\"a\";", "not of its form", "with -"),
        ("s:+65537:\"\";", "out of range", "out of range behind +"),
    ];
    for (text, wrong, sign) in keys {
        let named = |what| [wrong, sign].map(|why| format!("13 for a {what} {why}"));
        assert_eq!(met((0, 0), [PLAN, text, "N;"], AMPLE), named("key"));
        assert_eq!(met((0, 0), [PLAN, "i:9;", text], AMPLE), named("value"));
    }
    assert_eq!(
        met((0, 0), ["a:1:{s:1:\"k\";N;}", "s:+1:\"k\";", "N;"], AMPLE),
        ["9 for a key spelled otherwise", "9 for a key s with +"]
    );
}

#[test]
fn of_depth_and_lengths_refused() {
    let deepest = "a:1:{i:0;".repeat(63) + "a:0:{}" + &"}".repeat(63);
    assert_eq!(
        met((126, 0), [&deepest, "i:5;", "N;"], (128, 999)),
        ["8 for an array at depth 64", "8 where 7 holds"]
    );
    assert_eq!(
        met((0, 0), FIT, (5, 25)),
        ["7 with room for the old plan alone", "7 where 14 holds"]
    );
    assert_eq!(met((0, 0), FIT, (6, 26)), ["7 with room for one node more"]);
    assert_eq!(met((0, 0), FIT, (7, 25)), ["14 for one byte"]);
    // Reading's own 7.
    assert!(met((0, 0), FIT, (4, 0)).is_empty());
}
