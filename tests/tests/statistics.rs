//! A run counts only if it reached what there is. The model answers by the papers; how many refusals there are, the
//! wrapper says, so that none is left out of the comparison.

use tonschnecke::Reason;
use tonschnecke_tests::model;
use tonschnecke_tests::statistics::Statistics;

#[test]
fn a_run_needs_every_refusal() {
    let missing = Statistics::default().missing();
    for number in Reason::ALL.map(Reason::code) {
        let refused = format!(" refused {number} ");
        assert!(
            missing.iter().any(|line| line.contains(&refused)),
            "{refused}"
        );
    }
}

/// What a plan reaches of what a run needs: of its spelling, or of its refusal.
fn reached(plan: &str) -> Vec<String> {
    let source = plan.as_bytes();
    let mut statistics = Statistics::default();
    let mut needed = statistics.missing();
    statistics.count_plan(source, &model::survey(source, usize::MAX));
    let missing = statistics.missing();
    needed.retain(|line| line.starts_with("plans") && !missing.contains(line));
    needed
}

/// Every place of a number, here a `#`.
const NUMBERS: [(&str, &str); 7] = [
    ("a length", "s:#:\"a\";"),
    ("a key's length", "a:1:{s:#:\"k\";N;}"),
    ("a class's length", "O:#:\"X\":0:{}"),
    ("an array's count", "a:#:{i:0;N;}"),
    ("an object's count", "O:1:\"X\":#:{s:1:\"k\";N;}"),
    ("an r", "a:1:{i:0;r:#;}"),
    ("an R", "a:1:{i:0;R:#;}"),
];

#[test]
fn a_run_needs_a_plus_in_every_place_of_a_number() {
    for (place, plan) in NUMBERS {
        let reached = |number: &str| reached(&plan.replace('#', number));
        let alone = format!("plans refused 2 for + and no digit in {place}");
        assert!(reached("1").is_empty());
        assert_eq!(reached("+1"), [format!("plans with + in {place}")]);
        assert_eq!(
            reached("+01"),
            [format!("plans with + and zeros in {place}")]
        );
        assert_eq!(reached("01"), [format!("plans with zeros in {place}")]);
        assert_eq!(reached("+"), [alone.as_str()]);
        assert_eq!(
            reached("++1"),
            [alone.as_str(), "plans refused 2 for ++ before a number"]
        );
        assert_eq!(
            reached("+-1"),
            [alone.as_str(), "plans refused 2 for +- before a number"]
        );
        assert_eq!(reached("-1"), [format!("plans refused 2 for - in {place}")]);
        assert_eq!(
            reached("+65537"),
            [format!("plans refused 5 behind + in {place}")]
        );
    }
}

#[test]
fn a_run_needs_other_refusals_of_signs() {
    for (plan, refused) in [
        ("i:++5;", "2 for ++ in an integer"),
        ("a:1:{i:++5;N;}", "2 for ++ in a key"),
        ("b:+1;", "2 for + in a b"),
        ("r:+1;", "6 behind + in an r"),
        ("a:1:{i:0;R:+2;}", "6 behind + in an R"),
        (
            "a:2:{s:1:\"k\";N;s:+1:\"k\";N;}",
            "9 behind + in a key's length",
        ),
    ] {
        assert_eq!(reached(plan), [format!("plans refused {refused}")]);
    }
    assert_eq!(
        reached("s:+"),
        [
            "plans refused 2 for + and no digit in a length",
            "plans refused 2 for + at the plan's end"
        ]
    );
    for other in ["i:+;", "i:-;", "b:2;", "r:1;", "s:65537", "N;+", "d:++1;"] {
        assert!(reached(other).is_empty(), "{other}");
    }
}

/// A `+` more or less at the limit of length.
#[test]
fn a_run_needs_a_plus_at_the_limit_of_length() {
    let longest = |sign: &str, zeros| format!("s:{sign}{}1:\"a\";", "0".repeat(zeros));
    let too_long = ["plans refused 1 for one + too many"];
    assert_eq!(longest("+", 65_527).len(), 65_536);
    assert_eq!(reached(&longest("+", 65_528)), too_long);
    assert!(reached(&longest("+", 65_529)).is_empty());
    assert!(reached(&longest("", 65_529)).is_empty());
    // Without the plus of an integer it is accepted too, but that is no number.
    assert!(reached(&format!("i:+{};", "0".repeat(65_533))).is_empty());
    let needed = "65,536 bytes, + of a number in it".to_string();
    assert!(Statistics::default().missing().contains(&needed));
    let integer = format!("i:+{};", "0".repeat(65_532));
    for (plan, is_reached) in [
        (longest("+", 65_527), true),
        (longest("", 65_528), false),
        (integer, false),
    ] {
        let mut statistics = Statistics::default();
        let survey = model::survey(plan.as_bytes(), usize::MAX);
        statistics.count_plan(plan.as_bytes(), &survey);
        assert_eq!(!statistics.missing().contains(&needed), is_reached);
    }
}
