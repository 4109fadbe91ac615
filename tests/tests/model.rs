//! The model against what the paper says, written by hand, and that what is written counts.

use tonschnecke_tests::cases::{self, worked};
use tonschnecke_tests::sides;

#[test]
fn every_case_has_the_answer_written_by_hand() {
    cases::hold(sides::model);
}

/// Whether what is told under a worked call can be read, and is what the model answers and leaves.
fn holds(line: &str, told: &[&str]) -> bool {
    worked::case(line, told).is_ok_and(|case| case.check(sides::model).is_ok())
}

/// The lines under every worked call, with one character changed, one line left out or said twice.
#[test]
fn other_expectations_do_not_hold() {
    for (line, told) in worked::calls() {
        assert!(holds(line, &told), "{line}");
        for (place, text) in told.iter().enumerate() {
            let around = [&told[..place], &told[place + 1..]];
            assert!(!holds(line, &around.concat()), "{line}: no {text}");
            let twice = [around[0], &[text, text], around[1]].concat();
            assert!(!holds(line, &twice), "{line}: twice {text}");
            for changed in changes(text) {
                let told = [around[0], &[&changed], around[1]].concat();
                assert!(!holds(line, &told), "{line}: {changed}");
            }
        }
    }
}

/// A text with another character in each place, and with one more.
fn changes(text: &str) -> Vec<String> {
    let others = ["0", "1", "7", " ", ";"];
    let places = (0..text.len()).flat_map(|at| others.map(|other| (at, at + 1, other)));
    let replaced = places.filter(|&(at, end, other)| text[at..end] != *other);
    let more = others.map(|other| (text.len(), text.len(), other));
    replaced
        .chain(more)
        .map(|(at, end, other)| [&text[..at], other, &text[end..]].concat())
        .collect()
}
