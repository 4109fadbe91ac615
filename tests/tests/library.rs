//! The library against the cases written by hand, and what it does to the lent memory.

use tonschnecke_tests::call::{Call, Place, Texts};
use tonschnecke_tests::cases;
use tonschnecke_tests::compare;
use tonschnecke_tests::library::{self, Writing};
use tonschnecke_tests::memory::{Cell, Setting};
use tonschnecke_tests::model::WORDS;
use tonschnecke_tests::sides;

/// Cells that hold their patterns.
fn patterned<T: Cell>(length: usize) -> Vec<T> {
    (0..length).map(T::pattern).collect()
}

/// Puts `i:59;` and `d:2;` into an empty array: at place 1, which there is not, or at 0.
fn insert(pair_index: usize, table: &mut [u64], output: &mut [u8]) -> Writing {
    let texts = Texts {
        source: "a:00:{}",
        key: "i:59;",
        value: "d:2;",
    };
    let place = Place {
        array_node: 0,
        pair_index,
    };
    library::insert(texts.map(|text| text.as_bytes()), place, table, output)
}

#[test]
fn every_case_has_the_answer_written_by_hand() {
    cases::hold(sides::library);
}

#[test]
fn every_case_leaves_the_memory_as_the_model_says() {
    for case in cases::all() {
        for extra in 0..WORDS {
            let call = Call {
                table_len: case.call.table_len + extra,
                ..case.call
            };
            for setting in Setting::ALL {
                if let Err(mismatch) = compare::both(case.texts.lent(), call, setting) {
                    panic!("{case}\n{mismatch}");
                }
            }
        }
    }
}

/// Point 8 of docs/DECISIONS.md: also those past the last whole node.
#[test]
fn a_refusal_makes_every_lent_word_zero() {
    for length in 0..40 {
        let mut table = patterned(length);
        library::read(b"a:2:{i:0;N;i:1;b:2;}", &mut table);
        assert_eq!(table, vec![0; length]);
        // 7 below one node, else 14: the plan is read, and the output one byte too small.
        let mut table = patterned(length);
        library::canonicalize(b"s:05:\"basin\";", &mut table, &mut [0; 11]);
        assert_eq!(table, vec![0; length]);
        // 12, and 7 or 14: the output is one byte too small.
        for pair_index in [1, 0] {
            let mut table = patterned(length);
            insert(pair_index, &mut table, &mut [0; 14]);
            assert_eq!(table, vec![0; length]);
        }
    }
}

/// "Words after the last node keep what they held."
#[test]
fn an_acceptance_keeps_the_words_after_the_last_node() {
    for length in WORDS..40 {
        let keeps = |table: &[u64]| {
            assert_eq!(table[..WORDS], [115, 1, 5, 5, 0, 1]);
            assert_eq!(table[WORDS..], patterned(length)[WORDS..]);
        };
        let mut table = patterned(length);
        library::read(b"s:5:\"basin\";", &mut table);
        keeps(&table);
        let mut table = patterned(length);
        library::canonicalize(b"s:0005:\"basin\";", &mut table, &mut [0; 12]);
        keeps(&table);
    }
    for length in 3 * WORDS..60 {
        let mut table = patterned(length);
        insert(0, &mut table, &mut [0; 15]);
        let rows = [
            [97, 1, 0, 0, 1, 3],
            [105, 0, 59, 0, 0, 2],
            [100, 2, 12, 1, 0, 3],
        ];
        assert_eq!(table[..3 * WORDS], *rows.as_flattened());
        assert_eq!(table[3 * WORDS..], patterned(length)[3 * WORDS..]);
    }
}

/// "Any lent output past the written part keeps what it held"; a refusal "writes nothing to the
/// output".
#[test]
fn the_output_keeps_what_is_not_written() {
    for length in 0..20 {
        let mut output = patterned(length);
        let given = library::canonicalize(b"i:+0050;", &mut [0; WORDS], &mut output);
        holds(given, &output, b"i:50;");
        let mut output = patterned(length);
        let given = insert(0, &mut [0; 3 * WORDS], &mut output);
        holds(given, &output, b"a:1:{i:59;d:2;}");
        let mut output = patterned(length);
        insert(1, &mut [0; 3 * WORDS], &mut output);
        assert_eq!(output, patterned(length));
    }
}

/// The text in an output that it fits into, else 14; the rest as it was.
fn holds(given: Writing, output: &[u8], text: &[u8]) {
    let (written, code) = match output.len() >= text.len() {
        true => (text.len(), 0),
        false => (0, 14),
    };
    let expected = Writing {
        code,
        at: 0,
        length: written as u64,
    };
    assert_eq!(given, expected);
    assert_eq!(output[..written], text[..written]);
    assert_eq!(output[written..], patterned(output.len())[written..]);
}
