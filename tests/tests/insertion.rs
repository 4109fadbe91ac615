//! What inserting does to a plan, on the model's side, and that the check of meaning sees what it
//! should.

use tonschnecke_tests::call::{Lent, Place, Texts};
use tonschnecke_tests::cases;
use tonschnecke_tests::generate;
use tonschnecke_tests::model::{
    self, is_of, Numeral, Role, Row, Survey, Table, Written, LONGEST_PLAN,
};
use tonschnecke_tests::random::Random;

/// Calls `check` with accepted insertions, generated and written by hand.
fn for_accepted_insertions(check: impl Fn(Lent, Place, &Written)) {
    let check = |texts: Lent, place| {
        let written = model::insert(texts, place, usize::MAX, LONGEST_PLAN);
        written.is_ok_and(|written| {
            check(texts, place, &written);
            true
        })
    };
    for case in cases::all().iter().filter(|case| case.is_inserted()) {
        assert!(check(case.texts.lent(), case.call.place), "{case}");
    }
    let mut random = Random::new(1);
    let mut accepted = 0;
    for _ in 0..20_000 {
        let plan = generate::valid(&mut random);
        let survey = model::survey(&plan, usize::MAX);
        let insertion = generate::insertion(&mut random, &plan, &survey);
        accepted += usize::from(check(insertion.texts(&plan), insertion.place));
    }
    assert!(accepted > 8_000, "{accepted}");
}

fn shown(texts: Lent, place: Place) -> String {
    let Texts { source, key, value } = texts.map(|text| text.escape_ascii());
    format!("{source}, {place:?}, {key}, {value}")
}

/// The plan's survey and its table.
fn survey(source: &[u8]) -> (Survey, Table) {
    let survey = model::survey(source, usize::MAX);
    let table = survey.answer.clone().expect("accepted");
    (survey, table)
}

#[test]
fn what_is_written_means_what_it_should() {
    for_accepted_insertions(|texts, place, written| {
        let strange = model::judge(texts, place, &written.text);
        assert!(strange.is_none(), "{}: {strange:?}", shown(texts, place));
    });
}

/// "The new value has number k, and old numbers from k on are one higher. Fresh reading [...]
/// returns two nodes and one number more."
#[test]
fn two_nodes_and_one_number_more() {
    for_accepted_insertions(|texts, place, written| {
        let (before, after) = (&written.before, &written.after);
        let gap = before.gap(place);
        let number = before.new_ordinal(gap);
        let shown = shown(texts, place);
        assert_eq!(after.ordinals, before.ordinals + 1, "{shown}");
        assert_eq!(after.rows.len(), before.rows.len() + 2, "{shown}");
        assert_eq!(after.rows[gap][1], 0, "{shown}");
        assert_eq!(after.rows[gap + 1][1], number as u64, "{shown}");
        let higher = |ordinal: u64| ordinal + u64::from(ordinal >= number as u64);
        let further = |node: usize| node + if node >= gap { 2 } else { 0 };
        for (node, old) in before.rows.iter().enumerate() {
            let new = &after.rows[further(node)];
            assert_eq!((new[0], new[1]), (old[0], higher(old[1])), "{shown}");
            if is_of(old, b"rR") {
                let target = further(old[4] as usize) as u64;
                assert_eq!((new[2], new[4]), (higher(old[2]), target), "{shown}");
            }
        }
    });
}

/// The other way to the bytes written: "the old ones with three changes", without a tree.
#[test]
fn the_bytes_written_are_the_old_ones_with_three_changes() {
    for_accepted_insertions(|texts, place, written| {
        let (survey, table) = survey(texts.source);
        let gap = table.gap(place);
        let number = table.new_ordinal(gap);
        let mut changes = vec![count_change(&survey, &table, place)];
        changes.extend(reference_changes(&survey, &table, number));
        let position = position(texts.source, &survey, &table, place, gap);
        changes.push((position, 0, [texts.key, texts.value].concat()));
        changes.sort_by_key(|change| change.0);
        let mut text = Vec::new();
        let mut copied = 0;
        for (offset, length, new) in changes {
            text.extend(&texts.source[copied..offset]);
            text.extend(new);
            copied = offset + length;
        }
        text.extend(&texts.source[copied..]);
        assert_eq!(text, written.text, "{}", shown(texts, place));
    });
}

/// An offset, how many bytes are left out there, and what is put in for them.
type Change = (usize, usize, Vec<u8>);

fn of_role<'a>(survey: &'a Survey, roles: &'a [Role]) -> impl Iterator<Item = &'a Numeral> {
    let is_of = |numeral: &&Numeral| roles.contains(&numeral.role);
    survey.numerals.iter().filter(is_of)
}

fn count_change(survey: &Survey, table: &Table, place: Place) -> Change {
    let earlier = table.rows[..place.array_node].iter();
    let containers = earlier.filter(|row| is_of(row, b"aO")).count();
    let numeral = of_role(survey, &[Role::ArrayCount, Role::ObjectCount]).nth(containers);
    let span = numeral.expect("the array has a count").span;
    let count = table.rows[place.array_node][4] + 1;
    (span.offset, span.length, count.to_string().into_bytes())
}

fn reference_changes(survey: &Survey, table: &Table, number: usize) -> Vec<Change> {
    let references = table.rows.iter().filter(|row| is_of(row, b"rR"));
    references
        .zip(of_role(survey, &[Role::Copy, Role::Alias]))
        .filter(|(row, _)| row[2] >= number as u64)
        .map(|(row, Numeral { span, .. })| {
            let now = (row[2] + 1).to_string().into_bytes();
            (span.offset, span.length, now)
        })
        .collect()
}

/// "before the key that had that place, or before the array's `}` if the place is the count"
fn position(source: &[u8], survey: &Survey, table: &Table, place: Place, gap: usize) -> usize {
    // Behind a container stand a key or the end of the plan, and before those the `}` of all
    // containers that end there. A key's numeral begins two bytes behind its letter.
    let is_key = |row: &&Row| row[1] == 0 && is_of(row, b"is");
    let keys_before = table.rows[..gap].iter().filter(is_key).count();
    let mut keys = of_role(survey, &[Role::IntegerKey, Role::TextKeyLength]);
    let next = keys.nth(keys_before);
    let next = next.map_or(source.len(), |key| key.span.offset - 2);
    let [.., count, end] = table.rows[place.array_node];
    if (place.pair_index as u64) < count {
        return next;
    }
    let around = table.rows[..=place.array_node].iter();
    next - around.filter(|row| row[5] == end).count()
}

/// The insertion of the paper, and bytes that another service or a wrong one might have written.
#[test]
fn a_wrong_meaning_is_seen() {
    let texts = Texts {
        source: "a:3:{i:0;d:1.5;i:1;d:2.5;i:2;R:3;}",
        key: "i:59;",
        value: "d:2;",
    };
    let place = Place {
        array_node: 0,
        pair_index: 1,
    };
    let judge = |written: &str| {
        let texts = texts.map(|text| text.as_bytes());
        model::judge(texts, place, written.as_bytes())
    };
    assert!(judge("a:4:{i:0;d:1.5;i:59;d:2;i:1;d:2.5;i:2;R:4;}").is_none());
    // Spellings have no meaning.
    assert!(judge("a:04:{i:0;d:1.5;i:+59;d:2;i:01;d:2.5;i:2;R:04;}").is_none());
    assert!(judge("a:+4:{i:0;d:1.5;i:59;d:2;i:1;d:2.5;i:2;R:+4;}").is_none());
    for wrong in [
        texts.source,
        "",
        "N;",
        "a:4:{i:0;d:1.5;i:59;d:2;i:1;d:2.5;i:2;R:3;}",
        "a:4:{i:0;d:1.5;i:59;d:2;i:1;d:2.5;i:2;r:4;}",
        "a:4:{i:0;d:1.5;i:59;d:2;i:1;d:2.5;i:2;R:1;}",
        "a:4:{i:0;d:1.5;i:59;d:2.0;i:1;d:2.5;i:2;R:4;}",
        "a:4:{i:0;d:1.5;i:59;s:1:\"2\";i:1;d:2.5;i:2;R:4;}",
        "a:4:{i:0;d:1.5;i:58;d:2;i:1;d:2.5;i:2;R:4;}",
        "a:4:{i:0;d:1.5;s:2:\"59\";d:2;i:1;d:2.5;i:2;R:4;}",
        "a:4:{i:59;d:2;i:0;d:1.5;i:1;d:2.5;i:2;R:4;}",
        "a:4:{i:0;d:1.5;i:1;d:2.5;i:59;d:2;i:2;R:3;}",
        "a:5:{i:0;d:1.5;i:59;d:2;i:1;d:2.5;i:2;R:4;i:3;N;}",
        "a:3:{i:0;d:1.5;i:59;d:2;i:1;d:2.5;}",
        "O:0:\"\":0:{}",
        "a:4:{i:0;d:1.5;i:59;d:2;i:1;d:2.5;i:2;R:4;};",
    ] {
        assert!(judge(wrong).is_some(), "{wrong}");
    }
}

/// What is told of a wrong reference: where it stands, what it should name and what it names.
#[test]
fn a_wrong_meaning_is_told() {
    let texts = Texts {
        source: "a:2:{i:0;a:1:{i:0;N;}i:1;R:3;}",
        key: "i:9;",
        value: "N;",
    };
    let texts = texts.map(|text| text.as_bytes());
    let place = Place {
        array_node: 2,
        pair_index: 0,
    };
    let strange = model::judge(texts, place, b"a:2:{i:0;a:2:{i:9;N;i:0;N;}i:1;R:3;}");
    assert_eq!(
        strange.expect("R names the new value").to_string(),
        "at path [1]: expected Alias([0, 1]), found Alias([0, 0])"
    );
}
