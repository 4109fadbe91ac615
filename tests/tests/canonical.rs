//! What canonical text is to the plan that it was made of, on the model's side.

use tonschnecke_tests::cases;
use tonschnecke_tests::generate;
use tonschnecke_tests::model::{self, Row, Survey, Table};
use tonschnecke_tests::oddities;
use tonschnecke_tests::random::Random;

/// Calls `check` with accepted plans, generated and written by hand.
fn for_accepted_plans(check: impl Fn(&[u8], &Survey)) {
    let mut random = Random::new(1);
    let generated = (0..20_000).map(|_| generate::valid(&mut random));
    let by_hand = cases::all().into_iter().map(|case| case.texts.source);
    for plan in generated.chain(by_hand) {
        let survey = model::survey(&plan, usize::MAX);
        if survey.answer.is_ok() {
            check(&plan, &survey);
        }
    }
}

/// The tables of a plan and of its canonical text.
fn tables(plan: &[u8], text: &[u8]) -> (Table, Table) {
    let read = |source| model::read(source, usize::MAX).expect("accepted");
    (read(plan), read(text))
}

/// What a node means apart from where its text stands: the other words, and the text.
fn without_offset<'a>(row: &Row, source: &'a [u8]) -> (Row, &'a [u8]) {
    let [tag, ordinal, offset, length, link, end] = *row;
    if !b"dsO".map(u64::from).contains(&tag) {
        return (*row, b"");
    }
    let text = &source[offset as usize..][..length as usize];
    ([tag, ordinal, 0, length, link, end], text)
}

#[test]
fn canonical_text_has_the_nodes_of_the_plan() {
    for_accepted_plans(|plan, survey| {
        let text = &survey.canonical;
        let (before, after) = tables(plan, text);
        assert_eq!(before.ordinals, after.ordinals);
        assert_eq!(before.rows.len(), after.rows.len());
        for (old, new) in before.rows.iter().zip(&after.rows) {
            let (old, new) = (without_offset(old, plan), without_offset(new, text));
            assert_eq!(old, new, "{}", plan.escape_ascii());
        }
    });
}

#[test]
fn canonical_text_is_its_own() {
    for_accepted_plans(|_, survey| {
        let again = model::survey(&survey.canonical, usize::MAX).canonical;
        let shown = survey.canonical.escape_ascii();
        assert_eq!(again, survey.canonical, "{shown}");
    });
}

#[test]
fn canonical_text_is_never_longer_and_differs_by_odd_spellings_alone() {
    for_accepted_plans(|plan, survey| {
        let text = &survey.canonical;
        let is_odd =
            |source, survey: &Survey| oddities::of(source, &survey.numerals).any(|odd| odd);
        assert!(text.len() <= plan.len());
        assert_eq!(
            text != plan,
            is_odd(plan, survey),
            "{}",
            plan.escape_ascii()
        );
        assert!(!is_odd(text, &model::survey(text, usize::MAX)));
    });
}

/// The other way to canonical text: by bytes, without a tree.
#[test]
fn canonical_text_is_the_plan_with_its_numerals_respelled() {
    for_accepted_plans(|plan, survey| {
        let mut text = Vec::new();
        let mut copied = 0;
        for numeral in &survey.numerals {
            let span = numeral.span;
            text.extend(&plan[copied..span.offset]);
            text.extend(shortest(span.of(plan)));
            copied = span.offset + span.length;
        }
        text.extend(&plan[copied..]);
        assert_eq!(text, survey.canonical, "{}", plan.escape_ascii());
    });
}

fn shortest(numeral: &[u8]) -> Vec<u8> {
    let numeral = str::from_utf8(numeral).expect("a sign and digits");
    let digits = numeral.trim_start_matches(['+', '-', '0']);
    match (digits, numeral.starts_with('-')) {
        ("", _) => b"0".to_vec(),
        (digits, true) => format!("-{digits}").into_bytes(),
        (digits, false) => digits.into(),
    }
}
