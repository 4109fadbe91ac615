//! The generator keeps what its parts promise, so that the plans are what they are counted as.

use tonschnecke_tests::call::Call;
use tonschnecke_tests::circumstances::{Met, Request};
use tonschnecke_tests::generate::{self, Insertion};
use tonschnecke_tests::memory::Memory;
use tonschnecke_tests::model::{self, Survey, LONGEST_PLAN, WORDS};
use tonschnecke_tests::random::Random;
use tonschnecke_tests::sides;
use tonschnecke_tests::statistics::Statistics;

#[test]
fn valid_plans_are_accepted() {
    let mut random = Random::new(1);
    for _ in 0..20_000 {
        let plan = generate::valid(&mut random);
        let answer = model::read(&plan, usize::MAX);
        assert!(answer.is_ok(), "{:?}: {}", answer, plan.escape_ascii());
    }
}

#[test]
fn a_seed_repeats_its_plans() {
    let plans = |seed| {
        let mut random = Random::new(seed);
        (0..500)
            .map(|_| generate::plan(&mut random))
            .collect::<Vec<_>>()
    };
    assert_eq!(plans(7), plans(7));
    assert_ne!(plans(7), plans(8));
}

#[test]
fn padded_plans_reach_the_limit_of_length() {
    let mut random = Random::new(1);
    let plans: Vec<_> = (0..300).map(|_| generate::padded(&mut random)).collect();
    let accepted_at_limit = plans
        .iter()
        .filter(|plan| plan.len() == 65_536)
        .any(|plan| model::read(plan, usize::MAX).is_ok());
    assert!(accepted_at_limit);
    assert!(plans.iter().any(|plan| plan.len() == 65_537));
}

/// The insertions that a seed gives for the first plans with arrays.
fn insertions(seed: u64) -> Vec<(Vec<u8>, Insertion)> {
    let mut random = Random::new(seed);
    let mut insertions = Vec::new();
    while insertions.len() < 2_000 {
        let plan = generate::valid(&mut random);
        let survey = model::survey(&plan, usize::MAX);
        if survey.has_array() {
            let insertion = generate::insertion(&mut random, &plan, &survey);
            insertions.push((plan, insertion));
        }
    }
    insertions
}

#[test]
fn most_insertions_are_accepted() {
    let accepted = |(plan, insertion): &&(Vec<u8>, Insertion)| {
        model::bytes_to_write(insertion.texts(plan), insertion.place).is_ok()
    };
    assert!(insertions(1).iter().filter(accepted).count() > 1_200);
}

#[test]
fn a_seed_repeats_its_insertions() {
    assert_eq!(insertions(7), insertions(7));
    assert_ne!(insertions(7), insertions(8));
}

/// Counts an insertion as a run does that lends enough, with the model's answer.
fn count(statistics: &mut Statistics, source: &[u8], survey: &Survey, insertion: &Insertion) {
    let (texts, place) = (insertion.texts(source), insertion.place);
    let to_write = model::bytes_to_write(texts, place);
    let call = Call::insert(place, (survey.nodes_met + 2) * WORDS, LONGEST_PLAN);
    statistics.count_insertion(&Met {
        request: &Request::new(texts, place, survey, to_write),
        call,
        reply: sides::model(texts, call, &mut Memory::for_call(call)),
    });
}

/// Paper 02, L1: of what a run needs, everything that a plus sign has to do with.
#[test]
fn plans_and_insertions_have_plus_signs_everywhere() {
    let mut random = Random::new(1);
    let mut statistics = Statistics::default();
    for _ in 0..60_000 {
        let plan = generate::plan(&mut random);
        let survey = model::survey(&plan, usize::MAX);
        statistics.count_plan(&plan, &survey);
        if survey.has_array() {
            let insertion = generate::insertion(&mut random, &plan, &survey);
            count(&mut statistics, &plan, &survey, &insertion);
        }
    }
    let mut missing = statistics.missing();
    missing.retain(|line| line.contains('+'));
    assert!(missing.is_empty(), "{missing:#?}");
}
