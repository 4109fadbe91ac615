//! The benchmark's peer keeps the contract that it is timed for.

use tonschnecke_bench::peer;
use tonschnecke_tests::call::{Call, Lent};
use tonschnecke_tests::cases;
use tonschnecke_tests::compare;
use tonschnecke_tests::generate;
use tonschnecke_tests::lengths;
use tonschnecke_tests::memory::Setting;
use tonschnecke_tests::model::{self, WORDS};
use tonschnecke_tests::random::Random;

#[test]
fn every_case_has_the_answer_written_by_hand() {
    cases::hold(peer::side);
}

/// All services, with generated plans and insertions.
#[test]
fn peer_and_model_agree() {
    let mut random = Random::new(1);
    for _ in 0..10_000 {
        let plan = generate::plan(&mut random);
        let survey = model::survey(&plan, usize::MAX);
        let calls = lengths::around(&survey, plan.len(), &mut random);
        hold(Lent::plan(&plan), calls);
        let insertion = generate::insertion(&mut random, &plan, &survey);
        let (texts, place) = (insertion.texts(&plan), insertion.place);
        let to_write = model::bytes_to_write(texts, place).ok();
        let calls = lengths::around_insertion(&survey, place, to_write, &mut random);
        hold(texts, calls);
    }
}

/// The set of keys is one for all containers, so that here and there an equal key of another stands in the way. Even
/// counts would spread them too evenly for that, and keys that rise are in no set.
#[test]
fn keys_of_other_containers_do_not_repeat() {
    let mut random = Random::new(1);
    let array = |i: usize| format!("i:{i};{}", keys(random.between(9, 15), "z"));
    let arrays: String = (0..400).map(array).collect();
    for last in ["z", "a"] {
        let plan = format!("a:401:{{{arrays}i:400;{}}}", keys(9, last));
        let is_accepted = model::read(plan.as_bytes(), plan.len()).is_ok();
        assert_eq!(is_accepted, last == "z");
        let calls = vec![Call::read(plan.len() * WORDS)];
        hold(Lent::plan(plan.as_bytes()), calls);
    }
}

/// An array with so many letters for keys, down to a, and a last one.
fn keys(letters: usize, last: &str) -> String {
    let letters = "onmlkjihgfedcba"[15 - letters..].split_inclusive(char::is_alphabetic);
    let keys: Vec<&str> = letters.chain([last]).collect();
    let pairs: String = keys.iter().map(|key| format!("s:1:\"{key}\";N;")).collect();
    format!("a:{}:{{{pairs}}}", keys.len())
}

fn hold(texts: Lent, calls: Vec<Call>) {
    for call in calls {
        let compared = compare::with_model(peer::side, texts, call, Setting::Alone);
        if let Err(mismatch) = compared {
            panic!("{:?}\n{mismatch}", texts.map(|text| text.escape_ascii()));
        }
    }
}
