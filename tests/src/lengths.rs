//! Which tables, in words, and which outputs, in bytes, a plan is tried with.

use crate::call::{Call, Lent, Place, Service};
use crate::model::{self, Survey, WORDS};
use crate::random::Random;

/// The table the thin program lends.
const PROGRAM_TABLE: usize = 8_190;

/// Outputs about as long as the longest plan.
const SPACIOUS_OUTPUTS: [usize; 3] = [65_535, 65_536, 65_600];

/// An output that would suffice for many insertions.
const REFUSED_OUTPUT: usize = 100;

/// Plans longer than this are tried with fewer lengths: they take the time of a thousand others.
pub const LONG_SOURCE: usize = 8_000;

/// Calls of reading and retyping with lengths around those that just suffice, by chance others.
pub fn around(survey: &Survey, source_len: usize, random: &mut Random) -> Vec<Call> {
    let tables = tables_around(survey, source_len, random);
    let outputs = outputs_around(survey, source_len, random);
    let retypings = outputs
        .into_iter()
        .map(|out_len| Call::canonicalize(table_near(survey, random), out_len));
    tables
        .into_iter()
        .map(Call::read)
        .chain(retypings)
        .collect()
}

/// For a refused plan what just suffices is room for the nodes before the refusal, so that 7 stands
/// right beside the others.
fn tables_around(survey: &Survey, source_len: usize, random: &mut Random) -> Vec<usize> {
    let enough = survey.nodes_met * WORDS;
    let mut lengths = vec![enough];
    if survey.nodes_met > 0 {
        let partial = if random.one_in(3) { WORDS - 1 } else { 0 };
        lengths.push(enough - WORDS + partial);
    }
    lengths.push(enough + random.between(1, WORDS - 1));
    if source_len > LONG_SOURCE {
        return lengths;
    }
    lengths.push(enough + random.between(WORDS, 10 * WORDS));
    if random.one_in(4) && survey.nodes_met > 0 {
        lengths.push(random.below(enough));
    }
    if random.one_in(8) {
        lengths.push(random.below(WORDS));
    }
    if random.one_in(64) {
        lengths.push(PROGRAM_TABLE);
    }
    lengths
}

/// The larger ones come first: there a text too long shows where it is wrong, and not just as 14.
/// What reading refuses is refused alike with any output.
fn outputs_around(survey: &Survey, source_len: usize, random: &mut Random) -> Vec<usize> {
    if survey.answer.is_err() {
        let any = random.between(0, source_len);
        return vec![random.pick(&[0, any, source_len])];
    }
    let enough = survey.canonical.len();
    let some_more = enough + random.between(1, 40);
    let larger = random.pick(&[some_more, source_len]);
    if source_len > LONG_SOURCE {
        return vec![random.pick(&[larger, enough]), enough - 1];
    }
    let mut lengths = vec![larger, enough, enough - 1];
    if random.one_in(4) {
        lengths.push(0);
    }
    if random.one_in(4) {
        lengths.push(random.below(enough));
    }
    if random.one_in(16) {
        lengths.push(random.pick(&SPACIOUS_OUTPUTS));
    }
    lengths
}

/// Mostly a table that suffices, so that the output decides.
fn table_near(survey: &Survey, random: &mut Random) -> usize {
    let enough = survey.nodes_met * WORDS;
    match random.below(8) {
        0 => enough.saturating_sub(random.between(1, WORDS)),
        1..=4 => enough,
        _ => enough + random.between(1, 2 * WORDS),
    }
}

/// Calls of an insertion that writes so many bytes, with lengths around those that just suffice.
/// One that is refused whatever is lent has no such number.
pub fn around_insertion(
    survey: &Survey,
    place: Place,
    to_write: Option<usize>,
    random: &mut Random,
) -> Vec<Call> {
    let Some(exact) = to_write else {
        return around_refused_insertion(survey, place, random);
    };
    let larger = match random.one_in(16) {
        true => random.pick(&SPACIOUS_OUTPUTS),
        false => exact + random.between(1, 40),
    };
    let mut lengths = vec![
        (table_after(survey, random), larger),
        (table_after(survey, random), exact),
    ];
    if random.one_in(2) {
        lengths.push((table_after(survey, random), exact - 1));
    }
    if random.one_in(2) {
        let output = random.pick(&[larger, exact, exact - 1, 0]);
        lengths.push((table_between(survey, random), output));
    }
    if random.one_in(6) {
        let any = random.below(exact);
        lengths.push((table_after(survey, random), random.pick(&[0, any])));
    }
    if random.one_in(8) {
        lengths.push((random.below(survey.nodes_met * WORDS), larger));
    }
    if exact > LONG_SOURCE {
        lengths.truncate(2);
    }
    let insert = |(table_len, out_len)| Call::insert(place, table_len, out_len);
    lengths.into_iter().map(insert).collect()
}

/// For one that is refused in any case: tables and outputs on either side of what would suffice.
fn around_refused_insertion(survey: &Survey, place: Place, random: &mut Random) -> Vec<Call> {
    let tables = [table_after(survey, random), table_between(survey, random)];
    tables
        .map(|table_len| Call::insert(place, table_len, random.below(2 * REFUSED_OUTPUT)))
        .into()
}

/// A table that suffices for two nodes more, often just so.
fn table_after(survey: &Survey, random: &mut Random) -> usize {
    let enough = (survey.nodes_met + 2) * WORDS;
    match random.below(4) {
        0..=1 => enough,
        2 => enough + random.between(1, WORDS - 1),
        _ => enough + random.between(WORDS, 5 * WORDS),
    }
}

/// A table that suffices for the plan given, but not for two nodes more.
fn table_between(survey: &Survey, random: &mut Random) -> usize {
    let enough = survey.nodes_met * WORDS;
    let words = random.between(0, 2 * WORDS - 1);
    enough + random.pick(&[0, WORDS, 2 * WORDS - 1, words])
}

/// The few calls for plans that come by the hundred thousand: for reading two tables that suffice,
/// so that both settings of the source meet one, and one that does not; for retyping one table, and
/// outputs on either side.
pub fn few(survey: &Survey, source_len: usize) -> Vec<Call> {
    let enough = survey.nodes_met * WORDS;
    let spare = source_len % WORDS;
    let mut calls = vec![Call::read(enough), Call::read(enough + spare)];
    if survey.nodes_met > 0 {
        calls.push(Call::read(enough - 1));
    }
    match survey.canonical.len() {
        0 => calls.push(Call::canonicalize(enough, source_len)),
        exact => {
            let outputs = [source_len + spare, exact, exact - 1, 0];
            calls.extend(outputs.map(|out_len| Call::canonicalize(enough, out_len)));
        }
    }
    calls
}

/// The same for an insertion into a plan.
pub fn few_insertions(survey: &Survey, place: Place, to_write: Option<usize>) -> Vec<Call> {
    let enough = (survey.nodes_met + 2) * WORDS;
    let insert = |(table_len, out_len)| Call::insert(place, table_len, out_len);
    match to_write {
        None => vec![insert((enough, REFUSED_OUTPUT))],
        Some(exact) => {
            let lengths = [
                (enough + exact % (2 * WORDS), exact + 1 + exact % WORDS),
                (enough, exact),
                (enough, exact - 1),
                (enough - 1, exact),
            ];
            lengths.map(insert).into()
        }
    }
}

/// Every call of a service that has a reason, for the search after a mismatch; `call` is the one
/// that showed it.
pub fn thorough(survey: &Survey, texts: Lent, call: Call) -> Vec<Call> {
    if call.service == Service::Insert {
        let places = places(survey, call.place).into_iter();
        return places
            .flat_map(|place| thorough_insertions(survey, texts, place))
            .collect();
    }
    let source_len = texts.source.len();
    let enough = survey.nodes_met * WORDS;
    let near = enough.saturating_sub(WORDS)..=enough + WORDS;
    let tables = near.chain([0, WORDS - 1, enough + 10 * WORDS]);
    let exact = survey.canonical.len();
    let below = exact.saturating_sub(1);
    let outputs = [source_len, exact + 1, exact, below, 0];
    match call.service {
        Service::Read => tables.map(Call::read).collect(),
        _ => tables
            .flat_map(|table_len| outputs.map(|out_len| Call::canonicalize(table_len, out_len)))
            .collect(),
    }
}

/// The place that showed the mismatch, and some of every small plan's.
fn places(survey: &Survey, shown: Place) -> Vec<Place> {
    let nodes = survey.nodes_met.min(8);
    let all = (0..nodes).flat_map(|array_node| {
        (0..4).map(move |pair_index| Place {
            array_node,
            pair_index,
        })
    });
    all.chain([shown]).collect()
}

fn thorough_insertions(survey: &Survey, texts: Lent, place: Place) -> Vec<Call> {
    let enough = (survey.nodes_met + 2) * WORDS;
    let exact = model::bytes_to_write(texts, place).unwrap_or(REFUSED_OUTPUT);
    let outputs = [exact + 1, exact, exact.saturating_sub(1), 0];
    let tables = [
        enough + 10 * WORDS,
        enough + 1,
        enough,
        enough - 1,
        enough - WORDS - 1,
        enough - 2 * WORDS,
    ];
    tables
        .into_iter()
        .flat_map(|table_len| outputs.map(|out_len| Call::insert(place, table_len, out_len)))
        .collect()
}
