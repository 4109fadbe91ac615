//! What an edit did, said on standard error.

use crate::arguments::Job;
use crate::files::descriptors::{self, STANDARD_ERROR, STANDARD_OUTPUT};
use crate::files::input;
use crate::files::lock::identity;
use crate::files::output::Destination;
use std::io::{self, Write};
use tonschnecke::lent::Insertion;
use tonschnecke::{Kind, Plan};

/// Says it, with the file that it is about, unless it is not wanted.
pub fn say(job: &Job, sentence: impl FnOnce() -> String) {
    if !job.report {
        return;
    }
    let file = match &job.destination {
        Destination::File(file) | Destination::InPlace(file) => Some(file),
        // Whose plan it is has to be told where there are several.
        Destination::StandardOutput => job.file.as_ref().filter(|_| job.heading),
    };
    let file = file.map_or(String::new(), |file| {
        format!("{}: ", input::name(Some(file)))
    });
    let dry_run = match job.dry_run {
        true => "dry run, nothing is written: ",
        false => "",
    };
    let new_line = if follows_plan(job) { "\n" } else { "" };
    let line = format!("{new_line}{file}{dry_run}{}\n", sentence());
    // The plan is written: where standard error fails, the status still says so.
    let _ = io::stderr().write_all(line.as_bytes());
}

/// Whether it stands behind the plan, which ends no line: on a terminal, or in one file with it.
fn follows_plan(job: &Job) -> bool {
    let printed = matches!(job.destination, Destination::StandardOutput);
    let file = |number| {
        let metadata = descriptors::duplicate(number).and_then(|file| file.metadata());
        metadata.ok().as_ref().map(identity)
    };
    printed && !job.dry_run && !job.heading && file(STANDARD_OUTPUT) == file(STANDARD_ERROR)
}

pub fn of_insertion(insertion: Insertion<'_>, old: &Plan, new: &Plan) -> String {
    let array = old
        .value(insertion.array_node)
        .expect("it was inserted into");
    let raised = ordinals_named(old)
        .zip(ordinals_named(new))
        .filter(|(old, new)| old != new)
        .count();
    format!(
        "1 pair put in at place {} of {}, {} raised",
        insertion.pair_index,
        array.path(),
        counted(raised, "reference")
    )
}

/// What the references name, in their order, which inserting a plain value does not change.
fn ordinals_named(plan: &Plan) -> impl Iterator<Item = usize> + '_ {
    plan.values().filter_map(|value| match value.kind() {
        Kind::Reference { ordinal, .. } => Some(ordinal),
        _ => None,
    })
}

pub fn of_canonical(old: &Plan, new: &Plan) -> String {
    match old.bytes().len() - new.bytes().len() {
        0 if old == new => "the plan is canonical already".into(),
        fewer => format!("the canonical text has {} fewer", counted(fewer, "byte")),
    }
}

fn counted(count: usize, noun: &str) -> String {
    match count {
        0 => format!("no {noun}"),
        1 => format!("1 {noun}"),
        _ => format!("{count} {noun}s"),
    }
}
