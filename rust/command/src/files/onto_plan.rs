//! Standard output that is the plan itself: what is printed would damage the plan.

use crate::arguments::Job;
use crate::failure::Failure;
use crate::files::descriptors::{self, STANDARD_OUTPUT};
use crate::files::input;
use crate::files::lock::identity;
use crate::files::output::Destination;
use std::fs::Metadata;

/// To be called before the first job, since what it prints may damage a later one's plan.
pub fn refuse(jobs: &[Job]) -> Result<(), Failure> {
    let output = descriptors::duplicate(STANDARD_OUTPUT).and_then(|output| output.metadata());
    let Some(output) = output.ok().filter(Metadata::is_file) else {
        return Ok(());
    };
    let is_plan = |job: &&Job| {
        let printed = matches!(job.destination, Destination::StandardOutput) && !job.dry_run;
        let input = input::metadata(job.file.as_deref());
        printed && input.is_ok_and(|input| identity(&input) == identity(&output))
    };
    match jobs.iter().find(is_plan) {
        Some(job) => Err(Failure::Trouble(sentence(job, output.len() == 0))),
        None => Ok(()),
    }
}

fn sentence(job: &Job, empty: bool) -> String {
    let name = match &job.file {
        Some(file) => format!(": {}", input::name(Some(file))),
        None => String::new(),
    };
    let advice = match job.service.writes_plan() {
        _ if empty => "; it is empty: with > the shell empties it before the command begins",
        true => "; use --in-place",
        false => "",
    };
    format!("standard output is the plan itself{name}{advice}")
}
