//! The command `tonschnecke`: looks at plans, writes their canonical text and inserts pairs.
//! Everything that matters is done by the proved library; this reads, writes and explains.

mod arguments;
mod failure;
mod files;
mod service;
mod words;

use arguments::{Job, Request};
use failure::Failure;
use files::onto_plan;
use files::output::Output;
use std::env;
use std::process::ExitCode;

const VERSION: &str = concat!("tonschnecke ", env!("CARGO_PKG_VERSION"), "\n");

fn main() -> ExitCode {
    let status = match arguments::parse(env::args_os().skip(1)) {
        Ok(Request::Help(text)) => status(say(text)),
        Ok(Request::Version) => status(say(VERSION)),
        Ok(Request::Run(jobs)) => run(&jobs),
        Err(failure) => failure.report(),
    };
    ExitCode::from(status)
}

/// A plan that fails keeps none of the others, and the greatest status is given.
fn run(jobs: &[Job]) -> u8 {
    if let Err(failure) = onto_plan::refuse(jobs) {
        return failure.report();
    }
    let statuses = jobs.iter().map(|job| status(service::run(job)));
    statuses.max().unwrap_or(0)
}

fn say(text: &str) -> Result<(), Failure> {
    Output::standard().write(&[], |out| out.write_all(text.as_bytes()))
}

fn status(outcome: Result<(), Failure>) -> u8 {
    outcome.map_or_else(Failure::report, |()| 0)
}
