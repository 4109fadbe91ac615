//! Compares the library with the model on enumerated and generated plans and insertions, tells what
//! it reached.
//!
//! `--plans N` sets how many different plans are generated, `--seed N` from which seed. With
//! `--seconds N` plans are only generated, from seed after seed, until the time is over; they are
//! different within each seed.
//! `--last-plan FILE` keeps each plan in a file while it is read, for a library that crashes, and
//! each insertion in `FILE.insertion`, its plan included.

use std::path::PathBuf;
use std::process::ExitCode;
use std::time::{Duration, Instant};
use tonschnecke_tests::call::{Lent, Service, Texts};
use tonschnecke_tests::campaign::{self, Campaign, Failure};
use tonschnecke_tests::compare::Mismatch;
use tonschnecke_tests::random::Random;
use tonschnecke_tests::shrink::shrink;
use tonschnecke_tests::statistics::{Report, Statistics};

const USAGE: &str = "usage: differential [--seed N] [--plans N] [--seconds N] [--last-plan FILE]";
/// Seed of the gate's run.
const DEFAULT_SEED: u64 = 20_240_229;
/// Generated plans of the gate's run, and of each seed of a timed run.
const DEFAULT_PLANS: u64 = 220_000;

struct Settings {
    seed: u64,
    plans: u64,
    seconds: Option<u64>,
    last_plan: Option<PathBuf>,
}

fn main() -> ExitCode {
    let Some(settings) = settings(std::env::args().skip(1)) else {
        eprintln!("{USAGE}");
        return ExitCode::from(2);
    };
    let start = Instant::now();
    let mut generated = Campaign::new(settings.last_plan.clone());
    let mut enumerated = Campaign::new(settings.last_plan.clone());
    let outcome = run(&settings, &mut generated, &mut enumerated);
    let report = Report {
        generated: &generated.statistics,
        enumerated: &enumerated.statistics,
    };
    print!("seed {}\n{report}", settings.seed);
    println!("{:.1} seconds", start.elapsed().as_secs_f64());
    match outcome {
        Ok(()) => judge(&generated.statistics),
        Err(failure) => {
            explain(&failure);
            ExitCode::FAILURE
        }
    }
}

/// The settings asked for; none if the arguments are not understood.
fn settings(mut arguments: impl Iterator<Item = String>) -> Option<Settings> {
    let mut settings = Settings {
        seed: DEFAULT_SEED,
        plans: DEFAULT_PLANS,
        seconds: None,
        last_plan: None,
    };
    while let Some(name) = arguments.next() {
        let value = arguments.next()?;
        match name.as_str() {
            "--seed" => settings.seed = value.parse().ok()?,
            "--plans" => settings.plans = value.parse().ok()?,
            "--seconds" => settings.seconds = Some(value.parse().ok()?),
            "--last-plan" => settings.last_plan = Some(value.into()),
            _ => return None,
        }
    }
    Some(settings)
}

fn run(
    settings: &Settings,
    generated: &mut Campaign,
    enumerated: &mut Campaign,
) -> Result<(), Failure> {
    let Some(seconds) = settings.seconds else {
        enumerated.enumerate()?;
        return generated.generate(settings.seed, settings.plans, None);
    };
    let deadline = Instant::now() + Duration::from_secs(seconds);
    let mut seeds = Random::new(settings.seed);
    while Instant::now() < deadline {
        generated.generate(seeds.word(), settings.plans, Some(deadline))?;
        generated.forget();
    }
    Ok(())
}

/// Prints the texts on which the sides differ, then shorter ones that the same service gets wrong,
/// if there are.
fn explain(failure: &Failure) {
    let texts = failure.texts.lent();
    let call = failure.mismatch.call;
    println!("MISMATCH on a plan of {} bytes", texts.source.len());
    show(texts, &failure.mismatch);
    let shortest = shrink(texts, |shorter| campaign::mismatch(shorter, call).is_some());
    let shorter = shortest.lent();
    let mismatch = campaign::mismatch(shorter, call);
    if let Some(mismatch) = mismatch.filter(|_| shorter != texts) {
        println!("shrunk to {} bytes", shorter.source.len());
        show(shorter, &mismatch);
    }
}

fn show(texts: Lent, mismatch: &Mismatch) {
    let Texts { source, key, value } = texts.map(|text| text.escape_ascii());
    println!("plan    {source}");
    if mismatch.call.service == Service::Insert {
        println!("key     {key}\nvalue   {value}");
    }
    println!("{mismatch}");
}

/// The run counts only if the generated plans and insertions reached every refusal, kind, odd
/// spelling and circumstance.
fn judge(generated: &Statistics) -> ExitCode {
    let missing = generated.missing();
    for name in &missing {
        println!("NOT REACHED: {name}");
    }
    if missing.is_empty() {
        println!("library and model agree on every call");
        return ExitCode::SUCCESS;
    }
    ExitCode::FAILURE
}
