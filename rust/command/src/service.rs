//! The four subcommands, each on the library's services.

use crate::arguments::pair::{Array, Pair, Place};
use crate::arguments::{Job, Service};
use crate::failure::Failure;
use crate::files::input::{self, Input};
use crate::files::output::Output;
use crate::files::signals;
use crate::words::{refusal, report};
use std::io::{self, Write};
use tonschnecke::lent::Insertion;
use tonschnecke::{Kind, Nowhere, Plan, Value};

/// Nothing is written before the library has accepted.
pub fn run(job: &Job) -> Result<(), Failure> {
    let of_file = |failure: Failure| failure.of(job.file.as_deref(), job.heading);
    let outcome = Task::start(job).and_then(|task| task.perform());
    signals::release();
    outcome.map_err(of_file)
}

/// A job whose plan was read.
struct Task<'a> {
    job: &'a Job,
    output: Output<'a>,
    plan: Plan,
}

impl<'a> Task<'a> {
    /// The output is found, and if it is the plan's own file locked, before the plan is read.
    fn start(job: &'a Job) -> Result<Self, Failure> {
        let mut output = Output::find(job)?;
        let mut input = Input::open(job.file.as_deref());
        if output.lock(job, &input)? {
            // It may have been replaced while the lock was waited for.
            input = input.open_again();
        }
        let source = input.read()?;
        let plan = Plan::read(&source[..]).map_err(|refused| refusal::of_plan(refused, &source))?;
        Ok(Task { job, output, plan })
    }

    fn perform(&self) -> Result<(), Failure> {
        let plan = &self.plan;
        match &self.job.service {
            Service::Nodes => self.print(|out| lines(plan, out)),
            Service::Show { places: false } => self.print(|out| write!(out, "{plan}")),
            Service::Show { places: true } => {
                self.print(|out| write!(out, "{}", plan.tree().with_places()))
            }
            Service::Canonical => {
                let canonical = plan.canonical();
                self.write(&canonical, || report::of_canonical(plan, &canonical))
            }
            Service::Insert(pair) => {
                let insertion = insertion(pair, plan)
                    .map_err(|nowhere| Failure::Nowhere(nowhere.to_string()))?;
                let new = plan
                    .insert(insertion)
                    .map_err(|refused| refusal::of_insertion(refused, insertion, plan))?;
                self.write(&new, || report::of_insertion(insertion, plan, &new))
            }
        }
    }

    /// Prints lines, below the name of the plan's file where there are several.
    fn print(&self, fill: impl FnOnce(&mut dyn Write) -> io::Result<()>) -> Result<(), Failure> {
        self.output.write(self.plan.bytes(), |out| {
            if self.job.heading {
                writeln!(out, "==> {} <==", input::name(self.job.file.as_deref()))?;
            }
            fill(out)
        })
    }

    /// Writes the new plan's bytes and nothing else, and says what was done.
    fn write(&self, new: &Plan, done: impl FnOnce() -> String) -> Result<(), Failure> {
        self.print(|out| {
            out.write_all(new.bytes())?;
            if self.job.heading {
                writeln!(out)?;
            }
            Ok(())
        })?;
        report::say(self.job, done);
        Ok(())
    }
}

/// A line for each node: its words.
fn lines(plan: &Plan, out: &mut dyn Write) -> io::Result<()> {
    for [tag, ordinal, word, length, link, end] in plan.rows() {
        writeln!(out, "{tag},{ordinal},{word},{length},{link},{end}")?;
    }
    Ok(())
}

fn insertion<'p>(pair: &'p Pair, plan: &Plan) -> Result<Insertion<'p>, Nowhere> {
    let array_node = match &pair.array {
        Array::Node(node) => *node,
        Array::Path(path) => plan.find(path)?.node(),
    };
    Ok(Insertion {
        array_node,
        pair_index: match plan.value(array_node) {
            Some(array) if matches!(array.kind(), Kind::Array { .. }) => {
                pair_index(&pair.place, array)?
            }
            // The library refuses the node, whatever the place.
            _ => 0,
        },
        key: &pair.key,
        value: &pair.value,
    })
}

fn pair_index(place: &Place, array: Value<'_>) -> Result<usize, Nowhere> {
    let place_of = |key| {
        let value = array.child(key)?;
        Ok(value.place().expect("an array holds it"))
    };
    match place {
        Place::Index(index) => Ok(*index),
        Place::End => Ok(array.count()),
        Place::Before(key) => place_of(key),
        Place::After(key) => Ok(place_of(key)? + 1),
    }
}
