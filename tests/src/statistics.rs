//! What a run has reached: counted, printed, and judged.

mod calls;
mod plans;
mod tally;

use crate::call::{Reply, Service};
use crate::circumstances::{self, Met};
use crate::model::Survey;
use calls::Calls;
use plans::Plans;
use std::fmt;
use tally::Tally;

/// Counts over many plans and the calls made with them.
pub struct Statistics {
    plans: Plans,
    /// By service, in the order of `Service::ALL`.
    calls: [Calls; Service::ALL.len()],
    /// By circumstance.
    insertions: Tally,
}

impl Default for Statistics {
    fn default() -> Self {
        let named = circumstances::names().map(|name| format!("inserting: {name}"));
        Statistics {
            plans: Plans::default(),
            calls: Default::default(),
            insertions: Tally::new(named),
        }
    }
}

/// One line of the printed table.
struct Line {
    name: String,
    count: u64,
    /// Whether a run counts only if this was reached.
    needed: bool,
}

impl Line {
    fn told(name: impl Into<String>, count: u64) -> Self {
        Line {
            name: name.into(),
            count,
            needed: false,
        }
    }

    fn needed(name: impl Into<String>, count: u64) -> Self {
        Line {
            name: name.into(),
            count,
            needed: true,
        }
    }
}

impl Statistics {
    /// Plans met, all different.
    pub fn plans(&self) -> u64 {
        self.plans.met
    }

    /// Counts a plan by its answer with a table that suffices.
    pub fn count_plan(&mut self, source: &[u8], survey: &Survey) {
        self.plans.count(source, survey);
    }

    /// Counts one call on which both sides agreed.
    pub fn count_call(&mut self, service: Service, reply: Reply) {
        self.calls[service as usize].count(reply);
    }

    /// Counts what one of those calls was like, if it was for inserting.
    pub fn count_insertion(&mut self, met: &Met) {
        self.insertions.count(circumstances::of(met));
    }

    /// What should have been reached and was not.
    pub fn missing(&self) -> Vec<String> {
        let unmet = |line: &Line| line.needed && line.count == 0;
        let missing = self.lines().into_iter().filter(unmet);
        missing.map(|line| line.name).collect()
    }

    fn lines(&self) -> Vec<Line> {
        let calls = Service::ALL.into_iter().zip(&self.calls);
        let of_calls = calls.flat_map(|(service, calls)| calls.lines(service));
        let of_plans = self.plans.lines().into_iter();
        let lines = of_plans.chain(of_calls);
        lines.chain(self.insertions.lines()).collect()
    }
}

/// Generated and enumerated plans side by side.
pub struct Report<'a> {
    pub generated: &'a Statistics,
    pub enumerated: &'a Statistics,
}

impl fmt::Display for Report<'_> {
    fn fmt(&self, out: &mut fmt::Formatter<'_>) -> fmt::Result {
        writeln!(out, "{:<56}{:>12}{:>12}", "", "generated", "enumerated")?;
        let enumerated = self.enumerated.lines().into_iter();
        for (generated, enumerated) in self.generated.lines().into_iter().zip(enumerated) {
            let Line { name, count, .. } = generated;
            writeln!(out, "{name:<56}{count:>12}{:>12}", enumerated.count)?;
        }
        Ok(())
    }
}
