//! The goals that a run is held to. A missed one is told and nothing more: no test rests on a time.

use crate::plans::{self, Plan};
use crate::table::{told, Measured};
use tonschnecke_tests::call::Service;

/// What a plan's call may take at most.
enum Limit {
    /// Of the peer's time. The numbers were set beside a reader of 0.64 ns a byte on the largest list, so the peer's own
    /// is told too.
    OfPeer(f64),
    OfPhp(f64),
    Microseconds(f64),
    /// For each byte of the plan.
    Instructions(f64),
}

use Limit::{Instructions, Microseconds, OfPeer, OfPhp};

const GOALS: [(Service, &str, Limit); 11] = [
    (Service::Read, plans::LARGEST_LIST, OfPeer(1.9)),
    (Service::Read, plans::FLOATS, OfPeer(1.6)),
    (Service::Read, plans::YEAR, OfPeer(4.8)),
    (Service::Read, plans::FALLING_INTEGERS, OfPeer(2.0)),
    (Service::Read, plans::RISING_STRINGS, OfPeer(2.0)),
    (Service::Read, plans::MIXED_STRINGS, OfPeer(2.0)),
    (Service::Read, plans::LONG_STRINGS, OfPeer(2.0)),
    // A tenth above the 39.6 that it took before keys were hashed.
    (Service::Read, plans::EIGHT_STRINGS, Instructions(43.5)),
    (
        Service::Canonicalize,
        plans::LARGEST_LIST,
        Microseconds(230.0),
    ),
    (Service::Insert, plans::DAYS[0], OfPhp(0.8)),
    (Service::Insert, plans::DAYS[1], OfPhp(0.8)),
];

/// The lines of those that were measured.
#[derive(Default)]
pub struct Goals {
    lines: Vec<String>,
}

impl Goals {
    pub fn note(&mut self, service: Service, plan: &Plan, measured: &Measured) {
        for (of, name, limit) in &GOALS {
            if (*of, *name) == (service, plan.name) {
                self.lines.push(line(service, plan, measured, limit));
            }
        }
    }

    pub fn told(&self) -> String {
        let lines = self.lines.join("\n");
        format!("\n| goal | at most | measured | the peer's ns a byte | |\n|---|---|---|--:|---|\n{lines}")
    }
}

fn line(service: Service, plan: &Plan, measured: &Measured, limit: &Limit) -> String {
    let bytes = plan.texts.source.len() as f64;
    let time = measured.library.map(|time| time / 1000.0);
    let (most, found, unit) = match limit {
        OfPeer(most) => (most, measured.to_peer(), "of the peer's time"),
        OfPhp(most) => (most, measured.to_php(), "of PHP's time"),
        Microseconds(most) => (most, time, "µs"),
        Instructions(most) => (
            most,
            measured.instructions.map(|count| count as f64 / bytes),
            "instructions a byte",
        ),
    };
    let verdict = match found {
        Some(found) if found <= *most => "met",
        Some(_) => "missed",
        None => "not measured",
    };
    let also = match limit {
        Microseconds(_) => format!(", {} of the peer's time", told(measured.to_peer())),
        _ => String::new(),
    };
    let peer = measured.peer.map(|time| time / bytes);
    format!(
        "| `{service}`: {} | {most} {unit} | {}{also} | {} | {verdict} |",
        plan.name,
        told(found),
        told(peer)
    )
}
