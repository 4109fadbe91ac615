//! What was measured, as lines of a table in Markdown: docs/PERFORMANCE.md has them as they are printed.

use crate::plans::Plan;
use tonschnecke_tests::call::Service;

/// Nanoseconds a call, the fewest that a round found: what else the machine does only adds to them. PHP's are none where
/// it is missing. Of the library also the instructions of a call, where they are counted.
#[derive(Default)]
pub struct Measured {
    pub library: Option<f64>,
    pub peer: Option<f64>,
    pub php: Option<f64>,
    pub instructions: Option<u64>,
}

impl Measured {
    pub fn to_peer(&self) -> Option<f64> {
        Some(self.library? / self.peer?)
    }

    pub fn to_php(&self) -> Option<f64> {
        Some(self.library? / self.php?)
    }
}

/// Takes in what a round found.
pub fn lower(time: &mut Option<f64>, found: f64) {
    *time = Some(time.map_or(found, |time| time.min(found)));
}

/// Three digits or more.
pub fn told(value: Option<f64>) -> String {
    let Some(value) = value else {
        return "-".into();
    };
    let decimals = match value {
        100.0.. => 0,
        10.0.. => 1,
        _ => 2,
    };
    format!("{value:.decimals$}")
}

pub fn head(service: Service) -> String {
    let names = line(&[
        service.to_string(),
        "bytes".into(),
        "library, µs".into(),
        "ns a byte".into(),
        "instr. a byte".into(),
        "Rust, µs".into(),
        "ns a byte".into(),
        "PHP, µs".into(),
        "to Rust".into(),
        "to PHP".into(),
    ]);
    format!("\n{names}\n|---|--:|--:|--:|--:|--:|--:|--:|--:|--:|")
}

pub fn row(plan: &Plan, measured: &Measured) -> String {
    let bytes = plan.texts.source.len() as f64;
    let microseconds = |time: Option<f64>| told(time.map(|time| time / 1000.0));
    let by_byte = |time: Option<f64>| told(time.map(|time| time / bytes));
    let instructions = measured.instructions.map(|count| count as f64 / bytes);
    line(&[
        plan.name.into(),
        bytes.to_string(),
        microseconds(measured.library),
        by_byte(measured.library),
        told(instructions),
        microseconds(measured.peer),
        by_byte(measured.peer),
        microseconds(measured.php),
        told(measured.to_peer()),
        told(measured.to_php()),
    ])
}

/// Cells as wide as their column.
fn line(cells: &[String; 10]) -> String {
    let [name, cells @ ..] = cells;
    let widths = [6, 11, 9, 13, 8, 9, 8, 7, 7];
    let cells = cells.iter().zip(widths);
    let cells: String = cells
        .map(|(cell, width)| format!(" {cell:>width$} |"))
        .collect();
    format!("| {name:<31} |{cells}")
}
