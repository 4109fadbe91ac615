//! Lists the days that share a value: what it is, and every path that leads to it.

use std::collections::BTreeMap;
use std::error::Error;
use std::io::Write;
use tonschnecke::{Plan, Value};

fn list(file: &str, mut out: impl Write) -> Result<(), Box<dyn Error>> {
    let plan = Plan::read(std::fs::read(file)?)?;
    let mut sharing: BTreeMap<usize, Vec<Value>> = BTreeMap::new();
    for value in plan.values() {
        let shared = value.resolved().node();
        sharing.entry(shared).or_default().push(value);
    }
    for days in sharing.values().filter(|days| days.len() > 1) {
        let paths: Vec<String> = days.iter().map(|day| day.path().to_string()).collect();
        writeln!(out, "{}: {}", days[0], paths.join(" "))?;
    }
    Ok(())
}

fn main() {
    let file = std::env::args().nth(1).expect("the plan's file");
    if let Err(error) = list(&file, std::io::stdout()) {
        eprintln!("{file}: {error}");
        std::process::exit(1);
    }
}
