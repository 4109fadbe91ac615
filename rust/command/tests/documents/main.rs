//! The documents for users: every command that they show is run, and what it prints is compared with what they show.
//!
//! A block `console` has commands, each behind `$ `, and what they print; words behind `console` are programs without
//! which the block is skipped. `unrun` has what is shown and not run here.

mod blocks;
mod session;
mod unrun;

use blocks::{fits, read, Block, Document, Step};
use session::Printed;
use std::io::Write;
use std::path::Path;
use tonschnecke::Reason;

const README: &str = "README.md";
const GUIDE: &str = "docs/GUIDE.md";
const FORMAT: &str = "docs/FORMAT.md";
const HEADER: &str = "include/tonschnecke.h";

/// Shown, and what is run instead: `make run` would prove and build first.
const MAKE_RUN: (&str, &str) = ("make run", "examples/run.sh");

/// Runs the document's commands in order, all in one folder, and tells every one that prints something else.
fn run(name: &'static str) {
    let document = Document::new(name);
    let blocks = document.blocks_in("console");
    assert!(!blocks.is_empty(), "{name} shows no command");
    let folder = session::folder(name);
    let wrong: Vec<String> = blocks
        .iter()
        .flat_map(|block| run_block(name, block, &folder))
        .collect();
    assert!(wrong.is_empty(), "\n{}", wrong.join("\n"));
}

fn run_block(name: &str, block: &Block<'_>, folder: &Path) -> Vec<String> {
    if let Some(program) = session::missing(block) {
        let told = format!(
            "{name}, line {}: skipped, since {program} is not installed\n",
            block.first_line
        );
        // By no macro: what these print is kept back where a test passes.
        std::io::stderr()
            .write_all(told.as_bytes())
            .expect("standard error");
        return Vec::new();
    }
    let steps = block.steps();
    let commands: Vec<&str> = steps.iter().map(|step| instead(&step.command)).collect();
    steps
        .iter()
        .zip(session::run(folder, &commands))
        .filter(|(step, printed)| !as_shown(step, printed))
        .map(|(step, printed)| mismatch(name, step, &printed))
        .collect()
}

fn instead(command: &str) -> &str {
    if command == MAKE_RUN.0 {
        MAKE_RUN.1
    } else {
        command
    }
}

fn as_shown(step: &Step<'_>, printed: &Printed) -> bool {
    let lines: Vec<&str> = printed.text.lines().collect();
    // One that fails must say so.
    let told = printed.status == "0" || !lines.is_empty();
    told && fits(&step.expected, &lines)
}

fn mismatch(name: &str, step: &Step<'_>, printed: &Printed) -> String {
    format!(
        "{name}, line {}: {}\nexpected:\n{}\nprinted, with status {}:\n{}\n",
        step.line,
        step.command,
        step.expected.join("\n"),
        printed.status,
        printed.text
    )
}

#[test]
fn commands_of_the_readme() {
    run(README);
}

#[test]
fn commands_of_the_guide() {
    run(GUIDE);
}

#[test]
fn commands_of_the_format() {
    run(FORMAT);
}

#[test]
fn make_run_runs_the_script() {
    let recipe = format!("\nrun: command\n\t@{}\n\n", MAKE_RUN.1);
    assert!(read("Makefile").contains(&recipe));
    let shown = format!("$ {}", MAKE_RUN.0);
    let readme = Document::new(README);
    let mut blocks = readme.blocks_in("console").into_iter();
    assert!(blocks.any(|block| block.lines.contains(&shown.as_str())));
}

#[test]
fn every_refusal_has_an_example() {
    let format = Document::new(FORMAT);
    let blocks = format.blocks_in("console");
    let steps = blocks.iter().flat_map(Block::steps);
    let printed: Vec<&str> = steps.flat_map(|step| step.expected).collect();
    for number in Reason::ALL.map(Reason::code) {
        let refused = format!("refused {number}");
        // At the end, too: a program may print the number alone.
        let told = |line: &&str| line.split(" at ").next().unwrap().ends_with(&refused);
        assert!(printed.iter().any(told), "{refused}");
    }
}

#[test]
fn every_refusal_has_a_row() {
    let format = read(FORMAT);
    let (_, refusals) = format.split_once("\n## Refusals\n").expect("a section");
    for number in Reason::ALL.map(Reason::code) {
        let row = format!("\n| {number} | ");
        assert!(refusals.contains(&row), "{FORMAT}: {number}");
    }
}

/// The header's name: `TON_TOO_DEEP` for `TooDeep`.
fn name_in_header(reason: Reason) -> String {
    let mut name = "TON".to_owned();
    for letter in format!("{reason:?}").chars() {
        if letter.is_ascii_uppercase() {
            name.push('_');
        }
        name.push(letter.to_ascii_uppercase());
    }
    name
}

/// A line each: its name, its number, and what it means.
#[test]
fn the_header_names_every_code() {
    let header = read(HEADER);
    let (_, behind) = header.split_once("\nenum {\n").expect("the codes");
    let (codes, _) = behind.split_once("\n};\n").expect("the end");
    let mut rows = codes.lines().filter(|line| line.contains('='));
    assert_eq!(rows.next(), Some("    TON_ACCEPTED = 0,"));
    for reason in Reason::ALL {
        let name = name_in_header(reason);
        let row = rows.next().unwrap_or_else(|| panic!("{HEADER}: {name}"));
        let (code, meaning) = row.split_once(" /* ").unwrap_or((row, ""));
        let code = code.trim().trim_end_matches(',');
        assert_eq!(code, format!("{name} = {}", reason.code()));
        assert!(meaning.ends_with(" */"), "{row}");
    }
    assert_eq!(rows.next(), None);
}
