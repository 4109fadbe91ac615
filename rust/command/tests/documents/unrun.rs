//! What the documents show and these tests do not run: commands of make, code, names of files.

use crate::blocks::{project, read, Document};
use crate::{FORMAT, GUIDE, README};
use std::path::Path;

/// The commands in blocks `sh`, and why they are not run. Of each only the target is looked up.
const COMMANDS: [(&str, &str); 7] = [
    ("make", "it proves every crate, and make test does so too"),
    ("make test", "it runs this test"),
    ("make wrong", "it takes minutes, and proves what it tries"),
    ("make fuzz SECONDS=600 SEED=7", "it takes ten minutes"),
    ("make bench", "its times are never the same twice"),
    (
        "make install",
        "it writes to /usr/local; the guide does not",
    ),
    (
        "make uninstall",
        "so does this; tests/programs/install.sh runs both",
    ),
];

/// The languages of code, each with the files that may hold such a block; they are compiled or run elsewhere.
const CODE: [(&str, &[&str]); 4] = [
    ("c", &["examples/day.c"]),
    (
        "php",
        &[
            "examples/give.php",
            "examples/take.php",
            "examples/edit.php",
            "examples/leap.php",
        ],
    ),
    (
        "rust",
        &[
            "rust/tonschnecke/src/lib.rs",
            "rust/tonschnecke/examples/shares.rs",
        ],
    ),
    ("toml", &["tests/Cargo.toml"]),
];

/// Where the files are that documents name.
const FOLDERS: [&str; 9] = [
    "bench/",
    "c/",
    "crates/",
    "docs/",
    "examples/",
    "include/",
    "rust/",
    "tests/",
    "tools/",
];

fn documents() -> [Document; 3] {
    [README, GUIDE, FORMAT].map(Document::new)
}

/// Whether the Makefile has the target that this command of make is about.
fn has_target(command: &str) -> bool {
    let target = command.split(' ').nth(1).unwrap_or("all");
    let rule = format!("{target}:");
    read("Makefile").lines().any(|line| line.starts_with(&rule))
}

#[test]
fn commands_are_known() {
    let documents = documents();
    let blocks = documents
        .iter()
        .flat_map(|document| document.blocks_in("sh"));
    let lines = blocks.flat_map(|block| block.lines);
    let shown: Vec<&str> = lines
        .map(|line| line.split('#').next().unwrap_or_default().trim_end())
        .collect();
    for command in &shown {
        let known = COMMANDS.iter().any(|(known, _)| known == command);
        assert!(known && has_target(command), "{command}");
    }
    for (command, why) in COMMANDS {
        assert!(shown.contains(&command), "not shown: {command}, {why}");
    }
}

#[test]
fn targets_named_in_passing_exist() {
    for document in documents() {
        let quoted = document.text.split('`');
        for command in quoted.filter(|quoted| quoted.starts_with("make ")) {
            assert!(has_target(command), "{}: {command}", document.name);
        }
    }
}

#[test]
fn no_command_stands_elsewhere() {
    for document in documents() {
        for block in document.blocks() {
            let language = block.language.split(' ').next().unwrap_or_default();
            let known = ["console", "sh"].contains(&language)
                || CODE.iter().any(|(code, _)| *code == language);
            assert!(known, "{}, line {}", document.name, block.first_line);
        }
        for line in document.prose() {
            let command = line.trim_start().starts_with("$ ");
            assert!(!command, "{}: {line}", document.name);
        }
    }
}

#[test]
fn code_stands_in_its_file() {
    for document in documents() {
        for (language, files) in CODE {
            let texts: Vec<String> = files.iter().map(|file| uncommented(&read(file))).collect();
            for block in document.blocks_in(language) {
                let code = block.lines.join("\n") + "\n";
                let stands = texts.iter().any(|text| text.contains(&code));
                assert!(stands, "{}, line {}", document.name, block.first_line);
            }
        }
    }
}

/// A file's text, with Rust's examples in comments as if they were code.
fn uncommented(text: &str) -> String {
    let lines = text.lines().map(|line| {
        let comment = line.strip_prefix("//!").or(line.strip_prefix("///"));
        comment.map_or(line, |inside| inside.strip_prefix(' ').unwrap_or(inside))
    });
    lines.map(|line| format!("{line}\n")).collect()
}

#[test]
fn files_exist() {
    for document in documents() {
        let prose = document.prose().join("\n");
        let quoted = prose.split('`');
        let indented = prose.lines().filter_map(|line| line.strip_prefix("    "));
        let listed = indented.filter_map(|line| line.split(' ').next());
        let named = quoted
            .chain(listed)
            .filter(|name| FOLDERS.iter().any(|folder| name.starts_with(folder)))
            .filter(|name| !name.contains([' ', '*', '\n']));
        for name in named {
            // A module of Rattle is named without its ending.
            let there = |name: &str| Path::new(&project()).join(name).exists();
            let module = format!("{name}.antt");
            assert!(there(name) || there(&module), "{}: {name}", document.name);
        }
    }
}
