//! What the command says of itself.

use crate::run::{run, shell, Folder, Ran, PROGRAM, YEAR};
use std::collections::BTreeSet;
use std::fs;

fn text(arguments: &[&str]) -> String {
    let Ran { status, out, error } = run(arguments);
    assert_eq!((status, error.as_str()), (Some(0), ""), "{arguments:?}");
    String::from_utf8(out).unwrap()
}

const SUBCOMMANDS: [&str; 4] = ["nodes", "show", "canonical", "insert"];

/// All that there is.
fn pages() -> Vec<String> {
    let topics = SUBCOMMANDS.into_iter().chain(["paths"]);
    let mut pages: Vec<String> = topics.map(|topic| text(&["help", topic])).collect();
    pages.push(text(&["help"]));
    pages
}

#[test]
fn fits_80_columns() {
    for help in pages() {
        for line in help.lines() {
            assert!(line.chars().count() < 80, "{line}");
        }
    }
}

#[test]
fn of_all_is_given_in_each_way() {
    let overview = text(&["help"]);
    for arguments in [
        &["--help"][..],
        &["-h"],
        &["--help", "list"],
        &["help", "help"],
    ] {
        assert_eq!(text(arguments), overview, "{arguments:?}");
    }
    for name in SUBCOMMANDS {
        assert!(
            overview.contains(&format!("\n  tonschnecke {name} [FILE")),
            "{name}"
        );
    }
    for status in 0..=4 {
        assert!(overview.contains(&format!("\n  {status}  ")), "{status}");
    }
}

#[test]
fn of_a_subcommand_is_given_in_each_way() {
    for name in SUBCOMMANDS {
        let help = text(&["help", name]);
        assert!(
            help.starts_with(&format!("tonschnecke {name} [FILE")),
            "{help}"
        );
        assert_eq!(text(&[name, "--help"]), help);
        assert_eq!(text(&["-h", name, "/nowhere"]), help);
    }
}

/// The options of each subcommand.
const OPTIONS: [(&str, &str); 4] = [
    ("nodes", "-o"),
    ("show", "--places -o"),
    ("canonical", "--dry-run --in-place --quiet --wait -o"),
    (
        "insert",
        "--after --array --at --before --dry-run --false --float --in-place --int --int-key --key --node --null \
         --quiet --string --string-key --true --value --wait -o",
    ),
];

#[test]
fn of_a_subcommand_lists_its_options() {
    for (name, options) in OPTIONS {
        let help = text(&["help", name]);
        let words = help.split([' ', '\n', '[', ']']);
        let listed: BTreeSet<&str> = words.filter(|word| word.starts_with('-')).collect();
        assert_eq!(Vec::from_iter(listed).join(" "), options, "{name}");
    }
}

/// The commands behind the word Example or Examples, those of several lines as one.
fn examples(help: &str) -> Vec<String> {
    let behind = help.split_once("\nExample").map_or("", |(_, rest)| rest);
    let lines = behind.lines().skip(1).take_while(|line| !line.is_empty());
    let mut commands: Vec<String> = Vec::new();
    for line in lines {
        match commands.last_mut() {
            Some(last) if last.ends_with('\\') => *last += &format!("\n{line}"),
            _ => commands.push(line.into()),
        }
    }
    commands
}

#[test]
fn examples_are_accepted() {
    let folder = Folder::new();
    folder.file("days.plan", "a:2:{i:2;d:9.5;i:4;R:2;}");
    folder.file("a.plan", "a:01:{i:0;N;}");
    folder.file("b.plan", "a:1:{i:0;N;}");
    let examples: Vec<String> = pages().iter().flat_map(|help| examples(help)).collect();
    for example in &examples {
        folder.file("year.plan", fs::read(YEAR).unwrap());
        let script = format!("tonschnecke() {{ \"{PROGRAM}\" \"$@\"; }}\n{example}");
        let output = shell(&folder, &script);
        assert!(output.status.success(), "{example}: {output:?}");
    }
    assert_eq!(examples.len(), 6);
}
