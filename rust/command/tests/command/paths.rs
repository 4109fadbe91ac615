//! What `show` prints as a path leads back to its node.

use crate::run::{pipe, YEAR};
use std::collections::HashSet;
use std::fs;

/// The paths of a tree as `show` prints it, by its indentation; with what each line says.
fn paths(tree: &str) -> Vec<(String, String)> {
    let mut open: Vec<&str> = Vec::new();
    let mut paths = Vec::new();
    for line in tree.lines() {
        let key = line.trim_start();
        let (key, said) = key.split_once(": ").expect("a key and what it is");
        let depth = (line.len() - line.trim_start().len()) / 2;
        open.truncate(depth);
        open.push(key);
        let path = match open[1..].join("/") {
            keys if depth == 0 => keys + "/",
            keys => format!("/{keys}"),
        };
        paths.push((path, said.to_owned()));
    }
    paths
}

/// Each array of the plan by its path and by its node: the same insertion. How many there were.
fn lead_back(plan: &[u8]) -> usize {
    let tree = String::from_utf8(pipe(plan, ["show"]).out).unwrap();
    let lines = String::from_utf8(pipe(plan, ["nodes"]).out).unwrap();
    let paths = paths(&tree);
    let arrays = paths
        .iter()
        .filter(|(_, said)| said.starts_with("array of "));
    let nodes: Vec<usize> = (0..)
        .zip(lines.lines())
        .filter(|(_, line)| line.starts_with("97,"))
        .map(|(node, _)| node)
        .collect();
    let arrays: Vec<&String> = arrays.map(|(path, _)| path).collect();
    assert_eq!(arrays.len(), nodes.len());
    let pair = ["--key", "s:3:\"new\";", "--value", "i:1;"];
    for (path, node) in arrays.iter().zip(&nodes) {
        let insert = |which: &str, value: &str| {
            let ran = pipe(
                plan,
                ["insert", which, value, "--at", "end"]
                    .into_iter()
                    .chain(pair),
            );
            assert_eq!(ran.status, Some(0), "{path}: {}", ran.error);
            ran.out
        };
        assert_eq!(
            insert("--array", path),
            insert("--node", &node.to_string()),
            "{path}"
        );
    }
    references_name_paths(&paths);
    arrays.len()
}

fn references_name_paths(paths: &[(String, String)]) {
    let known: HashSet<&str> = paths.iter().map(|(path, _)| path.as_str()).collect();
    for (path, said) in paths {
        let Some(named) = said.strip_prefix("R to ").or(said.strip_prefix("r to ")) else {
            continue;
        };
        // A space in a key is escaped, so the first comma with one behind it ends the path.
        let (named, _) = named.split_once(", ").expect("a path and what it leads to");
        assert!(known.contains(named), "{path}: {named}");
    }
}

#[test]
fn of_the_year() {
    let year = fs::read(YEAR).unwrap();
    let lines = String::from_utf8(pipe(&year, ["nodes"]).out).unwrap();
    let references = lines.lines().filter(|line| line.starts_with("82,")).count();
    assert_eq!(references, 145);
    let count = lines.lines().filter(|line| line.starts_with("97,")).count();
    assert!(count > 13);
    assert_eq!(lead_back(&year), count);
}

#[test]
fn of_odd_keys() {
    let strings: [&[u8]; 16] = [
        b"",
        b"5",
        b"-5",
        b"05",
        b"-0",
        b"a/b",
        b"\"",
        b"\"5\"",
        b"%35",
        b"%",
        b" x ",
        b": ",
        b"\0\n\x1b[1m",
        b"\xff\xc3",
        "\u{e4}\u{308}\u{202e}".as_bytes(),
        b"$HOME,'x'",
    ];
    let mut plan = b"a:18:{i:5;a:0:{}i:-9223372036854775808;a:0:{}".to_vec();
    for key in strings {
        plan.extend(format!("s:{}:\"", key.len()).bytes());
        plan.extend(key);
        plan.extend(b"\";a:1:{i:0;R:3;}");
    }
    plan.push(b'}');
    assert_eq!(lead_back(&plan), 19);
}
