//! A document's fenced blocks, and the commands in them.

use std::fs;
use std::path::{Path, PathBuf};

pub struct Document {
    pub name: &'static str,
    pub text: String,
}

/// A fenced block.
pub struct Block<'a> {
    /// What stands behind the opening fence.
    pub language: &'a str,
    /// The first line inside, counted from 1.
    pub first_line: usize,
    pub lines: Vec<&'a str>,
}

/// A command, and what it is said to print.
pub struct Step<'a> {
    pub line: usize,
    pub command: String,
    pub expected: Vec<&'a str>,
}

/// The project's own folder.
pub fn project() -> PathBuf {
    Path::new(env!("CARGO_MANIFEST_DIR")).join("../..")
}

pub fn read(name: &str) -> String {
    let file = project().join(name);
    fs::read_to_string(&file).unwrap_or_else(|error| panic!("{}: {error}", file.display()))
}

impl Document {
    pub fn new(name: &'static str) -> Document {
        let text = read(name);
        Document { name, text }
    }

    pub fn blocks(&self) -> Vec<Block<'_>> {
        let mut blocks = Vec::new();
        let mut open: Option<Block> = None;
        for (index, line) in self.text.lines().enumerate() {
            match (line.strip_prefix("```"), &mut open) {
                (Some(language), None) => {
                    open = Some(Block {
                        language,
                        first_line: index + 2,
                        lines: Vec::new(),
                    });
                }
                (Some(_), Some(_)) => blocks.extend(open.take()),
                (None, Some(block)) => block.lines.push(line),
                (None, None) => {}
            }
        }
        assert!(open.is_none(), "{}: a block is not closed", self.name);
        blocks
    }

    pub fn blocks_in(&self, language: &str) -> Vec<Block<'_>> {
        let mut blocks = self.blocks();
        blocks.retain(|block| block.language.split(' ').next() == Some(language));
        blocks
    }

    /// The lines outside of blocks.
    pub fn prose(&self) -> Vec<&str> {
        let mut fenced = false;
        let outside = self.text.lines().filter(|line| {
            let fence = line.starts_with("```");
            fenced ^= fence;
            !fenced && !fence
        });
        outside.collect()
    }
}

impl<'a> Block<'a> {
    /// The programs without which the block is skipped: the words behind `console`.
    pub fn needs(&self) -> impl Iterator<Item = &'a str> {
        self.language.split(' ').skip(1)
    }

    /// A line that begins with `$ ` is a command, with the next line too where it ends with a backslash.
    pub fn steps(&self) -> Vec<Step<'a>> {
        let mut steps: Vec<Step> = Vec::new();
        for (line, text) in (self.first_line..).zip(self.lines.iter().copied()) {
            match (text.strip_prefix("$ "), steps.last_mut()) {
                (Some(command), _) => steps.push(Step {
                    line,
                    command: command.to_owned(),
                    expected: Vec::new(),
                }),
                (None, Some(step)) if step.command.ends_with('\\') => {
                    step.command += &format!("\n{text}");
                }
                (None, Some(step)) => step.expected.push(text),
                (None, None) => panic!("line {line}: a block of commands begins with one"),
            }
        }
        assert!(!steps.is_empty(), "line {}: no command", self.first_line);
        steps
    }
}

/// Whether these lines were printed; a line `...` stands for any lines, or none.
pub fn fits(expected: &[&str], printed: &[&str]) -> bool {
    match expected.split_first() {
        None => printed.is_empty(),
        Some((&"...", rest)) => {
            (0..=printed.len()).any(|left_out| fits(rest, &printed[left_out..]))
        }
        Some((line, rest)) => printed.first() == Some(line) && fits(rest, &printed[1..]),
    }
}

#[test]
fn dots_stand_for_lines_left_out() {
    assert!(fits(&["a", "...", "d"], &["a", "b", "c", "d"]));
    assert!(fits(&["...", "a"], &["a"]));
    assert!(fits(&[], &[]));
    assert!(!fits(&["a", "...", "c"], &["a", "b", "c", "d"]));
    assert!(!fits(&["a"], &["a", "b"]));
    assert!(!fits(&["a", "b"], &["a"]));
    assert!(!fits(&["a", " ..."], &["a", "b"]));
}
